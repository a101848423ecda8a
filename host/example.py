#!/usr/bin/env python3
"""example.py LIBRARY MODULE [ARGUMENT ...]: a host in Python. Checks a module file with the shared library that host/build makes, runs it, and
says which types the check found on the stack where the run ended.

The status is 0 where the run ends 0, 1 with another number, 2 where something can't be read.
"""

import ctypes
import signal
import sys

FAULT_CELLS, ANSWER_CELLS, STATE_CELLS, SHAPE_CELLS = 3, 6, 5314, 34
TYPES, CLASS = {0: "null", 1: "int32", 2: "int64", 3: "F"}, 32
MOST_TABLES, MOST_CODE = 8192, 32768
TOO_LONG, CUT_SHORT = 1, 9
BUDGET = 100_000


def split(file):
    """The tables and the code of a module file, or the number with which it is refused."""
    announced = int.from_bytes(file[:2], "little")
    if len(file) < 2:
        return CUT_SHORT
    if announced > MOST_TABLES:
        return TOO_LONG
    if len(file) < 2 + announced:
        return CUT_SHORT
    return TOO_LONG if len(file) - 2 - announced > MOST_CODE else (file[2:2 + announced], file[2 + announced:])


def sized(length):
    return ctypes.c_size_t(length)


def check(library, tables, code):
    """Number, method and offset of the first fault; number 0 where the module passes."""
    fault = (ctypes.c_uint64 * FAULT_CELLS)()
    library.loitsupar_check(tables, sized(len(tables)), code, sized(len(code)), fault, sized(FAULT_CELLS))
    return list(fault)


def run(library, tables, code, arguments, budget=BUDGET):
    """Ending, method, offset, steps, and the value's sort and bits; and the cells of the state."""
    given = (ctypes.c_int64 * max(1, len(arguments)))(*arguments)
    answer, state = (ctypes.c_uint64 * ANSWER_CELLS)(), (ctypes.c_uint64 * STATE_CELLS)()
    library.loitsupar_run(tables, sized(len(tables)), code, sized(len(code)), given, sized(len(arguments)), ctypes.c_uint64(budget),
                          answer, sized(ANSWER_CELLS), state, sized(STATE_CELLS))
    return list(answer), list(state)


def tell(library, tables, code, row, offset):
    """The types that the check found before an instruction, the bottom first; None where it has a fault or no instruction starts there."""
    fault, shape = (ctypes.c_uint64 * FAULT_CELLS)(), (ctypes.c_uint64 * SHAPE_CELLS)()
    library.loitsupar_tell(tables, sized(len(tables)), code, sized(len(code)), ctypes.c_uint64(row), ctypes.c_uint64(offset),
                           fault, sized(FAULT_CELLS), shape, sized(SHAPE_CELLS))
    starts, depth, *types = shape
    return [TYPES.get(cell, f"class {cell - CLASS}") for cell in types[:depth]] if starts else None


def main(words):
    if len(words) < 2 or "--help" in words:
        print(__doc__)
        return 0 if "--help" in words else 2
    try:
        library = ctypes.CDLL(words[0])
        with open(words[1], "rb") as file:
            parts = split(file.read())
        arguments = [int(word) for word in words[2:]]
        if not all(-1 << 63 <= argument < 1 << 63 for argument in arguments):
            raise ValueError("an argument has at most 64 bits")
    except (OSError, ValueError) as trouble:
        print(f"example.py: {trouble}", file=sys.stderr)
        return 2
    if isinstance(parts, int):
        print(f"refused: {parts}")
        return 1
    number, method, offset = check(library, *parts)
    print(f"check: {number} {method} {offset}")
    if number:
        return 1
    answer, _ = run(library, *parts, arguments)
    print("run:", *answer)
    types = tell(library, *parts, *answer[1:3])
    if types is not None:
        print("found there:", ", ".join(types) or "nothing")
    return 1 if answer[0] else 0


if __name__ == "__main__":
    signal.signal(signal.SIGPIPE, signal.SIG_DFL)  # a reader that goes away ends it without a word, as it ends a program in C
    sys.exit(main(sys.argv[1:]))
