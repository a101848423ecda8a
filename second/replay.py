"""Replay: reads a row of cases on standard input and prints an answer line for each.

    python3 second/replay.py < vectors/random.bin
"""

from collections import namedtuple

import programs
from check import check
from state import state_text, value_text
from step import run
from tables import load

Case = namedtuple("Case", "tables code arguments budget")


class Reader:
    """Takes little-endian numbers and bytes off the front of a row of cases."""

    def __init__(self, data):
        self.data = data
        self.offset = 0

    def more(self):
        return self.offset < len(self.data)

    def bytes(self, count):
        taken = self.data[self.offset:self.offset + count]
        if len(taken) < count:
            raise EOFError("a case is cut short at byte %d" % len(self.data))
        self.offset += count
        return taken

    def number(self, count, signed=False):
        return int.from_bytes(self.bytes(count), "little", signed=signed)


def read_case(reader):
    tables = reader.bytes(reader.number(2))
    code = reader.bytes(reader.number(2))
    arguments = [reader.number(8, signed=True) for _ in range(reader.number(1))]
    return Case(tables, code, arguments, reader.number(4))


def write_case(case):
    """The bytes of a case, as read_case takes them."""
    parts = [len(case.tables).to_bytes(2, "little"), case.tables, len(case.code).to_bytes(2, "little"), case.code]
    parts.append(bytes([len(case.arguments)]))
    parts += [value.to_bytes(8, "little", signed=True) for value in case.arguments]
    parts.append(case.budget.to_bytes(4, "little"))
    return b"".join(parts)


def read_cases(data):
    reader = Reader(data)
    while reader.more():
        yield read_case(reader)


def answer(case):
    """The answer line of a case. Checking and running pass a loading refusal on, its place as the offset."""
    loading = load(case.tables, case.code)
    number, place, module = loading
    if module is None:
        return "load %d %d | check %d 0 %d | run %d 0 %d 0 - | -" % ((number, place) * 3)
    ran = run(module, case.arguments, case.budget)
    return "load %d %d | check %d %d %d | run %d %d %d %d %s | %s" % (
        number, place, *check(module), *ran[:4], value_text(ran.value), state_text(ran.state))


def main(words):
    programs.parser_for(__doc__).parse_args(words)
    try:
        for case in read_cases(programs.standard_input()):
            print(answer(case))
    except EOFError as cut:
        raise programs.Trouble(str(cut), 1)


if __name__ == "__main__":
    programs.started(main)
