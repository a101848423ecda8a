"""Tests of the second implementation: 01's listed runs, the `turn` example, all vectors, and laws over generated cases.

    python3 second/tests.py
"""

import ctypes
import itertools
import math
import os
import struct
from fractions import Fraction

import check
import generate
import operators
import programs
from dice import Dice
from generate_bodies import INT32_EDGES, INT64_EDGES
from generate_modules import grow_plan, lay_out
from handed_back import Ends
from reading_code import LENGTHS
from replay import Case, Reader, answer, read_case, read_cases, write_case
from step import run
from tables import load
from turn import turn

VECTORS = os.path.join(os.path.dirname(os.path.abspath(__file__)), os.pardir, "vectors")

VOID, INT32 = 0, 1


class Tests:
    """Counts comparisons and prints those that fail."""

    def __init__(self):
        self.passed = 0
        self.failed = 0

    def same(self, name, found, wanted):
        if found == wanted:
            self.passed += 1
        else:
            self.failed += 1
            print("FAILED %s\n  found  %s\n  wanted %s" % (name, found, wanted))


# Listed runs.


def listed_tables(length, returns, max_stack):
    """One class, one static entry without parameters."""
    method = [0x03, 1, 0, returns, max_stack, 0, 0, 0, 0, 0, length, 0]
    return bytes([0x01, 0] + method + [0x06, 1])


def listed_answer(code, returns=INT32, max_stack=2, budget=100):
    code = bytes.fromhex(code)
    return answer(Case(listed_tables(len(code), returns, max_stack), code, [], budget))


def whole(checked, ran, frames=""):
    """The whole answer line of a listed run that loads."""
    return "load 0 0 | check %s | run %s | frames=%s statics= marks=1 heap=" % (checked, ran, frames)


PASSES = "0 0 0"


def test_listed_runs(tests):
    same = tests.same
    same("2 + 3", listed_answer("18 19 58 2A"), whole(PASSES, "0 1 3 4 5"))
    same("2 + 3, budget 3", listed_answer("18 19 58 2A", budget=3), whole(PASSES, "38 1 3 3 -", "[1,3;;;i5]"))
    same("2 + 3, max stack 1", listed_answer("18 19 58 2A", max_stack=1),
         whole("14 1 1", "44 1 1 1 -", "[1,1;;;i2]"))
    same("two shapes meet", listed_answer("17 2D 01 16 26 2A", VOID), whole("16 1 3", "43 1 4 2 -", "[1,4;;;]"))
    same("division by zero", listed_answer("17 16 5B 2A"), whole(PASSES, "31 1 2 2 -", "[1,2;;;i1,i0]"))
    same("smallest by -1", listed_answer("20 00 00 00 80 15 5B 2A"),
         whole(PASSES, "32 1 6 2 -", "[1,6;;;i-2147483648,i-1]"))
    same("overflow", listed_answer("20 FF FF FF 7F 17 D6 2A"),
         whole(PASSES, "33 1 6 2 -", "[1,6;;;i2147483647,i1]"))
    same("wrapping", listed_answer("20 FF FF FF 7F 17 58 2A"), whole(PASSES, "0 1 7 4 -2147483648"))
    same("-7 rem 5", listed_answer("1F F9 1B 5D 2A"), whole(PASSES, "0 1 4 4 -2"))
    same("branch to itself", listed_answer("2B FE", VOID, budget=10), whole(PASSES, "38 1 0 10 -", "[1,0;;;]"))
    same("nop alone", listed_answer("00"), whole("17 1 0", "46 1 1 1 -", "[1,1;;;]"))
    same("target outside", listed_answer("2B 05"), whole("12 1 0", "42 1 0 0 -", "[1,0;;;]"))
    same("undecodable", listed_answer("27"), whole("11 1 0", "41 1 0 0 -", "[1,0;;;]"))
    same("empty tables", answer(Case(b"", b"", [], 100)), "load 3 0 | check 3 0 0 | run 3 0 0 0 - | -")


# Reading code.

# The table of lengths, a row of sixteen first bytes on each line.
LENGTHS_BY_HAND = """
1011111111111120
2202111111111112
5909011050122222
2222222255555555
5555500000000000
0000000011111111
1111111001101005
0005550000050550
5000000000000000
0000000000000000
0000000000000000
0000000000000000
0000000000000000
0000001010100000
0000000000000000
0000000000000020
"""


def test_lengths(tests):
    by_hand = [int(digit) for digit in LENGTHS_BY_HAND.replace("\n", "")]
    tests.same("256 lengths", LENGTHS, by_hand)


# Operators, compared with results found in another way: C's types and exact fractions.

C_TYPES = {operators.INT32: (ctypes.c_int32, ctypes.c_uint32), operators.INT64: (ctypes.c_int64, ctypes.c_uint64)}


def in_c(type, value):
    return C_TYPES[type][0](value).value


def exactly(operation, type, a, b):
    """An operator's result as a whole number before it is brought into range, or the number that ends the run."""
    bits = ctypes.sizeof(C_TYPES[type][0]) * 8
    if operation.endswith(".un"):
        a = C_TYPES[type][1](a).value
        b = b if operation == "shr.un" else C_TYPES[type][1](b).value
    name = operation.split(".")[0]
    if name in ("div", "rem"):
        if b == 0:
            return Ends(31)
        quotient = math.trunc(Fraction(a, b))
        if not operation.endswith(".un") and in_c(type, quotient) != quotient:
            return Ends(32)
        return quotient if name == "div" else a - b * quotient
    if name in ("shl", "shr"):
        places = b % bits
        return a * 2**places if name == "shl" else math.floor(Fraction(a, 2**places))
    result = {"add": a + b, "sub": a - b, "mul": a * b, "and": a & b, "or": a | b, "xor": a ^ b}[name]
    return Ends(33) if operation.endswith(".ovf") and in_c(type, result) != result else result


def outcome(operation, left, right):
    try:
        return operators.binary(operation, left, right)
    except Ends as ends:
        return ends.number


def test_operators(tests):
    for operation in sorted(operators.WHOLE_OPERATORS):
        for type, edges in ((operators.INT32, INT32_EDGES), (operators.INT64, INT64_EDGES)):
            amount = operators.INT32 if operation[:2] == "sh" else type
            rights = INT32_EDGES if operation[:2] == "sh" else edges
            differing = []
            for a, b in itertools.product(edges, rights):
                result = exactly(operation, type, a, b)
                wanted = result.number if isinstance(result, Ends) else (type, in_c(type, result))
                if outcome(operation, (type, a), (amount, b)) != wanted:
                    differing.append((a, b))
            tests.same("%s on %s" % (operation, operators.type_name(type)), differing, [])


F_QUOTIENTS = [
    # dividend, divisor, quotient
    ("3FF0000000000000", "0000000000000000", "7FF0000000000000"),
    ("BFF0000000000000", "0000000000000000", "FFF0000000000000"),
    ("3FF0000000000000", "8000000000000000", "FFF0000000000000"),
    ("FFF0000000000000", "8000000000000000", "7FF0000000000000"),
    ("0000000000000000", "0000000000000000", "7FF8000000000000"),
    ("FFF8000000000001", "0000000000000000", "7FF8000000000000"),
    ("7FF0000000000000", "7FF0000000000000", "7FF8000000000000"),
    ("3FF0000000000000", "4008000000000000", "3FD5555555555555"),
    ("0000000000000001", "4000000000000000", "0000000000000000"),
    ("7FEFFFFFFFFFFFFF", "3FE0000000000000", "7FF0000000000000"),
]

# What each comparison says of: less, equal, greater, a NaN on the right.
F_COMPARISONS = {
    "ceq": "nynn", "cgt": "nnyn", "cgt.un": "nnyy", "clt": "ynnn", "clt.un": "ynny",
    "beq": "nynn", "bne.un": "ynyy", "bge": "nyyn", "bgt": "nnyn", "ble": "yynn", "blt": "ynnn",
    "bge.un": "nyyy", "bgt.un": "nnyy", "ble.un": "yyny", "blt.un": "ynny",
}


def f_cell(bits):
    return (operators.F, struct.unpack(">d", bytes.fromhex(bits))[0])


def test_f(tests):
    for dividend, divisor, quotient in F_QUOTIENTS:
        found = operators.binary("div", f_cell(dividend), f_cell(divisor))
        tests.same("%s / %s" % (dividend, divisor), operators.f_bits(found[1]), quotient)
    one = (operators.F, 1.0)
    for operation, wanted in F_COMPARISONS.items():
        rights = [(operators.F, value) for value in (2.0, 1.0, -math.inf, math.nan)]
        found = "".join("y" if operators.compare(operation, one, right) else "n" for right in rights)
        tests.same(operation + " on F", found, wanted)
        mirrored = operators.compare(operation, rights[3], one)
        tests.same(operation + " with a NaN on the left", mirrored, wanted[3] == "y")


# turn.

TURN_EXAMPLE = "10 00 01 00 03 01 00 01 02 00 00 00 00 00 04 00 06 01 18 19 58 2A"


def test_turn(tests):
    example = bytes.fromhex(TURN_EXAMPLE)
    one_parameter = bytes.fromhex("12 00 01 00 03 01 00 01 02 00 00 00 00 00 04 00 04 01 06 01 18 19 58 2A")
    lines = [
        ("example", example, "0 1 3 4 5"),
        ("no input", b"", "9 0 0 0 -"),
        ("one byte", b"\x10", "9 0 0 0 -"),
        ("announced length above 8,192", b"\x01\x20", "1 0 0 0 -"),
        ("announced length of 8,192, input short", b"\x00\x20", "9 0 0 0 -"),
        ("tables cut", example[:17], "9 0 0 0 -"),
        ("code too long", example[:18] + bytes(32769), "1 0 0 0 -"),
        ("code of 32,768", example + bytes(32764), "0 1 3 4 5"),
        ("too long before any record is read", b"\x01\x00\x09" + bytes(32769), "1 0 0 0 -"),
        ("empty tables", b"\x00\x00", "3 0 0 0 -"),
        ("a refusal's place", b"\x04\x00\x01\x00\x01\x05", "4 0 2 0 -"),
        ("check refuses", example[:-1] + b"\x26", "17 1 3 0 -"),
        ("entry with a parameter", one_parameter, "21 0 0 0 -"),
        ("void", bytes.fromhex("10 00 01 00 03 01 00 00 00 00 00 00 00 00 01 00 06 01 2A"), "0 1 0 1 -"),
        ("budget", bytes.fromhex("10 00 01 00 03 01 00 00 00 00 00 00 00 00 02 00 06 01 2B FE"), "38 1 0 100000 -"),
    ]
    for name, data, wanted in lines:
        tests.same("turn: " + name, turn(data), wanted)


# Explaining a refusal of the check.


def explained(code, returns=INT32, max_stack=2):
    code = bytes.fromhex(code)
    module = load(listed_tables(len(code), returns, max_stack), code).module
    return tuple(check.explain(module))


def test_explain(tests):
    same = tests.same
    same("explain: passes", explained("18 19 58 2A"), (0, 0, 0, None, None, "", ""))
    same("explain: full", explained("18 19 58 2A", max_stack=1),
         (14, 1, 1, "ldc.i4", [1], "on the stack: int32", "room for 1 more within max stack 1"))
    same("explain: wrong type", explained("18 14 58 2A"),
         (15, 1, 2, "add", [1, 32], "on the stack: int32, null", "two values of one numeric type (int32, int64 or F)"))
    same("explain: too few", explained("2A"),
         (13, 1, 0, "ret", [], "an empty stack", "exactly one value, that fits int32"))
    same("explain: operand", explained("06 2A"),
         (12, 1, 0, "ldloc", None, "shapes not reached", "a local number below 0"))
    same("explain: undecodable", explained("27"),
         (11, 1, 0, None, None, "shapes not reached", "a whole instruction of those kept"))
    code = bytes.fromhex("18 19 58 2A")
    found = check.shapes(load(listed_tables(4, INT32, 2), code).module, 1)
    same("shapes", [(instruction.offset, shape) for instruction, shape in found],
         [(0, []), (1, [1]), (2, [1, 1]), (3, [1])])


# Vectors.


def read_vectors(name, mode):
    with open(os.path.join(VECTORS, name), mode) as file:
        return file.read()


def test_rules(tests):
    cases = list(read_cases(read_vectors("rules.bin", "rb")))
    lines = read_vectors("rules.txt", "r").splitlines()
    tests.same("rules: number of cases", (len(cases), len(lines)), (156, 156))
    for case, line in zip(cases, lines):
        label, wanted = line.split("\t")
        tests.same("rules: " + label, answer(case), wanted)


def test_random(tests):
    cases = list(read_cases(read_vectors("random.bin", "rb")))
    lines = read_vectors("random.out", "r").splitlines()
    tests.same("random: number of cases", (len(cases), len(lines)), (800, 800))
    for number, (case, wanted) in enumerate(zip(cases, lines)):
        tests.same("random: case %d" % number, answer(case), wanted)


# Laws over generated cases.


def test_generator(tests):
    """A seed gives the same cases each time, and they can be read back."""
    for number in range(40):
        case = generate.case(7, number)
        tests.same("case %d again" % number, generate.case(7, number), case)
        tests.same("case %d read back" % number, read_case(Reader(write_case(case))), case)
    for seed in range(40):
        dice = Dice(seed)
        module = load(*lay_out(grow_plan(dice), dice)).module
        tests.same("grown module %d passes" % seed, check.check(module), (0, 0, 0))


def test_laws(tests):
    """What passes the check is never stuck; a used budget says how many steps; a larger one changes no other ending."""
    for number in range(250):
        case = generate.case(8, number)
        module = load(case.tables, case.code).module
        if module is None:
            continue
        ran = run(module, case.arguments, case.budget)
        stuck = check.check(module).number == 0 and ran.number > 40
        tests.same("law: case %d isn't stuck" % number, stuck, False)
        if ran.number == 38:
            tests.same("law: case %d used its budget" % number, ran.steps, case.budget)
        elif ran.number not in (21, 22) and case.budget < 10**6:
            more = run(module, case.arguments, case.budget + 1)
            tests.same("law: case %d with one step more" % number, more[:4], ran[:4])


def main(words):
    programs.parser_for(__doc__).parse_args(words)
    tests = Tests()
    for test in (test_listed_runs, test_lengths, test_operators, test_f, test_turn, test_explain, test_rules,
                 test_random, test_generator, test_laws):
        test(tests)
    print("%d passed, %d failed" % (tests.passed, tests.failed))
    return 1 if tests.failed else 0


if __name__ == "__main__":
    programs.started(main)
