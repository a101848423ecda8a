"""Operators (01): the types on the stack, which types an operator takes, and what it gives.

A cell is a pair (type, payload). The payload is a whole number for int32 and
int64 (signed), a Python float for F, 0 for null, and the object's number for
a reference, whose type is the class of the object.
"""

import math
import struct
from collections import namedtuple

from handed_back import ARITHMETIC, DIVISION_BY_ZERO, OVERFLOW, Ends

# Types, by the numbers of the house tables. No table can name class row 0, so
# its number, 32, stands for the type of null.
VOID, INT32, INT64, F, NULL = 0, 1, 2, 3, 32

NUMERIC = (INT32, INT64, F)
WHOLE = (INT32, INT64)
BITS = {INT32: 32, INT64: 64}

NULL_CELL = (NULL, 0)


def class_type(row):
    """The type of references to objects of a class."""
    return 32 + row


def class_row(type):
    """The class that a class type names."""
    return type - 32


def is_reference(type):
    return type >= NULL


def type_name(type):
    names = {VOID: "void", INT32: "int32", INT64: "int64", F: "F", NULL: "null"}
    return names.get(type) or "class %d" % class_row(type)


def descends(parents, row, ancestor):
    """Whether a class is another or descends from it, going from row to parent row."""
    if row == ancestor:
        return True
    return row > ancestor and descends(parents, parents[row], ancestor)


def fits(parents, type, wanted):
    """A value fits its own type; a class fits its ancestors; null fits every class."""
    if type == wanted:
        return True
    if wanted <= NULL or type < NULL:
        return False
    return type == NULL or descends(parents, class_row(type), class_row(wanted))


def zero(type):
    """What locals, fields and static fields of a type start at: 0 or null."""
    if is_reference(type):
        return NULL_CELL
    return (type, 0.0 if type == F else 0)


# Which types an operator takes, and which it brings.

Rule = namedtuple("Rule", "pops accepts brings words")


def two_numeric(types):
    return types[0] == types[1] and types[0] in NUMERIC


def two_whole(types):
    return types[0] == types[1] and types[0] in WHOLE


def two_equatable(types):
    return two_numeric(types) or (is_reference(types[0]) and is_reference(types[1]))


def value_and_amount(types):
    return types[0] in WHOLE and types[1] == INT32


def testable(types):
    return types[0] in WHOLE or is_reference(types[0])


def one_of(*allowed):
    return lambda types: types[0] in allowed


def same(types):
    """The type of the (first) value taken."""
    return [types[0]]


def always(*brought):
    return lambda types: list(brought)


TWO_NUMERIC = "two values of one numeric type (int32, int64 or F)"
TWO_WHOLE = "two int32 or two int64"
TWO_EQUATABLE = "two values of one numeric type, or two references"

ORDER_BRANCHES = ("bge", "bgt", "ble", "blt", "bge.un", "bgt.un", "ble.un", "blt.un")
EQUALITY_BRANCHES = ("beq", "bne.un")
TRUTH_BRANCHES = ("brtrue", "brfalse")


def _rules():
    rules = {}
    for operation in ("add", "sub", "mul", "div"):
        rules[operation] = Rule(2, two_numeric, same, TWO_NUMERIC)
    for operation in ("rem", "div.un", "rem.un", "and", "or", "xor", "add.ovf", "sub.ovf", "mul.ovf"):
        rules[operation] = Rule(2, two_whole, same, TWO_WHOLE)
    for operation in ("shl", "shr", "shr.un"):
        rules[operation] = Rule(2, value_and_amount, same, "an int32 or int64, and above it an amount of type int32")
    rules["neg"] = Rule(1, one_of(*NUMERIC), same, "a number (int32, int64 or F)")
    rules["not"] = Rule(1, one_of(*WHOLE), same, "an int32 or int64")
    rules["conv.i4"] = Rule(1, one_of(*WHOLE), always(INT32), "an int32 or int64")
    rules["conv.i8"] = Rule(1, one_of(*WHOLE), always(INT64), "an int32 or int64")
    rules["conv.r8"] = Rule(1, one_of(INT32, F), always(F), "an int32 or F")
    rules["ceq"] = Rule(2, two_equatable, always(INT32), TWO_EQUATABLE)
    for operation in ("cgt", "cgt.un", "clt", "clt.un"):
        rules[operation] = Rule(2, two_numeric, always(INT32), TWO_NUMERIC)
    for operation in EQUALITY_BRANCHES:
        rules[operation] = Rule(2, two_equatable, always(), TWO_EQUATABLE)
    for operation in ORDER_BRANCHES:
        rules[operation] = Rule(2, two_numeric, always(), TWO_NUMERIC)
    for operation in TRUTH_BRANCHES:
        rules[operation] = Rule(1, testable, always(), "an int32, an int64 or a reference")
    return rules


RULES = _rules()


# Whole numbers.


def wrapped(type, value):
    """A whole number brought into the signed range of its type by dropping high bits."""
    half = 1 << (BITS[type] - 1)
    return ((value + half) & (2 * half - 1)) - half


def unsigned(type, value):
    """The bits of a signed number, read as an unsigned one."""
    return value & ((1 << BITS[type]) - 1)


def in_range(type, value):
    return wrapped(type, value) == value


def toward_zero(dividend, divisor):
    quotient = abs(dividend) // abs(divisor)
    return quotient if (dividend < 0) == (divisor < 0) else -quotient


def require_divisible(type, dividend, divisor):
    """An integer divisor of 0 is 31; the smallest value by -1 is 32, for div and rem alike."""
    if divisor == 0:
        raise Ends(DIVISION_BY_ZERO)
    if divisor == -1 and not in_range(type, -dividend):
        raise Ends(ARITHMETIC)


def whole_div(type, a, b):
    require_divisible(type, a, b)
    return toward_zero(a, b)


def whole_rem(type, a, b):
    require_divisible(type, a, b)
    return a - b * toward_zero(a, b)


def whole_div_un(type, a, b):
    if b == 0:
        raise Ends(DIVISION_BY_ZERO)
    return wrapped(type, unsigned(type, a) // unsigned(type, b))


def whole_rem_un(type, a, b):
    if b == 0:
        raise Ends(DIVISION_BY_ZERO)
    return wrapped(type, unsigned(type, a) % unsigned(type, b))


def fitting(type, value):
    """The result of an .ovf form: 33 where the signed result doesn't fit."""
    if not in_range(type, value):
        raise Ends(OVERFLOW)
    return value


def places(type, amount):
    """Only the low 5 or 6 bits of a shift's amount count."""
    return amount & (BITS[type] - 1)


WHOLE_OPERATORS = {
    "add": lambda type, a, b: wrapped(type, a + b),
    "sub": lambda type, a, b: wrapped(type, a - b),
    "mul": lambda type, a, b: wrapped(type, a * b),
    "div": whole_div,
    "div.un": whole_div_un,
    "rem": whole_rem,
    "rem.un": whole_rem_un,
    "and": lambda type, a, b: a & b,
    "or": lambda type, a, b: a | b,
    "xor": lambda type, a, b: a ^ b,
    "shl": lambda type, a, b: wrapped(type, a << places(type, b)),
    "shr": lambda type, a, b: a >> places(type, b),
    "shr.un": lambda type, a, b: wrapped(type, unsigned(type, a) >> places(type, b)),
    "add.ovf": lambda type, a, b: fitting(type, a + b),
    "sub.ovf": lambda type, a, b: fitting(type, a - b),
    "mul.ovf": lambda type, a, b: fitting(type, a * b),
}


# F, an IEEE 754 double.


def f_div(a, b):
    """Division by IEEE 754, which gives an infinity or a NaN for a divisor of zero."""
    if b != 0.0:
        return a / b
    if a == 0.0 or math.isnan(a):
        return math.nan
    return math.copysign(math.inf, a) * math.copysign(1.0, b)


F_OPERATORS = {
    "add": lambda a, b: a + b,
    "sub": lambda a, b: a - b,
    "mul": lambda a, b: a * b,
    "div": f_div,
}


def f_bits(value):
    """The bits of an F as 16 upper-case hex digits; every NaN is stored as one pattern."""
    if math.isnan(value):
        return "7FF8000000000000"
    return struct.pack(">d", value).hex().upper()


# Carrying operators out.


def binary(operation, left, right):
    """The cell that an operator on two cells of accepted types gives."""
    type = left[0]
    if type == F:
        return (F, F_OPERATORS[operation](left[1], right[1]))
    return (type, WHOLE_OPERATORS[operation](type, left[1], right[1]))


def unary(operation, cell):
    """The cell that neg, not or a conversion gives for a cell of an accepted type."""
    type, value = cell
    if operation == "neg":
        return (F, -value) if type == F else (type, wrapped(type, -value))
    if operation == "not":
        return (type, ~value)
    if operation == "conv.i4":
        return (INT32, wrapped(INT32, value))
    if operation == "conv.i8":
        return (INT64, value)
    return (F, float(value))


# Comparisons, by name without "c" or "b" in front. Beside each stands whether
# it says yes when one of its values is a NaN.

COMPARE = {
    "eq": (lambda a, b: a == b, False),
    "ne.un": (lambda a, b: a != b, True),
    "gt": (lambda a, b: a > b, False),
    "ge": (lambda a, b: a >= b, False),
    "lt": (lambda a, b: a < b, False),
    "le": (lambda a, b: a <= b, False),
    "gt.un": (lambda a, b: a > b, True),
    "ge.un": (lambda a, b: a >= b, True),
    "lt.un": (lambda a, b: a < b, True),
    "le.un": (lambda a, b: a <= b, True),
}


def compare(operation, left, right):
    """Whether a comparison (ceq, blt.un, ..) of two cells of accepted types says yes."""
    holds, with_nan = COMPARE[operation[1:]]
    type, a, b = left[0], left[1], right[1]
    if type == F:
        return with_nan if math.isnan(a) or math.isnan(b) else holds(a, b)
    if operation.endswith(".un") and type in WHOLE:
        a, b = unsigned(type, a), unsigned(type, b)
    return holds(a, b)


def truth(cell):
    """What brtrue asks: a number that isn't 0, or a reference that isn't null."""
    return cell[1] != 0
