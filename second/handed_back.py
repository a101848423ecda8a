"""Numbers handed back (01): a name for each number, and what it means in words."""

# Loaded, passed, or finished with the value.
FINE = 0

# Loading.
TOO_LONG = 1
BAD_RECORD = 2
BAD_ORDER = 3
OUT_OF_RANGE = 4
TOO_MANY_RECORDS = 5
RULE_BROKEN = 6
OVERRIDE_DIFFERS = 7

# From `turn` alone.
CUT_SHORT = 9

# Five faults that the check and the machine share. The check hands back
# CHECK + fault (11 to 15), a stuck run STUCK + fault (41 to 45).
UNDECODABLE = 1
OPERAND = 2
TOO_FEW = 3
TOO_MANY = 4
WRONG_TYPE = 5
CHECK = 10
STUCK = 40

# From the check alone.
OTHER_SHAPE = 16
FALLS_PAST_THE_END = 17

# Refusals of a run before its first step.
BAD_ARGUMENTS = 21
BAD_BUDGET = 22

# Endings of a run.
DIVISION_BY_ZERO = 31
ARITHMETIC = 32
OVERFLOW = 33
NULL_REFERENCE = 34
INVALID_CAST = 35
FRAMES_FULL = 36
OBJECTS_FULL = 37
BUDGET_USED = 38
PAST_THE_CODE = 46

MEANING = {
    0: "loaded, passed, or finished with the value",
    1: "tables or code too long",
    2: "bad record",
    3: "order or missing entry",
    4: "value out of range",
    5: "too many",
    6: "rule broken",
    7: "override with another return or other parameters",
    9: "input cut short",
    11: "undecodable",
    12: "operand or target",
    13: "too few values on the stack",
    14: "too many values on the stack",
    15: "wrong type",
    16: "other shape",
    17: "fall past the end",
    21: "argument count or int32 range",
    22: "budget",
    31: "division by zero",
    32: "arithmetic",
    33: "overflow",
    34: "null reference",
    35: "invalid cast",
    36: "32 frames live",
    37: "256 objects made",
    38: "budget used",
    41: "stuck: undecodable",
    42: "stuck: operand",
    43: "stuck: too few values on the stack",
    44: "stuck: too many values on the stack",
    45: "stuck: wrong type",
    46: "stuck: past the code",
}


class Ends(Exception):
    """Ends a run with a number other than 0, before the step has changed any state."""

    def __init__(self, number):
        super().__init__(MEANING[number])
        self.number = number
