"""The numbers handed back, in words: the one table from which every tool says what a number means. A new number is one more row."""

from collections import namedtuple

# Who hands a number back.
FINE = "fine"
LOADING = "loading"
INPUT = "input"  # `turn`, of an input that holds no tables and code
CHECK = "check"
REFUSED = "refused"  # a run that doesn't begin
ENDED = "ended"
STUCK = "stuck"

# A number's stage, the paper's words for it, and plain words for a writer.
Words = namedtuple("Words", "stage name meaning")

NUMBERS = {
    0: Words(FINE, "fine", "the turn finished"),
    1: Words(LOADING, "too long", "the tables are longer than 8,192 bytes or the code is longer than 32,768"),
    2: Words(LOADING, "bad record", "bad record: its kind is unknown or its last bytes are missing"),
    3: Words(LOADING, "order or missing entry",
             "this record stands in the wrong order, or the tables end without an entry; the order is classes, fields by rising owner, each "
             "method with its parameters and then its locals, one entry"),
    4: Words(LOADING, "value out of range",
             "a parent, owner, type, sort, flag, max stack, code part or entry row of this record is out of range"),
    5: Words(LOADING, "too many",
             "too many: this record passes a limit (32 classes, 128 fields, 64 of them static, 8 instance fields in a class with those "
             "inherited, 128 methods, 8 arguments counting `this`, 16 locals)"),
    6: Words(LOADING, "rule broken",
             "this record breaks a rule between records: what may be overridden, one method of a root in a class, one initialiser in a class "
             "and none in Object, void for constructors and initialisers, no parameters for an initialiser, or what an entry may be"),
    7: Words(LOADING, "override differs", "this method overrides one that has another return type or other parameters"),
    9: Words(INPUT, "input cut short", "the input is cut short: the announced tables are not all there"),
    11: Words(CHECK, "undecodable",
              "the check cannot decode this: no kept instruction begins here, or its last bytes lie outside the method's code"),
    12: Words(CHECK, "operand or target",
              "the check refuses the operand: an argument, local, class, field or method that isn't there or doesn't suit the instruction, or a "
              "branch target that starts no instruction of the method"),
    13: Words(CHECK, "too few", "the check finds too few values on the stack"),
    14: Words(CHECK, "too many", "the check finds no room: the value would pass the method's max stack"),
    15: Words(CHECK, "wrong type", "the check finds a value of the wrong type, or more on the stack than `ret` hands back"),
    16: Words(CHECK, "other shape",
              "the check finds another shape: this instruction goes on to a place with other values on the stack than the place began with"),
    17: Words(CHECK, "fall past the end", "the code can fall past its end: the last instruction must be `ret`, `br` or `br.s`"),
    21: Words(REFUSED, "argument count or int32 range",
              "the entry wants another number of arguments, or an argument doesn't fit int32; `turn` gives none"),
    22: Words(REFUSED, "budget", "the budget is outside 0 to 1,000,000"),
    31: Words(ENDED, "division by zero", "division by zero"),
    32: Words(ENDED, "arithmetic", "arithmetic: the smallest number divided by -1"),
    33: Words(ENDED, "overflow", "overflow: the result doesn't fit its type"),
    34: Words(ENDED, "null reference", "null reference: null stands where an object is needed"),
    35: Words(ENDED, "invalid cast", "invalid cast: the object is not of the class named"),
    36: Words(ENDED, "32 frames live", "32 frames are live already, and this instruction needs one more"),
    37: Words(ENDED, "256 objects made", "256 objects were made already, and this instruction makes one more"),
    38: Words(ENDED, "budget used", "the budget is used; the turn stopped before this instruction"),
    41: Words(STUCK, "stuck: undecodable", "stuck: no kept instruction stands here whole"),
    42: Words(STUCK, "stuck: operand",
              "stuck: the operand names nothing that suits the instruction, or the target lies outside the method's code"),
    43: Words(STUCK, "stuck: too few", "stuck: too few values on the stack"),
    44: Words(STUCK, "stuck: too many", "stuck: no room, the value would pass the method's max stack"),
    45: Words(STUCK, "stuck: wrong type", "stuck: a value of the wrong type, or more on the stack than `ret` hands back"),
    46: Words(STUCK, "stuck: past the code", "stuck: the turn ran past the end of the method's code"),
}


def meaning(number):
    """A number in plain words."""
    return NUMBERS[number].meaning if number in NUMBERS else "no meaning is known for this number"


def of_stages(*stages):
    """The numbers that these stages hand back."""
    return {number for number, words in NUMBERS.items() if words.stage in stages}
