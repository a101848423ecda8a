"""Writing modules as bytes: code from lines and labels, and the records of the tables."""

from collections import namedtuple

from reading_code import (
    BRANCHES, CLASS_TOKEN, COMPARISONS, FIELD_TOKEN, FIRST_LONG_BRANCH, FIRST_SHORT_BRANCH, METHOD_TOKEN, OPERATIONS,
    PREFIX, TOKEN_KINDS, Token,
)
from tables import CLASS, ENTRY, FIELD, LOCAL, METHOD, PARAMETER

# One instruction to be written. The operand is what decoding would find, with
# three differences: a branch has a Label (or a plain offset), ldc.r8 has the
# 64 bits of its constant as a whole number, and "raw" writes its bytes as they are.
Line = namedtuple("Line", "operation operand", defaults=(None,))


class Label:
    """A place in a body that branches may go to."""


def class_token(row):
    return Token(CLASS_TOKEN, row)


def field_token(row):
    return Token(FIELD_TOKEN, row)


def method_token(row):
    return Token(METHOD_TOKEN, row)


def little(value, count):
    return (value & ((1 << (8 * count)) - 1)).to_bytes(count, "little")


OPCODES = {}
for _opcode in sorted(OPERATIONS, reverse=True):
    OPCODES[OPERATIONS[_opcode]] = _opcode

# Where the forms begin that hold a number of 0 to 3 within their opcode.
IMPLIED_FROM = {"ldarg": 0x02, "ldloc": 0x06, "stloc": 0x0A}


class Assembler:
    """Writes one body. The dice pick between forms of an instruction that mean the same."""

    def __init__(self, items, dice):
        self.items = items
        self.dice = dice
        self.encoded = [self.encode(item) for item in items]
        self.branches = [index for index, encoded in enumerate(self.encoded) if encoded is None]
        self.long = {index for index in self.branches if dice.chance(15)}

    def encode(self, item):
        """The bytes of an item, or None for a branch, whose bytes depend on its place."""
        if isinstance(item, Label):
            return b""
        operation, operand = item
        if operation == "raw":
            return operand
        if operation in BRANCHES:
            return None
        if operation in COMPARISONS:
            return bytes([PREFIX, 1 + COMPARISONS.index(operation)])
        if operation in ("ldarg", "ldloc", "stloc", "starg"):
            return self.encode_numbered(operation, operand)
        if operation == "ldc.i4":
            return self.encode_int32(operand)
        if operation in ("ldc.i8", "ldc.r8"):
            return bytes([OPCODES[operation]]) + little(operand, 8)
        if operation in TOKEN_KINDS:
            return bytes([OPCODES[operation]]) + little(operand.row, 3) + bytes([operand.kind])
        return bytes([OPCODES[operation]])

    def encode_numbered(self, operation, number):
        if operation in IMPLIED_FROM and number < 4 and self.dice.chance(90):
            return bytes([IMPLIED_FROM[operation] + number])
        return bytes([OPCODES[operation], number])

    def encode_int32(self, value):
        if -1 <= value <= 8 and self.dice.chance(85):
            return bytes([0x16 + value])
        if -128 <= value <= 127 and self.dice.chance(85):
            return bytes([0x1F]) + little(value, 1)
        return bytes([0x20]) + little(value, 4)

    def offsets(self):
        """The offset of each item, and the length of all."""
        offsets, offset = [], 0
        for index, encoded in enumerate(self.encoded):
            offsets.append(offset)
            if encoded is None:
                offset += 5 if index in self.long else 2
            else:
                offset += len(encoded)
        return offsets + [offset]

    def distance(self, index, offsets, places):
        target = self.items[index].operand
        goal = places[target] if isinstance(target, Label) else target
        return goal - offsets[index + 1]

    def code(self):
        """The bytes of the body; short branches that can't reach their target are made long."""
        while True:
            offsets = self.offsets()
            places = {item: offsets[index] for index, item in enumerate(self.items) if isinstance(item, Label)}
            distances = {index: self.distance(index, offsets, places) for index in self.branches}
            unreached = {index for index, distance in distances.items() if not -128 <= distance <= 127} - self.long
            if not unreached:
                break
            self.long |= unreached
        parts = list(self.encoded)
        for index, distance in distances.items():
            number = BRANCHES.index(self.items[index].operation)
            if index in self.long:
                parts[index] = bytes([FIRST_LONG_BRANCH + number]) + little(distance, 4)
            else:
                parts[index] = bytes([FIRST_SHORT_BRANCH + number]) + little(distance, 1)
        return b"".join(parts)


def assemble(items, dice):
    return Assembler(items, dice).code()


def method_record(method):
    head = [METHOD, method.owner, method.sort, method.returns, method.max_stack, method.overridden]
    return bytes(head) + little(method.code_offset, 4) + little(method.code_length, 2)


def records(module):
    """The records of a module's tables, one after the other."""
    parts = [bytes([CLASS, parent]) for parent in module.parents[1:]]
    parts += [bytes([FIELD, field.owner, int(field.static), field.type]) for field in module.fields[1:]]
    for method in module.methods[1:]:
        parts.append(method_record(method))
        parts += [bytes([PARAMETER, type]) for type in method.parameters]
        parts += [bytes([LOCAL, type]) for type in method.locals]
    if module.entry is not None:
        parts.append(bytes([ENTRY, module.entry]))
    return parts
