"""Reading code (01): lengths, decoding, operands and operand faults."""

import struct
from collections import namedtuple

from tables import CONSTRUCTOR, INITIALISER, INSTANCE, VIRTUAL

PREFIX = 0xFE


def _kept_first_bytes():
    """The first bytes of the instructions kept, as 01 lists them."""
    ranges = [(0x00, 0x00), (0x02, 0x0E), (0x10, 0x11), (0x13, 0x21), (0x23, 0x23), (0x25, 0x26), (0x28, 0x28),
              (0x2A, 0x44), (0x58, 0x66), (0x69, 0x6A), (0x6C, 0x6C), (0x6F, 0x6F), (0x73, 0x75), (0x7B, 0x7B),
              (0x7D, 0x7E), (0x80, 0x80), (0xD6, 0xD6), (0xD8, 0xD8), (0xDA, 0xDA), (PREFIX, PREFIX)]
    return {first for low, high in ranges for first in range(low, high + 1)}


def _length(first):
    if first not in _kept_first_bytes():
        return 0
    if first in (0x0E, 0x10, 0x11, 0x13, 0x1F, PREFIX) or 0x2B <= first <= 0x37:
        return 2
    if first in (0x20, 0x28, 0x6F, 0x73, 0x74, 0x75, 0x7B, 0x7D, 0x7E, 0x80) or 0x38 <= first <= 0x44:
        return 5
    if first in (0x21, 0x23):
        return 9
    return 1


# One length for each of the 256 first bytes, 0 where not kept.
LENGTHS = [_length(first) for first in range(256)]

# In the order of their opcodes.
BRANCHES = (
    "br", "brfalse", "brtrue", "beq", "bge", "bgt", "ble", "blt", "bne.un", "bge.un", "bgt.un", "ble.un", "blt.un",
)
COMPARISONS = ("ceq", "cgt", "cgt.un", "clt", "clt.un")

# What an opcode does, whatever the form of its operand. Short and long forms
# are one operation: ldarg.0 to ldarg.3 and ldarg.s are all "ldarg".
OPERATIONS = {
    0x00: "nop", 0x0E: "ldarg", 0x10: "starg", 0x11: "ldloc", 0x13: "stloc", 0x14: "ldnull", 0x1F: "ldc.i4",
    0x20: "ldc.i4", 0x21: "ldc.i8", 0x23: "ldc.r8", 0x25: "dup", 0x26: "pop", 0x28: "call", 0x2A: "ret",
    0x58: "add", 0x59: "sub", 0x5A: "mul", 0x5B: "div", 0x5C: "div.un", 0x5D: "rem", 0x5E: "rem.un", 0x5F: "and",
    0x60: "or", 0x61: "xor", 0x62: "shl", 0x63: "shr", 0x64: "shr.un", 0x65: "neg", 0x66: "not", 0x69: "conv.i4",
    0x6A: "conv.i8", 0x6C: "conv.r8", 0x6F: "callvirt", 0x73: "newobj", 0x74: "castclass", 0x75: "isinst",
    0x7B: "ldfld", 0x7D: "stfld", 0x7E: "ldsfld", 0x80: "stsfld", 0xD6: "add.ovf", 0xD8: "mul.ovf", 0xDA: "sub.ovf",
}

# Opcodes that hold their operand within: the operation and the operand.
IMPLIED = {}
for _number in range(4):
    IMPLIED[0x02 + _number] = ("ldarg", _number)
    IMPLIED[0x06 + _number] = ("ldloc", _number)
    IMPLIED[0x0A + _number] = ("stloc", _number)
for _number in range(-1, 9):
    IMPLIED[0x16 + _number] = ("ldc.i4", _number)

FIRST_SHORT_BRANCH = 0x2B
FIRST_LONG_BRANCH = 0x38
for _number, _branch in enumerate(BRANCHES):
    OPERATIONS[FIRST_SHORT_BRANCH + _number] = _branch
    OPERATIONS[FIRST_LONG_BRANCH + _number] = _branch

# Operations with a token, and the kind that its top byte must be.
CLASS_TOKEN, FIELD_TOKEN, METHOD_TOKEN = 0x02, 0x04, 0x06
TOKEN_KINDS = {
    "castclass": CLASS_TOKEN, "isinst": CLASS_TOKEN,
    "ldfld": FIELD_TOKEN, "stfld": FIELD_TOKEN, "ldsfld": FIELD_TOKEN, "stsfld": FIELD_TOKEN,
    "call": METHOD_TOKEN, "callvirt": METHOD_TOKEN, "newobj": METHOD_TOKEN,
}

# The operand is a number of an argument or local, a constant, the target of a
# branch, a Token, or None. `after` is the offset of the next instruction.
Instruction = namedtuple("Instruction", "offset operation operand after")
Token = namedtuple("Token", "kind row")


def part_of(module, method):
    """A method's code is that part of the lent code which its record names."""
    return module.code[method.code_offset:method.code_offset + method.code_length]


def decode(part, offset):
    """The instruction at an offset of a method's part, or None where it can't be decoded.

    An instruction that runs past the part can't be, whatever bytes follow in the buffer.
    """
    first = part[offset]
    length = LENGTHS[first]
    if length == 0 or offset + length > len(part):
        return None
    rest = part[offset + 1:]
    after = offset + length
    if first == PREFIX:
        if not 0x01 <= rest[0] <= 0x05:
            return None
        return Instruction(offset, COMPARISONS[rest[0] - 1], None, after)
    if first in IMPLIED:
        return Instruction(offset, *IMPLIED[first], after)
    operation = OPERATIONS[first]
    return Instruction(offset, operation, read_operand(operation, rest[:length - 1], after), after)


def read_operand(operation, field, after):
    """Read the bytes of an operand, little-endian. Branch distances count from the next instruction."""
    if not field:
        return None
    if operation in BRANCHES:
        return after + int.from_bytes(field, "little", signed=True)
    if operation in ("ldc.i4", "ldc.i8"):
        return int.from_bytes(field, "little", signed=True)
    if operation == "ldc.r8":
        return struct.unpack("<d", field)[0]
    if operation in TOKEN_KINDS:
        return Token(field[3], int.from_bytes(field[:3], "little"))
    return field[0]


def operand_fault(module, method, instruction):
    """What a faulty operand should have been, in words; None where the operand is right."""
    operation, operand = instruction.operation, instruction.operand
    if operation in ("ldarg", "starg"):
        count = len(method.arguments)
        return None if operand < count else "an argument number below %d" % count
    if operation in ("ldloc", "stloc"):
        count = len(method.locals)
        return None if operand < count else "a local number below %d" % count
    if operation in BRANCHES:
        inside = 0 <= operand < method.code_length
        return None if inside else "a target inside the method's code, 0 to %d" % (method.code_length - 1)
    if operation in TOKEN_KINDS:
        return token_fault(module, operation, operand)
    return None


def token_fault(module, operation, token):
    kind = TOKEN_KINDS[operation]
    count, name = {
        CLASS_TOKEN: (module.class_count, "class"),
        FIELD_TOKEN: (module.field_count, "field"),
        METHOD_TOKEN: (module.method_count, "method"),
    }[kind]
    if token.kind != kind or not 1 <= token.row <= count:
        return "a %s token with a row of 1 to %d" % (name, count)
    if kind == FIELD_TOKEN:
        wants_static = operation in ("ldsfld", "stsfld")
        wanted = "a static field" if wants_static else "an instance field"
        return None if module.fields[token.row].static == wants_static else wanted
    if kind == METHOD_TOKEN:
        return sort_fault(operation, module.methods[token.row].sort)
    return None


def sort_fault(operation, sort):
    if operation == "call":
        return None if sort != INITIALISER else "a method other than an initialiser"
    if operation == "callvirt":
        return None if sort in (INSTANCE, VIRTUAL) else "an instance or virtual method"
    return None if sort == CONSTRUCTOR else "a constructor"
