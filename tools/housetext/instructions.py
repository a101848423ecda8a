"""The one table of the instructions kept, with the mnemonics of ECMA-335, and the reading of one instruction.

The assembler, the disassembler and both spellings of the text read it. An operand kind says how the bytes after the opcode are written in
the text. A new instruction is one more row in ROWS.
"""

import difflib

from .words import WORD_SHOWN, TextError, shown

# How many bytes an operand of each kind has. `near` and `far` are the distances of short and long branches; class, field and method are
# tokens.
OPERAND_SIZE = {
    "none": 0,
    "argument": 1,
    "local": 1,
    "int8": 1,
    "int32": 4,
    "int64": 8,
    "real": 8,
    "near": 1,
    "far": 4,
    "class": 4,
    "field": 4,
    "method": 4,
}

# The top byte of a token of each kind.
TOKEN_TOP = {"class": 0x02, "field": 0x04, "method": 0x06}

# First opcode, operand kind, mnemonics of that opcode and those that follow it.
ROWS = [
    (0x00, "none", "nop"),
    (0x02, "none", "ldarg.0 ldarg.1 ldarg.2 ldarg.3"),
    (0x06, "none", "ldloc.0 ldloc.1 ldloc.2 ldloc.3"),
    (0x0A, "none", "stloc.0 stloc.1 stloc.2 stloc.3"),
    (0x0E, "argument", "ldarg.s"),
    (0x10, "argument", "starg.s"),
    (0x11, "local", "ldloc.s"),
    (0x13, "local", "stloc.s"),
    (0x14, "none", "ldnull ldc.i4.m1 ldc.i4.0 ldc.i4.1 ldc.i4.2 ldc.i4.3 ldc.i4.4"),
    (0x1B, "none", "ldc.i4.5 ldc.i4.6 ldc.i4.7 ldc.i4.8"),
    (0x1F, "int8", "ldc.i4.s"),
    (0x20, "int32", "ldc.i4"),
    (0x21, "int64", "ldc.i8"),
    (0x23, "real", "ldc.r8"),
    (0x25, "none", "dup pop"),
    (0x28, "method", "call"),
    (0x2A, "none", "ret"),
    (0x2B, "near", "br.s brfalse.s brtrue.s beq.s bge.s bgt.s ble.s blt.s"),
    (0x33, "near", "bne.un.s bge.un.s bgt.un.s ble.un.s blt.un.s"),
    (0x38, "far", "br brfalse brtrue beq bge bgt ble blt"),
    (0x40, "far", "bne.un bge.un bgt.un ble.un blt.un"),
    (0x58, "none", "add sub mul div div.un rem rem.un and or xor shl shr shr.un neg not"),
    (0x69, "none", "conv.i4 conv.i8"),
    (0x6C, "none", "conv.r8"),
    (0x6F, "method", "callvirt"),
    (0x73, "method", "newobj"),
    (0x74, "class", "castclass isinst"),
    (0x7B, "field", "ldfld"),
    (0x7D, "field", "stfld ldsfld"),
    (0x80, "field", "stsfld"),
    (0xD6, "none", "add.ovf"),
    (0xD8, "none", "mul.ovf"),
    (0xDA, "none", "sub.ovf"),
    (0xFE01, "none", "ceq cgt cgt.un clt clt.un"),
]

# Other names that ECMA-335 has for an instruction.
ALIASES = {"brnull": "brfalse", "brzero": "brfalse", "brinst": "brtrue", "brnull.s": "brfalse.s", "brzero.s": "brfalse.s", "brinst.s": "brtrue.s"}

# Mnemonics of ECMA-335 that are not kept, so that a text which has them is told so.
NOT_KEPT = set("""
    add.ovf.un arglist box break calli ckfinite constrained. conv.i conv.i1 conv.i2 conv.ovf.i conv.ovf.i.un conv.ovf.i1 conv.ovf.i1.un
    conv.ovf.i2 conv.ovf.i2.un conv.ovf.i4 conv.ovf.i4.un conv.ovf.i8 conv.ovf.i8.un conv.ovf.u conv.ovf.u.un conv.ovf.u1 conv.ovf.u1.un
    conv.ovf.u2 conv.ovf.u2.un conv.ovf.u4 conv.ovf.u4.un conv.ovf.u8 conv.ovf.u8.un conv.r.un conv.r4 conv.u conv.u1 conv.u2 conv.u4 conv.u8
    cpblk cpobj endfilter endfinally initblk initobj jmp ldarg ldarga ldarga.s ldc.r4 ldelem ldelema ldflda ldftn ldind.i ldind.i1 ldind.i2
    ldind.i4 ldind.i8 ldind.r4 ldind.r8 ldind.ref ldind.u1 ldind.u2 ldind.u4 ldlen ldloc ldloca ldloca.s ldobj ldsflda ldstr ldtoken
    ldvirtftn leave leave.s localloc mkrefany mul.ovf.un newarr refanytype refanyval rethrow sizeof starg stelem stind.i stind.i1 stind.i2
    stind.i4 stind.i8 stind.r4 stind.r8 stind.ref stloc stobj sub.ovf.un switch tail. throw unaligned. unbox unbox.any volatile.
""".split())


class Form:
    """One instruction: its mnemonic, the bytes of its opcode and the kind of its operand."""

    def __init__(self, mnemonic, opcode, operand):
        self.mnemonic = mnemonic
        self.opcode = opcode
        self.operand = operand
        self.length = len(opcode) + OPERAND_SIZE[operand]


def _forms():
    for first, operand, mnemonics in ROWS:
        for step, mnemonic in enumerate(mnemonics.split()):
            number = first + step
            yield Form(mnemonic, number.to_bytes(1 if number < 0x100 else 2, "big"), operand)


BY_MNEMONIC = {form.mnemonic: form for form in _forms()}
BY_OPCODE = {form.opcode: form for form in BY_MNEMONIC.values()}
FORMS = BY_MNEMONIC | {alias: BY_MNEMONIC[mnemonic] for alias, mnemonic in ALIASES.items()}
PREFIXES = {form.opcode[:1] for form in BY_MNEMONIC.values() if len(form.opcode) == 2}


def form_of(word, others=()):
    """The form of a mnemonic or of an alias; `others` are words that may be meant too."""
    if word in FORMS:
        return FORMS[word]
    if word in NOT_KEPT:
        raise TextError(word, f"`{word}` is an instruction of ECMA-335 that is not kept")
    near = difflib.get_close_matches(word[:WORD_SHOWN], [*FORMS, *others], 1)
    raise TextError(word, f"unknown mnemonic {shown(word)}" + (f"; is `{near[0]}` meant?" if near else ""))


def read_instruction(code, offset):
    """The form at this offset, or None where no kept instruction stands whole."""
    size = 2 if code[offset:offset + 1] in PREFIXES else 1
    form = BY_OPCODE.get(bytes(code[offset:offset + size]))
    if form is None or offset + form.length > len(code):
        return None
    return form


def operand_bytes(form, code, offset):
    """The bytes after the opcode of the instruction at this offset."""
    return code[offset + len(form.opcode):offset + form.length]
