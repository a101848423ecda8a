#!/usr/bin/env python3
"""tests.py [--turn PROGRAM]: tests of asm, dis, explain, shapes and answer, and of the lines that examples/EXPECTED promises.

The promised lines are compared with the second implementation where it is there, and with PROGRAM, a `turn` that reads standard input,
and the proved `replay` where one is named. Then the shapes of the proved `tell` are compared with those of the second implementation too.
"""

import itertools
import pathlib
import random
import shutil
import subprocess
import sys
import tempfile

sys.dont_write_bytecode = True

from cases import LENGTH_BYTES, case_of, read_cases, replay_lines
from cases import read_answer as read_replayed
from common import Trouble, parser_for, proved, started
from housetext.assemble import assemble
from housetext.disassemble import disassemble
from housetext.explaining import Source, explain, read_answer
from housetext.instructions import BY_MNEMONIC
from housetext.meanings import MEANINGS
from housetext.names import Names, read_names, write_names
from housetext.second_opinion import second_opinion
from housetext.shaping import BY_SECOND, NULL, shape_lines
from housetext.words import TextErrors

TOOLS = pathlib.Path(__file__).resolve().parent
MAIN = TOOLS.parent
EXAMPLES = sorted((MAIN / "examples").glob("*.turn"))
VECTORS = sorted((MAIN / "vectors").glob("*.bin"))
SECOND = MAIN / "second"
SEED = 20220
SHAPED = 300  # modules of the vectors whose shapes are asked for
PROVED_SHAPED = 40  # and of the proved program too


class Tally:
    """Counts what holds and prints what doesn't."""

    def __init__(self):
        self.passed = 0
        self.failed = 0

    def holds(self, condition, what):
        """Counts one test."""
        if condition:
            self.passed += 1
        else:
            self.failed += 1
            print("FAILED:", what)


def same_again(data, names=None):
    """Whether the text of these bytes assembles to them, and the bytes with the names of that text give the text again."""
    text = disassemble(data, names)
    try:
        assembled = assemble(text)
    except TextErrors:
        return False
    kept = read_names(write_names(assembled.names))
    return assembled.data == data and disassemble(data, names) == text == disassemble(data, kept)


def bare_lines(text):
    """The words of each line, without comments and empty lines."""
    lines = [line.split(";")[0].split() for line in text.split("\n")]
    return [line for line in lines if line]


def vector_modules():
    """Inputs of `turn` out of the files of cases."""
    for path in VECTORS:
        for case in read_cases(path.read_bytes()):
            yield len(case.tables).to_bytes(LENGTH_BYTES, "little") + case.tables + case.code


def test_lengths(tally):
    """The instructions have the lengths of the paper's table."""
    kept = {0x00, 0x10, 0x11, 0x23, 0x25, 0x26, 0x28, 0x69, 0x6A, 0x6C, 0x6F, 0x73, 0x74, 0x75, 0x7B, 0x7D, 0x7E, 0x80}
    kept |= {0xD6, 0xD8, 0xDA, 0xFE}
    for low, high in ((0x02, 0x0E), (0x13, 0x21), (0x2A, 0x44), (0x58, 0x66)):
        kept |= set(range(low, high + 1))
    two = {0x0E, 0x10, 0x11, 0x13, 0x1F, 0xFE} | set(range(0x2B, 0x38))
    five = {0x20, 0x28, 0x6F, 0x73, 0x74, 0x75, 0x7B, 0x7D, 0x7E, 0x80} | set(range(0x38, 0x45))
    for first in range(256):
        lengths = {form.length for form in BY_MNEMONIC.values() if form.opcode[0] == first}
        wanted = 2 if first in two else 5 if first in five else 9 if first in (0x21, 0x23) else 1
        tally.holds(lengths == ({wanted} if first in kept else set()), f"length of {first:02X}")
    tally.holds([form.opcode[1] for form in BY_MNEMONIC.values() if form.opcode[0] == 0xFE] == [1, 2, 3, 4, 5], "second bytes after FE")


# Opcodes of ECMA-335, Partition III, each with its mnemonic.
OPCODES = """
00 nop 02 ldarg.0 03 ldarg.1 04 ldarg.2 05 ldarg.3 06 ldloc.0 07 ldloc.1 08 ldloc.2 09 ldloc.3 0A stloc.0 0B stloc.1 0C stloc.2 0D stloc.3
0E ldarg.s 10 starg.s 11 ldloc.s 13 stloc.s 14 ldnull 15 ldc.i4.m1 16 ldc.i4.0 17 ldc.i4.1 18 ldc.i4.2 19 ldc.i4.3 1A ldc.i4.4 1B ldc.i4.5
1C ldc.i4.6 1D ldc.i4.7 1E ldc.i4.8 1F ldc.i4.s 20 ldc.i4 21 ldc.i8 23 ldc.r8 25 dup 26 pop 28 call 2A ret 2B br.s 2C brfalse.s 2D brtrue.s
2E beq.s 2F bge.s 30 bgt.s 31 ble.s 32 blt.s 33 bne.un.s 34 bge.un.s 35 bgt.un.s 36 ble.un.s 37 blt.un.s 38 br 39 brfalse 3A brtrue 3B beq
3C bge 3D bgt 3E ble 3F blt 40 bne.un 41 bge.un 42 bgt.un 43 ble.un 44 blt.un 58 add 59 sub 5A mul 5B div 5C div.un 5D rem 5E rem.un 5F and
60 or 61 xor 62 shl 63 shr 64 shr.un 65 neg 66 not 69 conv.i4 6A conv.i8 6C conv.r8 6F callvirt 73 newobj 74 castclass 75 isinst 7B ldfld
7D stfld 7E ldsfld 80 stsfld D6 add.ovf D8 mul.ovf DA sub.ovf FE01 ceq FE02 cgt FE03 cgt.un FE04 clt FE05 clt.un
"""


def test_opcodes(tally):
    """Each mnemonic has its opcode, and there are no others."""
    words = OPCODES.split()
    for opcode, mnemonic in zip(words[::2], words[1::2]):
        form = BY_MNEMONIC.get(mnemonic)
        tally.holds(form is not None and form.opcode == bytes.fromhex(opcode), f"opcode of {mnemonic}")
    tally.holds(set(BY_MNEMONIC) == set(words[1::2]), "the instructions kept")


def test_paper_input(tally):
    """The paper's input has the text that one would write for it."""
    data = bytes.fromhex("10 00 01 00 03 01 00 01 02 00 00 00 00 00 04 00 06 01 18 19 58 2A")
    text = "class C1\n\nmethod C1.m1 static int32 stack 2\n    ldc.i4.2\n    ldc.i4.3\n    add\n    ret\n\nentry C1.m1\n"
    tally.holds(disassemble(data) == text, "text of the paper's input")
    tally.holds(assemble(text).data == data, "bytes of the paper's input")


def test_examples(tally):
    """The writer's text comes back with the names file, without it the bytes do."""
    for path in EXAMPLES:
        text = path.read_text(encoding="utf-8")
        assembled = assemble(text)
        back = disassemble(assembled.data, assembled.names)
        tally.holds(bare_lines(back) == bare_lines(text), f"{path.name}: the writer's words come back")
        again = assemble(back)
        tally.holds(again.data == assembled.data, f"{path.name}: the same bytes from the text that came back")
        tally.holds(write_names(again.names) == write_names(assembled.names), f"{path.name}: the same names")
        tally.holds(same_again(assembled.data), f"{path.name}: bytes, text, bytes")
        tally.holds(assemble(disassemble(assembled.data, offsets=True)).data == assembled.data, f"{path.name}: offsets are comments")
    tally.holds(len(EXAMPLES) >= 5, "the examples are there")


def test_garbage(tally):
    """Every input has a text, whatever its bytes are."""
    dice = random.Random(SEED)
    tally.holds(all(same_again(bytes(first)) for first in ([], [0], [6], [255])), "inputs under two bytes")
    for size in (2, 3, 5, 20, 60, 200, 1000):
        good = 0
        for _ in range(200):
            data = bytes(dice.randrange(256) if dice.random() < 0.5 else dice.randrange(8) for _ in range(size))
            if dice.random() < 0.7:
                data = bytes([dice.randrange(min(size, 256)), 0]) + data[2:]
            good += same_again(data)
        tally.holds(good == 200, f"garbage of {size} bytes, seed {SEED}")


def test_damaged(tally):
    """Modules with a few bytes changed, some with names that fit badly."""
    dice = random.Random(SEED)
    modules = [assemble(path.read_text(encoding="utf-8")).data for path in EXAMPLES]
    modules += [module for module in vector_modules() if len(module) < 1500]
    good = 0
    for _ in range(1500):
        data = bytearray(dice.choice(modules) or b"\0\0")
        for _ in range(dice.randrange(1, 8)):
            data[dice.randrange(len(data))] = dice.randrange(256)
        good += same_again(bytes(data)) and same_again(bytes(data), odd_names(dice))
    tally.holds(good == 1500, f"damaged modules, seed {SEED}")


def odd_names(dice):
    """Names that clash with each other, with types and with the names that dis makes."""
    names = Names()
    for _ in range(30):
        what = dice.choice(list(names.given))
        key = dice.randrange(12) if what in ("class", "field", "method") else (dice.randrange(8), dice.randrange(20))
        names.give(what, key, dice.choice(["a", "b", "C1", "C2", "m1", "f1", "L_0001", "L_0002", "this", "int32"]))
    return names


def test_vectors(tally):
    """The modules of the vectors, where they are there."""
    for module in vector_modules():
        tally.holds(same_again(module), f"a module of {len(module)} bytes in the vectors")


ONE_CLASS = "class Object\n"
A_METHOD = ONE_CLASS + "method Object.turn static void stack 1\n"

# A text, the line of its error and words of the message.
BAD_TEXTS = [
    (A_METHOD + "  nop\n  frobnicate\n", 4, "unknown mnemonic `frobnicate`"),
    (A_METHOD + "  ldc.i4.sh 5\n", 3, "is `ldc.i4.s` meant?"),
    (A_METHOD + "  ldc.i4.s 128\n", 3, "out of range -128 to 127"),
    (A_METHOD + "  ldc.i4 2147483648\n", 3, "out of range"),
    (A_METHOD + "  ldc.i8 0x10000000000000000\n", 3, "out of range"),
    (A_METHOD + "  ldc.i4 five\n", 3, "must be a number"),
    (A_METHOD + "  ldc.r8 1e999\n", 3, "out of range"),
    (A_METHOD + "  ldc.r8 0x12\n", 3, "16 digits"),
    (A_METHOD + "  ldarg.s 256\n", 3, "out of range 0 to 255"),
    (A_METHOD + "  ldarg.s place\n", 3, "unknown argument `place`"),
    (A_METHOD + "  ldarg.s this\n", 3, "unknown argument `this`"),
    (A_METHOD + "  ldloc.s sum\n", 3, "unknown local `sum`"),
    (A_METHOD + "  add 3\n", 3, "takes no operand"),
    (A_METHOD + "  call\n", 3, "takes one operand"),
    (A_METHOD + "  call Object.other\n", 3, "unknown method `Object.other`"),
    (A_METHOD + "  call other\n", 3, "OWNER.NAME"),
    (A_METHOD + "  ldsfld Object.count\n", 3, "unknown field `Object.count`"),
    (A_METHOD + "  isinst Bus\n", 3, "unknown class `Bus`"),
    (A_METHOD + "  call #0x100000000\n", 3, "token 0x100000000 is out of range"),
    (A_METHOD + "  br.s away\n", 3, "unknown label `away`"),
    (A_METHOD + "  br.s far\n" + "  nop\n" * 128 + "  far:\n", 3, "too far for `br.s`; `br` reaches it"),
    (A_METHOD + "  far:\n" + "  nop\n" * 127 + "  brtrue.s far\n", 131, "-129 bytes away"),
    (A_METHOD + "  br.s +128\n", 3, "distance +128 is out of range"),
    (A_METHOD + "  here:\n  here:\n", 4, "duplicate label `here`"),
    (A_METHOD + "  parameter int32 a\n  parameter int32 a\n", 4, "duplicate name `a`"),
    (A_METHOD + "  .byte 1\n", 3, "two hexadecimal digits"),
    (A_METHOD + "method Object.turn static void stack 1\n", 3, "duplicate method `Object.turn`"),
    (A_METHOD + "code at 1\n  nop\ncode at 1\n  nop\n", 6, "code offset 1 is written already"),
    (A_METHOD + "code at 16777216\n", 3, "out of range"),
    (ONE_CLASS + "class Object\n", 2, "duplicate class `Object`"),
    (ONE_CLASS + "field Object.a static int32\nfield #1.a static int32\n", 3, "duplicate field"),
    (ONE_CLASS + "class int32\n", 2, "no name for a class"),
    (ONE_CLASS + "class Bus : Vehicle\n", 2, "unknown class `Vehicle`"),
    (ONE_CLASS + "class Bus Object\n", 2, "`class NAME : PARENT`"),
    (ONE_CLASS + "field Object.a fixed int32\n", 2, "`fixed` is not instance or static"),
    (ONE_CLASS + "field Object.a static int16\n", 2, "unknown type `int16`"),
    (ONE_CLASS + "field Object.a static #256\n", 2, "type 256 is out of range"),
    (ONE_CLASS + "method Object.a quick void stack 1\n", 2, "`quick` is not a sort"),
    (ONE_CLASS + "method Object.a static void stack 256\n", 2, "max stack 256 is out of range"),
    (ONE_CLASS + "method Object.a static void\n", 2, "a method is written"),
    (ONE_CLASS + "method Object.a static void stack 1 at 2 part 3 4\n", 2, "a method is written"),
    (ONE_CLASS + "method Object.a static void stack 1 part 0 65536\n", 2, "code length 65536 is out of range"),
    (ONE_CLASS + "method Object.a static void stack 1 part 0 1\n  ret\n", 3, "stands outside code"),
    (ONE_CLASS + "nop\n", 2, "stands outside code"),
    (ONE_CLASS + "here:\n", 2, "stands outside code"),
    (ONE_CLASS + "entry Object.turn\n", 2, "unknown method `Object.turn`"),
    (ONE_CLASS + "entry #300\n", 2, "row 300 is out of range"),
    (ONE_CLASS + "announced 65536\n", 2, "out of range 0 to 65,535"),
    (ONE_CLASS + "input 05\n", 2, "nothing else can stand beside it"),
    ("".join(f"class K{row}\n" for row in range(1, 226)) + "field K225.a static K224\n", 226, "doesn't fit"),
    (ONE_CLASS + "record 00\n" * 65534, 65535, "more than two bytes of length can say"),
    (A_METHOD + "  nop\n" * 65536, 2, "code length: 65,536 doesn't fit"),
]


def test_errors(tally):
    """Each bad text gives its message at its line, and nothing before it."""
    for text, line, words in BAD_TEXTS:
        try:
            assemble(text)
            said = None
        except TextErrors as bad:
            said = bad.errors[0]
        tally.holds(said and said.line == line and words in said.message, f"line {line}, {words}; got {said and (said.line, said.message)}")
    try:
        assemble(ONE_CLASS + "clas A\nclass B : A : C\nclass void\n")
    except TextErrors as bad:
        tally.holds([error.line for error in bad.errors] == [2, 3, 4], "all bad lines are told")
    try:
        read_names("class 1 Object\nclass one Bus\nlabel 1 x\n")
    except TextErrors as bad:
        tally.holds([error.line for error in bad.errors] == [2, 3], "bad lines of a names file are told")


# A text and the bytes it stands for: modules that loading or the check refuses, and the raw forms.
REFUSED_TEXTS = [
    ("", "00 00"),
    ("input\n", ""),
    ("input 05\n", "05"),
    ("announced 9000\n", "28 23"),
    ("announced 3\nclass A\n", "03 00 01 00"),
    ("entry #7\n", "02 00 06 07"),
    ("class A : A\nclass B : #9\n", "04 00 01 01 01 09"),
    ("record 09 01\nrecord FF\n", "03 00 09 01 FF"),
    ("record 01 00\nclass B : #1\nfield B.x static B\n", "08 00 01 00 01 01 02 02 01 22"),
    ("field #0.a #7 #17\nfield Late.b instance Late\nclass Late\n", "0A 00 02 00 07 11 02 01 00 21 01 00"),
    ("parameter void\nlocal int64\n", "04 00 04 00 05 02"),
    ("class A\nmethod A.m #9 #32 stack 255 overrides #200 part 0xFFFFFFFF 1\n", "0E 00 01 00 03 01 09 20 FF C8 FF FF FF FF 01 00"),
    ("class A\nmethod A.m static void stack 0 overrides A.m\n", "0E 00 01 00 03 01 00 00 00 01 00 00 00 00 00 00"),
    ("code\n  .byte 27 FE\n  call #0x0A000001\n  br.s -2\n  br +70000\n", "00 00 27 FE 28 01 00 00 0A 2B FE 38 70 11 01 00"),
    ("code\n  br.s end\n  nop\n  end:\n", "00 00 2B 01 00"),
    ("code at 2\n  nop\ncode at 0\n  ret\n", "00 00 2A 00 00"),
    ("code\n  ldc.i4 0xFFFFFFFF\n  ldc.i4.s -0x80\n  ldc.i4.s 0xFF\n", "00 00 20 FF FF FF FF 1F 80 1F FF"),
    ("code\n  ldc.r8 -0.0\n  ldc.r8 nan\n", "00 00 23 00 00 00 00 00 00 00 80 23 00 00 00 00 00 00 F8 7F"),
    ("code\n  ldc.r8 0x7FF0000000000001\n  ldc.r8 -inf\n", "00 00 23 01 00 00 00 00 00 F0 7F 23 00 00 00 00 00 00 F0 FF"),
]


def test_raw_forms(tally):
    """What loading or the check would refuse can still be written."""
    for text, data in REFUSED_TEXTS:
        try:
            got = assemble(text).data
        except TextErrors as bad:
            got = bad.errors[0].message
        tally.holds(got == bytes.fromhex(data), f"{text!r} gives {data}, got {got!r}")


def test_names(tally):
    """Names, arguments, locals and labels come back; equal letters in two codings are one name."""
    text = (
        "class Object\nclass Kéva : Object\n\nfield Kéva.été static F\n\n"
        "method Kéva.go virtual int32 stack 2 at 4\n  parameter int32 wanted\n  parameter F\n  local Kéva here\n"
        "  first:\n    ldarg.s wanted\n    ldarg.s this\n    ldarg.s 2\n    stloc.s here\n    br.s first\n  unused:\n    ret\n  past:\n\n"
        "method Object.shared static void stack 0 part 4 3\n\n"
        "entry Kéva.go\n\ncode at 0\n  here:\n    br.s here\n    nop\n    nop\n"
    )
    assembled = assemble(text)
    tally.holds(disassemble(assembled.data, read_names(write_names(assembled.names))) == text, "a text with all kinds of names comes back")
    apart = text.replace("é", "e\u0301")
    tally.holds(assemble(apart).data == assembled.data, "é in two codings")
    tally.holds(write_names(assemble(apart).names) == write_names(assembled.names), "é in two codings, names")
    tally.holds(disassemble(assembled.data, read_names(write_names(assembled.names).replace("é", "e\u0301"))) == text, "é in a names file")


def run_tool(tool, *arguments, data=b""):
    """A program of this folder as a writer starts it."""
    return subprocess.run([sys.executable, TOOLS / tool, *arguments], input=data, capture_output=True)


def test_programs(tally):
    """asm, dis and explain with files and standard streams."""
    with tempfile.TemporaryDirectory() as folder:
        folder = pathlib.Path(folder)
        source, out, names = MAIN / "examples/keva.turn", folder / "keva.bin", folder / "keva.names"
        tally.holds(run_tool("asm", source, "-o", out, "--names", names).returncode == 0, "asm with files")
        tally.holds(run_tool("asm", data=source.read_bytes()).stdout == out.read_bytes(), "asm with standard streams")
        text = run_tool("dis", out, "--names", names).stdout
        tally.holds(bare_lines(text.decode()) == bare_lines(source.read_text(encoding="utf-8")), "dis with names")
        tally.holds(run_tool("asm", data=run_tool("dis", data=out.read_bytes()).stdout).stdout == out.read_bytes(), "dis, then asm")
        said = run_tool("explain", out, "--names", names, data=b"0 4 48 69 2\n").stdout.decode()
        tally.holds("It handed back 2 after 69 steps." in said and "Bot.turn" in said, "explain with a names file")
        bad = folder / "bad.turn"
        bad.write_bytes(b"class Object\r\nclass Object\r\n")
        ended = run_tool("asm", bad)
        message = ended.stderr.decode().strip()
        tally.holds(ended.returncode == 1 and message.startswith(f"{bad}:2:7: duplicate class `Object`\n"), f"message of a bad text: {message}")
        bad.write_bytes(b"class Object\n\xff\n")
        tally.holds(run_tool("asm", bad).stderr.decode().startswith(f"{bad}:2:1: the text is not UTF-8"), "a text that isn't UTF-8")
        tally.holds(run_tool("asm", folder / "none.turn").returncode == 1, "a file that isn't there")
        tally.holds(run_tool("explain", out, "15 4").returncode == 1, "explain with a line that is none")


def expected_lines():
    """File, `turn` or `run`, and the line, as examples/EXPECTED has them."""
    for row in (MAIN / "examples/EXPECTED").read_text(encoding="utf-8").splitlines():
        name, how, line = row.split(None, 2)
        yield name, how, line


def test_expected(tally, turn):
    """The lines that the examples promise."""
    promised = list(expected_lines())
    tally.holds({name for name, _, _ in promised} == {path.name for path in EXAMPLES}, "every example has its line")
    for name, how, line in promised:
        data = assemble((MAIN / "examples" / name).read_text(encoding="utf-8")).data
        if how == "turn" and turn:
            said = subprocess.run([turn], input=data, capture_output=True).stdout.decode().strip()
            tally.holds(said == line, f"{name}: {turn} says {said}, promised {line}")
        if how == "run" and turn:
            said = run_tool("answer", MAIN / "examples" / name).stdout.decode().split(" | ")
            tally.holds(said[2:3] == ["run " + line], f"{name}: the proved replay says {said}, promised run {line}")
        if SECOND.is_dir():
            said = second_says(data, how)
            tally.holds(said == line, f"{name}, {how}: the second implementation says {said}, promised {line}")


def second_program(name, data):
    """What a program of the second implementation prints for an input."""
    if name == "tell":
        return second_told(data)
    return subprocess.run([sys.executable, "-B", SECOND / f"{name}.py"], input=data, stdout=subprocess.PIPE).stdout


def second_told(data):
    """What `tell` prints for an input, by the shapes that the second implementation finds."""
    second_opinion(b"", b"")  # brings the modules of the second implementation
    tables, check, operators = (sys.modules[name] for name in ("tables", "check", "operators"))

    def number(at):
        return int.from_bytes(data[at:at + LENGTH_BYTES], "little")

    code_at = LENGTH_BYTES + number(0) + LENGTH_BYTES
    places_at = code_at + number(code_at - LENGTH_BYTES)
    loaded = tables.load(data[LENGTH_BYTES:code_at - LENGTH_BYTES], data[code_at:places_at])
    fault = (loaded.number, 0, loaded.place) if loaded.number else check.check(loaded.module)
    shapes = {}
    for row in range(1, 1 if fault[0] else loaded.module.method_count + 1):
        shapes |= {(row, instruction.offset): types for instruction, types in check.shapes(loaded.module, row)}

    def line(place):
        types = [NULL if type == operators.NULL else type for type in shapes.get(place, [])]
        return " ".join(map(str, [*fault, int(place in shapes), len(types), *types])) + "\n"

    return "".join(line((number(at), number(at + LENGTH_BYTES))) for at in range(places_at, len(data), 2 * LENGTH_BYTES)).encode()


def second_says(data, how):
    """The line of the second implementation: `turn`, or the run without the check out of `replay`."""
    if how == "turn":
        return second_program("turn", data).decode().strip()
    return " ".join(map(str, read_replayed(replay_lines([case_of(data)], second_program)[0]).run))


def test_explain(tally):
    """Every number of the paper has its words, and an answer names what a writer looks for."""
    numbers = [*range(0, 8), 9, *range(11, 18), 21, 22, *range(31, 39), *range(41, 47)]
    tally.holds(sorted(MEANINGS) == numbers, "the numbers of the paper's table")
    for name, _, line in expected_lines():
        assembled = assemble((MAIN / "examples" / name).read_text(encoding="utf-8"))
        source = Source(assembled.data, assembled.names, assembled.record_lines, assembled.code_lines)
        said = explain(source, read_answer(line))
        tally.holds(any("line " in words for words in said), f"{name}: the explanation names a line of the text")
    said = "\n".join(explained("keva-too-many.turn", "15 4 47 0 -"))
    tally.holds("Bot.turn" in said and "->    47  ret" in said, "method and instruction of a fault")
    if SECOND.is_dir():
        tally.holds("on the stack: int32, int32" in said and "exactly one value" in said, "stack of a fault, and what was wanted")
        said = "\n".join(explained("cast.turn", "35 2 16 6 -"))
        tally.holds("Bus object 2" in said, "stack where a run ended")
        tally.holds("is not what the check says" in explained("loop.turn", "13 1 4 0 -")[-1], "a line of another module")
    tally.holds(explained("loop.turn", "46 1 23 5 -")[3] == "Offset 23: past the code, which has 23 bytes.", "a place past the code")
    said = explained("loop.turn", "41 1 1 5 -")
    tally.holds("inside another instruction" in said[3] and said[4].endswith("stloc.0"), "a place inside an instruction")
    tally.holds("no method 9" in explained("loop.turn", "31 9 1 5 -")[-1], "a method that isn't there")


def shaped(name, row, program=second_program):
    """The lines of the shapes of an example."""
    data = assemble((MAIN / "examples" / name).read_text(encoding="utf-8"))
    return shape_lines(Source(data.data, data.names, data.record_lines, data.code_lines), row, program)


def test_shapes(tally):
    """Depth and types before each instruction, in an example and, without a failure, in the modules of the vectors."""
    if not SECOND.is_dir():
        return
    said = shaped("keva-too-many.turn", 4)
    tally.holds(said[0] == f"Method 4: Bot.turn{BY_SECOND}." and said[1].split() == ["0", "0", "ldc.i4.7"], "the first instruction has an empty stack")
    tally.holds("    43   3  bgt.s ask                       int32, int32, int32" in said, "depth and types before an instruction")
    tally.holds("     6   1  ldc.i4.7                        Place" in said, "a class by its name")
    tally.holds(said[-1] == "Number 15 at offset 47. Wanted: exactly one value, that fits int32.", "the fault where the shapes end")
    passes = shaped("keva.turn", 4)
    tally.holds(passes[0] == "Method 4: Bot.turn." and passes[1:-3] == said[1:-3], "the same shapes up to the instruction that is missing")
    tally.holds(passes[-2:] == ["    47   0  ldc.i4.2", "    48   1  ret                             int32"], "and none of a fault")
    tally.holds(shaped("bad-override.turn", None) is None, "a module that isn't loaded has no shapes")
    tally.holds(shaped("loop.turn", 9) == ["This module has no method 9."], "a method that isn't there")
    for words in (b"", b"x 0 0 0 0\n", b"0 0 0 1 1\n", b"0 0 0\n"):
        tally.holds(trouble_of(lambda: shaped("loop.turn", 1, lambda name, data: words)), f"a program that prints {words}")
    for data in itertools.islice(vector_modules(), SHAPED):
        lines = shape_lines(Source(data), None, second_program) or []
        first = [after.split() for line, after in zip(lines, lines[1:]) if line.startswith("Method") and after.startswith(" ")]
        tally.holds(all(words[:2] == ["0", "0"] for words in first), "every method begins with an empty stack")


def trouble_of(action):
    try:
        action()
    except Trouble as trouble:
        return str(trouble)
    return None


def test_proved_shapes(tally):
    """The shapes of the proved `tell`, beside those of the second implementation."""
    for path in EXAMPLES:
        tally.holds(shaped(path.name, None, proved) == shaped(path.name, None), f"{path.name}: the shapes of the proved program")
    said = run_tool("shapes", MAIN / "examples/keva.turn", "4").stdout.decode().splitlines()
    tally.holds(said == shaped("keva.turn", 4), "shapes of an example, as a writer asks for them")
    tally.holds(run_tool("shapes", MAIN / "examples/bad-override.turn").returncode == 1, "a module that isn't loaded")
    for data in random.Random(SEED).sample(list(vector_modules()), PROVED_SHAPED):
        source = Source(data)
        tally.holds(shape_lines(source, None, proved) == shape_lines(source, None, second_program), "the shapes of a module of the vectors")


def explained(name, line):
    """The explanation of a line for an example, without the names of its text."""
    data = assemble((MAIN / "examples" / name).read_text(encoding="utf-8"))
    return explain(Source(data.data, data.names), read_answer(line))


def main(words):
    parser = parser_for(__doc__, "tools/tests.py --turn ./turn")
    parser.add_argument("--turn")
    options = parser.parse_args(words)
    if options.turn and not shutil.which(options.turn):
        raise Trouble(f"{options.turn}: there is no such program")
    tally = Tally()
    for test in (test_lengths, test_opcodes, test_paper_input, test_examples, test_garbage, test_damaged, test_vectors, test_errors,
                 test_raw_forms, test_names, test_programs, test_explain, test_shapes):
        test(tally)
    test_expected(tally, options.turn)
    if options.turn and SECOND.is_dir():
        test_proved_shapes(tally)
    if not SECOND.is_dir():
        print("The second implementation is not there; what needs it was passed over.")
    print(f"{tally.passed} passed, {tally.failed} failed")
    return 1 if tally.failed else 0


if __name__ == "__main__":
    started(main)
