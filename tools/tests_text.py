#!/usr/bin/env python3
"""tests_text.py: tests of both spellings of the text, of the errors in it, of the words about arrivals, and of endings without a traceback.

It starts `shapes`, and with it the proved `tell`, which is proved first where it has to be. The last line is 'N passed, M failed'.
"""

import pathlib
import random
import subprocess
import sys
import tempfile
import time

sys.dont_write_bytecode = True

from common import parser_for, started
from housetext.assemble import assemble
from housetext.disassemble import disassemble
from housetext.explaining import Source, explain
from housetext.il_writing import disassemble_il
from housetext.instructions import ALIASES, BY_MNEMONIC, FORMS, NOT_KEPT, read_instruction
from housetext.meanings import OTHER_SHAPE
from housetext.names import read_names, write_names
from housetext.shaping import shape_lines
from housetext.words import MOST_ERRORS, TextErrors
from tests import EXAMPLES, MAIN, REFUSED_TEXTS, SECOND, TOOLS, Tally, odd_names, run_tool, second_program

sys.path.append(str(SECOND))

SEED = 335
GENERATED = 120   # modules of second/generate.py
DAMAGED = 300     # modules with a few bytes changed
PATIENCE = 15     # seconds for a program that refuses at once, on a machine that does other things too


def same_bytes(data, names=None):
    """Whether both texts of these bytes assemble to them."""
    try:
        return all(assemble(text).data == data for text in (disassemble(data, names), disassemble_il(data, names)))
    except TextErrors as bad:
        print(bad.told("text"))
        return False


def generated_modules():
    """Modules of the second implementation's generator, as inputs of `turn`."""
    import generate
    for number in range(GENERATED):
        case = generate.case(SEED, number)
        yield len(case.tables).to_bytes(2, "little") + case.tables + case.code


def test_round_trips(tally):
    """Text, bytes, text and bytes again, in both spellings."""
    dice, modules = random.Random(SEED), []
    for path in EXAMPLES:
        assembled = assemble(path.read_text(encoding="utf-8"))
        modules.append(assembled.data)
        tally.holds(same_bytes(assembled.data) and same_bytes(assembled.data, assembled.names), f"{path.name}: bytes, text, bytes")
        text = disassemble_il(assembled.data, assembled.names)
        again = assemble(text)
        tally.holds(disassemble_il(again.data, again.names) == text, f"{path.name}: ilasm's text comes back with its names")
        tally.holds(disassemble_il(assembled.data) == disassemble_il(assembled.data, read_names("")), f"{path.name}: no names")
    for number, data in enumerate(generated_modules()):
        modules.append(data)
        tally.holds(same_bytes(data), f"module {number} of the generator, seed {SEED}")
    for text, data in REFUSED_TEXTS:
        tally.holds(same_bytes(bytes.fromhex(data)), f"raw form {text!r}")
    small = [data for data in modules if 2 < len(data) < 1500]
    for number in range(DAMAGED):
        data = bytearray(dice.choice(small))
        for _ in range(dice.randrange(1, 8)):
            data[dice.randrange(len(data))] = dice.randrange(256) if dice.random() < 0.5 else dice.randrange(8)
        tally.holds(same_bytes(bytes(data)) and same_bytes(bytes(data), odd_names(dice)), f"damaged module {number}, seed {SEED}")


def test_table(tally):
    """The table of instructions says what the second implementation says: lengths, operations, and what doesn't decode."""
    import reading_code
    for first in range(256):
        length = reading_code.LENGTHS[first]
        code = bytes([first, 1]) + bytes(8)
        form = read_instruction(code, 0)
        tally.holds((form.length if form else 0) == length, f"length of {first:02X}")
        short = read_instruction(code[:max(0, length - 1)] or b"\x27", 0)
        tally.holds(short is None, f"{first:02X} without its last byte")
    for second in range(256):
        same = (read_instruction(bytes([reading_code.PREFIX, second]), 0) is None) == (
            reading_code.decode(bytes([reading_code.PREFIX, second]), 0) is None)
        tally.holds(same, f"FE {second:02X}")
    for mnemonic, form in BY_MNEMONIC.items():
        found = reading_code.decode(form.opcode + bytes(8), 0)
        plain = mnemonic.removesuffix(".s")
        implied = found.operation + "." + {-1: "m1"}.get(found.operand, str(found.operand))
        tally.holds(found.after == form.length and plain in (found.operation, implied), f"operation of {mnemonic}")
        kind = reading_code.TOKEN_KINDS.get(found.operation)
        token = {"class": 2, "field": 4, "method": 6}.get(form.operand)
        tally.holds(kind == token, f"token of {mnemonic}")
    tally.holds(not NOT_KEPT & set(FORMS), "what is kept is not in the list of what isn't")


def test_aliases(tally):
    """Other names of ECMA-335 for two branches."""
    for alias, mnemonic in ALIASES.items():
        for text in ("code\n  here:\n  {} here\n", ".code {{\n  here: {} here\n}}\n"):
            tally.holds(assemble(text.format(alias)).data == assemble(text.format(mnemonic)).data, f"{alias} is {mnemonic}")
    tally.holds(set(ALIASES) == {word + end for word in ("brnull", "brzero", "brinst") for end in ("", ".s")}, "the aliases")


# The same module as monodis writes it, and in the house's spelling.
MONODIS = """\
.assembly extern mscorlib
{
  .ver 4:0:0:0
}
.assembly 'stop' { .hash algorithm 0x00008004 }
.module stop.exe // GUID = {7A2B}

/* Two classes;
   one starts with a value. */
  .class public auto ansi beforefieldinit Stop
  \textends [mscorlib]System.Object
  {
    .custom instance void class [mscorlib]System.SerializableAttribute::'.ctor'() =  (
\t\t01 00 00 00 ) // ....
    .field  private static  int32 waiting
    .field  public  class Stop 'next'

    .method public hidebysig specialname rtspecialname
           instance default void '.ctor' (class Stop after)  cil managed
    {
        // Method begins at RVA 0x2050
\t.maxstack 8
\tIL_0000:  ldarg.0
\tIL_0001:  ldarg.1
\tIL_0002:  stfld class Stop Stop::'next'
\tIL_0007:  ret
    } // end of method Stop::.ctor

    .method public static hidebysig
           default int32 wait (int32 more)  cil managed
    {
\t.maxstack 2
\t.locals init (
\t\t[0] int32\tsum,
\t\t[1] object\tother)
\tIL_0000:  ldsfld int32 Stop::waiting
\tIL_0005:  ldarg.s more
\tIL_0007:  add
\tIL_0008:  stloc.s sum
\tIL_000a:  ldloc.0
\tIL_000b:  brinst.s IL_000f
\tIL_000d:  ldc.i4.m1
\tIL_000e:  ret
\tIL_000f:  ldloc.0
\tIL_0010:  ret
    } // end of method Stop::wait

    .method public virtual hidebysig newslot
           instance default float64 metres ()  cil managed
    {
\tldc.r8 float64(0x7FF0000000000000) ldc.r8 (00 00 00 00 00 00 F0 3F) add ret
    }
  } // end of class Stop

  .class private auto ansi Halt extends Stop
  {
    .method private static void .cctor () cil managed { ret }
    .method public virtual instance float64 metres () cil managed
    {
      ldarg.0
      isinst class Stop
      call instance float64 Stop::metres()
      ret
    }
    .method public static int32 turn () cil managed
    {
      .entrypoint
      ldnull
      newobj instance void class Stop::'.ctor'(class Stop)
      castclass object
      pop
      ldc.i4.3
      call int32 class Stop::wait(int32)
      ret
    }
  }
"""

HOUSE = """\
class Object
class Stop : Object
class Halt : Stop
field Stop.waiting static int32
field Stop.next instance Stop
method Stop.ctor constructor void stack 8
  parameter Stop after
    ldarg.0
    ldarg.1
    stfld Stop.next
    ret
method Stop.wait static int32 stack 2
  parameter int32 more
  local int32 sum
  local Object other
    ldsfld Stop.waiting
    ldarg.s more
    add
    stloc.s sum
    ldloc.0
    brtrue.s some
    ldc.i4.m1
    ret
  some:
    ldloc.0
    ret
method Stop.metres virtual F stack 8
    ldc.r8 inf
    ldc.r8 1.0
    add
    ret
method Halt.cctor initialiser void stack 8
    ret
method Halt.metres virtual F stack 8 overrides Stop.metres
    ldarg.0
    isinst Stop
    call Stop.metres
    ret
method Halt.turn static int32 stack 8
    ldnull
    newobj Stop.ctor
    castclass Object
    pop
    ldc.i4.3
    call Stop.wait
    ret
entry Halt.turn
"""


def test_il(tally):
    """ilasm's spelling is understood as monodis writes it, and `dis --il` writes it."""
    assembled, house = assemble(MONODIS), assemble(HOUSE)
    tally.holds(assembled.data == house.data, "a text of monodis gives the bytes of the house's text")
    tally.holds(write_names(assembled.names) == "".join(line for line in write_names(house.names).splitlines(True) if "label" not in line),
                "the names of a text of monodis, without the labels made from offsets")
    text = disassemble_il(assembled.data, assembled.names)
    for line in (".class public auto ansi Halt extends Stop", "  .field public static int32 waiting", "  .field public class Stop next",
                 "  .method public hidebysig specialname rtspecialname instance void .ctor (class Stop after) cil managed",
                 "    .locals init (int32 sum, class Object other)", "    IL_0000:  ldsfld int32 Stop::waiting",
                 "    IL_000b:  brtrue.s IL_000f", "    IL_0006:  call instance float64 Stop::metres()", "    .override Stop::metres",
                 "    IL_0000:  ldc.r8 float64(0x7FF0000000000000)", "    IL_0001:  newobj instance void Stop::.ctor(class Stop)", "    .entrypoint",
                 "    IL_0006:  castclass Object", "  } // end of method Stop::wait"):
        tally.holds(line in text.splitlines(), f"`{line.strip()}` is written")
    given = disassemble_il(house.data, house.names)
    tally.holds("    some:\n    IL_000f:  ldloc.0" in given and "brtrue.s some" in given, "a writer's label is kept in ilasm's spelling")


# A text in one of the two spellings, and line, column and words of each of its errors.
ALL_ERRORS = [
    ("class Object\nclas Stop : Object\nclass Bus : Vehicle\nfield Buss.a static int16\nmethod Stop.wait quick int32 stack 2\n"
     "  parameter int32 more\n    ldarg.s mor\n    ldc.i4.s 128\n  here: brnull.s her\n    call Stop.wait\n    call Object.turm\n"
     "method Object.turn static Foo stack 256\n    ldc.r8 1e999 2\nmethod Object.turn2 static Foo stack 2\nentry Object.turn3\n",
     [(2, 1, "is `class` meant"), (3, 13, "class `Vehicle`"), (4, 7, "is `Bus` meant"), (4, 21, "type `int16`"), (5, 18, "not a sort"),
      (7, 13, "is `more` meant"), (8, 14, "out of range"), (9, 18, "is `here` meant"), (11, 10, "unknown method `Object.turm`"),
      (12, 37, "max stack 256"), (13, 18, "takes one operand"), (14, 28, "type `Foo`"), (15, 7, "unknown method `Object.turn3`")]),
    (".class public Object\n{\n  .method public static int32 turn (bool x) cil managed\n  {\n    .maxstack 300\n    ldc.i4.s 200\n"
     "    call int32 Objekt::turn()\n    call\n    ldstr \"hallo\"\n    br.s away\n    add 3\n  }\n"
     "  .method public static int32 other (int32 x, int32 x) cil managed\n  {\n    ldarg.s z\n    .try { }\n    ldfld int64 Object::f\n    ret\n\n"
     "  .method public static void third () cil managed { ret }\n  .field int32 f\n  .field abc\n}\n}\n",
     [(3, 37, "`bool` is not kept"), (5, 15, "max stack 300"), (6, 14, "out of range"), (7, 16, "is `Object` meant"), (8, 5, "takes an operand"),
      (9, 5, "that is not kept"), (10, 10, "unknown label"), (11, 9, "unknown mnemonic `3`"), (13, 53, "duplicate name"), (15, 13, "argument `z`"),
      (16, 5, "not kept"), (17, 25, "has other types: int32"), (20, 3, "is not closed"), (22, 10, "wanted after `abc`"), (24, 1, "no block is open")]),
    (".class A {\n  .class B { }\n  .method public abstract void m () { }\n}\n.class interface C { .field int32 a }\n.field int32 b\n.class A extends C { }\n",
     [(2, 3, "nested classes"), (3, 18, "`abstract` is not kept"), (5, 8, "`interface` is not kept"), (6, 14, "OWNER::NAME"),
      (7, 18, "another parent")]),
    (".class A {\n  .method static void m () {\n    call instance void [mscorlib]System.Object::.ctor()\n    ret\n", [(1, 1, "is not closed"),
     (3, 49, "unknown method `Object::.ctor`"), (4, 8, "is not closed")]),
    (".class beforefieldinit A { .method static void .cctor () { ret } }\n", [(1, 48, "beforefieldinit")]),
    (".class A {\n  .method static void m () }\n}\n", [(2, 28, "`{` is wanted here"), (3, 1, "no block is open")]),
    (".class A {\n  .method static void m () {\n    ldc.r8 (00 00", [(1, 1, "is not closed"), (3, 16, "`)` is wanted after"), (3, 18, "not closed")]),
    (".code {\n  ldstr\n  \"text\" }\n", [(2, 3, "not kept"), (3, 3, "unknown mnemonic `text`"), (3, 11, "is not closed")]),
    (".class A { } /* no end\n", [(1, 14, "comment is not closed")]),
    (".class A {\n  .field int32 a = int32(5)\n  .field int32[] c\n  .field \"b\n}\n",
     [(2, 18, "other values"), (3, 15, "arrays"), (4, 10, "begins no word"), (4, 11, "wanted after `b`")]),
]


def test_errors(tally):
    """All errors of a text are told at once, each with its line and column, and nothing else is."""
    for text, wanted in ALL_ERRORS:
        try:
            assemble(text)
            found = []
        except TextErrors as bad:
            found = bad.errors
        places = [(error.line, error.column) for error in found]
        tally.holds(places == [place[:2] for place in wanted], f"places {places}, wanted {wanted}")
        for error, (line, column, words) in zip(found, wanted):
            tally.holds(words in error.message, f"{line}:{column}: {words}; got {error.message}")
    try:
        assemble("class Object\nmethod Object.turn static void stack 1\n\tnöp 你好 \x1b[2J\n")
    except TextErrors as bad:
        told = bad.told("a.turn")
        tally.holds(told == "a.turn:3:2: unknown mnemonic `nöp`; is `nop` meant?\n  \tnöp 你好 ?[2J\n  \t^~~", f"the caret: {told}")
    try:
        assemble("frob\n" * 5000)
    except TextErrors as bad:
        tally.holds(len(bad.errors) == MOST_ERRORS and bad.told("a").endswith("no more are looked for"), "a text of errors alone")


def test_marks(tally):
    """A byte-order mark is taken, in both codings that have one."""
    text = "class Object\r\nclass Kéva : Object\r\n"
    plain = run_tool("asm", data=text.encode()).stdout
    tally.holds(plain == bytes.fromhex("04 00 01 00 01 01"), "carriage returns")
    tally.holds(run_tool("asm", data=b"\xef\xbb\xbf" + text.encode()).stdout == plain, "a mark of UTF-8")
    tally.holds(run_tool("asm", data=text.encode("utf-16")).stdout == plain, "a mark of UTF-16")
    tally.holds(assemble("\ufeff.class A { }").data == assemble("class A").data, "a mark before ilasm's spelling")


ARRIVALS = """\
class Object
class Stop : Object
class Bus : Stop

method Object.turn static int32 stack 2
  local Stop stop
  local Bus bus
    ldc.i4.1
    brtrue.s other
    ldc.i4.1
    ldc.i4.2
    br.s join
  other:
    ldc.i4.3
    br.s join
  join:
    ret

method Object.classes static void stack 1
    ldc.i4.1
    brtrue.s second
    ldloc.s 0
    br.s join
  second:
    ldnull
  join:
    pop
    ret

method Object.back static void stack 1
    br.s on
  never:
    ret
  on:
    ldc.i4.1
    br.s never

entry Object.turn
"""


def test_arrivals(tally):
    """Fault 16 names both ways to the place: lines, labels and types."""
    assembled = assemble(ARRIVALS)
    source = Source(assembled.data, assembled.names, assembled.record_lines, assembled.code_lines)
    said = explain(source, [OTHER_SHAPE, 1, 8, 0, "-"])
    tally.holds("Two shapes arrive at label join, line 17: from line 12: int32, int32; from line 15: int32." in said, f"both arrivals: {said}")
    tally.holds(said[-2:] == ["  line 12: br.s join", "  line 15, after label other: br.s join"], f"both instructions: {said[-2:]}")
    bare = explain(Source(assembled.data), [OTHER_SHAPE, 1, 8, 0, "-"])
    tally.holds("Two shapes arrive at label L_0010, offset 10: from offset 5: int32, int32; from offset 8: int32." in bare, f"without a text: {bare}")
    lines = shape_lines(source, 3, second_program)
    tally.holds(lines[-2] == "Two shapes arrive at label never, line 33: no earlier instruction goes there, so it begins with nothing; "
                "from line 36: int32.", f"a branch back to a place that begins empty: {lines}")
    text = ARRIVALS.replace("static void stack 1\n    ldc.i4.1", "static void stack 1\n  local Stop stop\n    ldc.i4.1", 1)
    classes = assemble(text)
    lines = shape_lines(Source(classes.data, classes.names, classes.record_lines, classes.code_lines), 2, second_program)
    tally.holds("from line 24: Stop; from line 26: null." in lines[-3], f"classes by name: {lines}")


def ended(tool, *arguments, given=b"", shell=""):
    """The status, what came out and the words of a program as a writer starts it, and how long it took; `shell` has what redirects it."""
    start = time.time()
    command = [sys.executable, TOOLS / tool, *arguments]
    run = subprocess.run(["bash", "-c", '"$@" ' + shell, "-", *command], input=given, capture_output=True)
    return run.returncode, run.stdout, run.stderr.decode("utf-8", "replace"), time.time() - start


def test_no_traceback(tally):
    """Wrong words, unreadable and unwritable files, closed pipes and what is huge or binary: a sentence and a status, never a traceback."""
    with tempfile.TemporaryDirectory() as folder:
        folder = pathlib.Path(folder)
        dice = random.Random(SEED)
        files = {
            "huge.turn": dice.randbytes(20 << 20), "long.turn": b"  nop\n" * 2_000_000, "empty.il": b"\n" * 2_000_000,
            "binary.turn": dice.randbytes(100_000), "letters.turn": "".join(chr(dice.randrange(32, 0x800)) for _ in range(20_000)).encode(),
            "letters.il": b".class A { " + "".join(chr(dice.randrange(32, 127)) for _ in range(20_000)).encode(),
            "digits.turn": b"code\n  ldc.i4 " + b"9" * 1_000_000, "deep.il": b".class A " + b"{(" * 20_000, "short.turn": b"\xff",
        }
        for name, data in files.items():
            (folder / name).write_bytes(data)
        (folder / "folder.turn").mkdir()
        module = folder / "keva.bin"
        module.write_bytes(assemble((MAIN / "examples/keva.turn").read_text(encoding="utf-8")).data)
        for name in [*files, "folder.turn", "none.turn"]:
            for tool, words in (("asm", []), ("dis", []), ("dis", ["--il"]), ("explain", ["0 4 48 69 2"]), ("shapes", [])):
                decent(tally, ended(tool, folder / name, *words), f"{tool} {name}")
        for name in ("huge.turn", "long.turn", "empty.il", "folder.turn", "none.turn"):
            for tool, words in (("asm", []), ("dis", []), ("explain", ["0 4 48 69 2"]), ("shapes", [])):
                status, _, said, _ = ended(tool, folder / name, *words)
                tally.holds(status == 1 and said.count("\n") == 1, f"{tool} {name}: one sentence and status 1, got {said[:200]}")
        test_streams(tally, folder, module)


def test_streams(tally, folder, module):
    """What can't be written or read, and wrong words."""
    example = MAIN / "examples/keva.turn"
    programs = [("asm", [example]), ("dis", [module]), ("dis", [module, "--il"]), ("explain", [module, "0 4 48 69 2"]), ("shapes", [module]),
                ("asm", ["--help"]), ("asm", [folder / "letters.turn"])]
    for tool, words in programs:
        for shell in (">&-", "> /dev/full", "2>&-", "2> /dev/full", "| head -c 1", "<&-", "< /dev/null"):
            decent(tally, ended(tool, *words, shell=shell), f"{tool} {shell}")
    for tool, words in (("asm", [example, "-o"]), ("dis", [module, "-o"]), ("asm", [example, "-o", folder / "out", "--names"])):
        for name in (folder, "/none/out"):
            status, _, said, _ = ended(tool, *words, name)
            tally.holds(status == 1 and str(name) in said and said.count("\n") == 1, f"{tool} to {name}: {said}")
    for tool, words in (("asm", ["--frob"]), ("dis", ["a", "b"]), ("explain", []), ("shapes", [module, "x"])):
        tally.holds(ended(tool, *words)[0] == 2, f"{tool} with wrong words")
    for words in (["9" * 5000 + " 1 1 1 1"], ["16 99999999999999999999 99999999999999999999 0 -"], ["16 1 99 0 -"], ["3 0 99999999999 0 -"],
                  ["0 4 48 69 " + "F" * 5000], ["15"], [""], ["é é é é é"]):
        decent(tally, ended("explain", module, *words), f"explain {words[0][:40]}")
    decent(tally, ended("explain", module, given=b"\xff\xfe\0" * 5000), "explain with a binary line")
    decent(tally, ended("dis", module, "--names", module), "dis with names that are none")
    for tool in ("asm", "dis", "explain", "shapes"):
        status, out, _, _ = ended(tool, "--help")
        tally.holds(status == 0 and b"example:\n  tools/" in out, f"{tool} --help has an example")


def decent(tally, run, what):
    """Counts whether a program ended with a status of its own, no traceback and in time."""
    status, _, said, took = run
    good = status in (0, 1, 2) and "Traceback" not in said and "Exception ignored" not in said and took < PATIENCE
    tally.holds(good, f"{what}: status {status}, {took:.1f} seconds, {said[:300]}")


def main(words):
    parser_for(__doc__, "tools/tests_text.py").parse_args(words)
    tally = Tally()
    for test in (test_table, test_aliases, test_round_trips, test_il, test_errors, test_marks, test_arrivals, test_no_traceback):
        test(tally)
    print(f"{tally.passed} passed, {tally.failed} failed")
    return 1 if tally.failed else 0


if __name__ == "__main__":
    started(main)
