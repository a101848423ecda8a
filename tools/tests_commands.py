#!/usr/bin/env python3
"""tests_commands.py: tests of `loitsupar` and its subcommands, of `turn` and `proved`, and of how every program of the repository ends.

It starts the proved programs, which are proved first where they have to be. The last line is 'N passed, M failed'.
"""

import json
import os
import pathlib
import shutil
import subprocess
import sys
import tempfile

sys.dont_write_bytecode = True

from cases import Case, read_answer, read_cases, replayed, write_case
from common import FAULT, MAIN, UNUSABLE, output_of, parser_for, started
from housetext.assemble import assemble
from tests import Tally, expected_lines
from words import CHECK, NUMBERS, meaning, of_stages

EXAMPLES = MAIN / "examples"
LOITSUPAR = MAIN / "loitsupar"
TURN = MAIN / "turn"
PATIENCE = 120  # seconds for one program
FROM_VECTORS = 60  # cases of the vectors that the check is asked about
TRACED = ["keva.turn", "override.turn", "initialiser.turn", "cast.turn", "other-shape.turn"]

# The programs in Python with words that each takes without a failure.
PROGRAMS = {
    "loitsupar": ["check", "examples/keva.turn"],
    "tools/explain": ["examples/keva.turn", "0", "4", "48", "69", "2"],
    "tools/shapes": ["examples/keva.turn"],
    "tools/answer": ["examples/keva.turn"],
    "tools/compare": ["--seed", "7", "--count", "2"],
    "second/generate.py": ["7", "2"],
}

# Every program, for its help.
HELPED = [*PROGRAMS, "turn", "host/build", "bench/measure", "second/replay.py", "second/turn.py", "second/tests.py", "tools/proved", "tools/tests.py",
          "tools/tests_commands.py", "tools/tests_text.py", "tools/tests_report.py", "tools/model_vectors", "tools/asm", "tools/dis", "tools/report.py",
          "tools/pages", "tools/times", "tools/moved", "host/words", "host/install"]

# Programs whose help is their first lines.
IN_BASH = ("turn", "host/build", "host/install", "tools/proved")

# Words that a program refuses as bad usage.
BAD_USAGE = [
    ["loitsupar"], ["loitsupar", "frobnicate"], ["loitsupar", "check"], ["loitsupar", "run"], ["loitsupar", "run", "examples/keva.turn", "--budget", "x"],
    ["loitsupar", "run", "examples/keva.turn", "--budget", "-1"], ["loitsupar", "run", "examples/keva.turn", "9223372036854775808"],
    ["loitsupar", "run", "examples/keva.turn", *["1"] * 256], ["loitsupar", "run", "examples/keva.turn", "five"],
    ["loitsupar", "trace", "examples/keva.turn", "--from", "0"], ["loitsupar", "trace", "examples/keva.turn", "--from", "5", "--to", "4"],
    ["turn", "examples/keva.turn", "examples/keva.turn"], ["tools/proved"], ["tools/proved", "nothing"], ["tools/proved", "model"],
    ["tools/shapes", "examples/keva.turn", "x"], ["tools/compare", "--count", "-1"], ["tools/compare", "--count", "9" * 5000],
    ["tools/model_vectors", "none"], ["second/generate.py"], ["second/generate.py", "x", "3"], ["bench/measure", "a", "b"], ["host/build", "x"],
    ["host/build", "a", "b"], ["host/install"], ["host/install", "usr"], ["host/words", "x"], ["host/example.py"], ["host/example.py", "none", "none"],
    ["tools/report.py", "examples/keva.turn"], ["tools/pages", "--none"],
]

# Words that name an input that can't be read, or an output that can't be written, and the status of that.
NO_SUCH = [
    (UNUSABLE, ["loitsupar", "check", "examples"]), (UNUSABLE, ["loitsupar", "check", "none.turn"]), (UNUSABLE, ["loitsupar", "run", "none"]),
    (UNUSABLE, ["loitsupar", "trace", "examples"]), (UNUSABLE, ["loitsupar", "run", "bench/tiny.bin", "--names", "none"]),
    (UNUSABLE, ["turn", "examples"]), (UNUSABLE, ["turn", "none"]), (UNUSABLE, ["turn", "none.turn"]), (UNUSABLE, ["tools/answer", "none.turn"]),
    (UNUSABLE, ["tools/pages", "none.md"]), (UNUSABLE, ["loitsupar", "report", "none.turn", "-o", "-"]),
    (UNUSABLE, ["tools/compare", "--count", "1", "./none"]), (UNUSABLE, ["tools/tests.py", "--turn", "./none"]),
    (FAULT, ["loitsupar", "asm", "examples/keva.turn", "-o", "none/keva.bin"]), (FAULT, ["loitsupar", "dis", "bench/tiny.bin", "-o", "examples"]),
    (FAULT, ["tools/explain", "none", "0", "1", "3", "4", "5"]), (FAULT, ["tools/shapes", "examples"]),
]


def run(program, *words, **options):
    """A program as somebody starts it, run to its end."""
    start = [sys.executable, "-B"] if program.endswith(".py") else []
    options.setdefault("stdin", subprocess.DEVNULL)
    if "input" in options:
        options.pop("stdin")
    options = {"stdout": subprocess.PIPE, "stderr": subprocess.PIPE, "cwd": MAIN, "timeout": PATIENCE, **options}
    return subprocess.run([*start, str(MAIN / program), *map(str, words)], **options)


def shell(line, **options):
    """A line of the shell, for streams that are closed or can't be written."""
    return subprocess.run(["bash", "-c", line], cwd=MAIN, stdin=subprocess.DEVNULL, capture_output=True, timeout=PATIENCE, **options)


def ends(tally, end, status, what, words=b""):
    """A program ended with this status, with a sentence where it isn't 0, and with no traceback."""
    quiet = b"Traceback" not in end.stderr and b"a fault of the program" not in end.stderr
    told = status == 0 or end.stdout or end.stderr
    tally.holds(end.returncode == status and quiet and told and words in end.stdout + end.stderr,
                f"{what}: status {end.returncode}, wanted {status}; {(end.stdout or b'')[-200:]} {end.stderr[-300:]}")


def said_json(tally, end, what):
    try:
        return json.loads(end.stdout)
    except ValueError:
        tally.holds(False, f"{what}: no JSON but {end.stdout[:200]} {end.stderr[:200]}")
        return {}


def test_words(tally):
    """The table has every number of the paper, and the numbers of the check are its own."""
    numbers = [*range(0, 8), 9, *range(11, 18), 21, 22, *range(31, 39), *range(41, 47)]
    tally.holds(sorted(NUMBERS) == numbers, "the numbers of the paper's table")
    tally.holds(of_stages(CHECK) == set(range(11, 18)), "the numbers of the check")
    tally.holds("no meaning" in meaning(99), "a number that isn't in the table")


def test_cases(tally):
    """Cases and answers of the vectors are read, and written back as they were."""
    for name, lines in (("rules", "rules.txt"), ("random", "random.out")):
        data = (MAIN / f"vectors/{name}.bin").read_bytes()
        cases = list(read_cases(data))
        tally.holds(b"".join(map(write_case, cases)) == data, f"{name}: the same bytes again")
        texts = [line.split("\t")[-1] for line in (MAIN / "vectors" / lines).read_text(encoding="ascii").splitlines()]
        answers = [read_answer(text) for text in texts]
        tally.holds(len(answers) == len(cases), f"{name}: an answer for each case")
        placed = [answer for answer in answers if answer.state and answer.state.frames]
        tally.holds(all(answer.state.frames[-1][:2] == answer.run[1:3] for answer in placed), f"{name}: the running frame is where the run ended")
    listed = replayed([Case(bytes.fromhex("0100030100010200000000000400 0601"), bytes.fromhex("1819582A"), [], 2)])[0]
    tally.holds(listed.run.number == 38 and listed.state.frames[0].stack == ["i2", "i3"], "the listed run with budget 2")


def test_check(tally):
    """Many files, each with its first fault; statuses; JSON."""
    good = sorted({name for name, how, line in expected_lines() if how == "turn" and not 1 <= int(line.split()[0]) <= 17})
    ends(tally, run("loitsupar", "check", *[EXAMPLES / name for name in good]), 0, "examples that pass", b"passes")
    end = run("loitsupar", "check", EXAMPLES / "keva.turn", EXAMPLES / "keva-too-many.turn")
    ends(tally, end, FAULT, "one file with a fault", b"keva-too-many.turn:62: number 15 in Bot.turn at offset 47")
    end = run("loitsupar", "check", "examples/keva-too-many.turn", "none.turn")
    ends(tally, end, UNUSABLE, "a file that isn't there beside a fault", b"none.turn: No such")
    ends(tally, run("loitsupar", "check", "-", input=(MAIN / "bench/tiny.bin").read_bytes()), 0, "standard input", b"standard input: passes")
    ends(tally, run("loitsupar", "check", "-", input=b""), FAULT, "an empty input", b"number 9")
    ends(tally, run("loitsupar", "check", "/dev/zero"), FAULT, "an endless input", b"number 1 ")
    said = said_json(tally, run("loitsupar", "check", "--json", "examples/keva.turn", "examples/bad-override.turn", "none"), "check --json")
    passes, fault, missing = said["files"]
    tally.holds(said["status"] == UNUSABLE and passes["passes"] and "unreadable" in missing, "check --json, statuses")
    tally.holds((fault["number"], fault["method"], fault["offset"], fault["line"]) == (7, 0, 18, 12), "check --json, a loading refusal")
    with tempfile.TemporaryDirectory() as folder:
        bad = pathlib.Path(folder) / "bad.turn"
        bad.write_text("class Object\nclas A\n", encoding="utf-8")
        ends(tally, run("loitsupar", "check", bad), FAULT, "a bad text", f"{bad}:2:".encode())
        tally.holds(said_json(tally, run("loitsupar", "check", "--json", bad), "bad text")["files"][0]["text"][0]["line"] == 2, "a bad text in JSON")
        bad.write_bytes(b"class Object\n\xff\n")
        ends(tally, run("loitsupar", "check", bad), FAULT, "a text that isn't UTF-8", b"not UTF-8")


TWO_FAULTS = """
class Object
method Object.a static int32 stack 1
    add
    ret
method Object.b static void stack 1
    nop
method Object.turn static void stack 0
    ret
entry Object.turn
"""


def test_check_all(tally):
    """With --all each method's first fault is told, marked as the second implementation's."""
    with tempfile.TemporaryDirectory() as folder:
        source = pathlib.Path(folder) / "two.turn"
        source.write_text(TWO_FAULTS, encoding="utf-8")
        end = run("loitsupar", "check", "--all", source)
        ends(tally, end, FAULT, "two faults", b"(second implementation)")
        file = said_json(tally, run("loitsupar", "check", "--all", "--json", source), "check --all --json")["files"][0]
    tally.holds((file["number"], file["method"], file["offset"], file["found_by"]) == (13, 1, 0, "proved check"), "the first fault is the proved check's")
    found = [(each["number"], each["method"], each["offset"], each["found_by"]) for each in file["methods"]]
    tally.holds(found == [(13, 1, 0, "second implementation"), (17, 2, 0, "second implementation")], f"the faults of two methods: {found}")
    ends(tally, run("loitsupar", "check", "--all", "examples/keva.turn", "examples/bad-override.turn"), FAULT, "--all where loading refuses", b"number 7")


def test_check_vectors(tally):
    """The check of modules out of the vectors is the one that the vectors promise."""
    cases = list(read_cases((MAIN / "vectors/random.bin").read_bytes()))[:FROM_VECTORS]
    lines = (MAIN / "vectors/random.out").read_text(encoding="ascii").splitlines()
    with tempfile.TemporaryDirectory() as folder:
        paths = [pathlib.Path(folder) / f"{number}.bin" for number in range(len(cases))]
        for path, case in zip(paths, cases):
            path.write_bytes(len(case.tables).to_bytes(2, "little") + case.tables + case.code)
        files = said_json(tally, run("loitsupar", "check", "--json", *paths), "modules of the vectors").get("files", [])
    tally.holds(len(files) == len(cases), "an answer for each module")
    for file, line in zip(files, lines):
        tally.holds((file["number"], file["method"], file["offset"]) == read_answer(line).check, f"{file['file']}: the check of the vectors")


ADDS = """
class Object
method Object.turn static int64 stack 2
  parameter int64 a
  parameter int32 b
    ldarg.0
    ldarg.1
    conv.i8
    add
    ret
entry Object.turn
"""


def test_run(tally):
    """The value or the ending in words; arguments, budgets and runs that don't ask the check."""
    for name, how, line in expected_lines():
        number, method, offset, steps, value = line.split()
        said = said_json(tally, run("loitsupar", "run", EXAMPLES / name, "--json", *(["--unchecked"] if how == "run" else [])), f"{name}, {how}")
        found = [str(said.get(key)) for key in ("number", "method", "offset", "steps")] + [said.get("value") or "-"]
        tally.holds(found == [number, method, offset, steps, value], f"{name}, {how}: {found}")
        end = run("loitsupar", "run", EXAMPLES / name, *(["--unchecked"] if how == "run" else []))
        ends(tally, end, 0 if number == "0" else FAULT, f"run {name}, {how}", b"handed back" if number == "0" else f"Number {number}: ".encode())
    ends(tally, run("loitsupar", "run", "examples/wait.turn", "--budget", "7"), FAULT, "a small budget", b"Steps before it: 7")
    ends(tally, run("loitsupar", "run", "examples/wait.turn", "--budget", "1000001"), FAULT, "a budget that is refused", b"Number 22")
    with tempfile.TemporaryDirectory() as folder:
        source, module, names = (pathlib.Path(folder) / name for name in ("adds.turn", "adds.bin", "adds.names"))
        source.write_text(ADDS, encoding="utf-8")
        ends(tally, run("loitsupar", "run", source, "40", "--budget", "9", "-2"), 0, "arguments", b"handed back 38.")
        ends(tally, run("loitsupar", "run", source, "40"), FAULT, "too few arguments", b"Number 21")
        ends(tally, run("loitsupar", "asm", source, "-o", module, "--names", names), 0, "asm")
        said = said_json(tally, run("loitsupar", "run", module, "1", "2", "--json", "--names", names), "run with names")
        tally.holds(said["name"] == "Object.turn" and said["value"] == "3" and said["checked"], "a module with a names file")
    ends(tally, run("loitsupar", "run", "examples/metres.turn"), 0, "an F", b"the F 0.3")
    ends(tally, run("loitsupar", "run", "-", input=b"\x05"), FAULT, "an input cut short", b"Number 9")


def test_trace(tally):
    """The steps of a trace are those of the second implementation, and stretches of long runs are shown."""
    for name in TRACED:
        said = said_json(tally, run("loitsupar", "trace", EXAMPLES / name, "--json"), f"trace {name}")
        data = assemble((EXAMPLES / name).read_text(encoding="utf-8")).data
        length = 2 + int.from_bytes(data[:2], "little")
        cases = [Case(data[2:length], data[length:], [], step["step"] - 1) for step in said["shown"]]
        second = output_of([sys.executable, "-B", MAIN / "second/replay.py"], b"".join(map(write_case, cases))).decode().splitlines()
        tops = [read_answer(line).state.frames[-1] for line in second]
        found = [(step["method"], step["offset"], len(step["stack"])) for step in said["shown"]]
        tally.holds(found == [(top.method, top.offset, len(top.stack)) for top in tops], f"trace {name}: the second implementation's places and depths")
        tally.holds(len(found) == said["steps"] == said["to"], f"trace {name}: all steps")
    said = run("loitsupar", "trace", "examples/keva.turn").stdout.decode()
    for words in ("makes Place object 1", "Place object 1: Place.name = int32 7", "starts class Place", "Bot.found = int32 1", "goes to 46",
                  "returns to Bot.look 7 with int32 1", "ends the run, handing back int32 2", "enters Bot.look(Place object 1, int32 7)"):
        tally.holds(words in said, f"a trace tells: {words}")
    said = run("loitsupar", "trace", "examples/loop.turn", "--from", "2", "--to", "2").stdout.decode()
    tally.holds("local next = int32 10" in said and "Shown: steps 2 to 2 of 104; --from 3 shows what follows" in said, "one step")
    ends(tally, run("loitsupar", "trace", "examples/wait.turn"), 0, "a long run", b"Shown: steps 1 to 200 of 100000; --from 201")
    ends(tally, run("loitsupar", "trace", "examples/wait.turn", "--from", "99999"), 0, "the end of a long run", b"Number 38")
    said = said_json(tally, run("loitsupar", "trace", "examples/wait.turn", "--budget", "1000000", "--to", "5000", "--json"), "more than a call shows")
    tally.holds((said["from"], said["to"], len(said["shown"])) == (1, 1000, 1000), "at most 1,000 steps in a call")
    ends(tally, run("loitsupar", "trace", "examples/loop.turn", "--from", "105"), FAULT, "a step past the end", b"has 104 steps")
    ends(tally, run("loitsupar", "trace", "examples/keva-too-many.turn"), 0, "a run that the check refuses", b"The check refuses this module")
    ends(tally, run("loitsupar", "trace", "examples/bad-override.turn"), FAULT, "no run begins", b"Number 7")
    ends(tally, run("loitsupar", "trace", "examples/loop.turn", "--budget", "0"), 0, "no steps", b"Steps before it: 0.")


def test_tools(tally):
    """The tools as subcommands say what they say alone."""
    for words in (["explain", "examples/cast.turn", "35", "2", "16", "6", "-"], ["shapes", "examples/keva.turn", "4"], ["asm", "examples/keva.turn"],
                  ["dis", "bench/d_virtual.bin", "--offsets"]):
        alone, within = run(f"tools/{words[0]}", *words[1:]), run("loitsupar", *words)
        tally.holds(alone.stdout == within.stdout and alone.stdout and alone.returncode == within.returncode == 0, f"loitsupar {words[0]}")
    ends(tally, run("loitsupar", "shapes", "examples/bad-override.turn"), FAULT, "shapes of a module that isn't loaded")
    ends(tally, run("loitsupar", "explain", "examples/keva.turn", input=b"\xff\x00" * 50_000), FAULT, "explain of bytes that are no line", b"no line of turn")
    ends(tally, run("tools/explain", "examples/keva.turn", "9" * 5000, "1", "1", "1", "1"), FAULT, "explain of a huge number", b"no line of turn")
    ends(tally, run("tools/explain", "-", "11", "1", "2", "0", "-", input=os.urandom(100_000)), 0, "explain of noise")
    if not (MAIN / "tools/report.py").exists():
        ends(tally, run("loitsupar", "report", "examples/keva.turn"), UNUSABLE, "report without its module", b"tools/report.py is not there")


def test_turn(tally):
    """The line of turn, and a status of 0 only where the ending is 0."""
    for name, how, line in expected_lines():
        if how == "turn":
            end = run("turn", EXAMPLES / name)
            ends(tally, end, 0 if line.startswith("0 ") else FAULT, f"turn {name}")
            tally.holds(end.stdout.decode() == line + "\n", f"turn {name}: {end.stdout}")
    ends(tally, run("turn", input=b"\x05"), FAULT, "an input cut short", b"9 0 0 0 -")
    ends(tally, run("turn", "/dev/zero"), FAULT, "an endless input", b"1 0 0 0 -")
    with tempfile.TemporaryDirectory() as folder:
        for program, words in ((TURN, []), (LOITSUPAR, ["run"]), (MAIN / "tools/answer", [])):
            link = pathlib.Path(folder) / program.name
            link.symlink_to(program)
            end = subprocess.run([link, *words, EXAMPLES / "keva.turn"], cwd=folder, capture_output=True, timeout=PATIENCE)
            ends(tally, end, 0, f"{program.name} through a symbolic link")


def test_streams(tally):
    """What can't be read or written never looks like success."""
    tiny, keva = "bench/tiny.bin", "examples/keva.turn"
    for line in (f"./turn {keva} >/dev/full", f"./turn {keva} >&-", "./turn <&-", "./turn <tools", "tools/proved turn <tools", "tools/proved turn <&-",
                 f"tools/proved turn <{tiny} >/dev/full", f"tools/proved replay <{tiny} >&-", "./loitsupar check - <&-", "./loitsupar --help >/dev/full",
                 "python3 second/replay.py <&-", "tools/answer - <&-"):
        ends(tally, shell(line), UNUSABLE, line)
    for program, words in PROGRAMS.items():
        start = "python3 " if program.endswith(".py") else "./"
        for target, told in ((">/dev/full", b"No space left"), (">&-", b"standard output is closed")):
            ends(tally, shell(f"{start}{program} {' '.join(words)} {target}"), UNUSABLE, f"{program} {target}", told)
        end = shell(f"set -o pipefail; {start}{program} {' '.join(words)} | true")
        tally.holds(end.returncode in (0, 141) and b"Traceback" not in end.stderr, f"{program} to a closed pipe: {end.returncode} {end.stderr[-200:]}")


def test_usage(tally):
    """Every program has help; wrong words and what can't be read end with a sentence."""
    for program in HELPED:
        ends(tally, run(program, "--help"), 0, f"{program} --help", program.encode() if program in IN_BASH else b"usage")
    for command in ("check", "run", "trace", "explain", "shapes", "report"):
        ends(tally, run("loitsupar", command, "--help"), 0, f"loitsupar {command} --help", b"example:")
    for program, *words in BAD_USAGE:
        ends(tally, run(program, *words), UNUSABLE, f"{program} {' '.join(words)[:80]}")
    for status, words in NO_SUCH:
        ends(tally, run(*words), status, " ".join(words))
    nowhere = {**os.environ, "PATH": "/nonexistent"}
    for program, *words in (["loitsupar", "run", "bench/tiny.bin"], ["tools/answer", "bench/tiny.bin"], ["tools/model_vectors"], ["bench/measure"]):
        end = subprocess.run([sys.executable, MAIN / program, *words], cwd=MAIN, env=nowhere, capture_output=True, timeout=PATIENCE)
        ends(tally, end, UNUSABLE, f"{program} with no program on the path")


# A kit that proves nothing: it prints the lines of rt, and what it builds prints the line of a run.
FALSE_RT = """#!/bin/sh
{
    echo "rt: chose --jobs 2 for model"
    echo "logic=proved functions=0"
    echo "rt: chose --jobs 2 for code"
    echo "logic=proved functions=25"
    echo "rt: chose --jobs 2 for turn"
    [ ! -e ../../refuse ] || { echo "logic=not-proved"; exit 1; }
    echo "logic=proved functions=2"
} >&2
mkdir -p out
printf '#!/bin/sh\\ncat >/dev/null\\n[ ! -e silent ] && echo 0 1 3 4 5\\n[ ! -e broken ]\\n' >out/turn
chmod +x out/turn
out/turn
"""


def test_proved(tally):
    """The first run says how far the proof is; a program that isn't proved, or that fails, never looks like success."""
    with tempfile.TemporaryDirectory() as folder:
        folder = pathlib.Path(folder)
        (folder / "tools").mkdir()
        shutil.copy(MAIN / "tools/proved", folder / "tools")
        shutil.copy(TURN, folder)
        (folder / "crates/turn/src").mkdir(parents=True)
        (folder / "crates/turn/src/main.rt").write_text("", encoding="utf-8")
        (folder / "crates.txt").write_text("# NAME: what it stands on\nother:\nturn: code\ncode: model\nmodel:\n", encoding="utf-8")
        (folder / "rt").write_text(FALSE_RT, encoding="utf-8")
        (folder / "rt").chmod(0o755)
        kit = {**os.environ, "PATH": f"{folder}:{os.environ['PATH']}"}

        def turn():
            return subprocess.run([folder / "turn"], cwd=folder, env=kit, input=b"", capture_output=True, timeout=PATIENCE)

        (folder / "refuse").touch()
        ends(tally, turn(), UNUSABLE, "a program that isn't proved", b"not proved, so it does not run")
        (folder / "refuse").unlink()
        end = turn()
        ends(tally, end, 0, "the first run", b"0 1 3 4 5\n")
        for words in (b"proving crate 1 of 3, model; 0 min ", b"proving crate 2 of 3, code;", b"proving crate 3 of 3, turn;",
                      b"turn is proved; it took"):
            tally.holds(words in end.stderr, f"progress: {words}; {end.stderr}")
        end = turn()
        tally.holds(end.stdout == b"0 1 3 4 5\n" and not end.stderr, "the second run proves nothing")
        for fault, told in (("broken", b"ended with status 1"), ("silent", b"printed no line")):
            (folder / fault).touch()
            ends(tally, turn(), UNUSABLE, f"a program that is {fault}", told)
            (folder / fault).unlink()


def main(words):
    parser_for(__doc__, "python3 tools/tests_commands.py").parse_args(words)
    tally = Tally()
    for test in (test_words, test_cases, test_check, test_check_all, test_check_vectors, test_run, test_trace, test_tools, test_turn, test_streams,
                 test_usage, test_proved):
        test(tally)
    print(f"{tally.passed} passed, {tally.failed} failed")
    return FAULT if tally.failed else 0


if __name__ == "__main__":
    started(main)
