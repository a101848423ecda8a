#!/usr/bin/env python3
"""tests_report.py [--proved]: tests of the page that tools/report.py makes, of tools/pages, and of the tables of docs/REFERENCE.md.

States and shapes come from the second implementation; with --proved the proved programs are asked too, and must give the same page. Where there is a
Chromium on the path, the page is opened in it, stepped through by buttons and keys, and what then stands there is compared.
"""

import html.parser
import json
import pathlib
import random
import re
import shutil
import subprocess
import sys
import tempfile

sys.dont_write_bytecode = True

import report
from cases import TURNS_BUDGET
from common import Trouble, parser_for, proved, started
from housetext.assemble import assemble
from housetext.disassemble import disassemble
from housetext.explaining import Source
from housetext.il_writing import disassemble_il
from housetext.instructions import BY_OPCODE
from housetext.records import BODY_LENGTH, SORTS
from housetext.second_opinion import second_opinion
from reporting.found import found_in
from reporting.flow import Flow
from reporting.layout import laid_out
from reporting.markup import data_script, tag
from tests import MAIN, TOOLS, Tally, second_program, vector_modules
from words import CHECK, ENDED, FINE, INPUT, LOADING, NUMBERS, REFUSED, STUCK

SEED = 20220
GRAPHS = 60
MODULES = 100  # modules of the vectors whose pages are made
BROWSERS = ("chromium", "chromium-browser", "google-chrome")
BROWSER_SECONDS = 120


def example(name):
    return (MAIN / "examples" / name).read_text(encoding="utf-8")


def source_of(text):
    assembled = assemble(text)
    return Source(assembled.data, assembled.names, assembled.record_lines, assembled.code_lines)


def report_of(name, text=None, states=500, program=second_program, arguments=()):
    return report.report_of(name, text or example(name), list(arguments), TURNS_BUDGET, states, program)


def page_of(*words, **options):
    return report.page(report_of(*words, **options))


class Elements(html.parser.HTMLParser):
    """The elements of a page with their attributes, and whether each is closed where it should be."""

    EMPTY = ("meta", "input")

    def __init__(self, text):
        super().__init__()
        self.seen, self.open, self.balanced = [], [], True
        self.feed(text)
        self.close()

    def handle_starttag(self, name, attributes):
        self.seen.append((name, dict(attributes)))
        if name not in self.EMPTY:
            self.open.append(name)

    def handle_endtag(self, name):
        self.balanced = self.balanced and bool(self.open) and self.open.pop() == name

    def names(self):
        return {name for name, _ in self.seen}

    def identities(self):
        return [attributes["id"] for _, attributes in self.seen if "id" in attributes]


HOSTILE = "</script></style><script>document.title='taken'</script><img src=x onerror=\"document.title='taken'\"> &amp; \" ' `x`"
HOSTILE_NAME = "<img src=x onerror=alert(1)>&quot;.turn"
HOSTILE_TEXT = f"; {HOSTILE}\n" + example("other-shape.turn")


def test_markup(tally):
    """No text becomes HTML, in an element, an attribute or the data of the script."""
    said = tag("p", HOSTILE, title=HOSTILE)
    tally.holds(said.count("<") == 2 and said.count(">") == 2, "a hostile text in an element and an attribute")
    data = data_script("data", {HOSTILE: [HOSTILE]})
    tally.holds(data.count("<") == 2 and "&" not in data, "a hostile text in the data")
    tally.holds(json.loads(data[data.index(">") + 1:data.rindex("<")]) == {HOSTILE: [HOSTILE]}, "the data comes back as it was")
    for text in (page_of(HOSTILE_NAME, HOSTILE_TEXT), page_of(HOSTILE_NAME, HOSTILE_TEXT, program=None)):
        elements = Elements(text)
        tally.holds("img" not in elements.names() and elements.balanced, "a hostile file and file name make no element")
        tally.holds(sum(name == "script" for name, _ in elements.seen) == 2, "the page has its own two script elements alone")


def test_page(tally):
    """The pages of all examples: closed elements, each identity once, nothing that is fetched, every line of the text."""
    for path in sorted((MAIN / "examples").glob("*.turn")):
        text = page_of(path.name, states=40)
        elements = Elements(text)
        tally.holds(elements.balanced and not elements.open, f"{path.name}: elements are closed")
        identities = elements.identities()
        tally.holds(len(identities) == len(set(identities)), f"{path.name}: each identity once")
        links = [value for _, attributes in elements.seen for key, value in attributes.items() if key in ("src", "href")]
        tally.holds(all(link.startswith("#") and link[1:] in identities for link in links), f"{path.name}: links stay in the page")
        tally.holds("style" not in {key for _, attributes in elements.seen for key in attributes}, f"{path.name}: no style but the page's own")
        tally.holds("http" not in re.sub(r'http-equiv="', "", text), f"{path.name}: no address of a network")
        lines = path.read_text(encoding="utf-8").rstrip("\n").count("\n") + 1
        tally.holds({f"line-{number}" for number in range(1, lines + 1)} <= set(identities), f"{path.name}: every line is there")
        methods = len(source_of(path.read_text(encoding="utf-8")).methods)
        tally.holds(sum(name == "svg" for name, _ in elements.seen) == methods, f"{path.name}: a picture for each method")


def test_found(tally):
    """The two arrivals of a fault 16, from which instruction, how and with what."""
    source = source_of(example("other-shape.turn"))
    fault = found_in(source, second_opinion(source.tables, source.code), 1).fault
    tally.holds((fault.number, fault.offset) == (16, 3), "the fault")
    tally.holds(fault.first == (1, 4, [], False), f"the first arrival: {fault.first}")
    tally.holds(fault.other == (3, 4, ["int32"], True), f"the other arrival: {fault.other}")
    text = page_of("other-shape.turn")
    for words in ("offset 1, line 7: brtrue.s join branches there and brings <strong>an empty stack</strong>",
                  "offset 3, line 8: ldc.i4.0 falls there and brings <strong>int32</strong>", "A brings nothing", "B brings int32"):
        tally.holds(words in text, f"the page says: {words}")
    backward = "class Object\nmethod Object.turn static void stack 1\n  br.s +1\n  again:\n  ret\n  ldc.i4.1\n  br.s again\nentry Object.turn\n"
    source = source_of(backward)
    fault = found_in(source, second_opinion(source.tables, source.code), 1).fault
    tally.holds(fault.first.source is None and fault.other[:3] == (4, 2, ["int32"]), f"no earlier arrival: {fault}")
    tally.holds("no earlier instruction arrives there, so the shape is an empty stack" in page_of("back.turn", backward), "and its words")


def test_shapes(tally):
    """The shapes are those of `tell` where the module passes and a program is asked, else the second implementation's; the page says whose."""
    proved_words = ("before it, as the proved check found them.", "Shapes: the proved program tell. Arrivals: the second implementation")
    second_words = ("before it, from the second implementation.", "Shapes and arrivals: the second implementation")
    for name, program, words in (("keva.turn", second_program, proved_words), ("keva.turn", None, second_words),
                                 ("other-shape.turn", second_program, second_words), ("bad-override.turn", second_program, ("before it. ", "No shapes: "))):
        text = page_of(name, program=program)
        tally.holds(all(part in text for part in words), f"{name}: whose the shapes are")

    def other(name, data):
        said = second_program(name, data)
        return said.replace(b" 1 2 1 1\n", b" 1 2 2 2\n") if name == "tell" else said

    shapes = [method.found.shapes for method in report_of("loop.turn").methods]
    tally.holds(["int32", "int32"] in shapes[0].values() and [method.found.shapes for method in report_of("loop.turn", program=None).methods] == shapes,
                "the same shapes, whoever is asked")
    tally.holds(["int64", "int64"] in report_of("loop.turn", program=other).methods[0].found.shapes.values(), "the shapes that the program tells")


def test_vectors(tally):
    """Modules of the vectors: a page for each, blocks that hold every byte once, and the fault that the second implementation names."""
    modules = list(vector_modules())
    for data in random.Random(SEED).sample(modules, MODULES):
        made = report_of("case.bin", disassemble(data), program=None)
        tally.holds(Elements(report.page(made)).balanced, "a page for a module of the vectors")
        said = made.opinion.explanation if made.opinion else None
        if said and said.number:
            fault = made.methods[said.method - 1].found.fault
            tally.holds((fault.number, fault.offset) == (said.number, said.offset), f"the fault {said.number} of a module of the vectors")
        for method in made.methods:
            rows = [row.offset for block in method.flow.blocks for row in block.rows]
            tally.holds(rows == [row.offset for row in method.flow.rows], "blocks hold each instruction once, by offset")


def test_flow(tally):
    """Blocks and edges of an example."""
    flow = Flow(source_of(example("loop.turn")), 1)
    tally.holds([block.offset for block in flow.blocks] == [0, 4, 20], "blocks of a loop")
    tally.holds([tuple(edge) for edge in flow.edges] == [(0, 1, True), (1, 2, True), (1, 1, False)], "edges of a loop")
    flow = Flow(source_of("class Object\nmethod Object.turn static void stack 1\n  br.s +5\n  brtrue.s -1\nentry Object.turn\n"), 1)
    notes = [block.note for block in flow.blocks if not block.rows]
    tally.holds(notes == ["offset 7: outside the code", "the end of the code", "offset 3: inside an instruction"], f"no instruction: {notes}")


def test_layout(tally):
    """No two boxes of a layout touch, and each edge goes from the bottom of its one box to the top of the other."""
    dice = random.Random(SEED)
    for _ in range(GRAPHS):
        count = dice.randrange(1, 30)
        sizes = [(dice.randrange(90, 300), dice.randrange(20, 200)) for _ in range(count)]
        edges = [(node, node + 1) for node in range(count - 1) if dice.random() < 0.8]
        edges += [(dice.randrange(count), dice.randrange(count)) for _ in range(count // 2)]
        layout = laid_out(sizes, edges)
        boxes = [(x, y, x + width, y + height) for (x, y), (width, height) in zip(layout.places, sizes)]
        apart = all(a[2] < b[0] or b[2] < a[0] or a[3] < b[1] or b[3] < a[1] for index, a in enumerate(boxes) for b in boxes[:index])
        tally.holds(apart, f"boxes of a graph, seed {SEED}")
        tally.holds(all(x >= 0 and y >= 0 and right <= layout.width and low <= layout.height for x, y, right, low in boxes), "boxes inside")
        ends = [(points[0], points[-1], boxes[source], boxes[target]) for points, (source, target) in zip(layout.routes, edges)]
        joined = all(a[0] < out[0] < a[2] and out[1] == a[3] and b[0] < into[0] < b[2] and into[1] == b[1] for out, into, a, b in ends)
        tally.holds(joined, f"edges of a graph, seed {SEED}")


def test_running(tally):
    """A state after each step, few of them for a long run, and none where there is no run."""
    run = report_of("keva-too-many.turn").run
    tally.holds([done for done, _ in run.states] == list(range(68)), "a state after each of 67 steps, and before them")
    tally.holds(run.states[-1][1].startswith("frames=[4,47;;;i2,i2]"), "both values on the stack where the run ends")
    run = report_of("wait.turn", states=20).run
    tally.holds([done for done, _ in run.states] == [*range(20), 100_000], "a long run is cut, its last state kept")
    tally.holds("here are the states after 0 to 19 steps" in page_of("wait.turn", states=20), "the sentence about a long run")
    text = page_of("bad-override.turn")
    tally.holds("The run has no state: this method overrides one" in text, "a module that isn't loaded")
    tally.holds("another number of arguments" in page_of("loop.turn", arguments=[1]), "an argument too many")

    for text, words in (("input 05\n", "Number 9"), ("announced 30\nclass A\n", "Number 9"), ("announced 9000\n", "Number 1"), ("record 09\n", "Number 2")):
        tally.holds(words in page_of("short.turn", text), f"{text!r}: {words}")

    def missing(name, data):
        raise Trouble("no program here")

    tally.holds("No run is shown: no program here" in page_of("loop.turn", program=missing), "a page without the proved program")


def test_proved(tally):
    """The proved programs give the same pages as the second implementation."""
    for path in sorted((MAIN / "examples").glob("*.turn")):
        tally.holds(page_of(path.name, program=proved) == page_of(path.name), f"{path.name}: the proved program gives the same page")


def test_program(tally):
    """The program, with a text, with bytes, and with what can't be read."""
    with tempfile.TemporaryDirectory() as folder:
        folder = pathlib.Path(folder)
        out, module, il, bad = (folder / name for name in ("page.html", "keva.bin", "keva.il", "bad.turn"))
        module.write_bytes(assemble(example("keva.turn")).data)
        il.write_text(disassemble_il(module.read_bytes()), encoding="utf-8")
        bad.write_text("class\n")

        def ended(*words):
            end = subprocess.run([sys.executable, TOOLS / "report.py", *words], capture_output=True)
            return end.returncode, end.stderr.decode()

        for name in (MAIN / "examples/keva.turn", module, il):
            tally.holds(ended(name, "-o", out, "--no-run") == (0, ""), f"report of {name.name}")
            tally.holds(out.read_text(encoding="utf-8").startswith("<!doctype html>"), f"the page of {name.name}")
        status, said = ended(bad, "-o", out)
        tally.holds(status == 1 and said.startswith(f"{bad}:1:"), "the message of a bad text")
        for words, wanted in (((folder / "none.turn", "-o", out), "none.turn: No such file"), ((folder / "none.bin", "-o", out), "none.bin: No such file"),
                              ((module, "-o", folder / "none/page.html", "--no-run"), "page.html: No such file"),
                              ((module, "-o", out, "--budget", "-1"), "outside 0"), ((module, "-o", "/dev/full", "--no-run"), "/dev/full: No space")):
            status, said = ended(*words)
            tally.holds(status == 2 and wanted in said, f"{wanted}: {status} {said}")


# A script that steps through the page and writes down what it sees.
DRIVER = """<script>
const told = {}, by = (name) => document.getElementById(name), now = () => by("now").textContent;
const press = (key) => by("slider").dispatchEvent(new KeyboardEvent("keydown", { key, bubbles: true, cancelable: true }));
const boxes = () => [...document.querySelectorAll(".frame.running .cells")].map((box) => box.textContent);
told.first = now();
by("next").click(); told.next = now();
press("ArrowRight"); told.right = now();
press("ArrowLeft"); told.left = now();
by("slider").value = "5"; by("slider").dispatchEvent(new Event("input")); told.slid = now();
press("End"); told.last = now(); told.cells = boxes();
told.row = [...document.querySelectorAll(".row.now, .line.now")].map((element) => element.id);
told.state = by("state").textContent;
press("ArrowRight"); told.beyond = now();
press("Home"); told.home = now();
by("theme").click(); told.theme = document.documentElement.dataset.theme;
by("theme").click(); told.again = document.documentElement.dataset.theme;
told.wide = document.documentElement.scrollWidth <= innerWidth;
const box = document.createElement("pre"); box.id = "told"; box.textContent = JSON.stringify(told); document.body.append(box);
</script>"""


def dumped(browser, folder, name, text, fragment=""):
    """The page as the browser has it after its script ran."""
    path = folder / name
    path.write_text(text, encoding="utf-8")
    words = [browser, "--headless", "--no-sandbox", "--disable-gpu", "--window-size=1400,900", f"--user-data-dir={folder / 'profile'}", "--dump-dom"]
    ended = subprocess.run([*words, path.as_uri() + fragment], capture_output=True, timeout=BROWSER_SECONDS)
    return ended.stdout.decode(errors="replace")


def without_policy(text):
    """A page that lets the tests' own script run."""
    return re.sub(r'<meta http-equiv="Content-Security-Policy"[^>]*>', "", text)


def test_browser(tally, browser):
    """In a real browser: steps by buttons, keys and slider; a hostile text stays text."""
    with tempfile.TemporaryDirectory() as folder:
        folder = pathlib.Path(folder)
        text = without_policy(page_of("keva-too-many.turn")).replace("</body>", DRIVER + "</body>")
        found = re.search(r'<pre id="told">(.*?)</pre>', dumped(browser, folder, "driven.html", text), re.S)
        tally.holds(found is not None, "the page's script runs")
        told = json.loads(html.unescape(found[1])) if found else {}
        for key, words in (("first", "After 0 steps."), ("next", "After 1 step."), ("right", "After 2 steps."), ("left", "After 1 step."),
                           ("slid", "After 5 steps."), ("last", "After 67 steps. The run ended with number 45"), ("home", "After 0 steps.")):
            tally.holds(told.get(key, "").startswith(words), f"{key}: {words}, got {told.get(key)}")
        tally.holds(told.get("beyond") == told.get("last"), "no step beyond the last")
        tally.holds(told.get("row") == ["line-62", "m4-47"], f"the place in the text and in the picture: {told.get('row')}")
        cells = " ".join(" ".join(told.get("cells", [])).split())
        tally.holds("Stack, from its bottom int32 2 int32 2 (changed)" in cells.replace("bottomint32", "bottom int32"), f"both values: {cells}")
        tally.holds(all(words in told.get("state", "") for words in ("Bot.found", "Object 3: Place", "Marks")), "objects, statics and marks")
        tally.holds({told.get("theme"), told.get("again")} == {"light", "dark"}, "light and dark")
        tally.holds(told.get("wide") is True, "the page is no wider than its window")
        real = dumped(browser, folder, "page.html", page_of("metres.turn"), "#step-2")
        tally.holds("After 2 steps." in real and "0.1 (3FB999999999999A)" in real, "the page as it is, at a step that its address names")
        for hostile in (page_of(HOSTILE_NAME, HOSTILE_TEXT), without_policy(page_of(HOSTILE_NAME, HOSTILE_TEXT))):
            dom = dumped(browser, folder, "hostile.html", hostile)
            tally.holds("<img" not in dom and "<title>taken" not in dom and "After 0 steps." in dom, "a hostile text stays text")


def rows_of(text, heading):
    """The cells of the first table after a heading, without its head."""
    part = text.split(f"\n{heading}\n", 1)[1]
    lines = re.search(r"(?:^\|.*\n)+", part, re.M)[0].splitlines()[2:]
    return [[cell.strip() for cell in line.strip("|").split("|")] for line in lines]


OPERANDS = {
    "": "none", "argument number, 1 byte": "argument", "local number, 1 byte": "local", "constant, 1 signed byte": "int8", "constant, 4 bytes": "int32",
    "distance, 1 signed byte": "near", "distance, 4 signed bytes": "far", "class token, 4 bytes": "class", "field token, 4 bytes": "field",
    "method token, 4 bytes": "method",
}
OPERANDS_OF_EIGHT = ("int64", "real")


# Who says the numbers of a stage, as docs/REFERENCE.md has it; `turn` refuses an input that is too long too.
SAID_BY = {FINE: "all", LOADING: "loading", INPUT: "`turn`", CHECK: "check", REFUSED: "run", ENDED: "run", STUCK: "run"}
TOO_LONG = 1


def said_by(number, row):
    return f"{SAID_BY[row.stage]}, `turn`" if number == TOO_LONG else SAID_BY[row.stage]


def test_reference(tally):
    """The tables of docs/REFERENCE.md say what the code has."""
    text = (MAIN / "docs/REFERENCE.md").read_text(encoding="utf-8")
    numbers = [(int(number), name, said) for number, name, said, *_ in rows_of(text, "## Numbers")]
    tally.holds(numbers == [(number, row.name, said_by(number, row)) for number, row in sorted(NUMBERS.items())], "every number, with its name and who says it")
    kinds = {int(row[0], 16): int(row[2]) for row in rows_of(text, "## Records")}
    tally.holds(kinds == BODY_LENGTH, "kinds of records and their lengths")
    tally.holds([row[1] for row in rows_of(text, "## Sorts")] == SORTS, "sorts")
    rows = re.findall(r"^\| ([0-9A-F]{2}(?: [0-9A-F]{2})?) \| `(\S+)` \| (\d) \| (.*?) ?\| (.*?) \| (.*?) \| (.*?) ?\|$", text, re.M)
    tally.holds(len(rows) == len(BY_OPCODE), "each instruction has one row")
    tally.holds(f"| {len(BY_OPCODE)} of ECMA-335" in (MAIN / "README.md").read_text(encoding="utf-8"), "how many instructions the README counts")
    for opcode, name, length, operand, *_ in rows:
        form = BY_OPCODE.get(bytes.fromhex(opcode))
        tally.holds(form is not None and (form.mnemonic, form.length) == (name, int(length)), f"{opcode} {name}")
        right = form.operand in OPERANDS_OF_EIGHT if operand == "constant, 8 bytes" else OPERANDS.get(operand) == form.operand
        tally.holds(right, f"operand of {name}: {operand}")
    test_reference_limits(tally, {row[0]: row[2].replace(",", "") for row in rows_of(text, "## Limits")})
    test_reference_stack(tally, rows)


def second_module(name):
    """A module of the second implementation, which second_opinion has loaded."""
    second_opinion(b"", b"")
    return sys.modules[name]


def test_reference_limits(tally, limits):
    tables, step = second_module("tables"), second_module("step")
    wanted = {
        "bytes of tables": tables.MOST_TABLE_BYTES, "bytes of code": tables.MOST_CODE_BYTES, "classes": tables.MOST_CLASSES,
        "fields": tables.MOST_FIELDS, "static fields": tables.MOST_STATIC_FIELDS, "methods": tables.MOST_METHODS,
        "instance fields of a class, with those inherited": tables.MOST_INSTANCE_FIELDS, "locals of a method": tables.MOST_LOCALS,
        "arguments of a method, counting `this`": tables.MOST_ARGUMENTS, "max stack of a method": tables.MOST_STACK,
        "bytes of a method's code": tables.MOST_METHOD_CODE, "budget": step.MOST_BUDGET, "live frames": step.MOST_FRAMES,
        "objects made": step.MOST_OBJECTS,
    }
    tally.holds(limits == {what: str(most) for what, most in wanted.items()}, f"limits: {limits}")


def test_reference_stack(tally, rows):
    """What operators and branches pop is what the second implementation wants, in the same words; what brings nothing says so."""
    rules = second_module("operators").RULES
    for _, name, _, _, pops, pushes, _ in rows:
        rule = rules.get(name.removesuffix(".s"))
        if rule:
            tally.holds(pops == rule.words, f"what {name} pops: {pops}")
            tally.holds((pushes == "nothing") == name.startswith("b"), f"what {name} pushes: {pushes}")


# A page, and how many of its commands pass and fail.
PAGES = [
    ("    $ echo a\n    a\n", (1, 0)),
    ("    $ echo a\n    b\n", (0, 1)),
    ("    $ echo a; echo b\n    a\n", (0, 1)),
    ("    $ echo a; echo b >&2\n    a\n    b\n\n    $ true\n", (2, 0)),
    ("    $ seq 9\n    1\n    ...\n    9\n", (1, 0)),
    ("    $ seq 9\n    1\n    ...\n    8\n", (0, 1)),
    ("    $ seq 2\n    1\n    ...\n    2\n    ...\n", (1, 0)),
    ("    $ printf 'a\\n\\nb\\n'\n    a\n\n    b\n\ntext\n", (1, 0)),
    ("    $ echo a \\\n        b\n    a b\n", (1, 0)),
    ("```console\n$ echo a\na\n$ echo b\nb\n```\n\n```sh\n$ echo c\nd\n```\n", (2, 0)),
    ("    $ echo x > $TMPDIR/x\n\n    $ cat $TMPDIR/x\n    x\n", (2, 0)),
    ("text `$ echo a`\n\n    echo b\n    $HOME\n", (0, 0)),
]


def test_pages(tally):
    """tools/pages finds the commands of a page and compares what they print."""
    with tempfile.TemporaryDirectory() as folder:
        for number, (text, wanted) in enumerate(PAGES):
            page = pathlib.Path(folder) / f"page{number}.md"
            page.write_text(text)
            ended = subprocess.run([sys.executable, TOOLS / "pages", page], capture_output=True, cwd=MAIN)
            said = ended.stdout.decode().splitlines()[-1]
            right = said == f"{wanted[0]} passed, {wanted[1]} failed" and ended.returncode == (1 if wanted[1] else 0)
            tally.holds(right, f"{text!r}: {ended.stdout.decode()}{ended.stderr.decode()}")


def main(words):
    parser = parser_for(__doc__, "tools/tests_report.py --proved")
    parser.add_argument("--proved", action="store_true", help="ask the proved programs too")
    options = parser.parse_args(words)
    tally = Tally()
    for test in (test_markup, test_layout, test_flow, test_found, test_shapes, test_running, test_page, test_vectors, test_program, test_reference, test_pages):
        test(tally)
    if options.proved:
        test_proved(tally)
    browser = next(filter(None, map(shutil.which, BROWSERS)), None)
    if browser:
        test_browser(tally, browser)
    else:
        print("No Chromium is on the path; the page was not opened in a browser.")
    print(f"{tally.passed} passed, {tally.failed} failed")
    return 1 if tally.failed else 0


if __name__ == "__main__":
    started(main)
