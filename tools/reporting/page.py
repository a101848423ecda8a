"""The page: heading and verdict, the text with its marks, the methods, the run, all in one file that needs nothing else."""

import base64
import hashlib
import pathlib

from housetext.explaining import explain
from housetext.meanings import MEANINGS
from housetext.records import FIELD, LOCAL, PARAMETER

from .markup import Markup, data_script, empty_tag, prose, tag

HERE = pathlib.Path(__file__).resolve().parent
STYLE = (HERE / "page.css").read_text(encoding="utf-8")
SCRIPT = (HERE / "page.js").read_text(encoding="utf-8")

# What the numbers up to each of these are, in a word.
KINDS = [(0, "fine"), (9, "refused"), (17, "fault"), (22, "refused"), (38, "ended"), (46, "stuck")]

BUTTONS = [("first", "First", "Home"), ("back", "Back", "left arrow"), ("next", "Next", "right arrow"), ("last", "Last", "End")]


class Report:
    """All that one page tells. `line` is what `turn` prints, read, or None; `run` is None where no run is shown, and `why` then says why.
    `proved_shapes` tells whether the shapes are those of the proved check."""

    def __init__(self, name, text, source, opinion, methods, line, run, why, proved_shapes):
        self.name, self.text, self.source, self.opinion = name, text, source, opinion
        self.methods, self.line, self.run, self.why, self.proved_shapes = methods, line, run, why, proved_shapes


def page(report):
    """The whole page."""
    head = tag(
        "head", empty_tag("meta", charset="utf-8"), empty_tag("meta", name="viewport", content="width=device-width, initial-scale=1"),
        empty_tag("meta", http_equiv="Content-Security-Policy", content=policy()), tag("title", f"{report.name}: report"),
        tag("style", Markup(STYLE)))
    main = tag("main", text_panel(report), methods_panel(report), run_panel(report))
    body = tag("body", header(report), main, footer(report), data_script("data", data_of(report)), tag("script", Markup(SCRIPT)))
    return Markup("<!doctype html>\n" + tag("html", head, body, lang="en") + "\n")


def policy():
    """Nothing is fetched, and no style or script runs but the page's own."""
    style, script = (base64.b64encode(hashlib.sha256(part.encode()).digest()).decode() for part in (STYLE, SCRIPT))
    return f"default-src 'none'; style-src 'sha256-{style}'; script-src 'sha256-{script}'; base-uri 'none'; form-action 'none'"


def verdict_of(report):
    """Number, method, offset, steps and value, as a line of `turn` has them; None where there is no fault to tell and no run."""
    if report.line:
        return report.line
    if report.run is None:
        said = report.opinion.explanation[:3] if report.opinion else None
        return None if said is None or said[0] == 0 else [*said, 0, "-"]
    answer = report.run.answer
    return [*answer.check, 0, "-"] if answer.check.number else [*answer.run]


def header(report):
    """The verdict in words, and what loading, the check and the run say one by one."""
    verdict = verdict_of(report)
    if verdict:
        word, said = next(word for most, word in KINDS if verdict[0] <= most), explain(report.source, verdict)
    elif report.opinion:
        word, said = "fine", ["The check passes."]
    else:
        word, said = "unknown", ["Loading refuses this module, or the second implementation is missing."]
    good = word == "fine"
    more = " ".join(line.rstrip(":") + ("." if line.endswith(":") else "") for line in said[1:] if not line.startswith(" "))
    return tag(
        "header", tag("div", tag("h1", report.name), tag("button", "Light or dark", type="button", id="theme", hidden=True), class_="top"),
        tag("div", tag("p", tag("span", word, class_="word"), " ", tag("strong", prose(said[0]))),
            tag("p", prose(more)) if more else None, class_="verdict good" if good else "verdict bad", id="verdict"),
        facts(report), tag("nav", tag("a", "Text", href="#text"), tag("a", "Methods", href="#methods"), tag("a", "Run", href="#run")))


def facts(report):
    """A sentence for each of loading, check and run."""
    if report.run is None:
        return None
    answer = report.run.answer
    printed = tag("li", tag("b", "turn prints"), ": ", tag("code", " ".join(map(str, report.line)))) if report.line else None
    load, check, run = answer[:3]
    sentences = [("Loading", load.number, f"place {load.place}" if load.number else "")]
    if not load.number:
        place = f"method {check.method}, offset {check.offset}" if check.number else ""
        ended = f"method {run.method}, offset {run.offset}, {run.steps:,} steps" if run.method else ""
        value = f", value {run.value}" if run.value != "-" else ""
        sentences += [("Check", check.number, place), ("Run, which doesn't ask the check", run.number, ended + value)]
    return tag("ul", printed, [tag("li", tag("b", what), prose(f": {number}, {short(number, what)}" + (f" ({place})" if place else "")))
                      for what, number, place in sentences], class_="facts")


def short(number, what):
    """A number in words; 0 means another thing for each of the three."""
    return {"Loading": "loaded", "Check": "passed"}.get(what, "finished") if number == 0 else MEANINGS[number]


def text_panel(report):
    """The text with numbered lines, and beside a line what the check says of it."""
    marks = {}
    for method in report.methods:
        for offset, words in method.marks():
            marks.setdefault(method.lines.get(offset), []).append(words)
    lines = [text_line(number, line, marks.get(number, [])) for number, line in enumerate(report.text.rstrip("\n").split("\n"), 1)]
    return tag("section", tag("h2", "Text"), tag("div", lines, class_="text", tabindex=0, role="region", aria_label="Lines of the text"), id="text")


def text_line(number, line, marks):
    beside = [tag("span", words, class_="mark") for words in marks]
    return tag("div", tag("span", number, class_="number"), tag("code", line), beside, id=f"line-{number}", class_="line marked" if marks else "line")


def methods_panel(report):
    """Every method, after a list of them."""
    links = [tag("a", f"{method.row} {method.flow.name}" + (f" ({method.found.fault.number})" if method.found.fault else ""),
                 href=f"#method-{method.row}", class_="bad" if method.found.fault else None) for method in report.methods]
    found_by = ", as the proved check found them" if report.proved_shapes else ", from the second implementation" if report.opinion else ""
    legend = tag("p", f"Beside each instruction: its offset, and the depth and types of the stack before it{found_by}. ",
                 tag("span", "falls", class_="key fall"), " ", tag("span", "branches", class_="key branch"), " ",
                 tag("span", "branches back", class_="key back"), class_="legend")
    return tag("section", tag("h2", "Methods"), tag("nav", links, class_="list", aria_label="Methods"), legend,
               [method.section() for method in report.methods], id="methods")


def run_panel(report):
    """The stepping view, or the sentence why there is none."""
    if report.run is None or not report.run.states:
        why = report.why or f"The run has no state: {MEANINGS[report.run.answer.run.number]}."
        return tag("section", tag("h2", "Run"), tag("p", why, class_="why"), id="run")
    last = len(report.run.states) - 1
    buttons = [tag("button", words, type="button", id=name, title=f"Key: {key}") for name, words, key in BUTTONS]
    slider = empty_tag("input", type="range", id="slider", min=0, max=last, value=0, step=1, aria_label="Which state")
    return tag(
        "section", tag("h2", "Run"), tag("p", bound_words(report.run), id="bound"),
        tag("div", buttons, slider, class_="stepper", role="group", aria_label="Steps"),
        tag("p", id="now", aria_live="polite"), tag("div", id="state", tabindex=0, role="region", aria_label="State"),
        tag("noscript", tag("p", "Stepping needs the page's script.")), id="run")


def bound_words(run):
    """How many steps the run has, and which of its states are here."""
    steps = run.states[-1][0]
    shown = len(run.states) - 1
    if shown == steps:
        return f"{steps:,} steps; every state is here, before the first step and after each. It runs without asking the check."
    return f"{steps:,} steps, too many to show all: here are the states after 0 to {shown - 1:,} steps, and the one in which the run ended."


def footer(report):
    """Where each part comes from."""
    asked = report.run is not None
    sentences = [
        "Loading, the verdict of the check, the run and its states: the proved programs turn and replay." if asked else "No run by a proved program.",
        found_words(report)]
    said = report.opinion.explanation[:3] if report.opinion and asked else None
    if said is not None and tuple(said) != report.run.answer.check:
        sentences.append(f"They disagree about the check: the second implementation says {said[0]} {said[1]} {said[2]}.")
    return tag("footer", tag("p", " ".join(sentences)))


def found_words(report):
    """Where shapes and arrivals come from."""
    second = "the second implementation, which is tested and not proved."
    if report.proved_shapes:
        return "Shapes: the proved program tell. " + (f"Arrivals: {second}" if report.opinion else "No arrivals: the second implementation is missing.")
    if report.opinion:
        return f"Shapes and arrivals: {second}"
    return "No shapes: the module isn't loaded, or the second implementation is missing."


def data_of(report):
    """What the script needs: names, instructions with their lines, and the states, each part of them held once."""
    naming, module = report.source.naming, report.opinion.module if report.opinion else None
    fields = lambda row: [naming.members[FIELD][field].rpartition(".")[2] for field in module.instance_fields(row)] if module else []
    data = {
        "methods": {method.row: {
            "name": method.flow.name, "arguments": [name for name, _ in method.variables(PARAMETER)],
            "locals": [name for name, _ in method.variables(LOCAL)],
            "rows": {item.offset: [item.words, item.line] for item in method.flow.rows},
        } for method in report.methods},
        "classes": {row: {"name": name, "fields": fields(row)} for row, name in naming.classes.items()},
        "statics": naming.members[FIELD], "texts": [], "states": [], "ending": "",
    }
    if report.run and report.run.states:
        data["ending"] = ending_words(report.run.answer)
        put_states(data, report.run.states)
    return data


def put_states(data, states):
    """Each state as the numbers of its four parts among the texts; most parts are those of the state before."""
    numbers = {}
    for done, state in states:
        parts = [part.partition("=")[2] for part in state.split(" ")]
        data["states"].append([done] + [numbers.setdefault(part, len(numbers)) for part in parts])
    data["texts"] = list(numbers)


def ending_words(answer):
    number, value = answer.run.number, f" Value: {answer.run.value}." if answer.run.value != "-" else ""
    words = short(number, "Run").replace("`", "")
    return f"The run ended with number {number}: {words}.{value}"
