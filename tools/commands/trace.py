"""trace: each step of a run, from the states that the proved machine leaves when its budget is 0, 1, 2 and so on."""

import json
from collections import namedtuple

from cases import answers, case_of, replayed
from commands.changes import Changes
from commands.options import a_step, add_run, run_options
from commands.places import Listings, cell_record, line_at, method_name, stack_words
from commands.run import ending_lines
from common import FAULT, Trouble, parser_for
from modules import read_module
from words import meaning

WHAT = """Shows each step of a run: its number, method and offset, the instruction, the stack before it, and what the step changed.

The states are those of the proved machine, which is run once for each step shown; so a call shows a stretch of the steps, the first 200 if
nothing else is asked for. The run doesn't ask the check. The status is 0 where there are steps to show, 1 where no run begins, 2 where the
module can't be read."""
EXAMPLE = "./loitsupar trace examples/loop.turn --from 90 --to 104"

SHOWN = 200  # steps that are shown if none are asked for
MOST_SHOWN = 1000
MOST_WORK = 100_000_000  # steps that the machine may take altogether for one call

HEADINGS = ["step", "method and offset", "instruction", "[stack before]", "what changed"]

# One step: its number, the state before it and what it changed.
Step = namedtuple("Step", "number state changes")


def main(words):
    parser = parser_for(WHAT, EXAMPLE)
    add_run(parser)
    parser.add_argument("--from", dest="first", metavar="STEP", type=a_step, default=1, help="the first step to show")
    parser.add_argument("--to", dest="last", metavar="STEP", type=a_step, help="the last step to show")
    parser.add_argument("--json", action="store_true", help="the steps as JSON")
    options = run_options(parser, words)
    if options.last is not None and options.last < options.first:
        parser.error("--to is before --from")
    module = read_module(options.file, options.names)
    whole = answers([module.data], options.arguments, options.budget)[0]
    if options.first > max(whole.run.steps, 1):
        raise Trouble(f"the run has {whole.run.steps} steps, so there is no step {options.first}", FAULT)
    last = last_shown(options, whole.run.steps)
    shown = traced(module, options, last) if last else []
    show = show_json if options.json else show_words
    show(options, module.source, whole, shown, last)
    return 0 if whole.state else FAULT


def last_shown(options, steps):
    """The last step to show: what was asked for, within the run and within the work that one call does."""
    wanted = options.last or options.first + SHOWN - 1
    within = min(MOST_SHOWN, max(1, MOST_WORK // max(1, min(wanted, steps))))
    return min(wanted, steps, options.first + within - 1)


def traced(module, options, last):
    """The steps from the first to the last shown, each out of the states before and after it."""
    budgets = range(options.first - 1, last + 1)
    said = replayed([case_of(module.data, options.arguments, budget) for budget in budgets])
    changes = Changes(module.source)
    pairs = enumerate(zip(said, said[1:]), options.first)
    return [Step(number, before.state, changes.between(before.state, after)) for number, (before, after) in pairs]


def stretch_words(options, steps, last):
    """What is shown of the run, and how to ask for more; nothing where all is shown."""
    if options.first == 1 and last == steps:
        return []
    more = f"; --from {last + 1} shows what follows" if last < steps else ""
    return [f"Shown: steps {options.first} to {last} of {steps}{more}, at most {MOST_SHOWN:,} in a call."]


def show_words(options, source, whole, shown, last):
    listings = Listings(source)
    rows = [HEADINGS] + [row_words(source, listings, step) for step in shown] if shown else []
    widths = [max(len(row[column]) for row in rows) for column in range(4)] if rows else []
    if whole.check.number and whole.state:
        number, method, offset = whole.check
        place = f"{method_name(source, method)} at offset {offset}"
        print(f"The check refuses this module: number {number} in {place}. This is the run that doesn't ask it.")
    for row in rows:
        print("  ".join([row[0].rjust(widths[0])] + [cell.ljust(width) for cell, width in zip(row[1:4], widths[1:])] + [row[4]]).rstrip())
    lines = stretch_words(options, whole.run.steps, last)
    if last == whole.run.steps:
        lines += ending_lines(source, [*whole.run], whole.state)
    print("\n".join(lines))


def row_words(source, listings, step):
    """The columns of a step: number, place, instruction, stack before it, what changed."""
    frame = step.state.frames[-1]
    place = f"{method_name(source, frame.method)} {frame.offset}"
    return [str(step.number), place, listings.instruction(frame.method, frame.offset), f"[{stack_words(source, step.state)}]", "; ".join(step.changes)]


def show_json(options, source, whole, shown, last):
    listings = Listings(source)
    number, method, offset, steps, value = whole.run
    print(json.dumps({
        "file": options.file, "arguments": options.arguments, "budget": options.budget, "check": whole.check._asdict(),
        "number": number, "meaning": meaning(number), "method": method, "offset": offset, "steps": steps, "value": None if value == "-" else value,
        "from": options.first, "to": last, "shown": [step_record(source, listings, step) for step in shown],
    }, indent=2))


def step_record(source, listings, step):
    frame = step.state.frames[-1]
    return {
        "step": step.number, "method": frame.method, "name": method_name(source, frame.method), "offset": frame.offset,
        "line": line_at(source, frame.method, frame.offset), "instruction": listings.instruction(frame.method, frame.offset),
        "frames": len(step.state.frames), "stack": [cell_record(source, step.state.heap, cell) for cell in frame.stack], "changes": step.changes,
    }
