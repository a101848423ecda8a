"""run: the check of a module and then its run, with the value or the ending in words."""

import json

from cases import answers
from commands.options import add_run, run_options
from commands.places import line_at, method_name, stack_words
from common import FAULT, parser_for
from housetext.explaining import explain, place_lines, value_words
from modules import read_module
from words import ENDED, FINE, STUCK, meaning, of_stages

WHAT = """Checks a module on the proved check and runs it on the proved machine; arguments go to the entry.

The status is 0 only where the run ends 0, 1 with every other number, 2 where the module can't be read."""
EXAMPLE = "./loitsupar run examples/keva.turn --budget 1000"


def main(words):
    parser = parser_for(WHAT, EXAMPLE)
    add_run(parser)
    parser.add_argument("--unchecked", action="store_true", help="run without asking the check")
    parser.add_argument("--json", action="store_true", help="the answer as JSON")
    options = run_options(parser, words)
    module = read_module(options.file, options.names)
    answer = answers([module.data], options.arguments, options.budget)[0]
    ended = ending(answer, options.unchecked)
    if options.json:
        print(json.dumps(record(options, module.source, answer, ended), indent=2))
    else:
        print("\n".join(ending_lines(module.source, ended, answer.state)))
    return FAULT if ended[0] else 0


def ending(answer, unchecked):
    """Number, method, offset, steps and value as `turn` has them: those of the check, if it is asked and finds a fault, else those of the run."""
    if answer.check.number and not unchecked:
        return [*answer.check, 0, "-"]
    return [*answer.run]


def ending_lines(source, ended, state):
    """An ending in words. What stood on the stack where a run ended is told from the state that the proved machine left."""
    number, method, offset, steps, value = ended
    if number in of_stages(FINE):
        return [f"The turn finished after {steps} steps and handed back {value_words(source, method, value).rstrip(',')}."]
    if number not in of_stages(ENDED, STUCK):
        return explain(source, ended)
    lines = [f"Number {number}: {meaning(number)}.", f"Steps before it: {steps}."] + place_lines(source, method, offset)
    return lines + [f"On the stack, from its bottom: {stack_words(source, state)}."]


def record(options, source, answer, ended):
    """The answer for a program to read."""
    number, method, offset, steps, value = ended
    named = {"name": method_name(source, method), "line": line_at(source, method, offset)} if method else {"name": None, "line": None}
    return {
        "file": options.file, "arguments": options.arguments, "budget": options.budget, "checked": not options.unchecked,
        "number": number, "meaning": meaning(number), "method": method, "offset": offset, "steps": steps, "value": None if value == "-" else value,
        **named, "load": answer.load._asdict(), "check": answer.check._asdict(), "ran": number == 0 or number in of_stages(ENDED, STUCK),
    }
