"""explain: a line of `turn` in plain words for a module."""

from commands.options import add_module
from common import FAULT, Trouble, parser_for
from housetext.explaining import explain, read_answer, read_source
from housetext.files import read_line
from housetext.words import shown

WHAT = """Says in plain words what a line of `turn` means for a module.

LINE is what `turn` printed: ending, method, offset, steps and value; without it the line comes from standard input. A text brings its names and
its line numbers."""
EXAMPLE = "tools/explain examples/keva.turn 0 4 48 69 2\n  ./turn examples/keva.turn | tools/explain examples/keva.turn"


def main(words):
    parser = parser_for(WHAT, EXAMPLE)
    add_module(parser)
    parser.add_argument("line", metavar="LINE", nargs="*", help="the words of a line")
    options = parser.parse_intermixed_args(words)
    if options.file == "-" and not options.line:
        parser.error("the module and the line can't both come from standard input")
    source = read_source(options.file, options.names)
    line = " ".join(options.line) or read_line()
    answer = read_answer(line)
    if answer is None:
        raise Trouble(f"{shown(line.strip())} is no line of turn: ending, method, offset, steps and value", FAULT)
    print("\n".join([line.strip()] + explain(source, answer)))
