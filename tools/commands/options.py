"""What the command lines of several programs share."""

from cases import ARGUMENT_BYTES, MOST_ARGUMENTS, TURNS_BUDGET
from common import MOST_COUNT, a_count, whole_number

MOST_ROW = 255  # a row has one byte

FILE_HELP = "an input of turn, or a text whose name ends in .turn or .il; - is standard input"


def add_module(parser):
    parser.add_argument("file", metavar="FILE", help=FILE_HELP)
    parser.add_argument("--names", metavar="NAMES", help="the names that asm --names wrote, for an input that is no text")


def add_run(parser):
    """A module and what its run is given."""
    add_module(parser)
    parser.add_argument("arguments", metavar="ARGUMENT", nargs="*", type=an_argument, help="a whole number for the entry")
    parser.add_argument("--budget", metavar="N", type=a_count, default=TURNS_BUDGET, help="the most steps that the run may take; turn's are %(default)s")


def run_options(parser, words):
    options = parser.parse_intermixed_args(words)
    if len(options.arguments) > MOST_ARGUMENTS:
        parser.error(f"at most {MOST_ARGUMENTS} arguments")
    return options


def an_argument(word):
    high = 1 << (8 * ARGUMENT_BYTES - 1)
    return whole_number(word, -high, high - 1)


def a_step(word):
    return whole_number(word, 1, MOST_COUNT)


def a_row(word):
    return whole_number(word, 0, MOST_ROW)
