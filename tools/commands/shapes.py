"""shapes: the types on the stack before each instruction, as the check finds them."""

from commands.options import a_row, add_module
from common import FAULT, Trouble, parser_for, proved
from housetext.explaining import read_source
from housetext.shaping import shape_lines

WHAT = """Shows the shapes that the proved check finds in a module. Where it has a fault, they are those of the second implementation, and marked so.

For each instruction of the method at row METHOD, or of every method, a line has its offset, the depth of the stack before it, the instruction,
and the types on the stack from its bottom. The lines end where the check of that method does, with the fault and what was wanted."""
EXAMPLE = "tools/shapes examples/keva.turn 4"


def main(words):
    parser = parser_for(WHAT, EXAMPLE)
    add_module(parser)
    parser.add_argument("method", metavar="METHOD", nargs="?", type=a_row, help="the row of a method")
    options = parser.parse_intermixed_args(words)
    lines = shape_lines(read_source(options.file, options.names), options.method, proved)
    if lines is None:
        raise Trouble("none to be had: loading refuses this module, or the check does and the second implementation is missing", FAULT)
    print("\n".join(lines))
