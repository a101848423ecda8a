"""answer: the whole answer line of the proved `replay` for one module."""

from cases import case_of, write_case
from commands.options import add_run, run_options
from common import FAULT, Trouble, parser_for, proved
from modules import read_module

WHAT = """Prints the whole answer of the proved `replay` for one module: loading, the check, the run, which doesn't ask what the check said, and
the state that the run left, as vectors/README.md describes them. Arguments are decimal and go to the entry."""
EXAMPLE = "tools/answer examples/keva-too-many.turn"


def main(words):
    parser = parser_for(WHAT, EXAMPLE)
    add_run(parser)
    options = run_options(parser, words)
    case = case_of(read_module(options.file, options.names).data, options.arguments, options.budget)
    if case is None:
        raise Trouble("the tables are not all there, or there are more than 65,535 bytes of code: no case of replay", FAULT)
    line = proved("replay", write_case(case)).decode("ascii", "replace").strip()
    if not line:
        raise Trouble("the proved replay printed no answer")
    print(line)
