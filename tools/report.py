#!/usr/bin/env python3
"""report FILE [ARGUMENT ...] -o PAGE: one HTML page about a module, to be opened in a browser.

The page has the text with its lines, the control flow of each method as a picture with the shape before each instruction, the fault with
both arrivals where two disagree, and the run step by step with its whole state. It is one file and fetches nothing. Arguments are decimal and
go to the entry. The status is 0 where the page is written, whatever it tells of the module.
"""

import pathlib
import sys

sys.dont_write_bytecode = True

from cases import TURNS_BUDGET, case_of
from commands.options import add_run, run_options
from common import Trouble, a_count, parser_for, proved, read_start, shown, started
from housetext.assemble import assemble
from housetext.disassemble import disassemble
from housetext.explaining import Source, read_answer
from housetext.files import Refusal, is_text_name, write_file
from housetext.meanings import MEANINGS
from housetext.names import read_names
from housetext.records import LARGEST_INPUT
from housetext.second_opinion import second_opinion
from housetext.shaping import proved_shapes
from modules import read_text
from reporting.flow import Flow
from reporting.found import found_in
from reporting.methods import Method
from reporting.page import Report, page
from reporting.running import run_of

MOST_STATES = 500
EXAMPLE = "./loitsupar report examples/keva-too-many.turn -o page.html"


def text_of_input(name, names_file):
    """The text of an input of `turn`, with the names of a names file if there is one."""
    data = read_start(name, LARGEST_INPUT + 1)
    if len(data) > LARGEST_INPUT:
        raise Trouble(f"{shown(name)}: over {LARGEST_INPUT:,} bytes, and nothing that large is a module")
    return disassemble(data, read_text(names_file, read_names) if names_file else None)


def report_of(name, text, arguments, budget, most, program):
    """The Report of a text; `program` takes the name of a program and its input, and is None where no proved program is to be asked."""
    assembled = assemble(text)
    source = Source(assembled.data, assembled.names, assembled.record_lines, assembled.code_lines)
    opinion = second_opinion(source.tables, source.code)
    rows = range(1, len(source.methods) + 1)
    shapes, line, run, why = None, None, None, "No run is shown: it was not asked for."
    if program is not None:
        try:
            shapes = proved_shapes(source, rows, program)
            line, run, why = said_of(assembled.data, arguments, budget, most, program)
        except Trouble as trouble:
            why = f"No run is shown: {trouble}."
    methods = [Method(source, row, Flow(source, row), found_in(source, opinion, row, shapes and shapes[row])) for row in rows]
    return Report(name, text, source, opinion, methods, line, run, why, shapes is not None)


def said_of(data, arguments, budget, most, program):
    """The line of `turn` where its run is the one asked for, the Run, and why there is none."""
    line = read_answer(program("turn", data).decode("ascii", "replace"))
    if line is None:
        raise Trouble("turn printed no line")
    case = case_of(data, arguments, budget)
    if case is None:
        return line, None, f"No run is shown: {MEANINGS[line[0]]}."
    return None if arguments or budget != TURNS_BUDGET else line, run_of(case, most, program), None


def options_of(words):
    parser = parser_for(__doc__, EXAMPLE)
    add_run(parser)
    parser.add_argument("-o", "--out", metavar="PAGE", required=True, help="the page to write; - is standard output")
    parser.add_argument("--states", metavar="N", type=a_count, default=MOST_STATES, help="how many states to show from the beginning, %(default)s if not given")
    parser.add_argument("--no-run", action="store_true", help="leave the run out, and ask no proved program")
    return run_options(parser, words)


def main(words):
    options = options_of(words)
    program = None if options.no_run else proved

    def made(text):
        return report_of(pathlib.Path(options.file).name, text, options.arguments, options.budget, options.states, program)

    report = read_text(options.file, made) if is_text_name(options.file) else made(text_of_input(options.file, options.names))
    try:
        write_file(options.out, page(report).encode())
    except Refusal as refusal:
        raise Trouble(str(refusal)) from None
    if report.run is None and program is not None:
        print(f"report: {report.why}", file=sys.stderr)


if __name__ == "__main__":
    started(main)
