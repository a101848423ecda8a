"""The program `turn` (01): two bytes of table length, tables and code in, one line out.

    python3 second/turn.py < input
"""

import programs
from check import check
from handed_back import CUT_SHORT, FINE, TOO_LONG
from state import value_text
from step import run
from tables import MOST_CODE_BYTES, MOST_TABLE_BYTES, load

BUDGET = 100000


def line(number, method=0, offset=0, steps=0, value=None):
    """Ending, method, offset, steps and value; what an answer lacks is 0, a value `-`."""
    return "%d %d %d %d %s" % (number, method, offset, steps, value_text(value))


def turn(data):
    """The answer line for a whole input: load, check, then run without arguments."""
    if len(data) < 2:
        return line(CUT_SHORT)
    announced = int.from_bytes(data[:2], "little")
    if announced > MOST_TABLE_BYTES:
        return line(TOO_LONG)
    if len(data) < 2 + announced:
        return line(CUT_SHORT)
    tables, code = data[2:2 + announced], data[2 + announced:]
    if len(code) > MOST_CODE_BYTES:
        return line(TOO_LONG)
    number, place, module = load(tables, code)
    if number != FINE:
        return line(number, offset=place)
    verdict = check(module)
    if verdict.number != FINE:
        return line(*verdict)
    ran = run(module, [], BUDGET)
    return line(*ran[:5])


def main(words):
    programs.parser_for(__doc__).parse_args(words)
    print(turn(programs.read_start("-")))  # the answer for a longer input is that of its start: too long


if __name__ == "__main__":
    programs.started(main)
