"""How the programs of this folder start, read and end: as those of tools/ do, with a sentence and a status in place of a traceback."""

import pathlib
import sys

sys.dont_write_bytecode = True
sys.path.append(str(pathlib.Path(__file__).resolve().parent.parent / "tools"))

from common import Trouble, a_count, parser_for, read_start, started


def standard_input():
    """All bytes of standard input."""
    return read_start("-", -1)
