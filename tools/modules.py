"""A module of a file, for the programs that take one: an input of `turn`, or a text by the end of its name."""

from collections import namedtuple

from common import FAULT, Trouble, read_start, shown
from housetext.assemble import assemble
from housetext.explaining import Source
from housetext.files import Refusal, is_text_name, read_text_file
from housetext.names import read_names
from housetext.words import TextErrors

# The bytes of a module, and the same with its names and, out of a text, the lines of the text.
Module = namedtuple("Module", "data source")


class BadText(Trouble):
    """A text with errors, told with their file: a fault of what was asked about."""

    named = False

    def __init__(self, name, bad):
        super().__init__(bad.told(shown(name)), FAULT)
        self.errors = bad.errors


def read_text(name, action):
    """What an action makes of the text of a file."""
    try:
        return action(read_text_file(name))
    except TextErrors as bad:
        raise BadText(name, bad) from None
    except Refusal as refusal:
        raise Trouble(str(refusal)) from None
    except OSError as error:
        raise Trouble(f"{shown(name)}: {error.strerror}") from None


def read_module(name, names_file=None):
    """The module of a file; its names are those of its text, or of a names file."""
    if is_text_name(name):
        read = read_text(name, assemble)
        return Module(read.data, Source(read.data, read.names, read.record_lines, read.code_lines))
    data = read_start(name)  # the answer for a longer input is that of its start: too long
    return Module(data, Source(data, read_text(names_file, read_names) if names_file else None))
