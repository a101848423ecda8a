"""How the programs of this folder read and write modules and texts (`-` is a standard stream), and how much they read."""

import contextlib
import sys

from .records import LARGEST_INPUT
from .words import TextError, TextErrors, grouped, word_at

# The text of the largest input that is looked at stays under these bounds.
LARGEST_TEXT = 4 << 20
MOST_LINES = 200_000
LONGEST_LINE = 4096

TEXT_ENDINGS = (".turn", ".il")
MARKS_OF_UTF_16 = (b"\xff\xfe", b"\xfe\xff")


class Refusal(SystemExit):
    """A sentence for the user, after which the program ends with status 1."""


def read_file(name, most=LARGEST_INPUT):
    """The bytes of a file, if it isn't larger than that; no more than that is read."""
    if name == "-":
        if sys.stdin is None:
            raise Refusal("standard input is closed")
        data = sys.stdin.buffer.read(most + 1)
    else:
        with open(name, "rb") as file:
            data = file.read(most + 1)
    if len(data) > most:
        raise Refusal(f"{shown_name(name)}: over {grouped(most)} bytes, and nothing that large is a module or its text: tables have at most "
                      "8,192 bytes, code 32,768")
    return data


def read_text_file(name):
    """The text of a file; a byte-order mark and carriage returns at the ends of lines are taken."""
    data = read_file(name, LARGEST_TEXT)
    if data.count(b"\n") > MOST_LINES:
        raise Refusal(f"{shown_name(name)}: over {grouped(MOST_LINES)} lines, and the text of no module needs as many: tables have at most "
                      "8,192 bytes, code 32,768")
    coding = "utf-16" if data[:2] in MARKS_OF_UTF_16 else "utf-8"
    try:
        return data.decode(coding).replace("\r\n", "\n").replace("\r", "\n")
    except UnicodeDecodeError as error:
        raise bad_coding(data, error.start, coding) from None


def bad_coding(data, place, coding):
    """The error of a text that isn't UTF-8, with the beginning of its line."""
    line = data.count(b"\n", 0, place) + 1
    start = data.rfind(b"\n", 0, place) + 1
    before = data[start:place].decode(coding, "replace")
    return TextErrors([TextError(word_at("?", line, len(before) + 1), "the text is not UTF-8")], [""] * (line - 1) + [before + "?"])


def read_line():
    """One line of standard input."""
    if sys.stdin is None:
        raise Refusal("standard input is closed")
    return sys.stdin.buffer.readline(LONGEST_LINE).decode("utf-8", "replace")


def write_file(name, data):
    """Puts bytes into a file."""
    if name == "-":
        sys.stdout.buffer.write(data)
        return
    try:
        with open(name, "wb") as file:
            file.write(data)
    except OSError as error:
        raise Refusal(f"{name}: {error.strerror}") from None


def shown_name(name):
    """A file for a message."""
    return "standard input" if name == "-" else name


def is_text_name(name):
    """Whether a file holds the text of a module, by the end of its name."""
    return name.endswith(TEXT_ENDINGS)


@contextlib.contextmanager
def fail_on_bad_text(name):
    """Turns the errors of a text, or of a file that can't be read, into a refusal that tells them all."""
    try:
        yield
    except TextErrors as bad:
        raise Refusal(bad.told(shown_name(name))) from None
    except OSError as error:
        raise Refusal(f"{shown_name(name)}: {error.strerror}") from None
