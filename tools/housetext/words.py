"""Words with their places, the small readers for them (names, numbers, bytes), and the errors that bad words give."""

import re
import struct
import unicodedata

from .records import TYPES

COMMENT = ";"
WORD = re.compile(r"\S+")
NUMBER = re.compile(r"[+-]?(0x[0-9A-Fa-f]+|[0-9]+)\Z")
DECIMAL = re.compile(r"[+-]?[0-9]+(\.[0-9]*)?([eE][+-]?[0-9]+)?\Z")
BITS = re.compile(r"0x[0-9A-Fa-f]{16}\Z")
BYTE = re.compile(r"[0-9A-Fa-f]{2}\Z")

ONE_NAN = 0x7FF8000000000000

MOST_ERRORS = 100   # of one text are told
MOST_DIGITS = 400   # of a number are read; none that fits anywhere has more
WORD_SHOWN = 60     # letters of a word in a message
LINE_SHOWN = 120    # letters of a line above its caret


class Word(str):
    """A piece of a text with the line and column of its first letter, both from 1. What is quoted is a name, whatever it spells."""

    __slots__ = ("line", "column", "quoted")

    def cut(self, start, stop=None):
        """A piece of this word, with its own place."""
        return word_at(self[start:stop], self.line, self.column + start)

    def saying(self, text):
        """Another text at this place."""
        return word_at(text, self.line, self.column)


def word_at(text, line, column, quoted=False):
    """A word at a place."""
    word = Word(text)
    word.line, word.column, word.quoted = line, column, quoted
    return word


class TextError(Exception):
    """A word that cannot be read or encoded."""

    def __init__(self, word, message):
        super().__init__(message)
        self.line = word.line
        self.column = word.column
        self.width = len(word) + (2 if word.quoted else 0)
        self.message = message


class TextErrors(Exception):
    """All errors of one text in the order of their places, with the lines of the text."""

    def __init__(self, errors, lines=()):
        super().__init__("bad text")
        self.errors = sorted(errors, key=lambda error: (error.line, error.column))
        self.lines = lines

    def told(self, name):
        """The message of each error: file, line and column, then the line of the text and a caret under the word."""
        said = []
        for error in self.errors:
            said.append(f"{name}:{error.line}:{error.column}: {error.message}")
            if error.line <= len(self.lines):
                said += caret_lines(self.lines[error.line - 1], error.column, error.width)
        if len(self.errors) >= MOST_ERRORS:
            said.append(f"{name}: {MOST_ERRORS} errors are told, and no more are looked for")
        return "\n".join(said)


class TooManyErrors(Exception):
    """As many errors as are told."""


class ErrorList:
    """The errors found so far, so that one bad word doesn't hide the next."""

    def __init__(self):
        self.errors = []

    def note(self, error):
        """Keeps an error; raises TooManyErrors at the last that is told."""
        self.errors.append(error)
        if len(self.errors) >= MOST_ERRORS:
            raise TooManyErrors

    def attempt(self, action, *arguments, otherwise=0):
        """What an action gives, or `otherwise` where it meets a bad word."""
        try:
            return action(*arguments)
        except TextError as error:
            self.note(error)
            return otherwise


def caret_lines(content, column, width):
    """A line of a text, or the piece of a long one, and under it a caret at a column with a tail as long as the word."""
    start = max(0, column - 1 - LINE_SHOWN // 2) if len(content) > LINE_SHOWN else 0
    shown = "".join(letter if letter.isprintable() or letter == "\t" else "?" for letter in content[start:start + LINE_SHOWN])
    before = shown[:column - 1 - start]
    under = shown[len(before):len(before) + width]
    blank = "".join(letter if letter == "\t" else " " * cells(letter) for letter in before)
    return ["  " + shown.rstrip(), "  " + blank + "^" + "~" * (sum(map(cells, under)) - 1)]


def cells(letter):
    """How many columns of a screen a letter takes."""
    if unicodedata.combining(letter):
        return 0
    return 2 if unicodedata.east_asian_width(letter) in "WF" else 1


def lines_of(text):
    """The lines of a text; a byte-order mark is left out, and equal letters in two codings become one."""
    return unicodedata.normalize("NFC", text.removeprefix("\ufeff")).split("\n")


def words_of(content, line):
    """The words of one line, without its comment's."""
    return [word_at(found.group(), line, found.start() + 1) for found in WORD.finditer(content.partition(COMMENT)[0])]


def grouped(number):
    """A number with commas, for messages."""
    return f"{number:,}"


def shown(word):
    """A word for a message: cut where it is long, without letters that can't be printed."""
    letters = word if len(word) <= WORD_SHOWN else word[:WORD_SHOWN] + "..."
    return "`" + "".join(letter if letter.isprintable() else "?" for letter in letters) + "`"


def is_name(word):
    """A letter or underscore, then letters, digits and underscores; letters of every alphabet."""
    return word.isidentifier()


def is_class_name(word):
    """The names of types are not free for classes."""
    return is_name(word) and word not in TYPES


def is_number(word):
    """Decimal or 0x hexadecimal, with or without a sign."""
    return NUMBER.match(word) is not None


def read_number(word, low, high, what):
    """A whole number within low to high."""
    if not is_number(word):
        raise TextError(word, f"{what} must be a number, not {shown(word)}")
    value = int(word, 16 if "0x" in word else 10) if len(word) <= MOST_DIGITS else None
    if value is None or not low <= value <= high:
        number = word if len(word) <= WORD_SHOWN else shown(word)
        raise TextError(word, f"{what} {number} is out of range {grouped(low)} to {grouped(high)}")
    return value


def read_signed(word, bits, what):
    """A signed number of that many bits; a hexadecimal one may fill all bits."""
    high = 1 << (bits - 1)
    value = read_number(word, -high, 2 * high - 1 if "0x" in word else high - 1, what)
    return value - 2 * high if value >= high else value


def read_real(word):
    """The 64 bits of an F: a decimal number, inf, -inf, nan, or 0x and all 16 digits of the bits."""
    if BITS.match(word):
        return int(word, 16)
    if word == "nan":
        return ONE_NAN
    if word in ("inf", "-inf"):
        return real_bits(float(word))
    if not DECIMAL.match(word):
        raise TextError(word, f"an F must be a decimal number, inf, -inf, nan or 0x and 16 digits, not {shown(word)}")
    value = float(word)
    if value in (float("inf"), float("-inf")):
        raise TextError(word, f"F {shown(word)} is out of range")
    return real_bits(value)


def real_bits(value):
    """The bits of a double."""
    return struct.unpack("<Q", struct.pack("<d", value))[0]


def write_real(bits):
    """The shortest word that read_real turns into these bits."""
    value = struct.unpack("<d", struct.pack("<Q", bits))[0]
    if value == value:
        return repr(value)
    return "nan" if bits == ONE_NAN else f"0x{bits:016X}"


def read_bytes(words):
    """Bytes, each of two hexadecimal digits."""
    for word in words:
        if not BYTE.match(word):
            raise TextError(word, f"a byte must be two hexadecimal digits, not {shown(word)}")
    return bytes.fromhex("".join(words))


def write_bytes(data):
    """Bytes as read_bytes wants them."""
    return data.hex(" ").upper()


def fitting(value, high, what, word):
    """The value, where it isn't too large for its place."""
    if value > high:
        raise TextError(word, f"{what}: {grouped(value)} doesn't fit, at most {grouped(high)} does")
    return value
