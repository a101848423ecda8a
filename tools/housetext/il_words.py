"""The words of ilasm's spelling: cutting a text into them, and those that have a meaning of their own."""

import re

from .instructions import FORMS, NOT_KEPT
from .words import TextError, TooManyErrors, grouped, word_at

IL_WORD = re.compile(r"""
    \s*(?: (?P<word>::|[{}()\[\],:=&*<>!]|[^\s{}()\[\],:=&*<>!'"/;]+|/(?!/|\*)) | (?P<comment>//.*|;.*) | (?P<open>/\*)
    | '(?P<quoted>(?:[^'\\]|\\.)*)' | "(?P<string>(?:[^"\\]|\\.)*)" | (?P<other>.) | $)
""", re.X)
CLOSE = "*/"
MOST_WORDS = 600_000

# A label that is made from an offset, as monodis and `dis --il` make them.
MADE_LABEL = re.compile(r"IL_[0-9A-Fa-f]{4,}\Z")

PLAIN_NAME = re.compile(r"[A-Za-z_$@?][A-Za-z0-9_$@?]*\Z")

# The types kept, by ilasm's words, with the house's.
TYPE_WORDS = {"void": "void", "int32": "int32", "int64": "int64", "float64": "F", "F": "F"}
TYPES_NOT_KEPT = set("bool char string int8 int16 uint8 uint16 uint32 uint64 float32 native int unsigned typedref valuetype value method".split())

# What stands for class 1, the root of all classes.
OBJECT_WORDS = ("object", "System.Object")

# Words of a heading that change nothing in the module.
PLAIN_CLASS_WORDS = set("public private auto ansi unicode autochar sealed serializable specialname rtspecialname".split())
PLAIN_FIELD_WORDS = set("public private family assembly famandassem famorassem privatescope initonly specialname rtspecialname".split())
PLAIN_METHOD_WORDS = PLAIN_FIELD_WORDS - {"initonly"} | {"hidebysig", "final", "default", "strict"}
PLAIN_TAIL_WORDS = {"cil", "managed", "il", "noinlining"}

# Words of a heading for what the machine doesn't have.
CLASS_WORDS_NOT_KEPT = {"interface", "value", "enum", "abstract", "nested", "sequential", "explicit", "import"}
FIELD_WORDS_NOT_KEPT = {"literal", "marshal", "notserialized"}
METHOD_WORDS_NOT_KEPT = {"abstract", "pinvokeimpl", "unmanagedexp", "reqsecobj", "vararg", "unmanaged", "explicit"}

KEYWORDS = (set(FORMS) | NOT_KEPT | set(TYPE_WORDS) | TYPES_NOT_KEPT | set(OBJECT_WORDS) | PLAIN_CLASS_WORDS | PLAIN_FIELD_WORDS
            | PLAIN_METHOD_WORDS | PLAIN_TAIL_WORDS | CLASS_WORDS_NOT_KEPT | FIELD_WORDS_NOT_KEPT | METHOD_WORDS_NOT_KEPT)
KEYWORDS |= {"class", "extends", "implements", "static", "instance", "virtual", "newslot", "init", "sort", "flag", "beforefieldinit"}


def il_words(lines, errors):
    """The words of a text without its comments; a letter that begins no word is noted."""
    words, inside, comments = [], None, 0
    for line, content in enumerate(lines, 1):
        place = 0
        while place < len(content):
            if inside:
                end = content.find(CLOSE, place)
                inside, place = (inside, len(content)) if end < 0 else (None, end + len(CLOSE))
                continue
            for found in IL_WORD.finditer(content, place):
                kind, place = found.lastgroup, found.end()
                if kind is None or kind == "comment":
                    continue
                word = il_word(found, line)
                if len(words) + comments == MOST_WORDS:
                    errors.note(TextError(word, f"over {grouped(MOST_WORDS)} words and comments, more than the text of a module has"))
                    raise TooManyErrors
                if kind == "open":
                    inside, comments = word, comments + 1
                    break
                if kind == "other":
                    errors.note(TextError(word, f"`{word}` begins no word here"))
                else:
                    words.append(word)
    if inside:
        errors.note(TextError(inside, "this comment is not closed"))
    return words


def il_word(found, line):
    """The word of a match; quotes count for its place."""
    kind = found.lastgroup
    quoted = kind in ("quoted", "string")
    return word_at(found[kind], line, found.start(kind) + (0 if quoted else 1), quoted)


def il_name(name):
    """A name as ilasm reads it: quoted where it is a word of the language or has letters beyond ASCII."""
    return name if PLAIN_NAME.match(name) and name not in KEYWORDS or name in (".ctor", ".cctor") else f"'{name}'"
