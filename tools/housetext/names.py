"""The names that a writer gave and that the bytes don't hold; they are kept in a file of their own.

Each line is one name: `class ROW NAME`, `field ROW NAME`, `method ROW NAME`, `argument METHOD NUMBER NAME`,
`local METHOD NUMBER NAME`, `label METHOD OFFSET NAME`. A label of code outside every method has METHOD 0 and its offset in the whole code.
"""

from .words import ErrorList, TextError, TextErrors, TooManyErrors, is_name, lines_of, read_number, shown, words_of

ONE_NUMBER = ("class", "field", "method")
TWO_NUMBERS = ("argument", "local", "label")
LARGEST = 0xFFFFFFFF


class Names:
    """Names by what they name; the key is a row, or a method row with a number or an offset."""

    def __init__(self):
        self.given = {what: {} for what in ONE_NUMBER + TWO_NUMBERS}
        self.labels_of = {}

    def give(self, what, key, name):
        """Adds a name; a place in the code may have several labels, in their order, everything else has one name."""
        if what == "label":
            self.given[what].setdefault(key, []).append(name)
            self.labels_of.setdefault(key[0], {}).setdefault(key[1], []).append(name)
        else:
            self.given[what][key] = name

    def get(self, what, key):
        """The name, or None."""
        return self.given[what].get(key)

    def labels(self, method):
        """Offsets with their labels, of one method."""
        return self.labels_of.get(method, {})


def write_names(names):
    """The text of a names file."""
    lines = []
    for what in ONE_NUMBER:
        lines += [f"{what} {row} {name}" for row, name in sorted(names.given[what].items())]
    for what in TWO_NUMBERS:
        for (method, number), given in sorted(names.given[what].items()):
            for name in given if what == "label" else [given]:
                lines.append(f"{what} {method} {number} {name}")
    return "".join(line + "\n" for line in lines)


def read_names(text):
    """Names out of the text of a names file."""
    names, errors, lines = Names(), ErrorList(), lines_of(text)
    try:
        for line, content in enumerate(lines, 1):
            words = words_of(content, line)
            if words:
                errors.attempt(_read_name, names, words)
    except TooManyErrors:
        pass
    if errors.errors:
        raise TextErrors(errors.errors, lines)
    return names


def _read_name(names, words):
    numbers = 1 if words[0] in ONE_NUMBER else 2
    if words[0] not in ONE_NUMBER + TWO_NUMBERS or len(words) != numbers + 2:
        raise TextError(words[0], "a line of names is what is named, its one or two numbers and the name")
    key = [read_number(word, 0, LARGEST, "row or number") for word in words[1:-1]]
    if not is_name(words[-1]):
        raise TextError(words[-1], f"{shown(words[-1])} is no name")
    names.give(words[0], key[0] if numbers == 1 else tuple(key), words[-1])
