"""Places of a module in words: methods, instructions and the lines of a text that they come from; and the cells of a state."""

from housetext.disassemble import CodeLines
from housetext.explaining import listing_of
from housetext.records import FIELD, METHOD
from housetext.words import write_real


def method_name(source, row):
    """A method by its name, or by its row where the module has no such method."""
    return source.naming.members[METHOD].get(row, f"method {row}")


def field_name(source, row):
    return source.naming.members[FIELD].get(row, f"field {row}")


def line_at(source, method, offset):
    """The line of the text at a place of a method, or of a record for method 0; None where there is no text or no line."""
    if not method:
        return source.record_lines.get(offset)
    if method > len(source.methods):
        return None
    return source.code_lines.get(source.methods[method - 1].code_part()[0] + offset)


class Listings:
    """The instructions of a module's methods in words, each method read once."""

    def __init__(self, source):
        self.source = source
        self.listings = {}

    def listing(self, method):
        """The code lines of a method, and its forms by offset."""
        if method not in self.listings:
            lines = listing_of(self.source, method)
            self.listings[method] = lines, dict(lines.items)
        return self.listings[method]

    def instruction(self, method, offset):
        """The instruction at an offset of a method, which may lie inside another one."""
        lines, forms = self.listing(method)
        if offset >= len(lines.code):
            return "(past the code)"
        if offset not in forms:
            lines = CodeLines(self.source.naming, lines.code[offset:], {}, None)
            return lines.instruction_words(lines.items[0][1], 0)
        return lines.instruction_words(forms[offset], offset)

    def after(self, method, offset):
        """The offset of the next instruction in the code; None where nothing decodes."""
        lines, forms = self.listing(method)
        form = forms[offset] if offset in forms else None
        return offset + form.length if form else None

    def variable(self, method, kind, number):
        """An argument or local by its name, or by its number."""
        lines, _ = self.listing(method)
        return lines.variables.words[kind].get(number, str(number))


# The letters of cells that hold a number, with their types.
CELL_TYPES = {"i": "int32", "l": "int64", "f": "F"}


def cell_record(source, heap, cell):
    """A cell as a type and a value; the type of a reference is its object's class, its value the object's number."""
    letter, text = cell[0], cell[1:]
    if letter == "n":
        return {"type": "null", "value": None}
    if letter == "o":
        row = heap[int(text) - 1].class_row if 1 <= int(text) <= len(heap) else 0
        return {"type": source.naming.class_word(row), "value": int(text)}
    return {"type": CELL_TYPES[letter], "value": write_real(int(text, 16)) if letter == "f" else int(text)}


def cell_words(source, heap, cell):
    """A cell in words."""
    record = cell_record(source, heap, cell)
    if cell[0] == "n":
        return "null"
    return f"{record['type']} {'object ' if cell[0] == 'o' else ''}{record['value']}"


def stack_words(source, state):
    """The running frame's stack, from its bottom."""
    return ", ".join(cell_words(source, state.heap, cell) for cell in state.frames[-1].stack) or "empty"
