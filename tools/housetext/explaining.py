"""An answer of `turn` in plain words: the number, the method, the instruction, and what stood on the stack."""

import re

from .assemble import assemble
from .disassemble import CodeLines, Text, Variables, record_words
from .files import fail_on_bad_text, is_text_name, read_file, read_text_file
from .meanings import CHECK, LOADING, MEANINGS, OTHER_SHAPE, RUN
from .names import Names, read_names
from .records import LOCAL, METHOD, PARAMETER, TYPES, split_input
from .second_opinion import second_opinion
from .words import BITS, write_real

LINES_BEFORE = 3
MOST_DIGITS = 20  # of a number in a line of `turn`


class Source:
    """A module with its names and, where it was assembled from a text, the lines of the text."""

    def __init__(self, data, names=None, record_lines=None, code_lines=None):
        _, self.tables, self.code = split_input(data)
        self.names = names or Names()
        self.record_lines = record_lines or {}
        self.code_lines = code_lines or {}
        self.text = Text(self.tables, self.code, self.names, False)
        self.naming = self.text.naming
        self.methods = [record for record in self.text.records if record.kind == METHOD]


def read_source(name, names_file):
    """The module of a file, with its names; a text, by the end of its name, brings its own."""
    if is_text_name(name):
        with fail_on_bad_text(name):
            assembled = assemble(read_text_file(name))
        return Source(assembled.data, assembled.names, assembled.record_lines, assembled.code_lines)
    with fail_on_bad_text(name):
        data = read_file(name)
    names = None
    if names_file:
        with fail_on_bad_text(names_file):
            names = read_names(read_text_file(names_file))
    return Source(data, names)


def read_answer(line):
    """The number, method, offset, steps and value of a line of `turn`; None where it isn't one."""
    words = line.split()
    if len(words) != 5 or not all(word.isascii() and word.isdigit() and len(word) <= MOST_DIGITS for word in words[:4]):
        return None
    return [int(word) for word in words[:4]] + words[4:]


def explain(source, answer):
    """The lines that explain an answer."""
    number, method, offset, steps, value = answer
    lines = [f"Number {number}: {MEANINGS.get(number, 'no meaning is known for this number')}."]
    if number == 0:
        lines.append(f"It handed back {value_words(source, method, value)} after {steps} steps.")
    elif number in LOADING:
        return lines + record_lines(source, offset)
    elif number in RUN:
        lines.append(f"Steps before it: {steps}.")
    if method == 0:
        return lines
    if method > len(source.methods):
        return lines + [f"This module has no method {method}."]
    lines += place_lines(source, method, offset)
    return lines + stack_lines(source, number, method, offset)


def value_words(source, method, value):
    """The value handed back; an F in decimal too."""
    returns_real = 1 <= method <= len(source.methods) and TYPES[source.methods[method - 1].body[2]:][:1] == ["F"]
    if value == "-":
        return "nothing"
    return f"{value}, which is the F {write_real(int(value, 16))}," if returns_real and BITS.match("0x" + value) else value


def record_lines(source, offset):
    """The record at a place in the tables."""
    if offset >= len(source.tables):
        return [f"Place {offset}: the end of the tables."]
    line = f", line {source.record_lines[offset]} of the text" if offset in source.record_lines else ""
    for record, words in record_words(source.tables, source.names):
        if record.offset == offset:
            return [f"Record at place {offset} of the tables{line}: {words}"]
    return [f"Record at place {offset} of the tables{line}: bytes {source.tables[offset:offset + 12].hex(' ').upper()}"]


def place_lines(source, method, offset):
    """The method and the instruction at an offset, with a few instructions before it."""
    record = source.methods[method - 1]
    start, length = record.code_part()
    code = source.code[start:start + length]
    lines = [f"Method {method}: {source.naming.members[METHOD][method]}."]
    if offset >= len(code):
        return lines + [f"Offset {offset}: past the code, which has {len(code)} bytes."]
    where = f", line {source.code_lines[start + offset]} of the text" if start + offset in source.code_lines else ""
    listing = listing_of(source, method)
    index = next((index for index, (at, _) in enumerate(listing.items) if at == offset), None)
    if index is None:
        return lines + [f"Offset {offset}{where}: inside another instruction; read from there it is"] + inside_lines(source, code, offset)
    lines.append(f"Offset {offset}{where}:")
    for at, form in listing.items[max(0, index - LINES_BEFORE):index + 1]:
        lines.append(f"{'  ->' if at == offset else '    '} {at:5}  {listing.instruction_words(form, at)}")
    return lines


def inside_lines(source, code, offset):
    """The instruction that stands at an offset inside another one."""
    listing = CodeLines(source.naming, code[offset:], {}, None)
    return [f"  -> {offset:5}  {listing.instruction_words(listing.items[0][1], 0)}"]


def listing_of(source, method):
    """The code of a method with its names."""
    start, length = source.methods[method - 1].code_part()
    return CodeLines(source.naming, source.code[start:start + length], source.names.labels(method), variables_of(source, method))


def variables_of(source, method):
    """The arguments and locals of a method."""
    record = source.methods[method - 1]
    variables = Variables(source.naming, method, record.body[1])
    following = source.text.records[source.text.records.index(record) + 1:]
    for record in following:
        if record.kind == METHOD:
            break
        if record.kind in (PARAMETER, LOCAL):
            variables.declare(record.kind)
    return variables


def stack_lines(source, number, method, offset):
    """What the second implementation adds, with classes by name."""
    if number not in CHECK and number not in RUN:
        return []
    opinion = second_opinion(source.tables, source.code)
    if opinion is None:
        return ["What stood on the stack is told where loading takes the module and the second implementation is there."]
    if number in RUN:
        lines = opinion.run_lines(number, method, offset)
    elif opinion.disagrees(number, method, offset):
        lines = [opinion.disagrees(number, method, offset)]
    else:
        lines = opinion.found_lines() + (arrival_lines(source, opinion, method) if number == OTHER_SHAPE else opinion.wanted_lines())
    return [with_class_names(source, line) for line in lines]


def arrival_lines(source, opinion, method):
    """Of fault 16 the place, and both ways to it: the instruction that goes on there and the types that it brings."""
    target, first, second = opinion.arrivals(method)
    listing, places = listing_of(source, method), (first[0], second[0])
    if first[0] is None:
        first_words = "no earlier instruction goes there, so it begins with nothing"
    else:
        first_words = f"from {place_words(source, method, first[0])}: {first[1]}"
    label = f"label {listing.labels[target][0]}, " if target in listing.labels else ""
    lines = [f"Two shapes arrive at {label}{place_words(source, method, target)}: {first_words}; "
             f"from {place_words(source, method, second[0])}: {second[1]}."]
    forms = dict(listing.items)
    for offset in places:
        if offset is not None:
            after = f", after label {listing.label_before(offset)}" if listing.label_before(offset) else ""
            lines.append(f"  {place_words(source, method, offset)}{after}: {listing.instruction_words(forms[offset], offset)}")
    return lines


def place_words(source, method, offset):
    """A place in a method: the line of the text, or the offset where there is no text."""
    start = source.methods[method - 1].code_part()[0]
    line = source.code_lines.get(start + offset)
    return f"offset {offset}" if line is None else f"line {line}"


def with_class_names(source, line):
    """A line of the second implementation, which knows classes by row."""
    return re.sub(r"\bclass (\d+)", lambda found: source.naming.class_word(int(found[1])), line)
