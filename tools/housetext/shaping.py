"""The shapes that the check finds: before each instruction the depth of the stack and the types on it. The proved `tell` has those of a module
that passes; where it has a fault, the second implementation has those up to it."""

from collections import namedtuple

from cases import LENGTH_BYTES, MOST_LENGTH
from common import Trouble

from .explaining import arrival_lines, listing_of, with_class_names
from .meanings import OTHER_SHAPE
from .records import METHOD
from .second_opinion import second_opinion

NULL = 0  # the byte of null; no value is void
NOWHERE = (0, 0)  # no method has row 0: a place that is in every module, asked for the fault alone
BY_SECOND = ", from the second implementation"

# A line of `tell`: the number of the first fault, whether an instruction starts at the place asked about, and the bytes of the types there.
Line = namedtuple("Line", "number starts types")


def shape_lines(source, row, program):
    """The lines of one method, or with None of all by row; None where there are no shapes to be had. `program` takes the name of a program and its input."""
    known = range(1, len(source.methods) + 1)
    rows = [one for one in known if row in (None, one)]
    shapes = proved_shapes(source, rows, program)
    opinion = second_opinion(source.tables, source.code) if shapes is None else None
    if shapes is None and opinion is None:
        return None
    if row is not None and not rows:
        return [f"This module has no method {row}."]
    if shapes is None:
        return [line for row in rows for line in second_lines(source, opinion, row)]
    return [line for row in rows for line in method_lines(source, row, shapes[row].items())]


def method_lines(source, row, shapes, found_by=""):
    """Offset, depth, instruction and types from the bottom, for each offset with its types."""
    listing = listing_of(source, row)
    forms = dict(listing.items)
    lines = [f"Method {row}: {source.naming.members[METHOD][row]}{found_by}."]
    for offset, types in shapes:
        lines.append(f"{offset:6} {len(types):3}  {listing.instruction_words(forms[offset], offset):30}  {', '.join(types)}".rstrip())
    return lines


# ---- A module that passes


def proved_shapes(source, rows, program):
    """By row and offset the types before each instruction, from the bottom, as the proved check found them; None where the module has a fault."""
    if told(source, [NOWHERE], program)[0].number:
        return None  # before its instructions are listed: tables that loading refuses can announce far more code than there is
    shapes = {row: {} for row in rows}
    places = [(row, offset) for row in rows for offset, _ in listing_of(source, row).items]
    for (row, offset), line in zip(places, told(source, places, program)):
        if line.starts:
            shapes[row][offset] = [type_words(source, byte) for byte in line.types]
    return shapes


def told(source, places, program):
    """What `tell` says of places, each a method's row and an offset."""
    code = source.code[:MOST_LENGTH]  # more than that is refused like its start: too long
    numbers = [number for place in places for number in place]
    data = b"".join([little(len(source.tables)), source.tables, little(len(code)), code, *map(little, numbers)])
    said = program("tell", data).decode("ascii", "replace").splitlines()
    if len(said) != len(places):
        raise Trouble(f"tell answered {len(said)} of {len(places)} places")
    return [read_line(line) for line in said]


def little(number):
    return number.to_bytes(LENGTH_BYTES, "little")


def read_line(line):
    try:
        number, _method, _offset, starts, depth, *types = map(int, line.split())
    except ValueError:
        raise Trouble(f"tell printed no line but {line[:200]!r}") from None
    if len(types) != depth:
        raise Trouble(f"tell printed {len(types)} types of {depth}")
    return Line(number, starts, types)


def type_words(source, byte):
    return "null" if byte == NULL else source.naming.type_word(byte)


# ---- A module with a fault


def second_lines(source, opinion, row):
    """The lines of a method, as far as its check by the second implementation comes; then its fault, if it has one."""
    lines = method_lines(source, row, opinion.found(row), BY_SECOND) + fault_lines(source, opinion, row)
    return [with_class_names(source, line) for line in lines]


def fault_lines(source, opinion, row):
    """The fault of a method, if it has one, and what was wanted there; of two shapes at one place, both ways to it."""
    fault = opinion.fault(row)
    if fault is None:
        return []
    number, offset, wanted = fault
    if number == OTHER_SHAPE:
        return [f"Number {number} at offset {offset}."] + arrival_lines(source, opinion, row)
    return [f"Number {number} at offset {offset}. Wanted: {wanted}."]
