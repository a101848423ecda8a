"""The second pass: names become rows, labels become distances, and the input of `turn` comes out."""

import difflib
import re

from .il_reading import is_il, read_il
from .instructions import OPERAND_SIZE, TOKEN_TOP
from .names import Names
from .reading import Reference, read_text, split_member
from .records import CLASS, CLASS_TYPE, ENTRY, FIELD, LOCAL, METHOD, MOST_TABLES, PARAMETER, SORTS, TYPES
from .words import ErrorList, TextError, TextErrors, TooManyErrors, fitting, grouped, is_class_name, is_name, is_number, lines_of, read_number
from .words import WORD_SHOWN, read_real, read_signed, shown

VARIABLE_KIND = {"argument": PARAMETER, "local": LOCAL}
WHOLE_BITS = {"int8": 8, "int32": 32, "int64": 64}
WHAT = {FIELD: "field", METHOD: "method", PARAMETER: "argument", LOCAL: "local"}
VIRTUAL = SORTS.index("virtual")
NAMES_COMPARED = 500  # with an unknown one at most


class Assembled:
    """The bytes, the names that they don't hold, and the line of the text behind each record and each instruction."""

    def __init__(self, data, names, record_lines, code_lines):
        self.data = data
        self.names = names
        self.record_lines = record_lines
        self.code_lines = code_lines


class UnknownName(TextError):
    """A name that nothing in the text declares; `known` are the names that could stand there, `before` is the owner to show with it."""

    def __init__(self, what, word, name, known, before=""):
        near = difflib.get_close_matches(name[:WORD_SHOWN], known, 1) if len(known) <= NAMES_COMPARED else []
        super().__init__(word, f"unknown {what} {shown(before + word)}" + (f"; is `{near[0]}` meant?" if near else ""))
        self.name = name


def assemble(text):
    """Assembled bytes of a text in one of the two spellings; raises TextErrors with every error."""
    lines, errors, assembled = lines_of(text), ErrorList(), None
    try:
        reading = read_il(lines, errors) if is_il(lines) else read_text(lines, errors)
        assembled = _assemble_input(reading) if reading.whole_input else Encoding(reading).assembled()
    except TooManyErrors:
        pass
    if errors.errors:
        raise TextErrors(errors.errors, lines)
    return assembled


def _assemble_input(reading):
    if reading.records or reading.bodies or reading.announced is not None:
        reading.errors.note(TextError(reading.whole_input.word, "`input` gives the whole input; nothing else can stand beside it"))
    return Assembled(reading.whole_input.data, Names(), {}, {})


class Encoding:
    """A text read, with its fields and methods by owner and name."""

    def __init__(self, reading):
        self.reading = reading
        self.parents = {record.row: record.slots[0] for record in reading.records if record.kind == CLASS}
        self.members = {FIELD: {}, METHOD: {}}
        for record in reading.records:
            if record.kind in self.members:
                self.attempt(self.declare, record)

    def assembled(self):
        """The whole input, with its names and lines."""
        tables, record_lines = self.tables()
        code, code_lines = self.code()
        announced = len(tables) if self.reading.announced is None else self.reading.announced
        length = min(announced, MOST_TABLES).to_bytes(2, "little")
        return Assembled(length + tables + code, self.names(), record_lines, code_lines)

    def attempt(self, action, *arguments, otherwise=0):
        """What an action gives, or `otherwise` where it meets a bad word; a name that a bad line may have declared is passed over."""
        try:
            return action(*arguments)
        except UnknownName as error:
            if error.name not in self.reading.spoiled:
                self.reading.errors.note(error)
        except TextError as error:
            self.reading.errors.note(error)
        return otherwise

    def declare(self, record):
        """Notes a field or method under its owner and name; ilasm tells those of one name apart by their types."""
        owner, name = record.slots[:2]
        alike = self.members[record.kind].setdefault((self.class_row(owner), name), [])
        if any(record.types is None or self.types_of(other) == self.types_of(record) for other in alike):
            mark = "." if record.types is None else "::"
            raise TextError(name, f"duplicate {WHAT[record.kind]} `{owner}{mark}{name}`")
        alike.append(record)

    def types_of(self, record):
        """The types that tell a member from others of its name; None where one of them is bad, which its own line tells."""
        try:
            return [self.type_byte(word) for word in record.types]
        except TextError:
            return None

    def class_row(self, word, high=255):
        """The row that a class name or `#ROW` stands for."""
        if word.startswith("#"):
            return read_number(word.cut(1), 0, high, "row")
        row = self.reading.classes.get(word)
        if row is None:
            raise UnknownName("class", word, word, self.reading.classes)
        return fitting(row, high, f"row of class `{word}`", word)

    def member_row(self, kind, word, high=255):
        """The row that OWNER.NAME, a Reference or `#ROW` stands for, for a field or a method."""
        if isinstance(word, Reference):
            return self.referred_row(kind, word, high)
        if word.startswith("#") and "." not in word:
            return read_number(word.cut(1), 0, high, "row")
        owner, name = split_member(word)
        found = self.members[kind].get((self.class_row(owner), name))
        if not found:
            raise UnknownName(WHAT[kind], word, name, self.member_names(kind, owner))
        return fitting(found[0].row, high, f"row of `{word}`", word)

    def referred_row(self, kind, reference, high):
        """The row of a member that ilasm's spelling names with its types."""
        owner, name = reference.owner, reference.name
        found = self.members[kind].get((self.class_row(owner), name))
        if not found:
            before = "Object::" if owner.startswith("#") and owner.quoted else f"{owner}::"
            raise UnknownName(WHAT[kind], name, name, self.member_names(kind, owner), before)
        wanted = reference.types and [self.type_byte(word) for word in reference.types]
        fits = [record for record in found if wanted is None or self.types_of(record) in (wanted, None)]
        if not fits:
            types = [" ".join(record.types[:1]) + f" ({', '.join(record.types[1:])})" if kind == METHOD else record.types[0] for record in found]
            raise TextError(name, f"{WHAT[kind]} `{owner}::{name}` has other types: {'; '.join(types)}")
        return fitting(fits[0].row, high, f"row of `{owner}::{name}`", name)

    def member_names(self, kind, owner):
        """The names of the fields or methods of one class."""
        row = self.class_row(owner)
        return [name for (of, name), found in self.members[kind].items() if of == row and found]

    def type_byte(self, word):
        """The byte of a type: a type's name, a class or `#BYTE`."""
        if word.startswith("#"):
            return read_number(word.cut(1), 0, 255, "type")
        if word in TYPES:
            return TYPES.index(word)
        if word not in self.reading.classes:
            raise UnknownName("type", word, word, [*TYPES, *self.reading.classes])
        return CLASS_TYPE + self.class_row(word, 255 - CLASS_TYPE)

    def tables(self):
        """The tables, and the line of each record by its offset."""
        data, lines = bytearray(), {}
        for record in self.reading.records:
            lines[len(data)] = record.word.line
            data += self.record_bytes(record)
            if len(data) > MOST_TABLES and self.reading.announced is None:
                self.reading.errors.note(TextError(record.word, f"tables pass {grouped(MOST_TABLES)} bytes, more than two bytes of length can say"))
                break
        return bytes(data), lines

    def record_bytes(self, record):
        """The bytes of one record, kind first; each bad word in it is noted."""
        if record.kind is None:
            return record.data
        slots = record.slots
        if record.kind == CLASS:
            body = [self.attempt(self.class_row, slots[0])]
        elif record.kind == FIELD:
            body = [self.owner_row(slots[0]), slots[2], self.attempt(self.type_byte, slots[3])]
        elif record.kind == METHOD:
            return self.method_bytes(record)
        elif record.kind == ENTRY:
            body = [self.attempt(self.member_row, METHOD, slots[0])]
        else:
            body = [self.attempt(self.type_byte, slots[0])]
        return bytes([record.kind] + body)

    def owner_row(self, word):
        """The row of an owner; a bad one was told where the member was declared."""
        try:
            return self.class_row(word)
        except TextError:
            return 0

    def method_bytes(self, record):
        """A method's record; without a part of its own choosing it names the code that follows it in the text."""
        owner, _, sort, returned, stack, overridden = record.slots
        offset, length = record.part or (record.body.start, record.body.length)
        length = self.attempt(fitting, length, 0xFFFF, "code length", record.word)
        body = [self.owner_row(owner), sort, self.attempt(self.type_byte, returned), stack]
        body.append(self.reused_row(record) if overridden is None else self.attempt(self.member_row, METHOD, overridden))
        return bytes([METHOD] + body) + offset.to_bytes(4, "little") + length.to_bytes(2, "little")

    def reused_row(self, record):
        """What a virtual method without `newslot` overrides, by ilasm's rule: the nearest ancestor's virtual method of its name and types."""
        row, seen = self.owner_row(record.slots[0]), set()
        while row in self.parents and row not in seen:
            seen.add(row)
            row = self.owner_row(self.parents[row])
            for other in self.members[METHOD].get((row, record.slots[1]), []):
                if other.slots[2] == VIRTUAL and self.types_of(other) == self.types_of(record):
                    return min(other.row, 255)
        return 0

    def code(self):
        """The code, with 00 where no line writes, and the line of each instruction by its offset in the code."""
        data = bytearray(max((body.start + body.length for body in self.reading.bodies if body.length), default=0))
        written, lines = bytearray(len(data)), {}
        for body in self.reading.bodies:
            for item in body.items:
                start = body.start + item.offset
                lines[start] = item.word.line
                part = item.data if item.form is None else self.attempt(self.instruction_bytes, body, item, otherwise=b"")
                if written.find(1, start, start + len(part)) >= 0:
                    self.reading.errors.note(TextError(item.word, f"code offset {start} is written already"))
                written[start:start + len(part)] = b"\1" * len(part)
                data[start:start + len(part)] = part
        return bytes(data), lines

    def instruction_bytes(self, body, item):
        """The opcode and the operand of one instruction."""
        operand, size = item.form.operand, OPERAND_SIZE[item.form.operand]
        if operand == "none":
            return item.form.opcode
        if operand in TOKEN_TOP:
            value = self.token(operand, item.operand)
        elif operand in VARIABLE_KIND:
            value = self.variable(VARIABLE_KIND[operand], body, item.operand)
        elif operand == "real":
            value = read_real(item.operand)
        elif operand in WHOLE_BITS:
            value = read_signed(item.operand, WHOLE_BITS[operand], f"the operand of `{item.word}`")
        else:
            value = self.distance(body, item, 8 * size)
        return item.form.opcode + (value % (1 << 8 * size)).to_bytes(size, "little")

    def token(self, operand, word):
        """A token by name, or as it stands after `#`."""
        if not isinstance(word, Reference) and word.startswith("#") and "." not in word:
            return read_number(word.cut(1), 0, 0xFFFFFFFF, "token")
        if operand == "class":
            row = self.class_row(word, 0xFFFFFF)
        else:
            row = self.member_row(FIELD if operand == "field" else METHOD, word, 0xFFFFFF)
        return TOKEN_TOP[operand] << 24 | row

    def variable(self, kind, body, word):
        """The number of an argument or local, by name or as a number."""
        if is_number(word):
            return read_number(word, 0, 255, "number")
        named = body.member.named[kind] if body.member else {}
        if word not in named:
            raise UnknownName(WHAT[kind], word, word, named)
        return fitting(named[word], 255, f"number of `{word}`", word)

    def distance(self, body, item, bits):
        """The distance from the next instruction to a label, or the distance as a number."""
        word = item.operand
        if is_number(word):
            return read_signed(word, bits, "distance")
        if word not in body.labels:
            raise UnknownName("label", word, word, body.labels)
        distance = body.labels[word] - (item.offset + item.form.length)
        if not -(1 << bits - 1) <= distance < 1 << bits - 1:
            raise TextError(word, f"`{word}` is {distance} bytes away, too far for `{item.word}`; `{item.word[:-2]}` reaches it")
        return distance

    def names(self):
        """The names of the text that the bytes don't hold, as the house's spelling can write them."""
        names, reading = Names(), self.reading
        for name, row in reading.classes.items():
            give_name(names, "class", row, name, is_class_name)
        for record in reading.records:
            if record.kind in self.members:
                give_name(names, WHAT[record.kind], record.row, record.slots[1])
        for body in reading.bodies:
            row, start = (body.member.row, 0) if body.member else (0, body.start)
            for name, offset in body.labels.items():
                if (body.member or offset < body.length) and not (reading.made_label and reading.made_label.match(name)):
                    give_name(names, "label", (row, start + offset), name)
        for member in reading.members:
            for what, kind in VARIABLE_KIND.items():
                for name, number in member.named[kind].items():
                    if name != "this":
                        give_name(names, what, (member.row, number), name)
        return names


def give_name(names, what, key, name, suits=is_name):
    """Adds a name; one with letters that the house's names don't have gets underscores, `.ctor` loses its point."""
    if not suits(name):
        name = re.sub(r"\W", "_", name.lstrip("."))
    if suits(name):
        names.give(what, key, str(name))
