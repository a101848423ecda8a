"""Bytes into text in ilasm's spelling. Every input has such a text, and the text assembles to that input again.

ilasm has a word for records in the order that loading wants. From the first record in another place on, or not whole, the bytes are
given by `.record`.
"""

from .disassemble import CodeLines, Naming, Text, Variables, record_words
from .il_words import MADE_LABEL, il_name
from .instructions import TOKEN_TOP
from .names import Names
from .records import (CLASS, CLASS_TYPE, ENTRY, FIELD, LOCAL, METHOD, PARAMETER, SORTS, TYPES, WITH_THIS, read_records, split_input)
from .words import write_bytes, write_real

IL_TYPES = ["float64" if word == "F" else word for word in TYPES]
INDENT = "  "
NEWSLOT = "public hidebysig newslot virtual instance"
SORT_WORDS = {
    "static": "public static",
    "instance": "public instance",
    "virtual": "public hidebysig virtual instance",
    "constructor": "public hidebysig specialname rtspecialname instance",
    "initialiser": "private hidebysig specialname rtspecialname static",
}
FLAG_WORDS = ["public", "public static"]
SPECIAL_NAMES = {SORTS.index("constructor"): ".ctor", SORTS.index("initialiser"): ".cctor"}
VIRTUAL = SORTS.index("virtual")
BYTES_IN_A_LINE = 16


def disassemble_il(data, names=None):
    """The text of an input."""
    if len(data) < 2:
        return f".input {write_bytes(data)}".rstrip() + "\n"
    announced, tables, code = split_input(data)
    chunks = [[f".announced {announced}"]] if announced != len(tables) else []
    chunks += IlText(tables, code, names or Names()).chunks()
    return "\n".join("".join(line + "\n" for line in chunk) for chunk in chunks)


def orderly(records):
    """How many records from the beginning stand in the order that loading wants."""
    stage, owner = CLASS, 0
    before = {CLASS: (CLASS,), FIELD: (CLASS, FIELD), METHOD: (CLASS, FIELD, METHOD, PARAMETER, LOCAL), PARAMETER: (METHOD, PARAMETER),
              LOCAL: (METHOD, PARAMETER, LOCAL), ENTRY: (CLASS, FIELD, METHOD, PARAMETER, LOCAL)}
    for count, record in enumerate(records):
        if stage not in before[record.kind] or record.kind == FIELD and record.body[0] < owner:
            return count
        stage = record.kind
        owner = record.body[0] if record.kind == FIELD else owner
    return len(records)


class IlMethod:
    """A method record with the types of its parameters and locals."""

    def __init__(self, record):
        self.record = record
        self.owner, self.sort, self.returned, self.stack, self.overridden = record.body[:5]
        self.types = {PARAMETER: [], LOCAL: []}
        self.name = None


class IlText:
    """The text of one input: classes with their fields and, as far as rows allow, their methods; then the other methods by row."""

    def __init__(self, tables, code, names):
        self.names = names
        records, end = read_records(tables)
        count = orderly(records)
        self.rest = tables[records[count].offset if count < len(records) else end:]
        self.words = [words for record, words in record_words(tables, names)[count:]] if self.rest else []
        self.tables = tables[:len(tables) - len(self.rest)]
        self.text = Text(self.tables, code, names, False)
        self.naming = IlNaming(self.text.records, names)
        self.fields = [record.body for record in self.text.records if record.kind == FIELD]
        self.entry = next((record.body[0] for record in self.text.records if record.kind == ENTRY), None)
        self.done = 0

    def chunks(self):
        """Lists of lines that belong together."""
        naming = self.naming
        outside = [self.field_line(row) for row, field in enumerate(self.fields, 1) if field[0] not in naming.classes]
        chunks = [outside] if outside else []
        parents = [record.body[0] for record in self.text.records if record.kind == CLASS]
        for row, parent in enumerate(parents, 1):
            chunks.append(self.class_chunk(row, parent))
        while self.done < len(naming.methods):
            chunks.append(self.methods_chunk())
        if self.entry is not None and not 1 <= self.entry <= len(naming.methods):
            chunks.append([f".entry #{self.entry}"])
        if self.rest:
            chunks.append(self.raw_lines())
        return chunks + [self.code_chunk(start, stop) for start, stop in self.text.unwritten()]

    def class_chunk(self, row, parent):
        """A class with its fields, and with its methods if they are next by row."""
        usual = parent == (0 if row == 1 else 1)
        extends = "" if usual and row == 1 else f" extends {self.naming.class_name(parent)}"
        fields = [self.field_line(number) for number, field in enumerate(self.fields, 1) if field[0] == row]
        name = self.naming.class_name(row)
        return [f".class public auto ansi {name}{extends}", "{"] + indented(fields) + self.methods_of(row) + [f"}} // end of class {name}"]

    def methods_of(self, owner):
        """The methods of one owner that are next by row."""
        lines, methods = [], self.naming.methods
        while self.done < len(methods) and methods[self.done].owner == owner:
            self.done += 1
            lines += ([""] if lines else []) + indented(self.method_lines(self.done))
        return lines

    def methods_chunk(self):
        """The methods that are next by row, in their class, which is opened again; outside classes where they have none."""
        owner = self.naming.methods[self.done].owner
        if owner not in self.naming.classes:
            self.done += 1
            return self.method_lines(self.done)
        name = self.naming.class_name(owner)
        return [f".class public auto ansi {name}", "{"] + self.methods_of(owner) + [f"}} // end of class {name}"]

    def field_line(self, row):
        """The line of a field; one outside classes has its owner."""
        owner, flag, kind = self.fields[row - 1]
        name = il_name(self.naming.own[FIELD][row])
        words = FLAG_WORDS[flag] if flag < len(FLAG_WORDS) else f"public flag({flag})"
        return f".field {words} {self.naming.type_name(kind)} {name if owner in self.naming.classes else f'#{owner}::{name}'}"

    def method_lines(self, row):
        """A method with its code, unless that was written before."""
        method, text, naming = self.naming.methods[row - 1], self.text, self.naming
        offset, length = method.record.code_part()
        variables = IlVariables(naming, row, method.sort)
        parameters, local = [self.variable_words(method, variables, kind) for kind in (PARAMETER, LOCAL)]
        name = il_name(method.name) if method.owner in naming.classes else f"#{method.owner}::{il_name(method.name)}"
        lines = [f".method {sort_words(method)} {naming.type_name(method.returned)} {name} ({', '.join(parameters)}) cil managed", "{"]
        inside = [f"// Code size {length} (0x{length:x})"] + ([".entrypoint"] if self.entry == row else [])
        inside += [f".override {naming.overridden(method.overridden)}"] if method.overridden else []
        own = text.is_unwritten(offset, offset + length)
        if not own:
            inside.append(f".part {offset} {length}")
        elif offset != text.place:
            inside.append(f".at {offset}")
        inside.append(f".maxstack {method.stack}")
        inside += [f".locals init ({', '.join(local)})"] if local else []
        if own:
            text.written[offset:offset + length] = b"\1" * length
            text.place = offset + length
            code = text.code[offset:offset + length]
            inside += IlCodeLines(naming, code, given_labels(self.names.labels(row)), variables).il_lines(0)
        return lines + indented(inside) + [f"}} // end of method {naming.member_name(METHOD, row)}"]

    def variable_words(self, method, variables, kind):
        """Types and names of the parameters or locals."""
        named = [(self.naming.type_name(type), variables.declare(kind)) for type in method.types[kind]]
        return [f"{type} {il_name(name)}" if name else type for type, name in named]

    def raw_lines(self):
        """The bytes of the tables for which ilasm has no words; whole records with what they say."""
        lines, (records, end) = [], read_records(self.rest)
        ends = [record.offset for record in records[1:]] + [end]
        for record, stop, words in zip(records, ends, self.words):
            lines.append(f".record {write_bytes(self.rest[record.offset:stop])}  // {words}")
        for start in range(end, len(self.rest), BYTES_IN_A_LINE):
            lines.append(f".record {write_bytes(self.rest[start:start + BYTES_IN_A_LINE])}")
        return lines

    def code_chunk(self, start, stop):
        """Code that no method's block holds."""
        heading = ".code" if start == self.text.place else f".code {start}"
        self.text.place = stop
        given = {offset - start: names for offset, names in self.names.labels(0).items() if start <= offset < stop}
        return [heading, "{"] + indented(IlCodeLines(self.naming, self.text.code[start:stop], given_labels(given), None).il_lines(start)) + ["}"]


class IlNaming(Naming):
    """Names as ilasm writes them, with the types that tell members apart."""

    def __init__(self, records, names):
        super().__init__(records, names)
        self.field_types = [record.body[2] for record in records if record.kind == FIELD]
        self.methods = []
        for record in records:
            if record.kind == METHOD:
                self.methods.append(IlMethod(record))
            elif record.kind in (PARAMETER, LOCAL):
                self.methods[-1].types[record.kind].append(record.body[0])
        taken = set()
        for row, method in enumerate(self.methods, 1):
            special = SPECIAL_NAMES.get(method.sort)
            key = (special, method.owner, method.returned, *method.types[PARAMETER])
            method.name = special if special and key not in taken else self.own[METHOD][row]
            taken.add(key)

    def class_name(self, row):
        """A class by its name, or `#ROW`."""
        return il_name(self.classes[row]) if row in self.classes else f"#{row}"

    def type_name(self, byte):
        """A type by its name, or `#BYTE`."""
        if byte < len(IL_TYPES):
            return IL_TYPES[byte]
        row = byte - CLASS_TYPE
        return f"class {il_name(self.classes[row])}" if row in self.classes else f"#{byte}"

    def member_name(self, kind, row):
        """OWNER::NAME."""
        own = self.own[FIELD][row] if kind == FIELD else self.methods[row - 1].name
        return f"{self.class_name(self.owners[kind][row - 1])}::{il_name(own)}"

    def method_words(self, row):
        """A method as a call names it."""
        method = self.methods[row - 1]
        this = "instance " if method.sort in WITH_THIS else ""
        parameters = ", ".join(self.type_name(type) for type in method.types[PARAMETER])
        return f"{this}{self.type_name(method.returned)} {self.member_name(METHOD, row)}({parameters})"

    def overridden(self, row):
        """A method as `.override` names it; constructors and initialisers have one name and need their types."""
        if row > len(self.methods):
            return f"#{row}"
        return f"method {self.method_words(row)}" if self.methods[row - 1].name in SPECIAL_NAMES.values() else self.member_name(METHOD, row)

    def token_word(self, operand, token):
        """What a token names, or `#TOKEN`."""
        row = token & 0xFFFFFF
        if token >> 24 == TOKEN_TOP[operand]:
            if operand == "class" and row in self.classes:
                return self.class_name(row)
            if operand == "field" and 1 <= row <= len(self.field_types):
                return f"{self.type_name(self.field_types[row - 1])} {self.member_name(FIELD, row)}"
            if operand == "method" and 1 <= row <= len(self.methods):
                return self.method_words(row)
        return f"#0x{token:08X}"


class IlVariables(Variables):
    """Arguments and locals; ilasm has no word for `this`."""

    def word(self, kind, number):
        """A name or a number."""
        name = self.words[kind].get(number)
        return str(number) if name in (None, "this") else il_name(name)


class IlCodeLines(CodeLines):
    """Lines of code, each with a label made from its offset; `first` is the offset of the first."""

    def il_lines(self, first):
        """All lines."""
        self.first, lines = first, []
        self.starts = {offset for offset, _ in self.items} | {len(self.code)}
        for offset, form in self.items:
            lines += [f"{il_name(name)}:" for name in self.given.get(offset, [])]
            words = [form.mnemonic] + self.operand_words(form, offset) if form else [f".emitbyte 0x{self.code[offset]:02X}"]
            lines.append(f"{self.made_label(offset)}:  {' '.join(words)}")
        end = len(self.code)
        lines += [f"{il_name(name)}:" for name in self.given.get(end, [])]
        return lines + ([f"{self.made_label(end)}:"] if end in self.targets.values() else [])

    def made_label(self, offset):
        """The label made from an offset."""
        return f"IL_{self.first + offset:04x}"

    def variable_word(self, kind, number):
        """An argument or local by its name, or its number."""
        return self.variables.word(kind, number) if self.variables else str(number)

    def real_word(self, bits):
        """An F; what has no decimal is written by its bits."""
        word = write_real(bits)
        return f"float64(0x{bits:016X})" if word.lstrip("-")[:1] not in "0123456789" or "x" in word else word

    def target_word(self, target):
        """The label of a place; None where no instruction stands."""
        if target not in self.starts:
            return None
        return il_name(self.given[target][0]) if target in self.given else self.made_label(target)


def given_labels(labels):
    """The labels that a writer gave, each once, without those that look made from an offset."""
    given, taken = {}, set()
    for offset in sorted(labels):
        names = [name for name in dict.fromkeys(labels[offset]) if name not in taken and not MADE_LABEL.match(name)]
        taken.update(names)
        if names:
            given[offset] = names
    return given


def sort_words(method):
    """The words for a method's sort."""
    if method.sort >= len(SORTS) or SPECIAL_NAMES.get(method.sort, method.name) != method.name:
        return f"public sort({method.sort})"
    return NEWSLOT if method.sort == VIRTUAL and not method.overridden else SORT_WORDS[SORTS[method.sort]]


def indented(lines):
    """Lines one step further in."""
    return [INDENT + line if line else line for line in lines]
