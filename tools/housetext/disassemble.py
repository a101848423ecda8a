"""Bytes into text. Every input has a text, and the text assembles to that input again.

A row that exists is written by its name, everything else as a number: `#` and the number in a record, `#` and the token in an operand, a
signed distance in a branch that meets no instruction, `.byte` in code that doesn't decode, `record` from the first record that isn't whole.
"""

from .instructions import TOKEN_TOP, operand_bytes, read_instruction
from .names import Names
from .records import (BODY_LENGTH, CLASS, CLASS_TYPE, ENTRY, FIELD, FLAGS, LOCAL, METHOD, PARAMETER, SORTS, TYPES, WITH_THIS, read_records,
                      split_input)
from .words import is_class_name, write_bytes, write_real

BYTES_IN_A_LINE = 16


def disassemble(data, names=None, offsets=False):
    """The text of an input; with offsets, each instruction has its offset in a comment."""
    if len(data) < 2:
        return f"input {write_bytes(data)}".rstrip() + "\n"
    announced, tables, code = split_input(data)
    text = Text(tables, code, names or Names(), offsets)
    chunks = [[f"announced {announced}"]] if announced != len(tables) else []
    chunks += text.chunks()
    return "\n".join("".join(line + "\n" for line in chunk) for chunk in chunks)


class Naming:
    """A name for every class, field and method that has a record: the writer's where there is one, else C, f or m and the row."""

    def __init__(self, records, names):
        self.names = names
        self.owners = {kind: [record.body[0] for record in records if record.kind == kind] for kind in (FIELD, METHOD)}
        count = sum(record.kind == CLASS for record in records)
        rows = {row: names.get("class", row) for row in range(1, count + 1)}
        self.classes = distinct({row: name if name and is_class_name(name) else None for row, name in rows.items()}, "C")
        self.own = {FIELD: self.name_members(FIELD, "field", "f"), METHOD: self.name_members(METHOD, "method", "m")}
        self.members = {kind: {row: f"{self.class_word(owner)}.{self.own[kind][row]}" for row, owner in enumerate(owners, 1)}
                        for kind, owners in self.owners.items()}

    def name_members(self, kind, what, letter):
        """The own name for each row of a kind; names are distinct within one owner."""
        own, rows_of = {}, {}
        for row, owner in enumerate(self.owners[kind], 1):
            rows_of.setdefault(owner, []).append(row)
        for rows in rows_of.values():
            own.update(distinct({row: self.names.get(what, row) for row in rows}, letter))
        return own

    def class_word(self, row):
        """A class by its name, or `#ROW`."""
        return self.classes.get(row, f"#{row}")

    def type_word(self, byte):
        """A type by its name, or `#BYTE`."""
        if byte < len(TYPES):
            return TYPES[byte]
        return self.classes.get(byte - CLASS_TYPE, f"#{byte}")

    def token_word(self, operand, token):
        """What a token names, or `#TOKEN`."""
        known = self.classes if operand == "class" else self.members[FIELD if operand == "field" else METHOD]
        if token >> 24 == TOKEN_TOP[operand] and token & 0xFFFFFF in known:
            return known[token & 0xFFFFFF]
        return f"#0x{token:08X}"


def distinct(wanted, letter):
    """A name for each key: the wanted one if no smaller key has it, else the letter and the key, with underscores while that is taken."""
    given, taken = {}, set()
    for key in sorted(wanted):
        if wanted[key] is not None and wanted[key] not in taken:
            given[key] = wanted[key]
            taken.add(wanted[key])
    for key in sorted(set(wanted) - set(given)):
        name = f"{letter}{key}"
        while name in taken:
            name += "_"
        given[key] = name
        taken.add(name)
    return given


class Variables:
    """The arguments and locals of one method, with the names that the writer gave them."""

    def __init__(self, naming, row, sort):
        self.naming = naming
        self.row = row
        self.counts = {PARAMETER: 1 if sort in WITH_THIS else 0, LOCAL: 0}
        self.words = {PARAMETER: {0: "this"} if sort in WITH_THIS else {}, LOCAL: {}}

    def declare(self, kind):
        """Counts one parameter or local; gives its name or None."""
        number = self.counts[kind]
        self.counts[kind] += 1
        name = self.naming.names.get("argument" if kind == PARAMETER else "local", (self.row, number))
        if name is None or name == "this" or name in self.words[kind].values():
            return None
        self.words[kind][number] = name
        return name


class Text:
    """The text of one input, chunk by chunk in the order of the records; `place` is where code goes that has no `at` of its own."""

    def __init__(self, tables, code, names, offsets):
        self.code = code
        self.offsets = offsets
        self.records, end = read_records(tables)
        self.rest = tables[end:]
        self.naming = Naming(self.records, names)
        self.written = bytearray(len(code))
        self.place = 0
        self.rows = {kind: 0 for kind in BODY_LENGTH}
        self.variables = None

    def chunks(self):
        """Lists of lines that belong together: classes, fields, one method, the entry, code of no method."""
        chunks, before, index = [], None, 0
        while index < len(self.records):
            record = self.records[index]
            index += 1
            self.rows[record.kind] += 1
            if record.kind == METHOD:
                chunk, index = self.method_chunk(record, index)
                chunks.append(chunk)
            elif record.kind == before:
                chunks[-1].append(self.line(record))
            else:
                chunks.append([self.line(record)])
            before = record.kind
        if self.rest:
            chunks.append([f"record {row}" for row in byte_rows(self.rest)])
        return chunks + [self.code_chunk(start, stop) for start, stop in self.unwritten()]

    def method_chunk(self, record, index):
        """A method with the parameters and locals after it and then its code, unless that was written before; and the next index."""
        offset, length = record.code_part()
        end = offset + length
        own = self.is_unwritten(offset, end)
        self.variables = Variables(self.naming, self.rows[METHOD], record.body[1])
        chunk = [self.line(record) + (self.at(offset) if own else f" part {offset} {length}")]
        while index < len(self.records) and self.records[index].kind in (PARAMETER, LOCAL):
            chunk.append(self.line(self.records[index]))
            index += 1
        if own:
            self.written[offset:end] = b"\1" * length
            self.place = end
            labels = self.naming.names.labels(self.rows[METHOD])
            chunk += CodeLines(self.naming, self.code[offset:end], labels, self.variables).lines(0 if self.offsets else None)
        return chunk, index

    def is_unwritten(self, start, stop):
        """Whether a part of the code is there, has bytes, and no method before holds one of them."""
        return start < stop <= len(self.code) and self.written.find(1, start, stop) < 0

    def at(self, offset):
        """Where code stands, if not after the code written last."""
        return "" if offset == self.place else f" at {offset}"

    def line(self, record):
        """The line of one record."""
        body, naming = record.body, self.naming
        if record.kind == CLASS:
            parent = f" : {naming.class_word(body[0])}" if body[0] else ""
            return f"class {naming.classes[self.rows[CLASS]]}{parent}"
        if record.kind == FIELD:
            return f"field {naming.members[FIELD][self.rows[FIELD]]} {choice(body[1], FLAGS)} {naming.type_word(body[2])}"
        if record.kind == METHOD:
            overridden = f" overrides {naming.members[METHOD].get(body[4], f'#{body[4]}')}" if body[4] else ""
            name = naming.members[METHOD][self.rows[METHOD]]
            return f"method {name} {choice(body[1], SORTS)} {naming.type_word(body[2])} stack {body[3]}{overridden}"
        if record.kind == ENTRY:
            return f"entry {naming.members[METHOD].get(body[0], f'#{body[0]}')}"
        name = self.variables.declare(record.kind) if self.variables else None
        word = "parameter" if record.kind == PARAMETER else "local"
        return f"  {word} {naming.type_word(body[0])}" + (f" {name}" if name else "")

    def unwritten(self):
        """The stretches of code that no method's chunk holds, cut wherever some method's part begins or ends."""
        parts = [record.code_part() for record in self.records if record.kind == METHOD]
        edges = {offset for offset, _ in parts} | {offset + length for offset, length in parts}
        start = None
        for place, written in enumerate(self.written + b"\1"):
            if start is not None and (written or place in edges):
                yield start, place
                start = None
            if start is None and not written:
                start = place

    def code_chunk(self, start, stop):
        """Code that no method's chunk holds."""
        given = self.naming.names.labels(0).items()
        labels = {offset - start: names for offset, names in given if start <= offset < stop}
        lines = CodeLines(self.naming, self.code[start:stop], labels, None).lines(start if self.offsets else None)
        heading = "code" + self.at(start)
        self.place = stop
        return [heading] + lines


class CodeLines:
    """The lines of one run of code, with a label at each place that a branch of the same run reaches or that the writer named."""

    def __init__(self, naming, code, given_labels, variables):
        self.naming = naming
        self.code = code
        self.variables = variables
        self.items = decode(code)
        starts = {offset for offset, _ in self.items} | {len(code)}
        branches = [(offset, form) for offset, form in self.items if form and form.operand in ("near", "far")]
        self.targets = {offset: branch_target(form, code, offset) for offset, form in branches}
        self.given = {offset: names for offset, names in given_labels.items() if offset in starts}
        self.labels = place_labels(starts, given_labels, {target for target in self.targets.values() if target in starts})

    def lines(self, first):
        """All lines; `first` is the number written beside offset 0, or None where no offsets are wanted."""
        lines, raw = [], bytearray()
        for offset, form in self.items + [(len(self.code), None)]:
            if raw and (form or offset in self.labels or offset == len(self.code)):
                lines += self.raw_lines(raw, offset - len(raw), first)
                raw.clear()
            lines += [f"  {label}:" for label in self.labels.get(offset, [])]
            if form:
                lines.append("    " + self.instruction_words(form, offset) + self.beside(offset, first))
            else:
                raw += self.code[offset:offset + 1]
        return lines

    def raw_lines(self, raw, offset, first):
        """Bytes that don't decode."""
        rows = byte_rows(raw)
        return [f"    .byte {row}{self.beside(offset + index * BYTES_IN_A_LINE, first)}" for index, row in enumerate(rows)]

    def beside(self, offset, first):
        """The comment with an offset, where wanted."""
        return "" if first is None else f"  ; {first + offset}"

    def instruction_words(self, form, offset):
        """An instruction with its operand, or a byte where none stands."""
        return " ".join([form.mnemonic] + self.operand_words(form, offset)) if form else f".byte {self.code[offset]:02X}"

    def label_before(self, offset):
        """The label at an offset or nearest before it; None where there is none."""
        before = [place for place in self.labels if place <= offset]
        return self.labels[max(before)][-1] if before else None

    def operand_words(self, form, offset):
        """The operand of an instruction in words; none where it has none."""
        raw = operand_bytes(form, self.code, offset)
        value = int.from_bytes(raw, "little")
        signed = int.from_bytes(raw, "little", signed=True)
        if form.operand == "none":
            return []
        if form.operand in TOKEN_TOP:
            return [self.naming.token_word(form.operand, value)]
        if form.operand in ("argument", "local"):
            return [self.variable_word(PARAMETER if form.operand == "argument" else LOCAL, value)]
        if form.operand == "real":
            return [self.real_word(value)]
        if offset in self.targets:
            return [self.target_word(self.targets[offset]) or f"{signed:+}"]
        return [str(signed)]

    def variable_word(self, kind, number):
        """An argument or local by its name, or its number."""
        return self.variables.words[kind].get(number, str(number)) if self.variables else str(number)

    def real_word(self, bits):
        """An F."""
        return write_real(bits)

    def target_word(self, target):
        """The label of a place; None where it has none."""
        return self.labels[target][0] if target in self.labels else None


def record_words(tables, names):
    """The whole records of tables, each with its line."""
    text, words = Text(tables, b"", names, False), []
    for record in text.records:
        text.rows[record.kind] += 1
        if record.kind == METHOD:
            text.variables = Variables(text.naming, text.rows[METHOD], record.body[1])
        words.append((record, text.line(record).strip()))
    return words


def decode(code):
    """Offsets with their forms from offset 0 on; a byte where nothing decodes has no form and counts alone."""
    items, offset = [], 0
    while offset < len(code):
        form = read_instruction(code, offset)
        items.append((offset, form))
        offset += form.length if form else 1
    return items


def branch_target(form, code, offset):
    """Where a branch goes: its distance counts from the next instruction."""
    return offset + form.length + int.from_bytes(operand_bytes(form, code, offset), "little", signed=True)


def place_labels(starts, given, targets):
    """Labels by offset: the writer's, each once, and L_ with the offset where a target has none."""
    labels, taken = {}, set()
    for offset in sorted(starts & set(given)):
        names = [name for name in dict.fromkeys(given[offset]) if name not in taken]
        taken.update(names)
        if names:
            labels[offset] = names
    for offset in sorted(targets - set(labels)):
        name = f"L_{offset:04}"
        while name in taken:
            name += "_"
        taken.add(name)
        labels[offset] = [name]
    return labels


def choice(number, words):
    """The word with that number, or `#` and the number."""
    return words[number] if number < len(words) else f"#{number}"


def byte_rows(data):
    """Bytes in rows of one line each."""
    return [write_bytes(data[start:start + BYTES_IN_A_LINE]) for start in range(0, len(data), BYTES_IN_A_LINE)]
