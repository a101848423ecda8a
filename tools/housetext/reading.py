"""The first pass over a text in the house's spelling: each line becomes a record or a piece of code, rows and offsets are counted."""

import re

from .instructions import form_of
from .records import CLASS, ENTRY, FIELD, FLAGS, LOCAL, METHOD, MOST_CODE, PARAMETER, SORTS, WITH_THIS, read_records
from .words import TextError, grouped, is_class_name, is_name, read_bytes, read_number, shown, words_of

CLASS_WORD = re.compile(r"[^:]+|:")
PIECE_OF_NAME = re.compile(r"\w+")
SKIPPED_SORT = 0
WORDS_OF_A_NAME = 3  # a line declares what it does within these


class RecordLine:
    """A record as the text has it: the words of its slots, the word that begins it, and its row among the records of its kind.

    In ilasm's spelling a field or method is found by its types too: those of the field, or what a method returns and its parameters.
    """

    def __init__(self, kind, word, row, slots, types=None):
        self.kind = kind
        self.word = word
        self.row = row
        self.slots = slots
        self.types = types


class RawLine:
    """Table bytes that the text gives as they are."""

    kind = None

    def __init__(self, word, data):
        self.word = word
        self.data = data


class Reference:
    """A field or method as ilasm's spelling names it: its owner, its own name and its types."""

    def __init__(self, owner, name, types):
        self.owner = owner
        self.name = name
        self.types = types


class Member:
    """The arguments and locals of a method, by name and in number."""

    def __init__(self, row, sort):
        self.row = row
        self.counts = {PARAMETER: 1 if sort in WITH_THIS else 0, LOCAL: 0}
        self.named = {PARAMETER: {"this": 0} if sort in WITH_THIS else {}, LOCAL: {}}

    def declare(self, kind, name):
        """Counts one parameter or local, and notes its name if it has one."""
        number = self.counts[kind]
        self.counts[kind] += 1
        if name is not None:
            if name in self.named[kind] or name == "this":
                raise TextError(name, f"duplicate name {shown(name)}")
            self.named[kind][name] = number


class Body:
    """A run of instructions: a method's own code, or code that belongs to no method."""

    def __init__(self, member, start):
        self.member = member
        self.start = start
        self.length = 0
        self.items = []
        self.labels = {}


class Item:
    """One instruction with the word of its operand, or bytes given as they are; `word` begins it in the text."""

    def __init__(self, word, form, operand, data=None):
        self.word = word
        self.form = form
        self.operand = operand
        self.data = data
        self.offset = 0


class Reading:
    """What the words read so far have declared. Names in bad lines are `spoiled`: nobody is told that they are unknown."""

    # Where each instruction has a label made from its offset, those are no names that a writer gave.
    made_label = None

    def __init__(self, errors):
        self.errors = errors
        self.spoiled = set()
        self.records = []
        self.bodies = []
        self.rows = {CLASS: 0, FIELD: 0, METHOD: 0}
        self.classes = {}
        self.members = []
        self.member = None
        self.body = None
        self.place = 0
        self.announced = None
        self.whole_input = None

    def next_row(self, kind):
        """The row of one more record of this kind; kinds without rows have row 0."""
        if kind in self.rows:
            self.rows[kind] += 1
        return self.rows.get(kind, 0)

    def add_record(self, kind, word, slots):
        """Puts a record at the end of the tables."""
        record = RecordLine(kind, word, self.next_row(kind), slots)
        self.records.append(record)
        return record

    def begin_member(self, row, sort):
        """Parameters and locals belong to this method from here on."""
        self.member = Member(row, sort)
        self.members.append(self.member)

    def begin_body(self, member, start):
        """Instructions go to a new run of code from here on, at that offset or after the code written last."""
        self.place = self.place if start is None else start
        self.body = Body(member, self.place)
        self.bodies.append(self.body)
        return self.body

    def add_label(self, name):
        """A label at the end of the code read so far."""
        if self.body is None:
            raise TextError(name, f"label {shown(name)} stands outside code")
        if name in self.body.labels:
            raise TextError(name, f"duplicate label {shown(name)}")
        self.body.labels[name] = self.body.length

    def add_item(self, item, length):
        """Puts an instruction or bytes at the end of the code read so far."""
        item.offset = self.body.length
        self.body.items.append(item)
        self.body.length += length
        fitted = self.place <= MOST_CODE
        self.place += length
        if fitted and self.place > MOST_CODE:
            raise TextError(item.word, f"code passes {grouped(MOST_CODE)} bytes here; a module has at most 32,768")

    def spoil(self, words):
        """Notes the names that bad words may declare."""
        self.spoiled.update(piece for word in words for piece in PIECE_OF_NAME.findall(word))


def read_text(lines, errors):
    """A Reading of the lines of a text."""
    reading = Reading(errors)
    for line, content in enumerate(lines, 1):
        words = words_of(content, line)
        try:
            _read_words(reading, words)
        except TextError as error:
            reading.spoil(words[:WORDS_OF_A_NAME])
            errors.note(error)
    return reading


def _read_words(reading, words):
    while words and words[0].endswith(":"):
        _read_label(reading, words[0].cut(0, -1))
        words = words[1:]
    if not words:
        return
    if words[0] in DIRECTIVES:
        DIRECTIVES[words[0]](reading, words)
    else:
        _read_instruction(reading, words)


def _read_label(reading, name):
    if not is_name(name):
        raise TextError(name, f"{shown(name)} is no name for a label")
    reading.add_label(name)


def _read_instruction(reading, words):
    form = form_of(words[0], DIRECTIVES)
    if reading.body is None:
        raise TextError(words[0], f"`{words[0]}` stands outside code; a `method` without `part` or the word `code` begins code")
    wanted = 1 if form.operand == "none" else 2
    if len(words) != wanted:
        raise TextError(words[min(wanted, len(words) - 1)], f"`{words[0]}` takes {'no operand' if wanted == 1 else 'one operand'}")
    reading.add_item(Item(words[0], form, words[-1]), form.length)


def _read_class(reading, words):
    pieces = [word.cut(found.start(), found.end()) for word in words[1:] for found in CLASS_WORD.finditer(word)]
    if len(pieces) not in (1, 3) or pieces[1:2] not in ([], [":"]):
        raise TextError(words[0], "a class is written `class NAME` or `class NAME : PARENT`")
    name = pieces[0]
    if not is_class_name(name):
        raise TextError(name, f"{shown(name)} is no name for a class")
    if name in reading.classes:
        raise TextError(name, f"duplicate class `{name}`")
    reading.body = None
    reading.classes[name] = reading.add_record(CLASS, words[0], (pieces[2] if pieces[1:] else name.saying("#0"),)).row


def _read_field(reading, words):
    if len(words) != 4:
        raise TextError(words[0], "a field is written `field OWNER.NAME instance|static TYPE`")
    owner, name = split_member(words[1])
    reading.body = None
    reading.add_record(FIELD, words[0], (owner, name, read_choice(words[2], FLAGS, "instance or static"), words[3]))


def _read_method(reading, words):
    """A method; after a bad line its code is read all the same, so that it is looked at too."""
    try:
        slots, part, start = _method_slots(words)
    except TextError:
        reading.begin_member(0, SKIPPED_SORT)
        reading.begin_body(reading.member, None)
        raise
    record = reading.add_record(METHOD, words[0], slots)
    reading.begin_member(record.row, slots[2])
    reading.body = None
    record.part = part
    record.body = reading.begin_body(reading.member, start) if part is None else None


def _method_slots(words):
    """Owner, name, sort, return type, max stack and overridden method; the part that the record names by itself; where its code goes."""
    usage = "a method is written `method OWNER.NAME SORT TYPE stack N [overrides METHOD] [at OFFSET | part OFFSET LENGTH]`"
    if len(words) < 6 or words[4] != "stack":
        raise TextError(words[0], usage)
    owner, name = split_member(words[1])
    sort = read_choice(words[2], SORTS, "a sort")
    stack = read_number(words[5], 0, 255, "max stack")
    options = read_options(words[6:], {"overrides": 1, "at": 1, "part": 2})
    if options is None or {"at", "part"} <= set(options):
        raise TextError(words[0], usage)
    part, start = None, read_start(options)
    if "part" in options:
        offset, length = options["part"]
        part = (read_number(offset, 0, 0xFFFFFFFF, "code offset"), read_number(length, 0, 0xFFFF, "code length"))
    overridden = options["overrides"][0] if "overrides" in options else words[0].saying("#0")
    return (owner, name, sort, words[3], stack, overridden), part, start


def _read_variable(kind):
    def read(reading, words):
        if len(words) not in (2, 3) or not all(is_name(word) for word in words[2:]):
            raise TextError(words[0], "a parameter or local is written with its type and, if wanted, a name")
        reading.add_record(kind, words[0], (words[1],))
        if reading.member is not None:
            reading.member.declare(kind, words[2] if words[2:] else None)
    return read


def _read_entry(reading, words):
    if len(words) != 2:
        raise TextError(words[0], "an entry is written `entry METHOD`")
    reading.body = None
    reading.add_record(ENTRY, words[0], (words[1],))


def _read_record(reading, words):
    """Bytes for the tables; the whole records in them count as rows, as a loader would count them."""
    raw = RawLine(words[0], read_bytes(words[1:]))
    for record in read_records(raw.data)[0]:
        row = reading.next_row(record.kind)
        if record.kind == METHOD:
            reading.begin_member(row, record.body[1])
        elif record.kind in (PARAMETER, LOCAL) and reading.member is not None:
            reading.member.declare(record.kind, None)
    reading.body = None
    reading.records.append(raw)


def _read_code(reading, words):
    options = read_options(words[1:], {"at": 1})
    if options is None:
        raise TextError(words[0], "code of no method begins with `code` or `code at OFFSET`")
    reading.begin_body(None, read_start(options))


def _read_raw_code(reading, words):
    if reading.body is None:
        raise TextError(words[0], "`.byte` stands outside code; `record` gives bytes of the tables")
    data = read_bytes(words[1:])
    reading.add_item(Item(words[0], None, None, data), len(data))


def _read_announced(reading, words):
    if len(words) != 2 or reading.announced is not None:
        raise TextError(words[0], "`announced LENGTH` is written once at most")
    reading.announced = read_number(words[1], 0, 0xFFFF, "announced length")


def _read_input(reading, words):
    if reading.whole_input is not None:
        raise TextError(words[0], "`input` is written once at most")
    reading.whole_input = RawLine(words[0], read_bytes(words[1:]))


def split_member(word):
    """The owner and the own name out of `OWNER.NAME`."""
    owner, _, name = word.rpartition(".")
    if not is_name(name) or not (is_class_name(owner) or owner.startswith("#")):
        raise TextError(word, f"{shown(word)} is no name of the form OWNER.NAME")
    return word.cut(0, len(owner)), word.cut(len(owner) + 1)


def read_options(words, sizes):
    """Words in the order of `sizes`, each at most once and with that many values after it; None where they are not so."""
    options = {}
    for word, size in sizes.items():
        if words[:1] == [word] and len(words) > size:
            options[word] = words[1:1 + size]
            words = words[1 + size:]
    return None if words else options


def read_start(options):
    """The offset after `at`, or None."""
    return read_number(options["at"][0], 0, MOST_CODE, "code offset") if "at" in options else None


def read_choice(word, choices, what):
    """The number of a word in a list of choices, or the number after `#`."""
    if word.startswith("#"):
        return read_number(word.cut(1), 0, 255, what)
    if word not in choices:
        raise TextError(word, f"{shown(word)} is not {what}")
    return choices.index(word)


DIRECTIVES = {
    "class": _read_class,
    "field": _read_field,
    "method": _read_method,
    "parameter": _read_variable(PARAMETER),
    "local": _read_variable(LOCAL),
    "entry": _read_entry,
    "record": _read_record,
    "code": _read_code,
    ".byte": _read_raw_code,
    "announced": _read_announced,
    "input": _read_input,
}
