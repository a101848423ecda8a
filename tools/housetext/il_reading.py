"""The first pass over a text in ilasm's spelling, into the same Reading as the house's spelling gives.

The tables have the order that loading wants, whatever the order of the text: classes as they first appear, fields by owner, methods with
their parameters and locals as they appear, the entry, and last the bytes that `.record` gives.
"""

import itertools

from .il_words import (CLASS_WORDS_NOT_KEPT, FIELD_WORDS_NOT_KEPT, MADE_LABEL, METHOD_WORDS_NOT_KEPT, OBJECT_WORDS, PLAIN_CLASS_WORDS,
                       PLAIN_FIELD_WORDS, PLAIN_METHOD_WORDS, PLAIN_TAIL_WORDS, TYPE_WORDS, TYPES_NOT_KEPT, il_words)
from .instructions import TOKEN_TOP, form_of
from .reading import SKIPPED_SORT, Item, RawLine, Reading, RecordLine, Reference
from .records import CLASS, CLASS_TYPE, ENTRY, FIELD, LOCAL, METHOD, MOST_CODE, PARAMETER, SORTS, TYPES
from .words import TextError, is_number, read_bytes, read_number, shown, word_at

OBJECT_ROW = 1
BAD_OWNER = "?"  # stands for a class whose heading is bad
USUAL_STACK = 8  # where a method has no .maxstack, by ECMA-335 II.15.4.1
MARKS = set("{}()[],:=&*<>!") | {"::"}
SORT_OF_NAME = {".ctor": SORTS.index("constructor"), ".cctor": SORTS.index("initialiser")}
DIRECTIVES_NOT_KEPT = (".try", ".property", ".event", ".pack", ".size", ".data", ".param", ".vtentry", ".emitlabel", ".interfaceimpl", ".permission")


def is_il(lines):
    """Whether a text is in ilasm's spelling: its first word is a directive with a point, or its first comment is ilasm's."""
    for content in lines:
        start = content.strip()
        if start and not start.startswith(";"):
            return start.startswith(("//", "/*")) or start.startswith(".") and not start.startswith(".byte")
    return False


def read_il(lines, errors):
    """A Reading of the lines of a text."""
    return IlReader(il_words(lines, errors), errors).read()


class IlReader:
    """The words of a text and how many are read; the block that is open, and what the records will be made from."""

    def __init__(self, words, errors):
        last = words[-1].line if words else 1
        self.words = words
        self.end = word_at("", last, words[-1].column + len(words[-1]) if words else 1)
        self.index = 0
        self.reading = Reading(errors)
        self.reading.made_label = MADE_LABEL
        self.blocks = []
        self.owner = None
        self.parents = {}
        self.early = set()
        self.fields = []
        self.methods = []
        self.method = None
        self.entry = None
        self.raw = []

    # Words.

    def peek(self, ahead=0):
        """The next word, or the end."""
        return self.words[self.index + ahead] if self.index + ahead < len(self.words) else self.end

    def take(self):
        """The next word, which is read now."""
        word = self.peek()
        self.index += 1
        return word

    def at(self, *texts):
        """Whether the next word is one of these."""
        return self.peek() in texts and not self.peek().quoted

    def skip(self, text):
        """Reads the next word if it is this."""
        if self.at(text):
            return self.take()
        return None

    def want(self, text):
        """Reads this word."""
        if not self.at(text):
            raise self.missing(f"`{text}`")
        return self.take()

    def missing(self, what):
        """The error for a word that isn't there: at the word in its place, or at the word before where that ends its line."""
        word, before = self.peek(), self.words[max(0, self.index - 1)]
        if word and word.line == before.line:
            return TextError(word, f"{what} is wanted here, not {shown(word)}")
        return TextError(before, f"{what} is wanted after {shown(before)}")

    def name(self, what):
        """A name: a word, or anything in quotes."""
        word = self.peek()
        if not word or not word.quoted and (word in MARKS or is_number(word)) or word.startswith("#"):
            raise self.missing(f"a name for {what}")
        return self.take()

    def number(self, high, what):
        """A number from 0 to high."""
        return read_number(self.take(), 0, high, what)

    def rest_of_line(self, word):
        """The words after this one in its line."""
        start = self.index
        while self.peek().line == word.line and self.peek() and not self.at("}"):
            self.index += 1
        return self.words[start:self.index]

    # Blocks and directives.

    def read(self):
        """Everything, statement by statement; after a bad one it goes on at the next line."""
        while self.index < len(self.words):
            self.attempt(self.statement)
        for opened in self.blocks:
            self.reading.errors.note(TextError(opened[0], "this block is not closed"))
        self.arrange()
        return self.reading

    def attempt(self, action):
        """One statement; the names in the line of a bad one are spoiled."""
        start = self.index
        try:
            action()
        except TextError as error:
            self.pass_line(start, error.line)
            self.reading.spoil(self.words[start:self.index])
            self.reading.errors.note(error)

    def pass_line(self, start, line):
        """Goes on after the line of an error in a statement; the end of a block in a line of its own is not passed."""
        first, read = self.words[start].line, self.words[start:self.index]
        line = max([line] + [word.line for word in read[-1:]])
        index = max(self.index, start + 1)
        for word in itertools.islice(self.words, index, None):
            if word.line > line or word.line > first and word == "}":
                break
            index += 1
        self.index = index

    def statement(self):
        """A directive outside methods, or the end of a block."""
        word = self.peek()
        if self.skip("}"):
            if not self.blocks:
                raise TextError(word, "no block is open here")
            self.owner = self.blocks.pop()[1]
        elif word in self.DIRECTIVES and not word.quoted:
            self.DIRECTIVES[self.take()](self, word)
        elif word in DIRECTIVES_NOT_KEPT:
            raise TextError(word, f"`{word}` is not kept")
        else:
            raise TextError(word, f"{shown(word)} is no directive that can stand outside methods")

    def open_block(self, word, owner):
        """The `{` of a block that a directive begins."""
        self.want("{")
        self.blocks.append((word, self.owner))
        self.owner = owner

    def pass_over(self, word):
        """What says nothing about the module: the words of this line, and of the block after it if there is one."""
        while self.peek() and self.peek().line == word.line and not self.at("{", "}"):
            self.index += 1
        depth = 1 if self.skip("{") else 0
        while depth and self.peek():
            depth += {"{": 1, "}": -1}.get(self.take(), 0)

    def pass_over_custom(self, word):
        """A custom attribute: the words of its line, and the bytes in brackets after its `=` if they go on."""
        depth, last = 0, word
        while self.peek() and (self.peek().line == word.line or depth > 0 or last == "=") and (depth > 0 or not self.at("}")):
            last = self.take()
            depth += {"(": 1, ")": -1}.get(last, 0)

    def namespace(self, word):
        """A namespace is only a block."""
        self.name("a namespace")
        self.open_block(word, self.owner)

    def class_block(self, word):
        """A class; the block after a bad heading is read all the same, so that it is looked at too."""
        start = self.index
        try:
            owner = self.class_heading(word)
        except TextError as error:
            self.reading.errors.note(error)
            if not self.pass_heading(start):
                return
            owner = word.saying(BAD_OWNER)
        self.open_block(word, owner)

    def end_heading(self):
        """A heading ends before the `{` of its block."""
        if not self.at("{"):
            raise self.missing("`{`")

    def pass_heading(self, start):
        """Goes on at the block after a bad heading, whose names are spoiled; whether there is one."""
        while self.peek() and not self.at("{", "}", ".method", ".class", ".field"):
            self.index += 1
        self.reading.spoil(self.words[start:self.index])
        self.reading.spoiled.add(BAD_OWNER)
        return self.at("{")

    def class_heading(self, word):
        """The name of a class, which is declared; one that was there before is opened again."""
        if self.owner is not None:
            raise TextError(word, "nested classes are not kept")
        early = None
        while self.at(*PLAIN_CLASS_WORDS, *CLASS_WORDS_NOT_KEPT, "beforefieldinit"):
            early = self.peek() if self.at("beforefieldinit") else early
            self.plain_word(CLASS_WORDS_NOT_KEPT)
        name = self.name("a class")
        if name in TYPES:
            raise TextError(name, f"{shown(name)} is no name for a class")
        parent = self.class_name() if self.skip("extends") else None
        if self.at("implements", "<"):
            raise TextError(self.peek(), "interfaces and type parameters are not kept")
        self.end_heading()
        if name in self.reading.classes:
            if parent is not None and parent != self.parents[name]:
                raise TextError(parent, f"class {shown(name)} had another parent before")
        else:
            self.declare_class(word, name, parent)
        if early:
            self.early.add(name)
        return name

    def declare_class(self, word, name, parent):
        """A class record. The first class is Object, which is added where a text begins with a class that extends ilasm's Object."""
        reading = self.reading
        if not reading.classes and parent == f"#{OBJECT_ROW}" and parent.quoted:
            reading.classes["Object"] = reading.add_record(CLASS, word, (name.saying("#0"),)).row
            self.parents["Object"] = None
        self.parents[name] = parent
        usual = name.saying(f"#{OBJECT_ROW}" if reading.classes else "#0")
        reading.classes[name] = reading.add_record(CLASS, word, (usual if parent is None else parent,)).row

    def plain_word(self, not_kept):
        """A word of a heading that changes nothing."""
        word = self.take()
        if word in not_kept:
            raise TextError(word, f"`{word}` is not kept")

    def field(self, word):
        """A field, with its owner where it stands outside a class."""
        static = 0
        while self.at("static", "flag", *PLAIN_FIELD_WORDS, *FIELD_WORDS_NOT_KEPT):
            if self.skip("static"):
                static = 1
            elif self.skip("flag"):
                static = self.bracketed_number()
            else:
                self.plain_word(FIELD_WORDS_NOT_KEPT)
        kind = self.type_word()
        owner, name = self.declared_name("a field")
        if self.at("=", "at"):
            raise TextError(self.peek(), "a field starts at 0 or null; other values for it are not kept")
        self.fields.append(RecordLine(FIELD, word, 0, (owner, name, static, kind), [kind]))

    def bracketed_number(self):
        """A byte in brackets."""
        self.want("(")
        number = self.number(255, "number")
        self.want(")")
        return number

    def declared_name(self, what):
        """The owner and the name of a field or method that is declared here."""
        name = self.peek() if self.raw_row() else self.name(what)
        if self.raw_row() or self.at("::"):
            owner = self.take() if self.raw_row() else name
            self.want("::")
            return owner, self.name(what)
        if self.owner is None:
            raise TextError(name, f"{what} outside a class is written with its owner, OWNER::NAME")
        return self.owner, name

    def raw_row(self):
        """Whether `#` and a number come next."""
        return self.peek().startswith("#") and not self.peek().quoted

    # Types and names of members.

    def type_word(self):
        """A type, as the second pass reads types."""
        word = self.peek()
        if not word.quoted and word in TYPE_WORDS:
            kind = self.take().saying(TYPE_WORDS[word])
        elif not word.quoted and word in TYPES_NOT_KEPT:
            raise TextError(word, f"type `{word}` is not kept; the types are void, int32, int64, float64 and classes")
        elif self.raw_row():
            kind = self.take()
        else:
            kind = self.class_name()
            if kind == f"#{OBJECT_ROW}" and kind.quoted:
                kind = kind.saying(f"#{CLASS_TYPE + OBJECT_ROW}")
        if self.at("&", "*", "<") or self.at("[") and (self.peek(1) in ("]", ",") or is_number(self.peek(1))):
            raise TextError(self.peek(), "arrays, pointers and type parameters are not kept")
        return kind

    def class_name(self):
        """A class by its name, as `#ROW`, or ilasm's Object, which is row 1 and marked as quoted."""
        self.skip("class")
        elsewhere = self.peek() if self.skip("[") else None
        if elsewhere:
            self.name("an assembly")
            self.want("]")
        if self.raw_row():
            return self.take()
        name = self.name("a class")
        if name in OBJECT_WORDS and not name.quoted:
            return word_at(f"#{OBJECT_ROW}", name.line, name.column, True)
        if elsewhere:
            raise TextError(name, "of other assemblies only System.Object is known")
        return name

    def field_reference(self):
        """TYPE OWNER::NAME."""
        kind = self.type_word()
        owner = self.class_name()
        self.want("::")
        return Reference(owner, self.name("a field"), [kind])

    def method_reference(self):
        """[instance] TYPE OWNER::NAME(TYPE, ...)."""
        while self.at("instance", "default"):
            self.take()
        returned = self.type_word()
        owner = self.class_name()
        self.want("::")
        name = self.name("a method")
        return Reference(owner, name, [returned] + [kind for kind, _ in self.variables(False)])

    def variables(self, numbered):
        """Types with names, in brackets; those of locals may have their number before them."""
        self.want("(")
        found = []
        while not self.at(")"):
            if self.at("["):
                self.variable_number(len(found) if numbered else None)
            kind = self.type_word()
            found.append((kind, None if self.at(",", ")") else self.name("an argument or local")))
            if not self.at(")"):
                self.want(",")
        self.want(")")
        return found

    def variable_number(self, wanted):
        """The number of a local, which must be its place."""
        self.take()
        word = self.take()
        if wanted is None or not is_number(word) or read_number(word, 0, 255, "number") != wanted:
            raise TextError(word, "of marks in square brackets only the number of a local is kept, in rising order from 0")
        self.want("]")

    # Methods and their code.

    def method_block(self, word):
        """A method; the block after a bad heading is read all the same, so that it is looked at too."""
        start = self.index
        try:
            self.method = self.method_heading(word)
            self.methods.append(self.method)
        except TextError as error:
            self.reading.errors.note(error)
            if not self.pass_heading(start):
                return
            self.method = IlMethod(word, None, word, SKIPPED_SORT, [], None)
        self.reading.begin_member(0, self.method.sort)
        self.method.member = self.reading.member
        for _, name in self.method.parameters:
            self.reading.errors.attempt(self.reading.member.declare, PARAMETER, name)
        self.reading.body = None
        self.code_statements()

    def code_statements(self):
        """The block of a method or of `.code`, to its end."""
        self.want("{")
        while self.peek() and not self.at("}", ".method", ".class", ".field"):
            self.attempt(self.code_statement)
        self.begin_code()
        self.reading.body = None
        if not self.skip("}"):
            self.reading.errors.note(TextError(self.peek(), "the block of code before this is not closed: `}` is wanted here"))

    def method_heading(self, word):
        """Words, return type, name and parameters of a method."""
        sort = None
        found = {"static": False, "instance": False, "virtual": False, "newslot": False}
        while self.at("sort", *found, *PLAIN_METHOD_WORDS, *METHOD_WORDS_NOT_KEPT):
            if self.skip("sort"):
                sort = self.bracketed_number()
            elif self.peek() in found:
                found[self.take()] = True
            else:
                self.plain_word(METHOD_WORDS_NOT_KEPT)
        returned = self.type_word()
        owner, name = self.declared_name("a method")
        if sort is None:
            sort = 0 if found["static"] else 2 if found["virtual"] else 1
            sort = SORT_OF_NAME.get(name, sort)
        if name == ".cctor" and owner in self.early:
            raise TextError(name, f"the class `{owner}` is beforefieldinit, which is not kept where there is an initialiser")
        parameters = self.variables(False)
        while self.at(*PLAIN_TAIL_WORDS, *METHOD_WORDS_NOT_KEPT):
            self.plain_word(METHOD_WORDS_NOT_KEPT)
        self.end_heading()
        slot = None if found["virtual"] and not found["newslot"] else word.saying("#0")
        return IlMethod(word, owner, name, sort, parameters, slot, returned)

    def code_block(self, word):
        """Code of no method."""
        start = None if self.at("{") else self.number(MOST_CODE, "code offset")
        self.reading.begin_body(None, start)
        self.method = None
        self.code_statements()

    def begin_code(self):
        """The run of code of the method that is open begins, if it hasn't and the method has no part of its own choosing."""
        method = self.method
        if method is not None and method.body is None and method.part is None:
            method.body = self.reading.begin_body(method.member, method.start)

    def code_statement(self):
        """A label, a directive or an instruction inside a method or `.code`."""
        word = self.peek()
        if self.peek(1) == ":" and not self.peek(1).quoted:
            self.begin_code()
            name = self.name("a label")
            self.take()
            self.reading.add_label(name)
        elif word in self.CODE_DIRECTIVES and not word.quoted:
            self.CODE_DIRECTIVES[self.take()](self, word)
        elif word in DIRECTIVES_NOT_KEPT:
            raise TextError(word, f"`{word}` is not kept")
        else:
            self.instruction(self.take())

    def instruction(self, word):
        """A mnemonic and its operand, which begins in the same line."""
        form = form_of(word, self.CODE_DIRECTIVES)
        self.begin_code()
        if self.reading.body is None:
            raise TextError(word, f"`{word}` stands outside code; this method has a `.part`")
        item = Item(word, form, None)
        try:
            if form.operand != "none":
                if self.peek().line != word.line or self.at("}"):
                    raise TextError(word, f"`{word}` takes an operand")
                item.operand = self.operand(form.operand)
        except TextError:
            item.form, item.data = None, bytes(form.length)
            raise
        finally:
            self.reading.add_item(item, form.length)

    def operand(self, kind):
        """The operand of an instruction: a word or a Reference."""
        if kind in TOKEN_TOP and self.raw_row() and self.peek(1).line != self.peek().line:
            return self.take()
        if kind == "class":
            name = self.class_name()
            return name.saying(f"#0x{TOKEN_TOP[kind]:02X}{OBJECT_ROW:06X}") if name.startswith("#") and name.quoted else name
        if kind == "field":
            return self.field_reference()
        if kind == "method":
            return self.method_reference()
        if kind == "real":
            return self.real()
        return self.take()

    def real(self):
        """A number; `float64(BITS)`; or the eight bytes in brackets, lowest first."""
        word = self.take()
        if word == "float64":
            self.want("(")
            word = self.take()
            self.want(")")
        elif word == "(":
            found = []
            while self.peek() and not self.at(")") and self.peek().line == word.line:
                found.append(self.take())
            self.want(")")
            data = read_bytes(found)
            if len(data) != 8:
                raise TextError(word, "an F has eight bytes")
            word = word.saying(f"0x{int.from_bytes(data, 'little'):016X}")
        return word

    def entry_point(self, word):
        """The method that is open is the entry."""
        if self.method is None or self.entry is not None:
            raise TextError(word, "`.entrypoint` is written once at most, in a method")
        self.entry = (word, None, self.method)

    def max_stack(self, word):
        """The max stack of the method that is open."""
        self.own(word).stack = self.number(255, "max stack")

    def own(self, word):
        """The method that is open."""
        if self.method is None:
            raise TextError(word, f"`{word}` stands in a method")
        return self.method

    def locals(self, word):
        """More locals of the method that is open."""
        method = self.own(word)
        self.skip("init")
        for kind, name in self.variables(True):
            method.locals.append(kind)
            self.reading.errors.attempt(method.member.declare, LOCAL, name)

    def override(self, word):
        """The method that is overridden: its row, OWNER::NAME, or `method` and all that a call has."""
        method = self.own(word)
        if self.raw_row() and self.peek(1) != "::":
            method.overridden = self.take()
        elif self.skip("method"):
            method.overridden = self.method_reference()
        else:
            owner = self.class_name()
            self.want("::")
            method.overridden = Reference(owner, self.name("a method"), None)

    def place_code(self, word):
        """Where the code of the method that is open goes."""
        if self.own(word).body is not None:
            raise TextError(word, "`.at` stands before the code of its method")
        self.method.start = self.number(MOST_CODE, "code offset")

    def part(self, word):
        """The part that the record of the method that is open names, whatever stands there."""
        if self.own(word).body is not None:
            raise TextError(word, "a method with a `.part` has no code of its own")
        self.method.part = (self.number(0xFFFFFFFF, "code offset"), self.number(0xFFFF, "code length"))

    def emit_bytes(self, word):
        """Bytes of code as they are."""
        self.begin_code()
        if self.reading.body is None:
            raise TextError(word, "`.emitbyte` stands outside code; this method has a `.part`")
        found = self.rest_of_line(word)
        if not found:
            raise TextError(word, "`.emitbyte` takes a byte")
        data = bytes(read_number(each, 0, 255, "byte") for each in found)
        self.reading.add_item(Item(word, None, None, data), len(data))

    # What has no word in ilasm.

    def raw_record(self, word):
        """Bytes at the end of the tables."""
        self.raw.append(RawLine(word, read_bytes(self.rest_of_line(word))))

    def raw_entry(self, word):
        """An entry by its row."""
        if self.entry is not None or not self.raw_row():
            raise TextError(word, "`.entry #ROW` is written once at most, and not beside `.entrypoint`")
        self.entry = (word, self.take(), None)

    def announced(self, word):
        """The table length that the input announces."""
        if self.reading.announced is not None:
            raise TextError(word, "`.announced LENGTH` is written once at most")
        self.reading.announced = self.number(0xFFFF, "announced length")

    def whole_input(self, word):
        """The whole input."""
        if self.reading.whole_input is not None:
            raise TextError(word, "`.input` is written once at most")
        self.reading.whole_input = RawLine(word, read_bytes(self.rest_of_line(word)))

    # The records in their order.

    def arrange(self):
        """Puts fields, methods, entry and raw bytes after the classes."""
        reading = self.reading
        for record in sorted(self.fields, key=self.owner_row):
            record.row = reading.next_row(FIELD)
            reading.records.append(record)
        for method in self.methods:
            self.arrange_method(method)
        if self.entry is not None:
            word, row, method = self.entry
            reading.add_record(ENTRY, word, (word.saying(f"#{method.member.row}") if row is None else row,))
        reading.records += self.raw

    def owner_row(self, record):
        """The row of a field's owner; a bad owner is told later."""
        owner = record.slots[0]
        if not owner.startswith("#"):
            return self.reading.classes.get(owner, 0)
        try:
            return read_number(owner.cut(1), 0, 255, "row")
        except TextError:
            return 0

    def arrange_method(self, method):
        """The records of a method, its parameters and its locals."""
        types = [method.returned] + [kind for kind, _ in method.parameters]
        slots = (method.owner, method.name, method.sort, method.returned, method.stack, method.overridden)
        record = RecordLine(METHOD, method.word, self.reading.next_row(METHOD), slots, types)
        record.part, record.body = method.part, method.body
        method.member.row = record.row
        self.reading.records.append(record)
        for kind, words in ((PARAMETER, types[1:]), (LOCAL, method.locals)):
            for word in words:
                self.reading.add_record(kind, word, (word,))

    DIRECTIVES = {
        ".class": class_block, ".field": field, ".method": method_block, ".namespace": namespace, ".code": code_block,
        ".record": raw_record, ".entry": raw_entry, ".announced": announced, ".input": whole_input, ".custom": pass_over_custom,
        ".assembly": pass_over, ".module": pass_over, ".corflags": pass_over, ".subsystem": pass_over, ".file": pass_over,
        ".imagebase": pass_over, ".stackreserve": pass_over, ".line": pass_over,
    }

    CODE_DIRECTIVES = {
        ".entrypoint": entry_point, ".maxstack": max_stack, ".locals": locals, ".override": override, ".at": place_code, ".part": part,
        ".emitbyte": emit_bytes, ".custom": pass_over_custom, ".line": pass_over,
    }


class IlMethod:
    """A method that is being read."""

    def __init__(self, word, owner, name, sort, parameters, overridden, returned=None):
        self.word = word
        self.owner = owner
        self.name = name
        self.sort = sort
        self.parameters = parameters
        self.overridden = overridden
        self.returned = returned
        self.stack = USUAL_STACK
        self.locals = []
        self.member = None
        self.start = None
        self.part = None
        self.body = None
