"""The part of the page about methods: for each a heading, its picture, its fault, and its instructions as a table."""

from housetext.disassemble import choice
from housetext.meanings import MEANINGS
from housetext.records import LOCAL, METHOD, PARAMETER, SORTS, WITH_THIS

from .found import shape_words
from .markup import prose, tag
from .picture import FIRST, OTHER, Picture


class Method:
    """One method as the page shows it."""

    def __init__(self, source, row, flow, found):
        self.source, self.row, self.flow, self.found = source, row, flow, found
        self.record = source.methods[row - 1]
        self.lines = {item.offset: item.line for item in flow.rows}
        self.words = {item.offset: item.words for item in flow.rows}

    def place(self, offset):
        """An instruction with its offset and its line."""
        line = self.lines.get(offset)
        return f"offset {offset}" + (f", line {line}" if line else "") + f": {self.words.get(offset, 'no instruction')}"

    def variables(self, kind):
        """Names and types of the arguments or locals; what has no name has its number."""
        records = self.source.text.records
        types = [self.source.naming.class_word(self.record.body[0])] if kind == PARAMETER and self.record.body[1] in WITH_THIS else []
        for record in records[records.index(self.record) + 1:]:
            if record.kind == METHOD:
                break
            if record.kind == kind:
                types.append(self.source.naming.type_word(record.body[0]))
        names = self.flow.variables.words[kind]
        return [(names.get(number, str(number)), type) for number, type in enumerate(types)]

    def signature(self):
        """The method's record in words."""
        sort, returns, most = self.record.body[1:4]
        words = [f"{choice(sort, SORTS)}, returns {self.source.naming.type_word(returns)}, max stack {most}"]
        for kind, what in ((PARAMETER, "arguments"), (LOCAL, "locals")):
            variables = self.variables(kind)
            if variables:
                words.append(f"{what} " + ", ".join(f"{name} ({type})" for name, type in variables))
        return "; ".join(words)

    def marks(self):
        """What stands beside lines of the text: pairs of an offset and words."""
        fault = self.found.fault
        if fault is None:
            return []
        marks = [(fault.offset, f"{fault.number}: wanted {fault.wanted}")]
        if fault.other:
            marks = [(fault.other.source, f"{fault.number}, {OTHER}: brings {shape_words(fault.other.types)}")]
            if fault.first.source is not None:
                marks.append((fault.first.source, f"{FIRST}: brings {shape_words(fault.first.types)}"))
            marks.append((fault.other.target, f"{FIRST} and {OTHER} arrive here"))
        return marks

    def fault(self):
        """The fault in words, with both arrivals where two disagree."""
        fault = self.found.fault
        if fault is None:
            return None
        parts = [tag("p", tag("strong", f"Number {fault.number}"), f" at {self.place(fault.offset)}. ", prose(capital(MEANINGS[fault.number])), ".")]
        if fault.other is None:
            shape = self.found.shapes.get(fault.offset)
            found = [tag("dt", "Found"), tag("dd", shape_words(shape))] if shape is not None else []
            parts.append(tag("dl", found, tag("dt", "Wanted"), tag("dd", fault.wanted)))
        else:
            parts.append(tag("p", f"Two arrivals at {self.place(fault.other.target)} bring different stacks:"))
            parts.append(tag("dl", self.arrival(FIRST, fault.first), self.arrival(OTHER, fault.other)))
        return tag("div", *parts, class_="fault-words", id=f"fault-{self.row}")

    def arrival(self, letter, arrival):
        """One of the arrivals that disagree: where it comes from, how, and what it brings."""
        if arrival.source is None:
            why = "the method begins there" if arrival.target == 0 else "no earlier instruction arrives there"
            return [tag("dt", letter), tag("dd", f"{why}, so the shape is an empty stack")]
        how = "falls there" if arrival.falls else "branches there"
        return [tag("dt", letter), tag("dd", f"{self.place(arrival.source)} {how} and brings ", tag("strong", shape_words(arrival.types)))]

    def section(self):
        """The whole part of this method."""
        return tag(
            "section", tag("h3", f"Method {self.row}: {self.flow.name}"), tag("p", self.signature(), class_="signature"), self.fault(),
            tag("div", Picture(self.flow, self.found, self.row).svg(), class_="picture", tabindex=0, role="region", aria_label=f"Picture of {self.flow.name}"),
            tag("details", tag("summary", "The same as a table"), self.table()),
            class_="method", id=f"method-{self.row}")

    def table(self):
        heads = ["line", "offset", "instruction", "depth before", "types before, from the bottom", "arrivals"]
        return tag("table", tag("thead", tag("tr", [tag("th", head, scope="col") for head in heads])),
                   tag("tbody", [self.table_row(item) for item in self.flow.rows]))

    def table_row(self, item):
        shape = self.found.shapes.get(item.offset)
        line = tag("a", item.line, href=f"#line-{item.line}") if item.line else ""
        arrivals = [arrival for arrival in self.found.arrivals if arrival.target == item.offset]
        words = ", ".join(f"{arrival.source} {'falls' if arrival.falls else 'branches'}" for arrival in arrivals)
        depth, types = ("", "not reached by the check") if shape is None else (len(shape), ", ".join(shape))
        cells = [line, item.offset, tag("code", item.words), depth, types, words]
        return tag("tr", [tag("td", cell) for cell in cells])


def capital(words):
    return words[:1].upper() + words[1:]
