"""The control flow of one method: its instructions in basic blocks, and the edges by which one block goes on to another."""

from collections import namedtuple

from housetext.disassemble import CodeLines
from housetext.explaining import variables_of
from housetext.records import METHOD

# An instruction: its offset, its words, the line of the text (None without one), and its form (None where nothing decodes).
Row = namedtuple("Row", "offset words line form")

# Rows that are entered at the first and left at the last. A block without rows stands for a place that is no instruction; `note` says which.
Block = namedtuple("Block", "offset rows note")

# From the block at one index to the block at another; `falls` tells a fall from a branch.
Edge = namedtuple("Edge", "source target falls")

BRANCHES = ("near", "far")
NEVER_FALL = ("ret", "br", "br.s")


class Flow:
    """One method of a source: rows, blocks by rising offset, and edges."""

    def __init__(self, source, row):
        start, length = source.methods[row - 1].code_part()
        self.code = source.code[start:start + length]
        self.name = source.naming.members[METHOD][row]
        self.variables = variables_of(source, row)
        self.listing = CodeLines(source.naming, self.code, source.names.labels(row), self.variables)
        self.labels = self.listing.labels
        lines = {offset - start: line for offset, line in source.code_lines.items()}
        self.rows = [Row(offset, self.words(offset, form), lines.get(offset), form) for offset, form in self.listing.items]
        self.blocks = self.cut()
        self.edges = self.joined()

    def words(self, offset, form):
        """An instruction in words; a byte that doesn't decode as a byte."""
        if form is None:
            return f".byte {self.code[offset]:02X}"
        return " ".join([form.mnemonic] + self.listing.operand_words(form, offset))

    def goes_on(self, row):
        """Where an instruction may go on: pairs of an offset and whether it falls there."""
        if row.form is None:
            return []
        goes = [] if row.form.mnemonic in NEVER_FALL else [(row.offset + row.form.length, True)]
        if row.form.operand in BRANCHES:
            goes.append((self.listing.targets[row.offset], False))
        return goes

    def cut(self):
        """Blocks by offset. One begins at the start, at each target, after each branch, `ret` and bytes that don't decode."""
        starts = {row.offset for row in self.rows}
        leaders = {0} | {target for target in self.listing.targets.values() if target in starts}
        blocks, ended = [], True
        for row in self.rows:
            if ended or row.offset in leaders:
                blocks.append(Block(row.offset, [], None))
            blocks[-1].rows.append(row)
            ended = row.form is not None and (row.form.operand in BRANCHES or row.form.mnemonic == "ret")
        return blocks

    def joined(self):
        """The edges; a place that is no instruction gets a block of its own, after all others."""
        index = {block.offset: number for number, block in enumerate(self.blocks)}
        edges = []
        for number, block in enumerate(list(self.blocks)):
            for target, falls in self.goes_on(block.rows[-1]):
                if target not in index:
                    index[target] = len(self.blocks)
                    self.blocks.append(Block(target, [], self.no_instruction(target)))
                edges.append(Edge(number, index[target], falls))
        return edges

    def no_instruction(self, offset):
        if offset == len(self.code):
            return "the end of the code"
        inside = 0 <= offset < len(self.code)
        return f"offset {offset}: inside an instruction" if inside else f"offset {offset}: outside the code"
