"""The whole machine state (01), and its textual form."""

from collections import namedtuple

from operators import F, INT32, INT64, NULL, class_type, f_bits, zero
from tables import OBJECT

# An object: the row of its class and its cells.
Object = namedtuple("Object", "class_row cells")


class Frame:
    """One call: a method's row, the offset it stands at, its arguments, locals and stack."""

    __slots__ = ("method", "offset", "arguments", "locals", "stack")

    def __init__(self, method, arguments, locals):
        self.method = method
        self.offset = 0
        self.arguments = arguments
        self.locals = locals
        self.stack = []


class State:
    """Frames from the entry's to the running one, static fields by row, marks of started classes, objects as made."""

    def __init__(self, module):
        self.frames = []
        self.statics = {row: zero(module.fields[row].type) for row in module.static_fields()}
        self.marks = {OBJECT}
        self.heap = []

    @property
    def running(self):
        return self.frames[-1]

    def push_frame(self, module, row, arguments):
        """A frame for a call; locals start at 0 or null."""
        self.frames.append(Frame(row, arguments, [zero(type) for type in module.methods[row].locals]))

    def make_object(self, class_row, types):
        """A new object with cleared cells of these types, and the reference to it; objects are numbered from 1."""
        self.heap.append(Object(class_row, [zero(type) for type in types]))
        return (class_type(class_row), len(self.heap))

    def object(self, number):
        return self.heap[number - 1]


def value_text(cell):
    """A value as an answer prints it: decimal, or 16 hex digits for F; `-` for none."""
    if cell is None:
        return "-"
    return f_bits(cell[1]) if cell[0] == F else str(cell[1])


def cell_text(cell):
    """A cell with a letter for its kind in front; null is `n` alone."""
    type = cell[0]
    if type == NULL:
        return "n"
    return {INT32: "i", INT64: "l", F: "f"}.get(type, "o") + value_text(cell)


def cells_text(cells):
    return ",".join(cell_text(cell) for cell in cells)


def frame_text(frame):
    parts = [frame.arguments, frame.locals, frame.stack]
    return "[%d,%d;%s]" % (frame.method, frame.offset, ";".join(cells_text(cells) for cells in parts))


def state_text(state):
    """The textual form of a state, `-` where there is none."""
    if state is None:
        return "-"
    frames = "".join(frame_text(frame) for frame in state.frames)
    statics = ",".join("%d:%s" % (row, cell_text(cell)) for row, cell in sorted(state.statics.items()))
    marks = ",".join(str(row) for row in sorted(state.marks))
    heap = "".join("(%d;%s)" % (made.class_row, cells_text(made.cells)) for made in state.heap)
    return "frames=%s statics=%s marks=%s heap=%s" % (frames, statics, marks, heap)
