"""The picture of one method, as SVG: its blocks with the shape before each instruction, its edges, and the marks of a fault."""

import unicodedata

from .layout import laid_out
from .markup import joined, tag

CHARACTER = 7.3  # width of one character of the picture's font
ROW = 19  # height of a row
PAD = 9
COLUMN_GAP = 14
OFFSET_WIDTH = 34
MOST_SHAPE = 30  # characters of a shape that a block shows
MOST_WORDS = 44  # characters of an instruction that a block shows
CORNER = 7
NOTE_HEIGHT = 30
BADGE_GAP = 7
FIRST, OTHER = "A", "B"  # the two arrivals that disagree


def width_of(text):
    """The width of a text; letters that take two columns count twice."""
    return CHARACTER * sum(2 if unicodedata.east_asian_width(letter) in "WF" else 1 for letter in text)


def cut(text, most):
    return text if len(text) <= most else text[:most - 1] + "…"


def short_shape(shapes, offset):
    """The depth and the types before an instruction; nothing where the check doesn't come."""
    if offset not in shapes:
        return ""
    types = shapes[offset]
    return cut(f"{len(types)}: {', '.join(types)}", MOST_SHAPE) if types else "empty"


class Picture:
    """The picture of one flow with what the check found in it."""

    def __init__(self, flow, found, method):
        self.flow, self.found, self.method = flow, found, method
        rows = [row for block in flow.blocks for row in block.rows]
        self.words_width = {id(block): self.column(block, lambda row: cut(row.words, MOST_WORDS)) for block in flow.blocks}
        self.shape_width = {id(block): self.column(block, lambda row: short_shape(found.shapes, row.offset)) for block in flow.blocks}
        self.layout = laid_out([self.size(block) for block in flow.blocks], [edge[:2] for edge in flow.edges]) if rows else None

    def column(self, block, text):
        return max((width_of(text(row)) for row in block.rows), default=0)

    def size(self, block):
        if not block.rows:
            return width_of(block.note) + 2 * PAD, NOTE_HEIGHT
        shape = self.shape_width[id(block)]
        width = OFFSET_WIDTH + self.words_width[id(block)] + (COLUMN_GAP + shape if shape else 0) + 2 * PAD
        return max(width, 90), ROW * (len(block.rows) + len(self.labels(block))) + PAD

    def labels(self, block):
        return self.flow.labels.get(block.offset, [])

    def svg(self):
        """The whole picture."""
        if self.layout is None:
            return tag("p", "This method has no code in this module.")
        name = f"m{self.method}-title"
        edges = sorted(range(len(self.flow.edges)), key=lambda edge: self.mark_of(edge) is not None)
        badges = [self.badge(edge) for edge in edges if self.mark_of(edge)]
        left = round(min([0] + [x - BADGE_GAP for x, _, _ in badges]))
        right = round(max([self.layout.width] + [x + badge_width(words) + BADGE_GAP for x, _, words in badges]))
        width, height = right - left, round(self.layout.height)
        return tag(
            "svg", tag("title", f"Control flow of {self.flow.name}", id=name), [self.edge(edge) for edge in edges],
            [self.block(number) for number in range(len(self.flow.blocks))], [label(words, x, y) for x, y, words in badges],
            viewBox=f"{left} 0 {width} {height}", width=width, height=height, role="img", aria_labelledby=name, class_="flow")

    def mark_of(self, number):
        """A or B for an edge by which one of the disagreeing arrivals comes, with that arrival; None for all others."""
        fault = self.found.fault
        if fault is None or fault.other is None:
            return None
        edge = self.flow.edges[number]
        source = self.flow.blocks[edge.source].rows[-1].offset
        target = self.flow.blocks[edge.target].offset
        for letter, arrival in ((OTHER, fault.other), (FIRST, fault.first)):
            if (source, target, edge.falls) == (arrival.source, arrival.target, arrival.falls):
                return letter, arrival
        return None

    def edge(self, number):
        """A line with its arrow head; its kind can be told without colours."""
        edge, points = self.flow.edges[number], self.layout.routes[number]
        backward = edge.target <= edge.source
        kind = "fall" if edge.falls else "back" if backward else "branch"
        marked = " wrong" if self.mark_of(number) else ""
        x, y = points[-1]
        head = f"M{x - 4.5:.1f} {y - 8:.1f}L{x:.1f} {y:.1f}L{x + 4.5:.1f} {y - 8:.1f}Z"
        line = rounded(points) if self.in_lane(points) else curved(points)
        return joined(tag("path", d=line, class_=f"edge {kind}{marked}"), tag("path", d=head, class_=f"head {kind}{marked}"))

    @staticmethod
    def in_lane(points):
        """Whether an edge runs in a lane: it leaves its block straight down and turns off at once."""
        return len(points) == 6 and points[1][1] == points[2][1] and points[3][1] == points[4][1]

    def badge(self, number):
        """What a disagreeing arrival brings, and where that is written: beside its line, on the side away from the other arrivals."""
        letter, arrival = self.mark_of(number)
        words = cut(f"{letter} brings {', '.join(arrival.types) or 'nothing'}", MOST_SHAPE)
        points = self.layout.routes[number]
        into = [self.layout.routes[edge][-1][0] for edge in range(len(self.flow.edges))
                if self.flow.edges[edge].target == self.flow.edges[number].target]
        x, y = points[0]
        on_the_left = points[-1][0] == min(into) and len(into) > 1
        return x - badge_width(words) - BADGE_GAP if on_the_left else x + BADGE_GAP, y + BADGE_GAP, words

    def block(self, number):
        """A box with its labels and rows, or the note of a place that is no instruction."""
        block, (x, y) = self.flow.blocks[number], self.layout.places[number]
        width, height = self.size(block)
        box = tag("rect", x=f"{x:.1f}", y=f"{y:.1f}", width=f"{width:.1f}", height=f"{height:.1f}", rx=5, class_="box" if block.rows else "box none")
        if not block.rows:
            return tag("g", box, text(block.note, x + PAD, y + NOTE_HEIGHT / 2, "note"))
        top = y + PAD / 2
        parts = [box]
        for name in self.labels(block):
            parts.append(text(cut(name, MOST_WORDS) + ":", x + PAD, top + ROW / 2, "label"))
            top += ROW
        for row in block.rows:
            parts.append(self.row(row, block, x, top, width))
            top += ROW
        return tag("g", *parts)

    def row(self, row, block, x, top, width):
        """One instruction: offset, words, and the shape before it."""
        middle = top + ROW / 2
        fault = self.found.fault
        marked = " fault" if fault and fault.offset == row.offset else ""
        shape = short_shape(self.found.shapes, row.offset)
        shape_x = x + PAD + OFFSET_WIDTH + self.words_width[id(block)] + COLUMN_GAP
        whole = f"{row.words}; before it {', '.join(self.found.shapes[row.offset]) or 'an empty stack'}" if shape else row.words
        return tag(
            "g", tag("title", whole),
            tag("rect", x=f"{x + 2:.1f}", y=f"{top:.1f}", width=f"{width - 4:.1f}", height=ROW, rx=3, class_="band"),
            text(row.offset, x + PAD, middle, "offset"), text(cut(row.words, MOST_WORDS), x + PAD + OFFSET_WIDTH, middle, "words"),
            text(shape, shape_x, middle, "shape") if shape else None,
            id=f"m{self.method}-{row.offset}", class_=f"row{marked}")


def text(words, x, y, kind):
    return tag("text", words, x=f"{x:.1f}", y=f"{y:.1f}", class_=kind, dy="0.35em")


def label(words, x, y):
    """Words on a ground of their own."""
    ground = tag("rect", x=f"{x:.1f}", y=f"{y:.1f}", width=f"{badge_width(words):.1f}", height=ROW, rx=4, class_="badge")
    return tag("g", ground, text(words, x + PAD / 2, y + ROW / 2, "badge-words"))


def badge_width(words):
    return width_of(words) + PAD


def curved(points):
    """A line that leaves and reaches every point upright."""
    parts = [f"M{points[0][0]:.1f} {points[0][1]:.1f}"]
    for (x, y), (to_x, to_y) in zip(points, points[1:]):
        bend = (to_y - y) / 2
        straight = abs(x - to_x) < 0.5
        parts.append(f"L{to_x:.1f} {to_y:.1f}" if straight else f"C{x:.1f} {y + bend:.1f} {to_x:.1f} {to_y - bend:.1f} {to_x:.1f} {to_y:.1f}")
    return "".join(parts)


def rounded(points):
    """A line of level and upright parts with round corners."""
    parts = [f"M{points[0][0]:.1f} {points[0][1]:.1f}"]
    for before, (x, y), after in zip(points, points[1:], points[2:]):
        near, far = towards((x, y), before), towards((x, y), after)
        parts.append(f"L{near[0]:.1f} {near[1]:.1f}Q{x:.1f} {y:.1f} {far[0]:.1f} {far[1]:.1f}")
    parts.append(f"L{points[-1][0]:.1f} {points[-1][1]:.1f}")
    return "".join(parts)


def towards(point, other):
    """The point a corner's radius away from one point, or half the way, towards another."""
    (x, y), (to_x, to_y) = point, other
    length = abs(to_x - x) + abs(to_y - y)
    part = min(CORNER, length / 2) / length if length else 0
    return x + (to_x - x) * part, y + (to_y - y) * part
