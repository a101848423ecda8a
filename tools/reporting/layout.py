"""A layered layout of a flow graph: blocks in layers from top to bottom, with as few crossings and bends as a few sweeps find.

Nodes come in the order of the code, so an edge to a node of a larger number goes down. Edges that go up, or down over many layers, run in
lanes to the right of everything; the others pass each layer between at a place of their own.
"""

from collections import namedtuple

GAP = 22  # between neighbours of a layer
LAYER_GAP = 52  # between two layers
LANE = 16  # width of a lane
LANE_STEP = 4  # by which the level parts of lanes keep apart
PASSING = 14  # width of an edge that passes a layer
LONGEST = 10  # layers that an edge may pass without a lane
SWEEPS = 12
PORT_GAP = 34  # between the ends of two edges at one block

# Where all stands: the left top of each node, the points of each edge, and the width and height of the whole.
Layout = namedtuple("Layout", "places routes width height")


class Spot:
    """A node, or the place where an edge passes a layer (node None)."""

    def __init__(self, node, width, height, layer):
        self.node, self.width, self.height, self.layer = node, width, height, layer
        self.above, self.below = [], []
        self.x = 0.0

    @property
    def weight(self):
        """Bends in edges that pass are what one sees first."""
        return 1 if self.node is not None else 3


def layers_of(count, edges):
    """The layer of each node: one below the lowest from which an edge comes down, or below the node before it where none does."""
    layers = [0] * count
    for node in range(1, count):
        above = [layers[source] for source, target in edges if target == node and source < node]
        layers[node] = 1 + (max(above) if above else layers[node - 1])
    return layers


class Drawing:
    """The work on one graph."""

    def __init__(self, sizes, edges):
        self.edges = edges
        layers = layers_of(len(sizes), edges)
        self.spots = [Spot(node, *size, layer) for node, (size, layer) in enumerate(zip(sizes, layers))]
        self.rows = [[] for _ in range(max(layers) + 1)]
        for spot in self.spots:
            self.rows[spot.layer].append(spot)
        self.chains = [self.chain(source, target) for source, target in edges]

    def chain(self, source, target):
        """The spots from one end of an edge to the other, or None where it takes a lane."""
        first, last = self.spots[source], self.spots[target]
        if not 0 < last.layer - first.layer <= LONGEST:
            return None
        chain = [first]
        for layer in range(first.layer + 1, last.layer):
            chain.append(Spot(None, PASSING, 0, layer))
            self.rows[layer].append(chain[-1])
        chain.append(last)
        for upper, lower in zip(chain, chain[1:]):
            upper.below.append(lower)
            lower.above.append(upper)
        return chain

    def order(self):
        """Each layer sorted by where its neighbours stand, down and up in turn; the order with the fewest crossings stays."""
        best, fewest = None, None
        for sweep in range(SWEEPS):
            crossings = self.crossings()
            if fewest is None or crossings < fewest:
                best, fewest = [list(row) for row in self.rows], crossings
            rows = self.rows if sweep % 2 == 0 else self.rows[::-1]
            for before, row in zip(rows, rows[1:]):
                sort_by(row, before, down=sweep % 2 == 0)
        self.rows = best

    def crossings(self):
        total = 0
        for row, after in zip(self.rows, self.rows[1:]):
            rank = {id(spot): index for index, spot in enumerate(after)}
            ends = [(index, rank[id(lower)]) for index, spot in enumerate(row) for lower in spot.below]
            total += sum(1 for a in ends for b in ends if a[0] < b[0] and a[1] > b[1])
        return total

    def spread(self):
        """Each spot as near to the middle of its neighbours as those beside it allow."""
        for row in self.rows:
            settle(row, [0.0] * len(row))
        for sweep in range(SWEEPS):
            down = sweep % 2 == 0
            for row in self.rows if down else reversed(self.rows):
                settle(row, [wanted(spot, down) for spot in row])
        left = min(spot.x - spot.width / 2 for row in self.rows for spot in row)
        for row in self.rows:
            for spot in row:
                spot.x += GAP - left

    def layout(self):
        self.order()
        self.spread()
        self.tops, top = [], GAP
        for row in self.rows:
            self.tops.append(top)
            top += max(spot.height for spot in row) + LAYER_GAP
        right = max(spot.x + spot.width / 2 for row in self.rows for spot in row)
        lanes = self.lanes()
        self.lane_x = {edge: right + LANE * (lane + 1) for edge, lane in lanes.items()}
        outs, ins = self.ports(0), self.ports(1)
        routes = [self.route(edge, outs[edge], ins[edge], lanes) for edge in range(len(self.edges))]
        places = [(spot.x - spot.width / 2, self.tops[spot.layer]) for spot in self.spots]
        width = right + GAP + LANE * (1 + max(lanes.values(), default=-1))
        return Layout(places, routes, width, top - LAYER_GAP + GAP)

    def lanes(self):
        """A lane for each edge without a chain: the innermost that is free over its layers, short edges first."""
        spans = {}
        for edge, (source, target) in enumerate(self.edges):
            if self.chains[edge] is None:
                spans[edge] = sorted((self.spots[source].layer, self.spots[target].layer))
        lanes = {}
        for edge in sorted(spans, key=lambda edge: spans[edge][1] - spans[edge][0]):
            low, high = spans[edge]
            taken = {lanes[other] for other in lanes if spans[other][0] <= high and low <= spans[other][1]}
            lanes[edge] = next(lane for lane in range(len(spans)) if lane not in taken)
        return lanes

    def ports(self, end):
        """Where edges leave (end 0) or reach (end 1) their block: side by side, in the order of where they go or come from."""
        ports = {}
        for number, spot in enumerate(self.spots):
            mine = [edge for edge, ends in enumerate(self.edges) if ends[end] == number]
            mine.sort(key=lambda edge: self.beyond(edge, end))
            gap = min(PORT_GAP, spot.width / (len(mine) + 1))
            for place, edge in enumerate(mine):
                ports[edge] = spot.x + (place - (len(mine) - 1) / 2) * gap
        return ports

    def beyond(self, edge, end):
        """Where an edge goes next, seen from one of its ends."""
        chain = self.chains[edge]
        if chain is None:
            return self.lane_x[edge]
        return chain[1].x if end == 0 else chain[-2].x

    def bottom(self, spot):
        return self.tops[spot.layer] + spot.height

    def route(self, edge, out, into, lanes):
        """The points of an edge, from the bottom of one block to the top of the other."""
        source, target = (self.spots[node] for node in self.edges[edge])
        start, end = (out, self.bottom(source)), (into, self.tops[target.layer])
        if edge not in lanes:
            points = [start]
            for spot in self.chains[edge][1:-1]:
                top = self.tops[spot.layer]
                points += [(spot.x, top), (spot.x, top + max(other.height for other in self.rows[spot.layer]))]
            return points + [end]
        apart = 12 + LANE_STEP * (lanes[edge] % 6)
        lane = self.lane_x[edge]
        low, high = start[1] + apart, end[1] - apart
        return [start, (out, low), (lane, low), (lane, high), (into, high), end]


def sort_by(row, before, down):
    """Sorts a layer by the middle of its neighbours in the layer before it; a spot without any keeps its number."""
    rank = {id(spot): index for index, spot in enumerate(before)}

    def middle(numbered):
        index, spot = numbered
        near = spot.above if down else spot.below
        return sum(rank[id(other)] for other in near) / len(near) if near else index

    row[:] = [spot for _, spot in sorted(enumerate(row), key=middle)]


def wanted(spot, down):
    near = spot.above if down else spot.below
    return sum(other.x for other in near) / len(near) if near else spot.x


def settle(row, aims):
    """Puts the spots of a layer as near to their aims as their order and widths allow: neighbours that would overlap share one shift."""
    offsets, offset = [], 0.0
    for index, spot in enumerate(row):
        offset += (row[index - 1].width + spot.width) / 2 + GAP if index else 0.0
        offsets.append(offset)
    groups = []
    for index, spot in enumerate(row):
        groups.append([(aims[index] - offsets[index]) * spot.weight, spot.weight, 1])
        while len(groups) > 1 and groups[-2][0] / groups[-2][1] >= groups[-1][0] / groups[-1][1]:
            last = groups.pop()
            groups[-1] = [mine + more for mine, more in zip(groups[-1], last)]
    shifts = [total / weight for total, weight, count in groups for _ in range(count)]
    for spot, shift, offset in zip(row, shifts, offsets):
        spot.x = shift + offset


def laid_out(sizes, edges):
    """The Layout of nodes of these sizes with edges between their numbers."""
    return Drawing(sizes, edges).layout()
