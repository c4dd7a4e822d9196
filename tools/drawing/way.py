"""The path of a run as nodes between which it goes straight, in one colour or through neighbouring ones."""
from array import array

from drawing.colours import DEPTH_BINS, DEPTHS, SPEED_BINS, SPEEDS, Scale
from texts.job import CUT


class Way:
    """The nodes in mm with the value that the colour tells, and of each piece from a node to the next whether it is a rapid, a
    jog or a cut. `scale` has the colours."""

    def __init__(self, run, by_speed):
        track = run.track
        self.by_speed = by_speed and len(track) > 0
        if self.by_speed:
            self.scale = speed_scale(run)
            nodes = speed_nodes(run, self.scale)
        else:
            nodes = array("L", track.moves)
        self.kinds = bytearray(map(run.kinds.__getitem__, nodes))
        nodes.append(len(track))
        self.rows = [array("d", (place[node - 1] / scale if node else 0.0 for node in nodes))
                     for place, scale in zip(track.places, run.scales)]
        if self.by_speed:
            self.values = array("d", (run.speeds[node] for node in nodes))
        else:
            self.scale, self.values = self.depth_scale(), self.rows[2]

    def __len__(self):
        return len(self.kinds)

    def point(self, node):
        return self.rows[0][node], self.rows[1][node], self.rows[2][node]

    def depth_scale(self):
        """Colours from the highest place of what is cut on the way down to the deepest cut, holes among them; of all where
        nothing is cut."""
        (xs, ys, zs), cut = self.rows, [at for at, kind in enumerate(self.kinds) if kind == CUT] or range(len(self.kinds))
        across = [at for at in cut if xs[at] != xs[at + 1] or ys[at] != ys[at + 1]] or cut
        low = min((min(zs[at], zs[at + 1]) for at in cut), default=0.0)
        high = max((max(zs[at], zs[at + 1]) for at in across), default=0.0)
        return Scale("Z, mm", high, low, DEPTHS, DEPTH_BINS)

    def lines(self):
        """How many lines it has, of one colour each."""
        bins = [self.scale.bin_of(value) for value in self.values]
        return sum(1 + (abs(there - here) if kind == CUT else 0) for kind, here, there in zip(self.kinds, bins, bins[1:]))

    def pieces(self):
        """The pieces in order: 0 for a rapid or a jog, or the number of a colour from 1 on, and the two ends."""
        bin_of, values, here = self.scale.bin_of, self.values, self.point(0)
        bin_here = bin_of(values[0])
        for node, kind in enumerate(self.kinds):
            there, bin_there = self.point(node + 1), bin_of(values[node + 1])
            if kind != CUT:
                yield 0, here, there
            elif bin_here == bin_there:
                yield bin_here + 1, here, there
            else:
                yield from self.graded(here, there, bin_here, bin_there)
            here, bin_here = there, bin_there

    @staticmethod
    def graded(here, there, first, last):
        """A piece that goes through more than one colour."""
        way, parts = 1 if last > first else -1, abs(last - first) + 1
        ends = [tuple(a + (b - a) * part / parts for a, b in zip(here, there)) for part in range(parts + 1)]
        for part in range(parts):
            yield first + way * part + 1, ends[part], ends[part + 1]

    def drilled(self, still):
        """The places at which the tool goes down and comes up again, and how deep: `still` tells whether it stays there."""
        first, deepest = self.point(0), self.point(0)
        for node in range(1, len(self) + 1):
            here = self.point(node)
            if still(first, here):
                deepest = min(deepest, here, key=lambda point: point[2])
                continue
            if deepest[2] < min(first[2], self.rows[2][node - 1]):
                yield deepest
            first = deepest = here
        if deepest[2] < min(first[2], self.rows[2][len(self)]):
            yield deepest


def speed_scale(run):
    """Colours by the speed, up to the greatest of what is cut, or of all where nothing is."""
    cut = max((speed for at, speed in enumerate(run.speeds[:-1]) if run.kinds[at] == CUT), default=0.0)
    return Scale("mm/min", cut or max(run.speeds) or 1.0, 0.0, SPEEDS, SPEED_BINS)


def speed_nodes(run, scale):
    """The segments at which a move begins, or the colour changes."""
    nodes, moves, before = array("L"), iter(run.track.moves), -1
    move = next(moves, None)
    for segment, speed in enumerate(run.speeds[:-1]):
        number = scale.bin_of(speed)
        is_move = segment == move
        if is_move:
            move = next(moves, None)
        elif number != before and nodes[-1] != segment - 1:
            nodes.append(segment - 1)
        if is_move or number != before:
            nodes.append(segment)
        before = number
    return nodes
