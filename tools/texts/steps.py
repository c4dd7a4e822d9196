"""The step text of a run, in form 1 or 2, as segments. The records are those of docs/STREAMING.md."""
import re
from array import array
from collections import Counter
from dataclasses import dataclass
from itertools import chain, groupby, islice, product

AXES = "XYZ"
MOST_LINES = 4096  # events are looked at by so many lines at once


class BadText(Exception):
    """A text is none of its kind: the number of its line, from 1, and why."""

    def __init__(self, line, why, name=""):
        super().__init__(f"{name + ': ' if name else ''}line {line}: {why}")
        self.line, self.why = line, why

    def of(self, name):
        """The same, with the name of the text."""
        return BadText(self.line, self.why, name)


def event_table():
    """Each event's line, and the steps that it makes on each axis."""
    signs = (("", 0), ("+", 1), ("-", -1))
    table = {}
    for ways in product(signs, repeat=3):
        line = "".join(axis + sign for axis, (sign, _) in zip(AXES, ways) if sign)
        table[f"{line}\n".encode("ascii")] = tuple(step for _, step in ways)
    del table[b"\n"]
    return table


EVENTS = event_table()
NUMBER = rb"(0|[1-9][0-9]{0,19})"
HEAD = re.compile(rb"s " + b" ".join([NUMBER] * 4) + rb"\n")
MARK = re.compile(rb"(D|M3|M4|M5|M8|M9|X|Z) " + NUMBER + rb"\n")
MARK_ENDS = {"D": 2**64, "M3": 2**32, "M4": 2**32, "M5": 1, "M8": 1, "M9": 1, "X": 2**32, "Z": 2**32}
SPINDLE = ("M3", "M4", "M5")
VERSION = b"V 2\n"  # the first line of form 2
RUN = re.compile(rb"R ([1-9][0-9]{0,9}) ([XYZ+-]+\n)")
MOST_EVENTS = 2**32 - 1  # of one line


@dataclass(frozen=True)
class Mark:
    """A record between the moves: what it says, how many segments come before it, and the place in steps."""

    name: str
    value: int
    segment: int
    place: tuple

    @property
    def milliseconds(self):
        """How long it waits."""
        return self.value if self.name == "D" else 0

    @property
    def text(self):
        """What it says, for a reader."""
        if self.name == "D":
            return f"wait {self.value / 1000:g} s"
        if self.name == "X":
            return "jogs cut"
        if self.name == "Z":
            return "reset"
        return f"{self.name} S{self.value}" if self.name in SPINDLE and self.value else self.name


class Track:
    """The segments in arrays side by side: line of the job, events, squared speed before, cycles of an event, and the place
    behind it in steps. Neighbours of one move that go on at one pace are one segment here. `moves` has the number of the
    segment with which each move begins."""

    def __init__(self):
        self.lines, self.moves = array("L"), array("L")
        self.counts, self.squares, self.cycles = array("Q"), array("Q"), array("Q")
        self.places = [array("q") for _ in AXES]
        self.marks, self.heads, self.events, self.stops = [], 0, 0, 0

    def __len__(self):
        return len(self.lines)

    def place(self, segment):
        """The place in steps behind so many segments."""
        return tuple(axis[segment - 1] for axis in self.places) if segment else (0, 0, 0)

    def limits(self):
        """The least and the greatest place on each axis, in steps, the start among them."""
        return [(min(0, min(axis, default=0)), max(0, max(axis, default=0))) for axis in self.places]


class Reader:
    """Reads a step text, line by line, into a track."""

    def __init__(self, stream):
        self.lines, self.number = iter(stream), 0
        first = list(islice(self.lines, 1))
        self.is_compact = first == [VERSION]
        if self.is_compact:
            self.number = 1
        else:
            self.lines = chain(first, self.lines)
        self.track, self.here = Track(), (0, 0, 0)
        self.way, self.way_events = (0, 0, 0), 0  # of the move so far
        self.is_fresh = True  # a move begins with the next segment, whatever it says
        self.is_flat = False  # the last two segments are of one move, and begin at one speed

    def read(self):
        """Reads all of it."""
        while (line := next(self.lines, None)) is not None:
            self.number += 1
            head = HEAD.fullmatch(line)
            if head:
                self.take_segment(*map(int, head.groups()))
            elif line == b"E\n":
                break
            else:
                self.take_mark(line)
        else:
            raise BadText(self.number + 1, "the text ends without E")
        if next(self.lines, None) is not None:
            raise BadText(self.number + 1, "there is more after E")
        return self.track

    def take_mark(self, line):
        """A line that is no head."""
        mark = MARK.fullmatch(line)
        if not mark:
            raise BadText(self.number, self.fault_of(line))
        name, value = mark[1].decode("ascii"), int(mark[2])
        if value >= MARK_ENDS[name]:
            raise BadText(self.number, "a number of a mark is out of its range")
        self.track.marks.append(Mark(name, value, len(self.track), self.here))
        self.is_fresh = True

    def take_segment(self, line, count, square, cycles):
        """A head, and its events."""
        if not (1 <= line < 2**32 and 1 <= count < 2**32 and square < 2**64 and cycles < 2**64):
            raise BadText(self.number, "a number of a head is out of its range")
        way, left = self.take_runs(count) if self.is_compact else self.take_events(count)
        count -= left
        self.here = tuple(at + step for at, step in zip(self.here, way))
        track = self.track
        track.heads += 1
        if not count:
            return
        track.events += count
        track.stops += square == 0
        begins = self.is_fresh or line != track.lines[-1] or self.turns(way, count)
        if begins:
            self.way, self.way_events, self.is_fresh = way, count, False
            track.moves.append(len(track))
        else:
            self.way = tuple(at + step for at, step in zip(self.way, way))
            self.way_events += count
        self.keep(line, count, square, cycles, begins)

    def keep(self, line, count, square, cycles, begins):
        """Keeps a segment. If the last two are of its move, and the speed has changed over neither, these become one."""
        track = self.track
        is_flat = not begins and square == track.squares[-1]
        if is_flat and self.is_flat and track.cycles[-1] == track.cycles[-2]:
            track.counts[-2] += track.counts[-1]
            track.counts[-1], track.cycles[-1] = count, cycles
            for row, at in zip(track.places, self.here):
                row[-2], row[-1] = row[-1], at
            return
        self.is_flat = is_flat
        track.lines.append(line)
        track.counts.append(count)
        track.squares.append(square)
        track.cycles.append(cycles)
        for row, at in zip(track.places, self.here):
            row.append(at)

    def turns(self, way, count):
        """Whether a segment is of another move than the one before it, by its direction: over any of its events a straight
        move strays less than a step from its line."""
        events = self.way_events
        return any(abs(step * events - before * count) >= events + count for step, before in zip(way, self.way))

    def take_events(self, count):
        """Takes so many events, and answers the steps that they make, and how many are missing before the record of a reset."""
        x = y = z = 0
        while count:
            most = min(count, MOST_LINES)
            block = list(islice(self.lines, most))
            reset = next((at for at, line in enumerate(block) if line.startswith(b"Z ")), None)
            if reset is not None:
                self.lines = chain(block[reset:], self.lines)
                block = block[:reset]
            for line, times in Counter(block).items():
                way = EVENTS.get(line)
                if way is None:
                    self.refuse_in(block)
                x += way[0] * times
                y += way[1] * times
                z += way[2] * times
            self.number += len(block)
            count -= len(block)
            if reset is not None:
                break
            if len(block) < most:
                raise BadText(self.number + 1, "the text ends without E")
        return (x, y, z), count

    def take_runs(self, count):
        """Takes so many events in form 2, and answers the same."""
        here = (0, 0, 0)
        while count:
            line = next(self.lines, None)
            if line and line.startswith(b"Z "):
                self.lines = chain([line], self.lines)
                break
            self.number += 1
            if line is None:
                raise BadText(self.number, "the text ends without E")
            times, event = run_of(line)
            if event is None:
                raise BadText(self.number, self.fault_of(line))
            if times > count:
                raise BadText(self.number, "a run has more events than its head")
            here = tuple(at + step * times for at, step in zip(here, EVENTS[event]))
            count -= times
        return here, count

    def refuse_in(self, block):
        """Refuses the first line of a block that is no event."""
        at, line = next((at, line) for at, line in enumerate(block) if line not in EVENTS)
        raise BadText(self.number + at + 1, self.fault_of(line))

    @staticmethod
    def fault_of(line):
        """What is wrong with a line."""
        if line in EVENTS or run_of(line)[1]:
            return "an event without a head before it"
        if not line.endswith(b"\n"):
            return "the line has no end"
        if HEAD.fullmatch(line) or MARK.fullmatch(line) or line == b"E\n":
            return "a head is before it that has more events"
        return f"no step record: {line[:-1][:40].decode('ascii', 'replace')!r}"


def read_steps(stream):
    """Reads a step text to its end."""
    return Reader(stream).read()



def run_of(line):
    """How many events a line of form 2 says, and which; or none."""
    run = RUN.fullmatch(line)
    times, event = (int(run[1]), run[2]) if run else (1, line)
    return (times, event) if event in EVENTS and (not run or 2 <= times <= MOST_EVENTS) else (0, None)


def in_form_one(text):
    """The text in form 1 of the records of a text in form 2."""
    version, *lines = text.splitlines(keepends=True) or [b""]
    if version != VERSION:
        raise BadText(1, "a text of form 2 begins with V 2")
    runs = ((line, *run_of(line)) for line in lines)
    return b"".join(event * times if event else line for line, times, event in runs)


def in_form_two(text):
    """The text in form 2 of the records of a text in form 1."""
    out = [VERSION]
    for line, same in groupby(text.splitlines(keepends=True)):
        count = sum(1 for _ in same)
        if line not in EVENTS:
            out.append(line * count)
            continue
        for times in [MOST_EVENTS] * (count // MOST_EVENTS) + [count % MOST_EVENTS]:
            out.append(b"R %d %s" % (times, line) if times > 1 else line * times)
    return b"".join(out)
