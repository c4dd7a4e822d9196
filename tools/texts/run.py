"""A run, from its texts: where the machine is and how fast, segment by segment, and what the job says of that."""
import math
from array import array
from bisect import bisect_left
from collections import deque
from dataclasses import dataclass
from itertools import chain

from texts.job import CUT, DEFAULTS, SYSTEMS

CLOCK = 16_000_000  # cycles of the step timer in a second
AT_FEED = 0.95      # of the programmed feed, or more, counts as reaching it


@dataclass(frozen=True)
class Zero:
    """A zero of the work, in mm of the machine, and from which line on; its coordinate system, and whether G92 shifts it."""

    line: int
    place: tuple
    system: str
    is_shifted: bool

    @property
    def name(self):
        return f"{self.system}, G92" if self.is_shifted else self.system


class Run:
    """The segments of a track in mm, seconds and mm per minute. `begins` and `speeds` have one more than there are segments:
    the last is the end. `kinds` has whether a segment is of a rapid, a jog or a cut, `feeds` the programmed feed, 0 where none
    is known, and `mark_times` when each mark comes."""

    def __init__(self, track, job=None, console=None, scales=None):
        self.track, self.job, self.console = track, job, console
        first = track.lines[0] if len(track) else 0
        self.scales = scales or [job.setting_before(first, n) if job else DEFAULTS[n] for n in (100, 101, 102)]
        self.begins, self.mark_times = array("d"), []
        self.motion, self.waits = self.time_all()
        self.speeds = array("d", chain((math.sqrt(square) * 0.06 for square in track.squares), [0.0]))
        self.kinds = bytearray(map(job.kind_of, track.lines)) if job else bytearray([CUT]) * len(track)
        self.feeds = array("d", map(job.feed_of, track.lines)) if job else array("d", [0.0]) * len(track)

    def time_all(self):
        """When each segment and each mark comes. Answers the seconds of motion and of waits."""
        track, marks, cycles, waits = self.track, iter(self.track.marks), 0, 0
        mark = next(marks, None)
        for segment, (count, each) in enumerate(zip(track.counts, track.cycles)):
            while mark and mark.segment <= segment:
                self.mark_times.append(cycles / CLOCK + waits / 1000)
                waits += mark.milliseconds
                mark = next(marks, None)
            self.begins.append(cycles / CLOCK + waits / 1000)
            cycles += count * each
        for mark in chain([mark] if mark else [], marks):
            self.mark_times.append(cycles / CLOCK + waits / 1000)
            waits += mark.milliseconds
        self.begins.append(cycles / CLOCK + waits / 1000)
        return cycles / CLOCK, waits / 1000

    @property
    def seconds(self):
        """How long it takes, motion and waits."""
        return self.begins[-1]

    def seconds_of(self, segment):
        """How long a segment takes."""
        return self.track.counts[segment] * self.track.cycles[segment] / CLOCK

    def seconds_by_kind(self):
        """How long rapids, cuts and jogs take, in the order of their numbers."""
        seconds = [0.0] * 3
        for segment, kind in enumerate(self.kinds):
            seconds[kind] += self.seconds_of(segment)
        return seconds

    def share_at_feed(self):
        """Which part of the cutting time goes, segment by segment in the mean, at AT_FEED of its feed or faster."""
        whole = fast = 0.0
        for segment, (kind, feed) in enumerate(zip(self.kinds, self.feeds)):
            if kind == CUT:
                took = self.seconds_of(segment)
                whole += took
                fast += took if self.speeds[segment] + self.speeds[segment + 1] >= 2 * AT_FEED * feed else 0.0
        return fast / whole if whole else 0.0

    def point(self, segment):
        """The place in mm behind so many segments."""
        return self.millimetres(self.track.place(segment))

    def millimetres(self, place):
        return tuple(steps / scale for steps, scale in zip(place, self.scales))

    def limits(self):
        """The least and the greatest place on each axis, in mm."""
        return [(low / scale, high / scale) for (low, high), scale in zip(self.track.limits(), self.scales)]

    def before_line(self, line):
        """How many segments come before those of a line and of all behind it."""
        return bisect_left(self.track.lines, line)

    def mark_lines(self):
        """The line of each mark, or None where the texts do not tell: the job's marks come in the order of its lines."""
        asked, told = deque(self.job.marks if self.job else ()), []
        begins = iter(self.job.begins[1:] if self.job else ())
        for mark in self.track.marks:
            if mark.name in ("X", "Z"):
                told.append(mark.value)
                begin = next(begins, 0) if mark.name == "Z" else 0
                while asked and asked[0][0] < begin:
                    asked.popleft()  # a reset has dropped it, and it is not recorded
                continue
            line, name = asked.popleft() if asked else (None, mark.name)
            told.append(line)
            if name != mark.name:
                return [None] * len(self.track.marks)
        return told

    def refused(self):
        """The refused lines in order, each with the number of its error."""
        return sorted(self.console.refused.items()) if self.console else []

    def zeros(self):
        """The zeros of the work, in order."""
        offsets, shift = {system: (0.0,) * 3 for system in SYSTEMS}, (0.0,) * 3
        zeros, system = [Zero(0, (0.0,) * 3, SYSTEMS[0], False)], SYSTEMS[0]
        for change in self.job.zero_changes if self.job else ():
            here, system = self.point(self.before_line(change.line)), change.system
            if "G10" in change.codes:
                name = SYSTEMS[change.number - 1] if 1 <= change.number <= len(SYSTEMS) else system
                base = tuple(a - b for a, b in zip(here, shift)) if change.by_position else None
                offsets[name] = moved(offsets[name], base, change.values)
            elif "G92" in change.codes:
                shift = moved(shift, tuple(a - b for a, b in zip(here, offsets[system])), change.values)
            elif "G92.1" in change.codes:
                shift = (0.0,) * 3
            system = SYSTEMS[0] if change.codes & {"M2", "M30"} else system
            place = tuple(a + b for a, b in zip(offsets[system], shift))
            zeros.append(Zero(change.line, place, system, any(shift)))
        return zeros

    def used_zeros(self):
        """The zeros of the work from which something is cut, or all moves are made where nothing is; each place once."""
        zeros = self.zeros()
        ends = [self.before_line(zero.line + 1) for zero in zeros[1:]] + [len(self.track)]
        begins = [self.before_line(zero.line) for zero in zeros]
        kinds = [set(self.kinds[first:last]) for first, last in zip(begins, ends)]
        used = [zero for zero, kind in zip(zeros, kinds) if CUT in kind] or [zero for zero, kind in zip(zeros, kinds) if kind]
        return list({tuple(round(length, 3) for length in zero.place): zero for zero in used}.values())


def moved(offset, base, values):
    """An offset of which some axes become values, or what is left of a position less the values."""
    place = list(offset)
    for axis, value in values.items():
        place[axis] = value if base is None else base[axis] - value
    return tuple(place)
