"""Where a run is slow, and why: places of one cause each, by the time that they lose."""
import math
from array import array
from dataclasses import dataclass
from itertools import accumulate, chain
from operator import mul

from texts.job import CUT, DEFAULTS, RAPID
from texts.run import CLOCK

MOST_PLACES = 10
NEAR = 0.95       # of a speed, or more, counts as reaching it
LEAST_LOSS = 0.01  # seconds; what loses less is no place
LEAST_ANGLE = 1.0  # degrees; what turns less is no corner
STRAIGHT_BACK = 179.9  # degrees; at no other corner the machine has to stand


@dataclass(slots=True)
class Leg:
    """A move: its line, its first segment and the one behind it, length in mm, seconds, direction, and the speeds in mm per
    minute: at its ends, the greatest, the one that it asks for, and the one that its axes allow."""

    line: int
    first: int
    kind: int
    length: float
    seconds: float
    unit: tuple
    speed_in: float
    speed_out: float
    feed: float
    rate: float

    @property
    def limit(self):
        """How fast it may go."""
        return self.rate if self.kind == RAPID else min(self.feed or self.rate, self.rate)

    @property
    def mean(self):
        return self.length / self.seconds * 60 if self.seconds else 0.0


@dataclass(slots=True)
class Place:
    """Moves in a row that are slow for one cause: the lines, the seconds that they take and lose, their length in mm, the
    mean speed and the one they are measured by; the cause, more of it, the line that loses most, and its first segment."""

    first_line: int
    last_line: int
    cause: str
    seconds: float
    lost: float
    length: float
    asked: float
    detail: str
    worst_line: int
    worst_loss: float
    segment: int
    kind: int
    like: int = 0  # other places, slow by the same feed, that are counted in

    @property
    def mean(self):
        return self.length / self.seconds * 60 if self.seconds else 0.0


class Rates:
    """The greatest rates of the axes, line by line."""

    def __init__(self, job):
        self.values = dict(DEFAULTS)
        self.settings = iter(job.settings if job else ())
        self.next = next(self.settings, None)

    def along(self, line, unit):
        """How fast the axes let a move of a line go."""
        while self.next and self.next[0] < line:
            self.values[self.next[1]] = self.next[2]
            self.next = next(self.settings, None)
        return min(self.values[110 + axis] / abs(part) for axis, part in enumerate(unit) if part)


def legs_of(run):
    """The moves in order. Each has a step, so it has a direction."""
    track, rates, here = run.track, Rates(run.job), (0.0, 0.0, 0.0)
    cycles = array("Q", accumulate(map(mul, track.counts, track.cycles), initial=0))
    ends = array("L", [*track.moves[1:], len(track)][:len(track.moves)])
    rows = [[row[end - 1] / scale for end in ends] for row, scale in zip(track.places, run.scales)]
    for first, last, there in zip(track.moves, ends, zip(*rows)):
        length = math.dist(here, there)
        if length:
            unit = tuple((b - a) / length for a, b in zip(here, there))
            line = track.lines[first]
            yield Leg(line, first, run.kinds[first], length, (cycles[last] - cycles[first]) / CLOCK, unit, run.speeds[first],
                      run.speeds[last], run.feeds[first], rates.along(line, unit))
        here = there


def angle_between(before, behind):
    """By how many degrees the way turns."""
    return math.degrees(math.acos(max(-1.0, min(1.0, sum(a * b for a, b in zip(before.unit, behind.unit))))))


class Causes:
    """Why a move is slow, by its speeds and its neighbours."""

    def __init__(self, run):
        self.rests = {mark.segment for mark in run.track.marks}

    def corner(self, before, behind):
        """The angle of a corner that slows two moves down, or nothing."""
        if before is None or behind is None or behind.first in self.rests:
            return None
        speed = behind.speed_in
        angle = angle_between(before, behind)
        is_slow = speed < NEAR * min(before.limit, behind.limit)
        is_rest = speed == 0 and angle < STRAIGHT_BACK
        return (speed, angle) if is_slow and not is_rest and angle >= LEAST_ANGLE else None

    def of(self, before, leg, behind, asked):
        """The cause, and more of it; nothing where it is as fast as is asked."""
        by_feed = leg.length / leg.limit - leg.length / asked
        if by_feed and leg.seconds / 60 - leg.length / leg.limit <= by_feed:
            if leg.feed > leg.rate:
                return "feed", f"{leg.feed:g} mm/min is more than its axes are set to allow, {leg.rate:.0f}"
            return "feed", f"{leg.feed:g} mm/min is what it asks for"
        if leg.mean >= NEAR * leg.limit:
            return "", ""
        corners = [(leg.speed_in, self.corner(before, leg)), (leg.speed_out, self.corner(leg, behind))]
        _, corner = min(corners, key=lambda it: it[0])
        if corner:
            return "corner", f"it turns by {corner[1]:.0f}\u00b0, at {corner[0]:.0f} mm/min"
        rests = [name for name, speed in (("starts", leg.speed_in), ("ends", leg.speed_out)) if speed < 1.0]
        where = f"it {' and '.join(rests)} at rest" if rests else "it speeds up or slows down on its way"
        return "acceleration", f"{where}, {leg.length:.3g} mm long"


def slow_places(run):
    """The places that lose most: against the greatest feed of the job for what is cut, the rates for rapids, and its own feed
    for a jog."""
    legs = list(legs_of(run))
    top = max((leg.limit for leg in legs if leg.kind == CUT), default=0.0)
    slow = [place for place in by_feed(places_of(run, legs, top)) if place.lost >= LEAST_LOSS]
    return sorted(slow, key=lambda place: (-place.lost, place.first_line))[:MOST_PLACES]


def places_of(run, legs, top):
    """The places in order: moves that have a cause, together with neighbours that have the same."""
    causes, last = Causes(run), None
    for before, leg, behind in zip(chain([None], legs), legs, chain(legs[1:], [None])):
        asked = min(leg.rate, top) if leg.kind == CUT else leg.limit
        cause, detail = causes.of(before, leg, behind, asked)
        if not cause:
            if last:
                yield last
            last = None
            continue
        lost = leg.seconds - leg.length / asked * 60
        place = Place(leg.line, leg.line, cause, leg.seconds, lost, leg.length, asked, detail, leg.line, lost, leg.first,
                      leg.kind)
        if last and joins(last, place, causes.rests):
            grow(last, place)
            continue
        if last:
            yield last
        last = place
    if last:
        yield last


def by_feed(places):
    """The places, those that are slow by one feed counted as one: that which loses most, and so many like it."""
    feeds = {}
    for place in places:
        if place.cause != "feed":
            yield place
        elif place.detail not in feeds:
            feeds[place.detail] = place
        else:
            most, other = sorted((feeds[place.detail], place), key=lambda it: -it.worst_loss)
            most.like = feeds[place.detail].like + 1
            most.seconds, most.lost, most.length = (getattr(most, name) + getattr(other, name)
                                                    for name in ("seconds", "lost", "length"))
            feeds[place.detail] = most
    yield from feeds.values()


def joins(place, behind, rests):
    """Whether two neighbours are one place."""
    return (place.cause == behind.cause and (place.kind == RAPID) == (behind.kind == RAPID) and behind.segment not in rests
            and (place.cause != "feed" or place.detail == behind.detail))


def grow(place, behind):
    """Makes two neighbours one place."""
    place.last_line = behind.last_line
    place.seconds += behind.seconds
    place.lost += behind.lost
    place.length += behind.length
    place.asked = max(place.asked, behind.asked)
    if behind.worst_loss > place.worst_loss:
        place.worst_line, place.worst_loss = behind.worst_line, behind.worst_loss
        place.detail, place.segment = behind.detail, behind.segment
