"""How moves are planned and run: the heads and the events of docs/MOTION.md, for any number of moves that was known."""
from dataclasses import dataclass
from math import isqrt

from model.buffers import STANDARD
from model.cuts import is_cut
from model.lines import AXES

MOST_DROPPED = 6  # segments behind the last one that is recorded: on their way, and one that has no room
SLOWEST = 16  # µm/s
END = "E"  # the last line of the steps


class TooLong(Exception):
    """A job has more events than are worth the model's time."""


def nearest(value, by):
    """A quotient to the nearest whole number; a half goes away from zero."""
    return (2 * abs(value) + by) // (2 * by) * (1 if value >= 0 else -1)


def to_steps(length, per_mm):
    """A length in nm in steps, of which so many thousandths are a mm."""
    return nearest(length * per_mm, 10**9)


def to_nm(steps, per_mm):
    """Steps as a length in nm."""
    return nearest(steps * 10**9, per_mm)


def event_lines(ways, first, count):
    """The lines of some events of a move that goes so many steps on each axis: those that come after its first ones."""
    events = max(map(abs, ways))
    lines = [""] * count
    for axis, way in enumerate(ways):
        if not way:
            continue
        name, twice = AXES[axis] + "+-"[way < 0], 2 * abs(way)
        if abs(way) == events:
            lines = [line + name for line in lines]
            continue
        made = [(twice * k + events - 1) // (2 * events) for k in range(first, first + count + 1)]
        lines = [line + name if made[at + 1] > made[at] else line for at, line in enumerate(lines)]
    return lines


@dataclass
class Limits:
    """What a move is measured by: thousandths of a step per mm, rates in µm per minute, accelerations in µm/s², and the
    junction deviation in µm."""

    per_mm: list
    rate: list
    accel: list
    deviation: int


class Move:
    """A straight move of some steps on each axis, of a jog or of a line of G-code, with its geometry under the limits that
    stand when it is added. Its feed is in nm per minute, and a rapid has none."""

    def __init__(self, line, ways, feed, limits, is_jog=False):
        self.line, self.ways, self.is_jog = line, ways, is_jog
        counts = [abs(way) for way in ways]
        self.events, self.prepared = max(counts), 0
        lengths = [count * 10**9 // per_mm for count, per_mm in zip(counts, limits.per_mm)]
        self.length = max(1, isqrt(sum(length * length for length in lengths)))
        units = [length * 10**6 // self.length for length in lengths]
        going = [axis for axis in range(3) if units[axis]]
        self.accel = min(limits.accel[axis] * 10**6 // units[axis] for axis in going)
        self.rapid = min(limits.rate[axis] * 10**6 // units[axis] for axis in going) // 60
        self.change = 2 * self.accel * self.length // (1000 * self.events)
        self.units = [unit if way >= 0 else -unit for unit, way in zip(units, ways)]
        self.deviation = limits.deviation
        fed = max(SLOWEST, self.rapid if feed is None else feed * 100 // 6_000_000)
        self.nominal = fed if feed is None else min(self.rapid, fed)

    @property
    def left(self):
        return self.events - self.prepared


def hard_cap(before, behind):
    """The greatest squared speed from one move into the next."""
    rapids = min(before.rapid, behind.rapid) ** 2
    turn = -sum(a * b for a, b in zip(before.units, behind.units)) // 10**6
    if turn > 999_999:
        return 0
    if turn < -999_999:
        return rapids
    half = isqrt((10**6 - turn) * 10**6 // 2)
    return min(rapids, min(before.accel, behind.accel) * behind.deviation * half // (10**6 - half))


def soft_cap(before, behind):
    return min(hard_cap(before, behind), before.nominal**2, behind.nominal**2)


class Script:
    """What the lines ask of the machine, in order: stretches of moves, each ended by a mark, which has a text, or by a rest,
    which has none. Of a stretch that a cut ends, not all may be done."""

    def __init__(self, most_events, blocks=STANDARD.blocks):
        self.stretches, self.moves, self.room = [], [], most_events
        self.blocks = blocks  # moves in the plan
        self.ticks = 0  # events and marks
        self.has_hand = False  # a realtime byte of the job changes how fast the machine goes
        self.is_reset = False  # a reset may break it off behind any piece
        self.is_halted = False  # a soft limit stops it in its last stretch

    def rest(self):
        """The machine comes to rest."""
        if self.moves:
            self.stretches.append((self.moves, None))
            self.moves = []

    def mark(self, text):
        """A mark comes where the machine stands."""
        self.ticks += 1
        self.stretches.append((self.moves, text))
        self.moves = []

    def cut(self, cut):
        """The moves since the machine stood are cut."""
        self.ticks = cut.ticks + 1
        self.stretches.append((self.moves, cut.text))
        self.moves = []

    def end(self):
        """Nothing comes behind it."""
        self.stretches.append((self.moves, END))
        self.moves = []

    def add(self, line, ways, feed, limits, is_jog=False):
        """Adds a move, if it has steps. Answers whether it has."""
        if not any(ways):
            return False
        move = Move(line, ways, feed, limits, is_jog)
        self.room -= move.events
        if self.room < 0:
            raise TooLong
        self.ticks += move.events
        self.moves.append(move)
        return True


class Wrong(Exception):
    """A step text is none that a script allows, from a line of it on."""


class Reading:
    """A step text, read line by line."""

    def __init__(self, text):
        self.lines, self.at = text.split("\n"), 0

    def next(self):
        if self.at == len(self.lines):
            raise Wrong("the steps end too early")
        self.at += 1
        return self.lines[self.at - 1]

    def expect(self, right):
        told = self.next()
        if told != right:
            raise Wrong(f"line {self.at} of the steps is {told!r}, and by the model {right!r}")

    def head(self):
        words = self.next().split(" ")
        if words[0] != "s" or len(words) != 5 or not all(word.isdecimal() for word in words[1:]):
            raise Wrong(f"line {self.at} of the steps is no head")
        return [int(word) for word in words[1:]]

    @property
    def left(self):
        """How many lines stand before the end."""
        return len(self.lines) - self.at - 2

    def is_at(self, right, lines=0):
        """Whether a line stands so many lines ahead."""
        at = self.at + lines
        return at < len(self.lines) and self.lines[at] == right

    def is_at_end(self, lines=0):
        """Whether the end stands so many lines ahead."""
        return self.is_at(END, lines)

    def speed_ahead(self, lines):
        """The squared speed of the head that stands so many lines ahead, or -1 where none does."""
        at = self.at + lines
        words = self.lines[at].split(" ") if at < len(self.lines) else []
        return int(words[3]) if len(words) == 5 and words[0] == "s" and words[3].isdecimal() else -1


class Stretch:
    """Moves that are run from rest to rest. How many of them were known at a segment is not told by the steps: at most
    as many as the plan holds, from the one that is run on, and none that was known is forgotten."""

    def __init__(self, moves, is_reset=False, mark=None, is_halted=False, blocks=STANDARD.blocks):
        self.moves, self.is_reset, self.is_halted, self.blocks = moves, is_reset, is_halted, blocks
        self.cut = mark if is_cut(mark) else None
        self.caps = [soft_cap(a, b) for a, b in zip(moves, moves[1:])]
        self.tail, self.known, self.speed = 0, 0, 0
        self.broken = None  # where it is broken off: how many moves may have been known, and the speed that follows
        self.is_moving = False  # it is broken off where the machine moves, as far as is known

    def exits(self):
        """The squared speed at which the tail may end, for each number of moves that may be known: the greatest that the
        last of these still allows to stop at its end."""
        tail, last = self.moves[self.tail], min(self.tail + self.blocks, len(self.moves)) - 1
        first = way = tail.change * tail.left
        least = self.speed + first
        for at in range(self.tail, last + 1):
            if at > self.tail:
                cap, block = self.caps[at - 1], self.moves[at]
                least = min(least, max(cap, self.speed - way) + way - first)
                way += block.change * block.left
            if at >= self.known:
                yield at, min(least, way - first)

    def count(self):
        """How many events the next segment has."""
        move = self.moves[self.tail]
        return max(1, min(move.left, isqrt(self.speed + move.change) * 10 * move.events // move.length))

    def ends(self, count):
        """The squared speed at which a segment of so many events may end, for each number of moves that may be known."""
        move, change = self.moves[self.tail], self.moves[self.tail].change * count
        most = max(min(self.speed + change, move.nominal**2), self.speed - change)
        for known, end in self.exits():
            yield known, min(end + move.change * (move.left - count), most)

    def cycles(self, count, behind):
        """The cycles of each event of a segment that ends at a squared speed."""
        move, w = self.moves[self.tail], self.speed
        top = max(move.nominal, isqrt(w))
        pace = max(1, isqrt(min(top**2, (w + behind + move.change * count) // 2)))
        return -(-16_000 * move.length // (move.events * pace))

    def advance(self, count, behind):
        """A segment of so many events is over."""
        move = self.moves[self.tail]
        move.prepared += count
        self.speed = behind
        if not move.left:
            self.tail += 1
            self.known = max(self.known, self.tail)

    def is_last(self, count):
        """Whether a segment of so many events is the last one."""
        return self.moves[self.tail].left == count and self.tail + 1 == len(self.moves)

    def segment(self, text):
        """Reads a segment."""
        move, w, at = self.moves[self.tail], self.speed, text.at + 1
        line, count, told, cycles = text.head()
        right = self.count()
        if (line, count, told) != (move.line, right, w):
            raise Wrong(f"line {at} of the steps is the head of line {line} with {count} events at {told}, and by the model of "
                        f"line {move.line} with {right} at {w}")
        events = event_lines(move.ways, move.prepared, count)
        if self.is_broken_at(text, count):
            behind = self.break_off(at, count, cycles)
            self.is_moving = text.left < count or all(end > 0 for _, end in self.broken)
            events = events[: text.left]
        else:
            behind = self.find_end(at, count, 0 if self.is_last(count) else text.speed_ahead(count))
            if cycles != self.cycles(count, behind):
                raise Wrong(f"the head at line {at} of the steps has {cycles} cycles for each event")
        for event in events:
            text.expect(event)
        self.advance(count, behind)

    def is_broken_at(self, text, count):
        """Whether a reset breaks a segment of so many events off, or what is behind it."""
        return self.is_reset and (text.left < count or (text.left == count and not self.is_last(count)))

    def find_end(self, at, count, behind):
        """Finds how many moves were known at a segment that ends at a squared speed, and answers that speed."""
        for known, end in self.ends(count):
            if behind == end:
                self.known = known
                return behind
        raise Wrong(f"the segment at line {at} of the steps ends at {behind}, whatever moves were known")

    def break_off(self, at, count, cycles):
        """Nothing follows a segment that is not the last one, so that the speed at which it ends is not told."""
        self.broken = [(known, end) for known, end in self.ends(count) if self.cycles(count, end) == cycles]
        if not self.broken:
            raise Wrong(f"the head at line {at} of the steps has {cycles} cycles for each event, whatever moves were known")
        return self.broken[0][1]

    def broken_here(self):
        """Where it is broken off before its next segment."""
        return [(self.known, self.speed)]

    def is_cut_off(self, text):
        """Whether a reset, a soft limit or a cut ends it here."""
        return ((self.is_reset or self.is_halted) and text.is_at_end()) or text.is_at(self.cut)

    def speeds_behind(self):
        """Where it is broken off: the squared speeds at which its last segment may end, and those that were given behind it and
        dropped, each as the least and the greatest."""
        ways = {(self.tail, self.moves[self.tail].prepared if self.tail < len(self.moves) else 0, max(known, self.tail), end)
                for known, end in self.broken}
        for _ in range(MOST_DROPPED + 1):
            yield from ((end, end) for *_, end in ways)
            ways = {way for one in ways for way in self.ways_from(one)}

    def ways_from(self, way):
        """Where it may be behind the next segment: in which move, how much of that is prepared, how many moves may be known, and the
        squared speed."""
        self.tail, prepared, self.known, self.speed = way
        if self.tail == len(self.moves):
            return []
        move = self.moves[self.tail]
        move.prepared = prepared
        count = self.count()
        is_over = move.left == count
        ends = [(0, 0)] if self.is_last(count) else self.ends(count)
        tail = self.tail + is_over
        return [(tail, 0 if is_over else prepared + count, max(known, tail), end) for known, end in list(ends)]


class HaltedStretch(Stretch):
    """Moves that a soft limit stops. From which segment on the machine slows down is not told by the steps: each up to some one is
    as planned, and each behind it slows down as much as it can, until the machine stands. It may stand between two moves too."""

    def __init__(self, *words):
        super().__init__(*words)
        self.goes, self.slows = True, False  # the segments so far may all be as planned; the last ones may slow down

    def segment(self, text):
        move, w, at = self.moves[self.tail], self.speed, text.at + 1
        line, count, told, cycles = text.head()
        go = self.count()
        slow = min(go, -(-w // move.change))
        if (line, told) != (move.line, w) or count not in (go, slow) or not count:
            raise Wrong(f"line {at} of the steps is the head of line {line} with {count} events at {told}, and by the model of "
                        f"line {move.line} with {go} or {slow} at {w}")
        behind = 0 if self.is_last(count) or text.is_at_end(count) else text.speed_ahead(count)
        self.test_end(at, count, behind, count == slow and behind == max(0, w - move.change * count))
        if cycles != self.cycles(count, behind):
            raise Wrong(f"the head at line {at} of the steps has {cycles} cycles for each event")
        for event in event_lines(move.ways, move.prepared, count):
            text.expect(event)
        self.advance(count, behind)

    def test_end(self, at, count, behind, is_slow):
        """Tries the squared speed at which a segment ends, which is that of one that slows down, or not."""
        known = [known for known, end in self.ends(count) if end == behind] if count == self.count() else []
        self.slows = is_slow and (self.slows or self.goes)
        self.goes = self.goes and bool(known)
        if not self.goes and not self.slows:
            raise Wrong(f"the segment at line {at} of the steps goes from {self.speed} to {behind}, neither as planned nor to a "
                        "stop")
        self.known = known[0] if self.goes else self.known


class HandStretch(Stretch):
    """Moves whose speed an operator may change at any time, by a hold or by overrides. When is not told by the steps, so heads
    are only tried for what holds at any speed."""

    def segment(self, text):
        move, w, at = self.moves[self.tail], self.speed, text.at + 1
        line, count, told, cycles = text.head()
        go = self.count()
        hold = min(go, -(-w // move.change))
        if (line, told) != (move.line, w) or count not in (go, hold) or not count:
            raise Wrong(f"line {at} of the steps is the head of line {line} with {count} events at {told}, and by the model of "
                        f"line {move.line} with {go} or {hold} at {w}")
        events = event_lines(move.ways, move.prepared, count)
        if self.is_broken_at(text, count):
            behind = w + move.change * count
            self.broken = [(max(0, w - move.change * count), behind)]
            self.is_moving = text.left < count
            events = events[: text.left]
        else:
            is_end = self.is_last(count) or text.is_at(self.cut, count) or (self.is_halted and text.is_at_end(count))
            behind = 0 if is_end else text.speed_ahead(count)
            self.test_end(at, count, behind)
        if cycles < -(-16_000 * move.length // (move.events * max(1, isqrt((w + behind + move.change * count) // 2)))):
            raise Wrong(f"the head at line {at} of the steps has {cycles} cycles for each event")
        for event in events:
            text.expect(event)
        self.advance(count, behind)

    def broken_here(self):
        return [(self.speed, self.speed)]

    def test_end(self, at, count, behind):
        """Tries the squared speed at which a segment ends."""
        move, w, change = self.moves[self.tail], self.speed, self.moves[self.tail].change * count
        if not max(0, w - change) <= behind <= w + change:
            raise Wrong(f"the segment at line {at} of the steps goes from {w} to {behind}")
        if move.left == count and not self.is_last(count) and behind > hard_cap(move, self.moves[self.tail + 1]):
            raise Wrong(f"the segment at line {at} of the steps ends at {behind}, above the junction's cap")
        if behind > max(w, move.rapid**2):
            raise Wrong(f"the segment at line {at} of the steps ends at {behind}, above its axes' rates")

    def speeds_behind(self):
        [(least, most)] = self.broken
        yield least, most
        for _ in range(MOST_DROPPED):
            if self.tail == len(self.moves):
                return
            self.speed, count = most, self.count()
            change = self.moves[self.tail].change * count
            least, most = max(0, least - change), most + change
            yield least, most
            self.advance(count, most)


def stretch_of(script, moves, mark):
    """A stretch of a script. Where a soft limit stops it and a reset may break it off, less is known of its speeds."""
    is_halted = script.is_halted and mark == END
    has_hand = script.has_hand or (is_halted and script.is_reset)
    kind = HandStretch if has_hand else HaltedStretch if is_halted else Stretch
    return kind(moves, script.is_reset, mark, is_halted, script.blocks)


def heads_of(script, steps):
    """Reads a step text by a script, and answers how many heads it has: each segment as the planner gives it for the moves
    that may have been known, each event and mark in its order, and nothing more. Else it is `Wrong`. A cut may stand behind any
    segment of its stretch over which the machine can stop, and the next stretch begins where that was. So may the end, in the
    last stretch, where a soft limit stops it. Where the script may be broken off, the end may stand behind any record. At which
    speeds it may stand there is answered too, where it is in a stretch of moves, and whether the machine moves there for certain."""
    text, heads, stretch = Reading(steps), 0, None
    for moves, mark in script.stretches:
        stretch = stretch_of(script, moves, mark)
        while stretch.tail < len(moves) and not stretch.is_cut_off(text):
            stretch.segment(text)
            heads += 1
        if script.is_reset and text.is_at_end() and (mark is not None or stretch.tail < len(moves)):
            break
        if mark not in (None, END):
            text.expect(mark)
    if script.is_reset and stretch.tail < len(stretch.moves) and not stretch.broken:
        stretch.broken = stretch.broken_here()
    text.expect(END)
    text.expect("")
    if text.at != len(text.lines):
        raise Wrong(f"line {text.at} of the steps stands behind their end")
    return heads, sorted(set(stretch.speeds_behind())) if stretch.broken else [], stretch.is_moving
