"""Status reports: how a console is parted into them and the rest, and an auditor of what they tell. Which tick was the last
one of a report, and which line, is not told by a run. So each report must fit some number of ticks that may have been done
then, where these never fall, and what one of two lines left."""
import re
from array import array
from bisect import bisect_left, bisect_right
from collections import Counter
from functools import lru_cache
from math import isqrt
from typing import NamedTuple, Optional

from model.buffers import STANDARD
from model.cuts import EVENTS
from model.lines import AXES, CANCEL, at_once, kept_of, realtime_of

CHANGES = "\x90\x91\x92\x93\x94\x95\x96\x97\x99\x9a\x9b\x9c\x9d"  # of the overrides
UP_BY_TEN, DOWN_BY_TEN, UP_BY_ONE, DOWN_BY_ONE = range(1, 5)  # for feeds; for the spindle, as many behind its first
TO_HALF, TO_QUARTER, OF_SPINDLE = 6, 7, 8

LENGTH = r"((?!-0\.000)-?(?:0|[1-9][0-9]*)\.[0-9]{3})"
COUNT = r"(0|[1-9][0-9]*)"
PLACE = ",".join([LENGTH] * 3)
REPORT = re.compile(rf"<(Idle|Run|Jog|Hold:[01]|Alarm)\|([MW])Pos:{PLACE}(?:\|Bf:{COUNT},{COUNT})?\|FS:{COUNT},{COUNT}\|WCO:{PLACE}"
                    rf"\|Ov:{COUNT},{COUNT},{COUNT}>")


class Bad(Exception):
    """A report is none that the rules allow."""


def is_answer(line):
    """Whether a line of a console answers one of the job."""
    return line == "ok" or line.startswith("error:")


def part(console):
    """The text of a console without its reports, and each report with the number of banners before it, and of answers since the
    last of these."""
    rest, reports, banners, answers = [], [], 0, 0
    for line in console.split("\r\n"):
        if line.startswith("<"):
            reports.append((banners, answers, line))
            continue
        rest.append(line)
        banners, answers = (banners + 1, 0) if line.startswith("Grbl ") else (banners, answers + is_answer(line))
    return "\r\n".join(rest), reports


class Report(NamedTuple):
    """What a report tells. Places are in thousandths of a mm, and that of the machine is told or follows."""

    state: str
    is_of_machine: bool
    place: tuple
    room: Optional[tuple]
    feed: int
    speed: int
    wco: tuple
    overrides: tuple

    @property
    def moves(self):
        """Whether the machine runs, or slows down, or jogs."""
        return self.state in ("Run", "Hold:1", "Jog")

    @classmethod
    @lru_cache
    def read(cls, text):
        found = REPORT.fullmatch(text)
        if not found:
            raise Bad("is no report")
        state, kind, *numbers = found.groups()
        told = tuple(int(number.replace(".", "")) if number else None for number in numbers)
        place, room, (feed, speed), wco = told[:3], told[3:5], told[5:7], told[7:10]
        if kind == "W":
            place = tuple(map(sum, zip(place, wco)))
        return cls(state, kind == "M", place, None if room[0] is None else room, feed, speed, wco, told[10:])


# ---- what lines do that reports tell of


class Left(NamedTuple):
    """What a line leaves: the mask of `$10`, thousandths of a step per mm, the offset of the work in thousandths of a mm,
    and the speed of the spindle, 0 where it is off; the state in which the machine may be found then, `Run` or `Jog`, or
    nothing where it stands; and whether it is locked."""

    mask: int
    per_mm: tuple
    wco: tuple
    speed: int
    under_way: str
    is_locked: bool = False


class Work(NamedTuple):
    """What a line does: it has so many moves of some steps, and the state in which they are carried out; all that may have
    been under way before it is done; it has something to do, and no move last; it pauses; it ends a program; a soft limit stops
    it."""

    moves: int = 0
    state: str = ""
    stood: bool = False
    settles: bool = False
    pauses: bool = False
    ends: bool = False
    halts: bool = False


NOTHING = Work()


class Row(NamedTuple):
    """Some of the first lines of a job: what they leave; how many ticks and moves they ask for; how many of them pause; how
    many there are up to the last that settles, or before the last that found what was before it done, and up to the last that
    ends a program; and how many bytes they have when they are sent, how many `!` and 0x85, and how many of each change. The state
    of moves, the `?`, and whether a soft limit stops it, are those of the last line alone."""

    left: Left
    ticks: int = 0
    moves: int = 0
    state: str = ""
    pauses: int = 0
    settled: int = 0
    ended: int = 0
    sent: int = 0
    holds: int = 0
    cancels: int = 0
    changes: tuple = (0,) * len(CHANGES)
    queries: int = 0
    halts: bool = False


class Course:
    """The lines of an epoch, in rows: none of them, the first, the first two, and so on. Behind those that are answered comes
    one that is scanned alone, if only of no bytes. So many lines of the job stand before the epoch. In an attended run no realtime byte
    waits for answers."""

    def __init__(self, left, before=0, buffers=STANDARD, is_attended=False):
        self.rows, self.cuts, self.before, self.buffers = [Row(left)], [], before, buffers
        self.is_attended = is_attended
        self.has_asked = False  # the first line has asked for a report before the epoch began, so that it waits for none

    def add(self, line, sent, left, ticks, work):
        """Adds a line that is sent as so many bytes. So many ticks are asked for then."""
        before, number, asked = self.rows[-1], len(self.rows), realtime_of(line)
        changes = before.changes
        if asked:
            changes = tuple(count + asked.count(change) for count, change in zip(changes, CHANGES))
        settled = number if work.settles else number - 1 if work.stood else before.settled
        self.rows.append(Row(left, ticks, before.moves + work.moves, work.state if work.moves else "",
                             before.pauses + work.pauses, settled, number if work.ends else before.ended,
                             before.sent + sent, before.holds + asked.count("!"), before.cancels + asked.count(CANCEL), changes,
                             asked.count("?"), work.halts))

    def cut(self, cut):
        """The jogs of the last lines are cut. The cut is a tick of the last line, and of each that is not done before."""
        at, self.cuts = len(self.rows) - 1, [*self.cuts, cut]
        while at == len(self.rows) - 1 or self.rows[at].ticks > cut.ticks:
            self.rows[at] = self.rows[at]._replace(ticks=cut.ticks + 1)
            at -= 1

    def reach(self, answers):
        """How many lines may be scanned: the host goes on to the first line that has no room behind it."""
        room = self.rows[answers].sent + self.buffers.room
        return min(bisect_right(self.rows, room, answers + 1, key=lambda row: row.sent), len(self.rows) - 1)

    def fault_in_cuts(self):
        """What is wrong with the causes of cuts, in words, or None. A 0x85 is raised only once each line before is answered, in an
        attended run as a `!`, as it is scanned; and no line that has it, or one behind it, is begun before it is obeyed."""
        for many, cut in enumerate(self.cuts, 1):
            number = cut.number - self.before
            here, last = self.rows[number], self.rows[self.reach(number)]
            behind = last if self.is_attended else self.rows[min(number + 1, len(self.rows) - 1)]
            if last.holds == here.holds and behind.cancels == here.cancels:
                return f"the record {cut.text!r} is in the steps, and nothing cancels behind that line"
            if many > last.holds + behind.cancels:
                return f"the record {cut.text!r} is in the steps, the {many}. cut, and fewer bytes cancel"
        return None

    def add_unsent(self, line):
        """Adds what is scanned and not sent."""
        self.add(line, 0, self.rows[-1].left, self.rows[-1].ticks, NOTHING)

    def scan_on(self, lines):
        """Adds what is scanned behind a line that a soft limit stops, which has no answer: the lines that have room on the link
        beside it, and one more, up to a byte that waits for an answer. None of them is begun. Answers what of each is scanned."""
        parts, free = [], self.buffers.room - self.rows[-1].sent + self.rows[-2].sent
        for line in lines:
            parts.append(line if self.is_attended else at_once(line))
            free -= len(kept_of(line)) + 1
            if len(parts) == len(lines) or parts[-1] != line or free < 0:
                break
            self.add(line, len(kept_of(line)) + 1, self.rows[-1].left, self.rows[-1].ticks, NOTHING)
        self.add_unsent(parts[-1])
        return parts


# ---- where the machine is


def feed_of(w):
    """A squared speed as a feed in mm per minute, rounded down."""
    return isqrt(w) * 60 // 1000


class Way:
    """Where the machine is, in steps, after each number of ticks of a step text that begins at a place; after which of them it
    stands; and for each feed the numbers of ticks after which a segment begins with it. Where the steps are broken off, the squared
    speeds that may follow are given, from the least on."""

    def __init__(self, steps, speeds_behind=(), place=(0, 0, 0)):
        here, self.axes, self.feeds, self.stops = list(place), [array("q", [at]) for at in place], {}, set()
        self.feeds_behind = [(feed_of(least), feed_of(most)) for least, most in speeds_behind]
        for line in steps.split("\n"):
            if line.startswith("s "):
                w = int(line.split(" ")[3])
                self.feeds.setdefault(feed_of(w), []).append(self.ticks)
                self.stops |= set() if w else {self.ticks}
                continue
            if line == "":
                continue
            if line in EVENTS:
                here = [place + step for place, step in zip(here, EVENTS[line])]
            elif line != "E" or not speeds_behind or speeds_behind[0][0] == 0:
                self.stops.add(self.ticks)
            if line != "E":
                for axis, place in zip(self.axes, here):
                    axis.append(place)

    @property
    def ticks(self):
        """How many there are."""
        return len(self.axes[0]) - 1

    def find(self, place, per_mm, low, high, stands):
        """The least number of ticks, of those from one up to another, after which a place is shown, or None; of those after
        which the machine stands, or of all."""
        in_x, in_y, in_z = map(steps_shown_as, place, per_mm)
        x, y, z = self.axes
        return next((at for at in range(low, high + 1)
                     if x[at] in in_x and y[at] in in_y and z[at] in in_z and (not stands or at in self.stops)), None)

    def has_feed(self, feed, low, high):
        """Whether a segment begins with a feed after some number of ticks, of those from one up to another."""
        if any(least <= feed <= most for least, most in self.feeds_behind):
            return True
        ticks = self.feeds.get(feed, [])
        at = bisect_left(ticks, low)
        return at < len(ticks) and ticks[at] <= high


def steps_shown_as(length, per_mm):
    """The numbers of steps that are shown as a length."""
    least, most = (-(-(2 * abs(length) + half) * per_mm // (2 * 10**6)) for half in (-1, 1))
    if length == 0:
        return range(1 - most, most)
    return range(least, most) if length > 0 else range(1 - most, 1 - least)


# ---- the auditor


class Auditor:
    """Audits the reports of a run in their order."""

    def __init__(self, course, way):
        self.course, self.rows, self.way = course, course.rows, way
        self.done = 0  # so many ticks at least were done at the last report

    def audit(self, text, answers, is_first):
        """Audits a report behind so many answers, the first there or not. It is `Bad`, or has done no less than before."""
        report = Report.read(text)
        self.test_overrides(report, answers, is_first)
        self.test_state(report, answers, is_first)
        self.done = self.ticks_of(report, answers, self.lefts_of(report, answers))
        self.test_room(report, answers, is_first)

    def reach(self, answers, is_first):
        """How many lines may be scanned. Before the first report no byte of the line is sent that asks for it."""
        return answers + 1 if is_first else self.course.reach(answers)

    def test_overrides(self, report, answers, is_first):
        scanned = self.rows[self.reach(answers, is_first)].changes
        before = self.rows[self.rows[answers].ended].changes
        changes = [now - then for now, then in zip(scanned, before)]
        feed, rapid, spindle = report.overrides
        for name, percent, of_it in (("feed", feed, changes), ("spindle", spindle, changes[OF_SPINDLE:])):
            if not may_be_percent(percent, of_it):
                raise Bad(f"has {percent} percent for the {name}, which was not changed to that")
        if rapid not in (100, 50 if changes[TO_HALF] else 100, 25 if changes[TO_QUARTER] else 100):
            raise Bad(f"has {rapid} percent for rapids, which were not changed to that")

    def test_state(self, report, answers, is_first):
        may_be = (self.rows[answers].left.under_way, self.rows[answers + 1].state)
        if report.moves and ("Jog" if report.state == "Jog" else "Run") not in may_be:
            raise Bad(f"has the state {report.state}, and nothing moves so")
        if report.feed and not report.moves:
            raise Bad(f"has the state {report.state} and the feed {report.feed}")
        halts = self.rows[answers + 1].halts and not is_first  # its own line is begun once it has a report
        held = self.rows[self.reach(answers, is_first)].holds or self.rows[answers + 1].pauses
        if report.state.startswith("Hold") and not held and not (halts and report.moves):
            raise Bad(f"has the state {report.state}, and nothing holds")
        locks = [row.left.is_locked for row in self.rows[answers : answers + 2]]
        if report.state == "Alarm" and not halts and not any(locks):
            raise Bad("has the state Alarm, and no soft limit stops")
        if report.state != "Alarm" and all(locks):
            raise Bad(f"has the state {report.state}, and the machine is locked")

    def test_room(self, report, answers, is_first):
        """No move that is in the plan is done, and before the first report of a line nothing is on the link."""
        if report.room is None:
            return
        blocks, count = report.room
        done = self.rows[bisect_right(self.rows, self.done, 0, answers + 2, key=lambda row: row.ticks) - 1]
        if not 0 <= self.course.buffers.blocks - blocks <= self.rows[answers + 1].moves - done.moves:
            raise Bad(f"has {blocks} free blocks")
        if count > self.course.buffers.room or (count < self.course.buffers.room and is_first):
            raise Bad(f"has {count} free bytes")

    def lefts_of(self, report, answers):
        """What lines left that the report may tell, up to the last one answered or up to the next."""
        lefts = [row.left for row in self.rows[answers : answers + 2]]
        faults = [fault_in_fields(report, left) for left in lefts]
        if all(faults):
            raise Bad(" or ".join(dict.fromkeys(faults)))
        return [left for left, fault in zip(lefts, faults) if not fault]

    def ticks_of(self, report, answers, lefts):
        """The least number of ticks that the report may tell of. A machine that runs has more to do, and one that stands is
        where the next segment begins at rest. The feed is that behind the last segment that was given, at which the next one
        begins."""
        here, ahead = self.rows[answers], self.rows[answers + 1]
        slows = report.state == "Hold:1" and not self.way.feeds_behind  # more is to come then, in a run that is not broken off
        low, high = max(self.done, self.rows[here.settled].ticks), min(ahead.ticks - report.moves, self.way.ticks - slows)
        low = max(low, high) if report.state == "Alarm" else low
        found, last = None, high
        for per_mm in dict.fromkeys(left.per_mm for left in lefts):
            at = self.way.find(report.place, per_mm, low, last, not report.moves)
            if at is not None:
                found, last = at, at - 1
        if found is None:
            why = ", where more is to be done" if report.moves else " where the machine stands"
            raise Bad(f"is of no place from tick {low} to tick {high}{why}")
        if report.feed and not self.way.has_feed(report.feed, found + 1, ahead.ticks):
            raise Bad(f"has the feed {report.feed}, with which nothing begins behind tick {found} up to tick {ahead.ticks}")
        return found


def may_be_percent(percent, changes):
    """Whether an override may be so by some of these changes: up and down by ten, and by one."""
    least = 100 - 10 * changes[DOWN_BY_TEN] - changes[DOWN_BY_ONE]
    most = 100 + 10 * changes[UP_BY_TEN] + changes[UP_BY_ONE]
    by_ones = changes[UP_BY_ONE] + changes[DOWN_BY_ONE]
    return max(10, least) <= percent <= min(200, most) and (by_ones > 0 or percent % 10 == 0)


def fault_in_fields(report, left):
    """The field of a report that does not tell what lines left, or None."""
    if report.is_of_machine != bool(left.mask & 1):
        return f"has the position of the {'machine' if report.is_of_machine else 'work'} by the mask {left.mask}"
    if (report.room is not None) != bool(left.mask & 2):
        return f"has {'a' if report.room else 'no'} Bf by the mask {left.mask}"
    if report.wco != left.wco:
        return f"has another offset than {left.wco} thousandths of a mm"
    if report.speed != left.speed * report.overrides[2] // 100:
        return f"has the speed {report.speed}, where {left.speed} are programmed"
    return None


def fault_in_all(course, reports):
    """The first report of an attended run that is one too many, in words, or None: there are no more than `?` that may be scanned."""
    for number, (answers, _) in enumerate(reports, 1):
        most = sum(row.queries for row in course.rows[: course.reach(answers) + 1])
        if number > most:
            return f"report {number} is told behind {answers} answers, where {most} `?` may be scanned"
    return None


def fault_in_counts(rows, reports):
    """The first line whose reports are too many or too few, in words, or None. What is scanned alone needs none."""
    told = Counter(answers for answers, _ in reports)
    for number, row in enumerate(rows[1:], 1):
        count = told[number - 1]
        if count > row.queries or (count == 0 < row.queries and number < len(rows) - 1):
            return f"line {number} has {row.queries} `?` and {count} reports"
    return None


def fault_in(reports, course, way):
    """What is wrong with the first bad report of a run whose other text and steps are right, in words, or None."""
    fault = fault_in_all(course, reports) if course.is_attended else fault_in_counts(course.rows, reports)
    if fault or not reports:
        return fault
    auditor, last = Auditor(course, way), (None, None)
    for report in reports:
        if report == last:
            continue  # what might be told once might be told again
        answers, text = report
        try:
            is_first = answers != last[0] and not course.is_attended and not (course.has_asked and answers == 0)
            auditor.audit(text, answers, is_first)
        except Bad as bad:
            return f"the report {text!r} behind {answers} answers {bad}"
        last = report
    return None


# ---- where a reset ends an epoch


def fault_at_reset(course, way, answers, is_begun):
    """What is wrong with an epoch that a reset has ended behind so many answers, in words, or None. What was sent and has no answer had
    room on the link. A `?` of the last line was raised only once each line before was answered, but in an attended run. What was recorded
    is all that the lines ask for up to the last answered one that settles, and nothing behind the one that was begun."""
    rows, sent = course.rows, len(course.rows) - 2
    if rows[sent].sent - rows[answers].sent > course.buffers.room:
        return f"{rows[sent].sent - rows[answers].sent} bytes of lines have no answer"
    if rows[-1].queries and answers < sent and not course.is_attended:
        return f"line {answers + 1} has no answer, and a `?` is scanned behind it"
    least, most = rows[rows[answers].settled].ticks, rows[answers + is_begun].ticks
    if not least <= way.ticks <= most:
        return f"behind {answers} answers there are {way.ticks} ticks in place of {least} to {most}"
    return None
