"""What an audit has to find of three texts. All courses are searched that a job may take by the rules, as far as the console tells them and
the steps record them: each line is answered, or broken off by a reset, jogs are cut, and resets come. How far records and the console
stand in any of these decides. Written from the definitions, without the order in which the program goes through the texts."""
from typing import NamedTuple, Optional

from model.foreign import is_foreign
from model.lines import COMMENT, kept_of, scan
from model.machine import ALARM, LOCKED, LOST
from model.recorded import Making, Part, Steps
from model.replies import BANNER, Console
from model.rules import Board, outcomes_of

ORIGIN = (0, 0, 0)
STOP = None  # a reset, among what is sent
FITS, MISFIT, REPLIES, FOREIGN = 0, 1, 7, 8
SAID = {FITS: "fits: {} events\n", MISFIT: "misfit at byte {}\n", REPLIES: "replies differ at line {}\n", FOREIGN: "line {} isn't audited\n"}


class Finding(NamedTuple):
    """The status with which an audit ends, and the number of events, of a byte or of a line."""

    status: int
    number: int

    @property
    def said(self):
        """What is printed."""
        return SAID[self.status].format(self.number)


# ---- a job


class Job:
    """What is scanned of a job that is not too large, and what comes of it to a board: lines, by what is kept of them, and resets."""

    def __init__(self, text):
        lines = text.decode("latin-1").split("\n")
        if not lines[-1]:
            lines.pop()
        self.all, self.lines, self.rest, self.sent, self.kept = lines, [], "", [], []
        for line in lines:
            (*parts, last), is_long = scan(line)
            self.sent += [STOP] * len(parts)
            if is_long:
                self.rest = line[: sum(len(part) + 1 for part in parts) + len(last)]
                break
            self.lines.append(line)
            self.kept.append(kept_of(last))
            self.sent.append(self.kept[-1])
        self.stops = [len(self.sent)] * (len(self.sent) + 1)
        for at in reversed(range(len(self.sent))):
            self.stops[at] = at if self.sent[at] is STOP else self.stops[at + 1]

    def has_reset(self, at):
        """Whether a reset comes behind so many items."""
        return self.stops[at] < len(self.sent)

    def most_cuts(self, alarm):
        """How many bytes may cut jogs, where the line of a number raises an alarm, or none does."""
        if alarm is None:
            return sum(count_in(line, "!\x85") for line in [*self.lines, self.rest])
        return sum(count_in(line, "!\x85") for line in self.lines[:alarm]) + sum(count_in(line, "!") for line in self.all[alarm:])

    def first_foreign(self):
        """The number of the first line that is not audited, or None."""
        return next((number for number, kept in enumerate(self.kept, 1) if is_foreign(kept)), None)


def count_in(line, bytes_of):
    """How many of some bytes a line has outside its comments."""
    outside = COMMENT.sub("", line)
    return sum(map(outside.count, bytes_of))


# ---- a course


class Point(NamedTuple):
    """Where a course stands: the board; how many items of the job are behind it; where the console goes on, behind reports; whether the part
    has a line, whether its last line has no answer, and whether a line has raised an alarm; the last line that was answered; how many
    cuts there are; and the part, or None where a reset has come that is not recorded."""

    board: Board
    sent: int
    told: int
    part: Optional[Part]
    has_line: bool = False
    is_waiting: bool = False
    is_alarmed: bool = False
    answered: int = 0
    cuts: int = 0

    @property
    def number(self):
        """That of the next line."""
        return self.board.number + 1


class Search:
    """All points to which courses lead, of a job, a console that begins with the banner, and steps."""

    def __init__(self, job, console, steps, most_events):
        self.job, self.console, self.steps = job, console, steps
        begin = Point(Board([most_events]), 0, console.behind(0, [BANNER]), Part(Making(0, ORIGIN)))
        self.recorded = self.all_from([begin], self.by_records)
        self.stood = max(point.part.making.at for point in self.recorded)
        stands = [point for point in self.recorded if point.part.making.at == self.stood]
        resets = [more for point in stands for more in self.resets(point, None, point.board.place)]
        self.points = stands + self.all_from(resets, self.without_records)

    @staticmethod
    def all_from(points, following):
        """These points, and all that follow."""
        found, waiting = [], list(points)
        while waiting:
            found.append(waiting.pop())
            waiting += following(found[-1])
        return found

    def by_records(self, point):
        yield from self.lines(point)
        yield from self.endings(point)

    def without_records(self, point):
        yield from self.lines(point)
        yield from self.resets(point, None, point.board.place)

    def kept(self, point):
        """What is kept of the line that comes next, or None where no line may be begun."""
        if point.is_alarmed or point.is_waiting or point.sent == len(self.job.sent):
            return None
        return self.job.sent[point.sent]

    def lines(self, point):
        """The points behind a line more."""
        kept = self.kept(point)
        if kept is None:
            return
        outcomes = outcomes_of(point.board, kept)
        for outcome in outcomes:
            told = self.console.behind(point.told, outcome.told)
            if told is not None:
                part = point.part and point.part.behind(outcome, self.steps)
                answered = point.answered if outcome.raises else outcome.board.number
                yield point._replace(board=outcome.board, sent=point.sent + 1, told=told, part=part, has_line=True,
                                     is_alarmed=outcome.raises, answered=answered)
        if self.job.has_reset(point.sent) and self.console.goes_on_anew(point.told):
            part = point.part and point.part.behind(outcomes[0], self.steps, is_begun=True)
            yield point._replace(board=point.board.behind_broken(outcomes[0].moves), sent=point.sent + 1, part=part, has_line=True,
                                 is_waiting=True)

    def endings(self, point):
        """The points behind the record that ends the part."""
        making, steps = point.part.making, self.steps
        if point.is_alarmed or making.at == len(steps.records) or not steps.records[making.at].ends_part:
            return
        record = steps.records[making.at]
        if record.number + 1 != point.number:
            return
        part = Part(Making(making.at + 1, making.place))
        if record.mark.startswith("Z "):
            if point.part.may_be_reset(steps):
                yield from self.resets(point, part, making.place)
        elif point.has_line and point.part.may_be_cut(steps):
            yield point._replace(board=point.board.at(making.place), part=part, has_line=False, cuts=point.cuts + 1)

    def resets(self, point, part, place):
        """The points behind a reset that stands at a place, before a part."""
        if point.is_alarmed or not self.job.has_reset(point.sent):
            return
        for alarm in (False, True)[: 1 + bool(point.board.moved_in)]:
            locks = alarm or point.board.is_locked
            told = self.console.behind(point.told, [LOST] * alarm + [BANNER] + [LOCKED] * locks)
            if told is not None:
                stop = self.job.stops[point.sent]
                yield Point(point.board.behind_reset(stop - point.sent, place, locks), stop + 1, told, part, answered=point.answered,
                            cuts=point.cuts)

    # ---- what stands

    def is_over(self, point):
        """Whether each line that was begun is answered, and nothing is left of the job but behind an alarm."""
        return not point.is_waiting and (point.is_alarmed or point.sent == len(self.job.sent))

    def console_stands(self):
        return any(self.is_over(point) and self.console.is_at_end(point.told) for point in self.points)

    def lines_at_fault(self):
        """The lines whose reply, or whose absence, can't stand where the console stands furthest: one, if the definitions are exact. A line may
        wait there for what a reset tells."""
        furthest = max(point.told for point in self.points)
        return {self.line_at_fault(point) for point in self.points if point.told == furthest}

    def line_at_fault(self, point):
        kept = None if point.sent == len(self.job.sent) else self.job.sent[point.sent]
        is_awaited = kept is not None and not (self.job.has_reset(point.sent) and self.console.goes_on_anew(point.told))
        return point.number if is_awaited and not point.is_alarmed else point.answered + 1

    def alarms(self):
        """The numbers of the lines that raise an alarm, as the console tells."""
        return {point.number for point in self.points if self.kept(point) is not None and self.console.behind(point.told, ALARM[:1]) is not None
                and any(outcome.raises for outcome in outcomes_of(point.board, self.kept(point)))}

    def fits(self):
        """Whether the steps may end behind the records that stand."""
        return any(self.is_over(point) and self.console.is_at_end(point.told) and point.part.making.at == self.stood
                   and point.part.may_end(point.is_alarmed) and point.cuts <= self.job.most_cuts(point.board.number if point.is_alarmed else None)
                   for point in self.recorded)


# ---- three texts


def findings_of(job, console, steps, most_events):
    """What may be found of three texts that are not too long: exactly one thing, if the definitions are exact."""
    job, console, steps = Job(job), Console(console), Steps(steps)
    foreign = job.first_foreign()
    search = Search(job, console, steps, most_events) if console.has_banner else None
    if foreign and not (search and any(alarm < foreign for alarm in search.alarms())):
        return {Finding(FOREIGN, foreign)}
    if search is None:
        return {Finding(REPLIES, 1)}
    if not search.console_stands():
        return {Finding(REPLIES, line) for line in search.lines_at_fault()}
    behind = steps.ends_with(search.stood) if search.fits() else None
    if behind == b"":
        return {Finding(FITS, steps.events)}
    return {Finding(MISFIT, steps.place(search.stood) + (2 if behind else 0))}
