"""The records of a step text, one by one, and how far they are those that the lines of a part ask for."""
from collections import Counter
from functools import lru_cache
from typing import NamedTuple, Optional

from model.cuts import EVENTS as WAYS
from model.motion import Move, event_lines, hard_cap
from model.rules import ticks_of
from texts.steps import EVENTS, HEAD, MARK, MARK_ENDS, MOST_EVENTS, RUN, VERSION, BadText, in_form_one, in_form_two

LINE = 2**32
WIDE = 2**64
END = b"E\n"


class Record(NamedTuple):
    """A line of a step text that is a record: an event, so many times; a mark, as a text; or a head, with its line, its events, and its
    squared speed."""

    event: str = ""
    times: int = 1
    mark: str = ""
    head: tuple = ()

    @property
    def ends_part(self):
        return self.mark.startswith(("X ", "Z "))

    @property
    def number(self):
        """That of a cut or a reset."""
        return int(self.mark[2:])


@lru_cache(4096)
def record_of(line, is_compact):
    """The record that a line is, or None."""
    if line in EVENTS:
        return Record(line[:-1].decode("ascii"))
    head, mark, run = HEAD.fullmatch(line), MARK.fullmatch(line), RUN.fullmatch(line)
    if head:
        number, count, square, cycles = map(int, head.groups())
        is_whole = 1 <= number < LINE and 1 <= count < LINE and square < WIDE and cycles < WIDE
        return Record(head=(number, count, square)) if is_whole else None
    if mark:
        is_whole = int(mark[2]) < MARK_ENDS[mark[1].decode("ascii")]
        return Record(mark=line[:-1].decode("ascii")) if is_whole else None
    if run and is_compact and run[2] in EVENTS and 2 <= int(run[1]) <= MOST_EVENTS:
        return Record(run[2][:-1].decode("ascii"), int(run[1]))
    return None


def plain_of(steps):
    """The text in form 1 of a step text of either form, each line of which is a record or the end."""
    plain = in_form_one(steps) if steps.startswith(VERSION) else steps
    for number, line in enumerate(plain.splitlines(keepends=True), 1):
        if line != END and record_of(line, False) is None:
            raise BadText(number, "no step record")
    if plain is not steps and in_form_two(plain) != steps:
        raise BadText(1, "equal events stand apart")
    return plain


class Steps:
    """The records of a step text up to the first line that is none, or the end; and what stands there."""

    def __init__(self, text):
        self.is_compact = text.startswith(VERSION)
        self.records, self.places, at = [], [], len(VERSION) if self.is_compact else 0
        for line in text[at:].splitlines(keepends=True):
            record = record_of(line, self.is_compact)
            if record is None or (self.is_compact and not self.is_apart(record)):
                break
            self.records.append(record)
            self.places.append(at)
            at += len(line)
        self.behind, self.rest = at, text[at:]
        self.endings, ending = [len(self.records)] * (len(self.records) + 1), len(self.records)
        for at in reversed(range(len(self.records))):
            ending = at if self.records[at].ends_part else ending
            self.endings[at] = ending  # of a part that begins here

    def is_apart(self, record):
        """In form 2 equal events stand in one line, if it isn't full."""
        last = self.records[-1] if self.records else None
        return not (last and record.event and last.event == record.event and last.times < MOST_EVENTS)

    def place(self, at):
        """Where the line of a record begins."""
        return self.places[at] if at < len(self.records) else self.behind

    def ends_with(self, at):
        """What stands behind so many records, if it begins with the end; or None."""
        return self.rest[len(END) :] if at == len(self.records) and self.rest.startswith(END) else None

    @property
    def events(self):
        return sum(record.times for record in self.records if record.event)


class Making(NamedTuple):
    """How far the records of a part are made: which record is next; where the events so far have led; which item of what the lines ask for,
    and how many events of that heads have; the last head of the stretch, as its move, its events and its squared speed; its events, and
    how many of them are recorded; and the ticks so far."""

    at: int
    place: tuple
    item: int = 0
    given: int = 0
    last: Optional[tuple] = None
    events: tuple = ()
    came: int = 0
    ticks: int = 0

    @property
    def is_out(self):
        """Whether all events of the last head are recorded."""
        return self.came == len(self.events)

    def may_stop(self):
        """Whether the machine can stop over the events of the last head."""
        if self.last is None:
            return True
        move, count, square = self.last
        return square <= move.change * count

    def make(self, steps, asks):
        """Goes on as far as the records are those of what is asked for."""
        made, more = self, self
        while more is not None:
            made, more = more, more.take(steps, asks)
        return made

    def take(self, steps, asks):
        """Behind a record more, or some events, or None."""
        if self.at == steps.endings[self.at]:
            return None
        record, item, given = steps.records[self.at], self.item, self.given
        if record.event or not self.is_out:
            return self.take_events(steps)
        if item < len(asks) and not isinstance(asks[item], str) and given == asks[item].events:
            item, given = item + 1, 0
        if item == len(asks):
            return None
        if record.head and isinstance(asks[item], Move):
            return self._replace(item=item, given=given).take_head(record.head, asks[item])
        if record.mark and record.mark == asks[item] and self.may_stop():
            return Making(self.at + 1, self.place, item + 1, ticks=self.ticks + 1)
        return None

    def take_events(self, steps):
        """Behind all events of the last head that are recorded next, or None."""
        at, came, end = self.at, self.came, steps.endings[self.at]
        while at < end and self.is_next(steps.records[at], came):
            at, came = at + 1, came + steps.records[at].times
        if came == self.came:
            return None
        place = self.place
        for event, times in Counter(self.events[self.came : came]).items():
            place = tuple(here + step * times for here, step in zip(place, WAYS[event]))
        return self._replace(at=at, place=place, came=came, ticks=self.ticks + came - self.came)

    def is_next(self, record, came):
        """Whether a record is of events that are next, where so many of the last head are recorded."""
        behind = came + record.times
        if behind > len(self.events):
            return False
        return self.events[came] == record.event if record.times == 1 else set(self.events[came:behind]) == {record.event}

    def take_head(self, head, move):
        """Behind a head of a move, or None."""
        line, count, square = head
        if line != move.line or count > move.events - self.given or not self.least() <= square <= self.most(move):
            return None
        events = tuple(event_lines(move.ways, self.given, count))
        return self._replace(at=self.at + 1, given=self.given + count, last=(move, count, square), events=events, came=0)

    def least(self):
        """The least squared speed at which the next head may begin."""
        if self.last is None:
            return 0
        move, count, square = self.last
        return square - move.change * count

    def most(self, move):
        """The greatest one, of a head of a move."""
        if self.last is None:
            return 0
        before, count, square = self.last
        most = min(square + before.change * count, move.rapid**2)
        return most if before is move else min(most, hard_cap(before, move), before.rapid**2)


class Passed(NamedTuple):
    """A line of a part: how many ticks it asks for, and whether it settles, is a jog, or is a line that has no answer."""

    ticks: int
    settles: bool
    is_jog: bool
    is_begun: bool = False


class Part(NamedTuple):
    """The lines of a part so far, what they ask for, and how far its records are made."""

    making: Making
    lines: tuple = ()
    asks: tuple = ()

    def behind(self, outcome, steps, is_begun=False):
        """With a line more."""
        asks = self.asks + outcome.asks
        line = Passed(sum(map(ticks_of, outcome.asks)), outcome.settles, outcome.is_jog, is_begun)
        return Part(self.making.make(steps, asks), (*self.lines, line), asks)

    @property
    def ticks(self):
        return self.making.ticks

    def settled(self):
        """How many ticks there are up to the last answered line that settles."""
        answered = [line for line in self.lines if not line.is_begun]
        last = max((at for at, line in enumerate(answered, 1) if line.settles), default=0)
        return sum(line.ticks for line in answered[:last])

    def may_be_cut(self, steps):
        """Whether the record of a cut may end it: it leaves out ticks of jogs alone, and none of the line that has no answer is among them."""
        making, left = self.making, self.making.ticks
        if making.at != steps.endings[making.at] or not making.is_out or not making.may_stop():
            return False
        for line in self.lines:
            if line.is_begun:
                return left == 0
            if not line.is_jog and line.ticks > left:
                return False
            left = max(0, left - line.ticks)
        return left == 0

    def may_be_reset(self, steps):
        return self.making.at == steps.endings[self.making.at] and self.settled() <= self.making.ticks

    def may_end(self, is_alarmed):
        """Whether it may be the last one."""
        if not self.making.is_out or not self.making.may_stop():
            return False
        return self.settled() <= self.ticks if is_alarmed else self.ticks == sum(line.ticks for line in self.lines)
