"""What becomes of one line by the rules alone: what it tells, what it asks for, and what it leaves."""
from copy import copy
from typing import NamedTuple

from model.lines import Refused
from model.machine import Machine
from model.motion import Move, TooLong, to_nm
from model.reports import NOTHING


class Asked:
    """Takes what one line asks for, in place of a script: its moves, and the texts of its marks. All lines share the room for events."""

    def __init__(self, room):
        self.room, self.items, self.is_halted = room, [], False

    def rest(self):
        """A rest leaves no record."""

    def mark(self, text):
        self.items.append(text)

    def add(self, line, ways, feed, limits, is_jog=False):
        if not any(ways):
            return False
        move = Move(line, ways, feed, limits, is_jog)
        self.room[0] -= move.events
        if self.room[0] < 0:
            raise TooLong
        self.items.append(move)
        return True


class Board(Machine):
    """What lines leave: modes, offsets, settings, and the position; the number of the last line; whether it is locked; and what a line
    may find under way. `moved_in` has Run where a line of G-code has moved since the last that settles, and Jog where a jog has; the last
    that was accepted of both may be a jog."""

    def __init__(self, room):
        super().__init__(0, [])
        self.room, self.is_found, self.moved_in, self.last_was_jog = room, False, set(), False

    def leave_state(self, state):
        return False

    def refuse_in(self, states, error):
        if self.is_found and self.may_be_found(states):
            raise Refused(error)

    def may_be_found(self, states):
        """Whether the machine may be found in one of some states: a line of G-code may find a jog wherever the last that was accepted of both
        is one, and other lines moves that no line has settled."""
        if "Run" not in states:
            return self.last_was_jog
        return not self.moved_in.isdisjoint(states) and ("Jog" in states or not self.last_was_jog)

    @property
    def place(self):
        return tuple(self.position_steps)

    def next(self):
        """The same, which a line may change."""
        after = copy(self)
        after.modes, after.offsets, after.settings = dict(self.modes), dict(self.offsets), dict(self.settings)
        after.console, after.work, after.script = [], NOTHING, Asked(self.room)
        return after

    def behind_reset(self, dropped, place, locks):
        """Behind a reset that drops so many lines more, stands at a place, and locks, or leaves locked what was."""
        after = Board(self.room)
        after.settings, after.offsets = dict(self.settings), {**self.offsets, "G92": [0] * 3}
        after.number, after.is_locked = self.number + dropped, self.is_locked or locks
        return after.at(place)

    def at(self, place):
        """The same, where a cut or a reset has left it at a place."""
        after = self.next()
        after.position_steps = list(place)
        after.position = [to_nm(steps, self.settings[100 + axis]) for axis, steps in enumerate(place)]
        return after

    def behind_broken(self, moves):
        """A line more was begun that has no answer."""
        after = self.next()
        after.number += 1
        after.moved_in = self.moved_in | {"Run"} if moves else self.moved_in
        return after


class Outcome(NamedTuple):
    """What becomes of a line: the board behind it; the replies that it tells; the moves and marks that it asks for; and whether it
    settles, is an accepted jog, moves, and raises the alarm of a soft limit."""

    board: Board
    told: tuple
    asks: tuple
    settles: bool
    is_jog: bool
    moves: bool
    raises: bool


def ticks_of(item):
    """A mark is one tick, and a move as many as it has events."""
    return 1 if isinstance(item, str) else item.events


def outcome_of(board, kept, is_found):
    """What becomes of a line of which this is kept, where the machine is found in motion, or is not."""
    after = board.next()
    after.number, after.is_found = board.number + 1, is_found
    if kept:
        after.judge(kept)
    else:
        after.console.append("ok")
    work = after.work
    after.moved_in = set() if work.settles else board.moved_in | ({work.state} if work.moves else set())
    after.last_was_jog = work.state == "Jog" if work.state else board.last_was_jog
    return Outcome(after, tuple(after.console), tuple(after.script.items), work.settles, work.state == "Jog", work.moves > 0, after.script.is_halted)


def outcomes_of(board, kept):
    """All that may become of a line: as it is served, and as one that a motion refuses."""
    served = outcome_of(board, kept, False)
    found = outcome_of(board, kept, True) if board.moved_in or board.last_was_jog else served
    return [served] if found.told == served.told else [served, found]
