"""Tries what the model says of runs with resets: on runs that it must refuse, each for its cause, and some that it must allow."""
from typing import NamedTuple

from model.bad_reports import told
from model.epochs import GREETING, run_of
from model.machine import LOCKED, LOST, Run
from model.motion import Stretch, event_lines
from model.reports import part
from model.trying import what_is_wrong


def segment_of(stretch):
    """The lines of the next segment, where each move is known."""
    move, w, count = stretch.moves[stretch.tail], stretch.speed, stretch.count()
    *_, (stretch.known, end) = stretch.ends(count)
    lines = [f"s {move.line} {count} {w} {stretch.cycles(count, end)}", *event_lines(move.ways, move.prepared, count)]
    stretch.advance(count, end)
    return lines


def pieces_of(script):
    """The lines of each piece of a script but its end, where each move is known."""
    pieces = []
    for moves, mark in script.stretches:
        stretch = Stretch(moves)
        while stretch.tail < len(moves):
            pieces.append(segment_of(stretch))
        pieces += [[mark]] if mark else []
    return pieces[:-1]


def script_of(job):
    """What a job without resets asks of the motion, where no line is refused since the machine still moves."""
    return run_of(job, 10**6, "")[1][0].machine.script


class Left(NamedTuple):
    """What a run leaves of a job with one reset: answers by the numbers of their errors, 0 for `ok`, with other texts among them; so many
    pieces of the lines before the reset; the number of its record; the answers behind it, and the steps; what else is done to
    both texts; and the status."""

    told: list
    pieces: int
    number: int
    behind: list
    further: str = ""
    console_is: callable = str
    steps_are: callable = str
    status: int = 0

    def wrong(self, job):
        """What is said of that run of a job."""
        console, reports = part(self.console_is(console_of(self.told) + console_of(self.behind)))
        pieces = sum(pieces_of(script_of(job.split(b"\x18")[0]))[: self.pieces], [])
        steps = self.steps_are("\n".join([*pieces, f"Z {self.number}", self.further + "E", ""]))
        refused = sum(isinstance(it, int) and it > 0 for it in [*self.told, *self.behind])
        said = f"{refused} lines refused\n" if refused else ""
        run = Run(1 if refused else self.status, console, steps, said, reports)
        wrong, _ = what_is_wrong(run, *run_of(job, 10**6, console, steps))
        return wrong


def console_of(told):
    """The console of an epoch."""
    lines = ["ok" if it == 0 else it if isinstance(it, str) else f"error:{it}" for it in told]
    return GREETING + "".join(f"{line}\r\n" for line in lines)


class Case(NamedTuple):
    """A job, what it may leave, and what is refused, each with some words of the cause."""

    job: bytes
    right: list
    refused: list


def less(text):
    """A function that takes a text out of another, once."""
    return lambda whole: whole.replace(text, "", 1)


def instead(text, other):
    """A function that puts a text in place of another, once."""
    return lambda whole: whole.replace(text, other, 1)


def more(text):
    """A function that adds a text to another."""
    return lambda whole: whole + text


UNLOCKED = [LOCKED, "[MSG:Caution: Unlocked]", 0]
# The first move has 25 events in 19 pieces, the mark is one piece more, and the second move has 50 events.
MOVES = b"F100\nG1X0.1\nM3S5\nX0.3\nX0.4\n\x18$X\n"
FULL = b"F500\nG1X1\n" + b"X2\nX1\n" * 40 + b"\x18$X"
# Two events, of which one is done; and the one that leads back.
SHORT, BACK = b"G0X0.008\n\x18\n$X\nG0X0\n", "s 4 1 0 320000\nX-\n"
PLACES = b"G10L2P1X1\nG92X5\n$10=2\n\x18\n?\n"
IN_ALARM = told(state="Alarm")
AT_ZERO = told("W -1000 0 0", wco="1000 0 0", bf="15,128")
CASES = (
    Case(MOVES, [
        Left([0, 0, LOST], 0, 2, UNLOCKED), Left([0, 0, LOST], 1, 2, UNLOCKED), Left([0, 0, LOST], 3, 2, UNLOCKED, steps_are=instead("X+\nZ", "Z")), Left([0, 0, LOST], 19, 2, UNLOCKED),
        Left([0, 0], 0, 2, [0]), Left([0, 0], 19, 2, [0]), Left([], 0, 0, [0]), Left([0], 0, 1, [0]), Left([0, LOST], 3, 2, UNLOCKED), Left([0, 0, LOST], 19, 3, UNLOCKED),
        Left([0, 0, LOST], 20, 3, UNLOCKED), Left([0, 0, 0], 20, 3, [0]), Left([0, 0, 0, LOST], 20, 4, UNLOCKED), Left([0, 0, 0, 0, LOST], 40, 5, UNLOCKED),
        Left([0, 0, 0, 0, LOST], 99, 5, UNLOCKED), Left([0] * 5, 999, 5, [0]), Left([0] * 5 + [LOST], 999, 5, UNLOCKED),
    ], [
        ("17 ticks in place of 26", Left([0] * 5 + [LOST], 12, 5, UNLOCKED)),
        ("25 ticks in place of 26", Left([0] * 3, 19, 3, [0])),
        ("by the model 'E'", Left([], 12, 0, [0])),
        ("by the model 'E'", Left([0] * 3, 99, 3, [0])),
        ("no alarm", Left([0, 0], 3, 2, [0])),
        ("no alarm", Left([0, 0], 3, 2, [0], steps_are=instead("X+\nZ", "Z"))),
        ("ALARM:3", Left([LOST], 0, 0, UNLOCKED)),
        ("ALARM:3", Left([0, 0, 0, LOST], 20, 3, UNLOCKED)),
        ("to unlock", Left([0, 0, LOST], 3, 2, UNLOCKED[1:])),
        ("to unlock", Left([0, 0], 19, 2, [LOCKED, 0])),
        ("Unlocked", Left([0, 0, LOST], 3, 2, [LOCKED, 0])),
        ("Unlocked", Left([0, 0], 19, 2, UNLOCKED[1:])),
        ("'Z 5'", Left([0, 0], 19, 5, [0])),
        ("'Z 1'", Left([0, 0, LOST], 3, 1, UNLOCKED)),
        ("0 resets, and by the model 1", Left([0, 0, LOST], 3, 2, UNLOCKED, steps_are=less("Z 2\n"))),
        ("2 resets, and by the model 1", Left([0, 0, LOST], 3, 2, UNLOCKED, steps_are=instead("E", "Z 2\nE"))),
        ("console", Left([0, 0, LOST], 3, 2, UNLOCKED, console_is=instead(GREETING + LOCKED, LOCKED))),
        ("console", Left([0, 0, LOST], 3, 2, UNLOCKED, console_is=more("ok\r\n"))),
        ("console", Left([0, 0, LOST], 3, 2, UNLOCKED + [0])),
        ("it ended with 3", Left([0, 0, LOST], 3, 2, UNLOCKED, status=3)),
        ("by the model", Left([0, 0, LOST], 3, 2, UNLOCKED, "X+\n")),
        ("whatever", Left([0, 0, LOST], 3, 2, UNLOCKED, steps_are=less("X+\n"))),
        ("by the model 'X+'", Left([0, 0, LOST], 3, 2, UNLOCKED, steps_are=instead("X+\nZ", "X-\nZ"))),
        ("by the model 'M3 5'", Left([0] * 5, 999, 5, [0], steps_are=less("M3 5\n"))),
        ("226952 cycles", Left([0, 0, LOST], 3, 2, UNLOCKED, steps_are=instead("226951", "226952"))),
        ("130881 cycles", Left([0, 0, LOST], 3, 2, UNLOCKED, steps_are=instead("130880", "130881"))),
        ("and 1 reports", Left([0, 0, told(), LOST], 3, 2, UNLOCKED)),
    ]),
    Case(FULL, [Left([0] * 40 + [LOST], 0, 40, UNLOCKED), Left([0] * 82, 9_999, 82, [0])], [
        ("129 bytes of lines", Left([0] * 39 + [LOST], 0, 39, UNLOCKED))]),
    # It moves back from where it stands, and not while it is locked.
    Case(SHORT, [Left([0, LOST], 1, 1, [LOCKED, 0, *UNLOCKED[1:], 0], BACK), Left([], 0, 0, [0, 0, 0])], [
        ("no head", Left([0, LOST], 1, 1, [LOCKED, 0, *UNLOCKED[1:], 0])),
        ("by the model", Left([0, LOST], 1, 1, [LOCKED, 0, *UNLOCKED[1:], 0], BACK.replace("s 4", "s 3"))),
        ("by the model", Left([0, LOST], 1, 1, [LOCKED, 0, *UNLOCKED[1:], 0], BACK.replace("X-\n", "X-\nX-\n").replace("4 1", "4 2"))),
    ]),
    Case(b"G0X0.008\n\x18\nG0X0\n$J=X0F9\n$J\nN" + b"0" * 79, [Left([0, LOST], 1, 1, [LOCKED, 0, 9, 8, 8, 11])], [
        ("console", Left([0, LOST], 1, 1, [LOCKED, 0, 0, 8, 8, 11])),
        ("console", Left([0, LOST], 1, 1, [LOCKED, 0, 9, 9, 8, 11])),
        ("console", Left([0, LOST], 1, 1, [LOCKED, 0, 9, 8, 3, 11])),
    ]),
    # Settings and offsets are kept, but for that of G92; and the modes are not.
    Case(PLACES, [Left([0, 0, 0], 0, 3, [0, AT_ZERO, 0])], [
        ("another offset", Left([0, 0, 0], 0, 3, [0, told("W 4000 0 0", wco="-4000 0 0", bf="15,128"), 0])),
        ("another offset", Left([0, 0, 0], 0, 3, [0, told("W 0 0 0", bf="15,128"), 0])),
        ("the mask", Left([0, 0, 0], 0, 3, [0, told(wco="1000 0 0"), 0])),
        ("and 0 reports", Left([0, 0, 0], 0, 3, [0, 0])),
    ]),
    Case(b"G91G20T3S5F100\n\x18$G", [Left([0], 0, 1, ["[GC:G0 G54 G17 G21 G90 G94 M5 M9 T0 F0 S0]", 0])], [
        ("console", Left([0], 0, 1, ["[GC:G0 G54 G17 G20 G91 G94 M5 M9 T3 F100 S5]", 0]))]),
    # A report tells the lock, and none stands for a `?` of the epoch before.
    Case(b"G0X0.008\n\x18\n?\n", [Left([0, LOST], 1, 1, [LOCKED, 0, told("M 4 0 0", "Alarm"), 0])], [
        ("is locked", Left([0, LOST], 1, 1, [LOCKED, 0, told("M 4 0 0"), 0])),
        ("no place", Left([0, LOST], 1, 1, [LOCKED, 0, told("M 8 0 0", "Alarm"), 0])),
        ("and 2 reports", Left([0, LOST], 1, 1, [LOCKED, 0, *[told("M 4 0 0", "Alarm")] * 2, 0])),
    ]),
    Case(b"\nX1\n\n!?\x18?", [Left([0, 0, 0, *reports, LOST], 0, 3, [LOCKED, IN_ALARM, 0]) for reports in ([], [told()], [told("M 0 0 0", "Hold:0")])], [
        ("and 2 reports", Left([0, 0, 0, told(), told(), LOST], 0, 3, [LOCKED, IN_ALARM, 0])),
        ("no answer", Left([0, 0, LOST], 0, 2, [LOCKED, IN_ALARM, 0])),
        ("nothing holds", Left([0, 0, 0, LOST], 0, 3, [LOCKED, told(state="Hold:0"), 0])),
        ("and 1 reports", Left([0, 0, told(), 0, LOST], 0, 3, [LOCKED, IN_ALARM, 0])),
    ]),
    # Behind the third piece the squared speed is 240000, and behind the fourth 320000.
    Case(b"F100\nG1X1\n?\n\x18", [Left([0, 0, told("M 0 0 0", "Run", feed), LOST], 3, 2, [LOCKED, 0]) for feed in ("16,0", "29,0", "33,0")], [
        ("the feed 38", Left([0, 0, told("M 0 0 0", "Run", "38,0"), LOST], 3, 2, [LOCKED, 0])),
        ("the feed 23", Left([0, 0, told("M 8 0 0", "Run", "23,0"), LOST], 3, 2, [LOCKED, 0])),
        ("no place", Left([0, 0, told("M 20 0 0", "Run", "29,0"), LOST], 3, 2, [LOCKED, 0])),
        ("the machine stands", Left([0, 0, told("M 12 0 0"), LOST], 3, 2, [LOCKED, 0])),
        ("and 0 reports", Left([0, 0, LOST], 3, 2, [LOCKED, 0])),
    ]),
    # A hand may hold the machine, so that less is known of speeds.
    Case(b"F100\nG1X1\n!\n\x18", [Left([0, 0, LOST], 3, 2, [LOCKED, 0]), Left([0, 0, 0], 999, 3, [0])], [
        ("113274 cycles", Left([0, 0, LOST], 4, 2, [LOCKED, 0], steps_are=instead("113275", "113274"))),
        ("from 79999", Left([0, 0, LOST], 3, 2, [LOCKED, 0], steps_are=instead("80000", "79999"))),
    ]),
)


def wrong_of(cases):
    """What is allowed or refused in error of these cases, or None."""
    for case in cases:
        for left in case.right:
            wrong = left.wrong(case.job)
            if wrong:
                return f"of the job {case.job!r} {left} is refused: {wrong}"
        for words, left in case.refused:
            wrong = left.wrong(case.job)
            if words not in (wrong or ""):
                return f"of the job {case.job!r} {left} is not refused by {words!r}: {wrong}"
    return None


def wrong_judgement():
    """What is allowed or refused in error of a run with a reset, or None."""
    return wrong_of(CASES)
