"""Tries what the model says of runs that a soft limit has ended: on runs that it must refuse, each for its cause, and some that it
must allow."""
from typing import NamedTuple

from model.bad_reports import told
from model.bad_resets import instead, less, more, segment_of, wrong_of
from model.epochs import run_of
from model.machine import ALARM, Run
from model.motion import END, Stretch, event_lines
from model.reports import part
from model.trying import what_is_wrong

STOPPED = "stopped: soft limit at line {}\n"
TOO_LONG = "fault: line 5 is longer than 127 bytes\n"


def slow_segment_of(stretch):
    """The lines of the next segment of a machine that slows down to a stop."""
    move, w = stretch.moves[stretch.tail], stretch.speed
    count = min(stretch.count(), -(-w // move.change))
    end = max(0, w - move.change * count)
    lines = [f"s {move.line} {count} {w} {stretch.cycles(count, end)}", *event_lines(move.ways, move.prepared, count)]
    stretch.advance(count, end)
    return lines


def steps_of(script, planned, is_slow):
    """The steps of a script, where each move is known. Of the last stretch so many segments are as planned; and then it slows down
    to a stop, or not."""
    lines = []
    for moves, mark in script.stretches:
        stretch, most = Stretch(moves), planned if mark == END else 9_999
        while stretch.tail < len(moves) and (most > 0 or (is_slow and stretch.speed)):
            lines += segment_of(stretch) if most > 0 else slow_segment_of(stretch)
            most -= 1
        lines += [mark] if mark else []
    return "\n".join([*lines, ""])


class Left(NamedTuple):
    """What a run leaves: answers by the numbers of their errors, 0 for `ok`, with other texts among them; so many segments of the
    last stretch as planned, and those that slow the machine down behind them, if any; what else is done to both texts; and the
    status, and what is said of it."""

    told: list
    planned: int = 9_999
    is_slow: bool = True
    steps_are: callable = str
    status: int = 8
    said: str = ""

    def wrong(self, job):
        """What is said of that run of a job."""
        lines = ["ok" if it == 0 else it if isinstance(it, str) else f"error:{it}" for it in self.told]
        console, reports = part("\r\n".join(["", "Grbl 1.1h ['$' for help]", *lines, ""]))
        _, epochs = run_of(job, 10**6, console)
        steps = self.steps_are(steps_of(epochs[0].machine.script, self.planned, self.is_slow))
        answers = [line for line in console.split("\r\n") if line == "ok" or line.startswith("error:")]
        said = self.said or (STOPPED.format(len(answers) + 1) if self.status == 8 else "")
        wrong, _ = what_is_wrong(Run(self.status, console, steps, said, reports), *run_of(job, 10**6, console, steps, self.status))
        return wrong


class Case(NamedTuple):
    """A job, what it may leave, and what is refused, each with some words of the cause."""

    job: bytes
    right: list
    refused: list


def before_end(text):
    """A function that puts a text before the end of another."""
    return instead("E\n", text + "E\n")


def refusals(errors):
    """How many lines are refused, in words."""
    return f"{errors} lines refused\n"


REST, LIMIT = [0, 0, 0, 0, 0], list(ALARM)
# Two moves of 25 events, a mark between them, and a line that leaves the travel.
MARKED = b"$20=1\nF500\nG1X-0.1\nG4P0\nX-0.2\nX0.004\nX-1\n"
# Three moves with corners.
CORNERS = b"$20=1\nF500\nG1X-0.02\nY-0.02\nX-0.04Y-0.04\nM3S5X0.0001"
MOVING = b"$20=1\nF500\nG1X-0.4\n?? X1\n?\n"
BEYOND, LONG = b"$20=1\nF500\nG1X-0.1\nX1\n", b"N" + b"0" * 127
FAR = b"\n" * 125  # as many lines as have room on the link beside the one that is limited
# The segments behind the first five of the second move, where the machine slows down from there on.
SLOW = [f"s 5 1 {w} {cycles}\nX-\n" for w, cycles in (
    (400_000, 101_266), (320_000, 113_275), (240_000, 130_880), (160_000, 160_000), (80_000, 226_951))]
CASES = (
    Case(MARKED, [Left(REST + LIMIT, planned) for planned in (0, 1, 2, 3, 7, 15, 99)], [
        # A line behind the alarm, in its place, or the alarm in part.
        ("console", Left(REST + LIMIT + [0])),
        ("console", Left(REST + LIMIT + [9])),
        ("console", Left(REST + LIMIT[:1])),
        ("console", Left(REST + LIMIT[1:])),
        ("console", Left(REST + LIMIT[::-1])),
        ("console", Left(REST + [0] + LIMIT, said=STOPPED.format(6))),
        ("console", Left(REST + [0, 0], status=0)),
        ("console", Left(REST + [15, 0], status=1, said=refusals(1))),
        ("standard error", Left(REST + LIMIT, said=STOPPED.format(5))),
        ("standard error", Left(REST + LIMIT, said=STOPPED.format(7))),
        ("ended with 0", Left(REST + LIMIT, status=0, said=STOPPED.format(6))),
        ("ended with 7", Left(REST + LIMIT, status=7, said=STOPPED.format(6))),
        # The machine stops abruptly, slows down too early, too much or in vain, or goes on.
        ("from 320000 to 0", Left(REST + LIMIT, 5, is_slow=False)),
        ("from 320000 to 0", Left(REST + LIMIT, 5, steps_are=less("".join(SLOW[2:])))),
        ("from 400000 to 240000", Left(REST + LIMIT, 5, steps_are=less(SLOW[1]))),
        ("from 240000 to 320000", Left(REST + LIMIT, 5, steps_are=instead(SLOW[3], "".join(SLOW[1:4])))),
        ("from 80000 to 80000", Left(REST + LIMIT, 3, steps_are=before_end(SLOW[4]))),
        ("101265 cycles", Left(REST + LIMIT, 5, steps_are=instead("101266", "101265"))),
        # An event of the line that is limited, a mark, a cut, or something behind the end.
        ("head of line 6", Left(REST + LIMIT, 3, steps_are=before_end("s 6 1 0 320000\nX+\n"))),
        ("goes from 80000 to -1", Left(REST + LIMIT, 3, steps_are=before_end("D 0\n"))),
        ("goes from 80000 to -1", Left(REST + LIMIT, 3, steps_are=before_end("M5 0\n"))),
        ("no jog is under way", Left(REST + LIMIT, 3, steps_are=before_end("X 5\n"))),
        ("by the model ''", Left(REST + LIMIT, 3, steps_are=more("E\n"))),
        ("goes from 80000 to -1", Left(REST + LIMIT, 3, steps_are=less("E\n"))),
        # What a line that settled asks for is missing.
        ("by the model 'D 0'", Left(REST + LIMIT, 0, steps_are=less("D 0\n"))),
        ("no head", Left(REST + LIMIT, 0, steps_are=lambda steps: "D 0\nE\n")),
        ("no head", Left(REST + LIMIT, 0, steps_are=lambda steps: "E\n")),
        ("ends at -1, whatever", Left(REST + LIMIT, 0, steps_are=less("s 3 1 80000 226951\nX-\n"))),
    ]),
    # The machine slows down over a corner, and stands between two moves or in one.
    Case(CORNERS, [Left(REST + LIMIT, planned) for planned in (0, 1, 3, 5, 6, 9, 15, 99)], [
        ("M3 5", Left(REST + LIMIT, steps_are=before_end("M3 5\n"))),
        ("by the model 'Y-'", Left(REST + LIMIT, 9, steps_are=instead("Y-", "X-"))),
    ]),
    # At rest nothing moves, and the ends of the travel are inside.
    Case(b"$20=1\nG0X1\nX-1", [Left([0] + LIMIT)], [
        ("'s 2 1 0 320000'", Left([0] + LIMIT, steps_are=before_end("s 2 1 0 320000\nX+\n"))),
        ("console", Left([0] + LIMIT + [0])),
        ("console", Left([0, 0, 0], status=0)),
        ("console", Left([0, 33, 0], status=1, said=refusals(1))),
    ]),
    Case(b"$20=1\n$130=1\nG0X-1", [Left([0, 0, 0], status=0)], [("console", Left([0, 0] + LIMIT))]),
    Case(b"$20=1\n$130=1\nG0X-1.0001", [Left([0, 0] + LIMIT)], [("console", Left([0, 0, 0], status=0))]),
    Case(b"$20=1\n$20=0\nG0X0.02", [Left([0, 0, 0], status=0)], [("console", Left([0, 0] + LIMIT))]),
    # Errors come first, and a line without a move is never outside.
    Case(b"$20=1\nG0X1F-1\nG92X5\nG10L2P1X5", [Left([0, 4, 0, 0], status=1, said=refusals(1))], [("console", Left([0] + LIMIT))]),
    Case(b"G0X0.02\nG4P0\n$20=1\nG4P0\nX0.02Y0\n", [Left([0, 0, 0, 0] + LIMIT)], [("console", Left([0, 0, 0] + LIMIT))]),
    # A jog outside is refused. A line of G-code may be limited only behind its end.
    Case(b"$20=1\n$J=X1F9\nG0X-0.02", [Left([0, 15, 0], status=1, said=refusals(1))], [
        ("console", Left([0] + LIMIT)),
        ("console", Left([0, 0, 0], status=0)),
        ("console", Left([0, 33, 0], status=1, said=refusals(1))),
    ]),
    Case(b"$20=1\n$J=X-0.04F500\nG0X1", [Left([0, 0] + LIMIT), Left([0, 0, 9], status=1, said=refusals(1))], [
        ("no head", Left([0, 0] + LIMIT, steps_are=lambda steps: "E\n")),
        ("whatever", Left([0, 0] + LIMIT, steps_are=less("s 2 1 80000 226951\nX-\n"))),
        ("nothing cancels", Left([0, 0] + LIMIT, steps_are=before_end("X 2\n"))),
    ]),
    # A `?` of its own line is answered before it is begun, and a second one may be behind that. A later line has no report.
    Case(MOVING, [Left([0, 0, 0, *reports] + LIMIT, 5) for reports in (
        [told("M 0 0 0")],
        [told("M -4 0 0", "Run", "37,0")],
        [told("M 0 0 0", "Run"), told("M -8 0 0", "Run", "33,0")],
        [told("M -8 0 0", "Run", "33,0"), told("M -12 0 0", "Hold:1", "29,0")],
        [told("M -8 0 0", "Run", "33,0"), told("M -40 0 0", "Alarm")],
    )] + [Left([0, 0, 0, told("M -8 0 0", "Run", "33,0"), LIMIT[0], told("M -40 0 0", "Alarm"), LIMIT[1]], 5)], [
        ("no soft limit stops", Left([0, 0, 0, told("M -40 0 0", "Alarm")] + LIMIT, 5)),
        ("nothing holds", Left([0, 0, 0, told("M -12 0 0", "Hold:1", "29,0")] + LIMIT, 5)),
        ("nothing holds", Left([0, 0, 0, told("M 0 0 0"), told("M -40 0 0", "Hold:0")] + LIMIT, 5)),
        ("the feed 29", Left([0, 0, 0, told("M 0 0 0"), told("M -40 0 0", "Alarm", "29,0")] + LIMIT, 5)),
        ("no place", Left([0, 0, 0, told("M 0 0 0"), told("M -36 0 0", "Alarm")] + LIMIT, 5)),
        ("no place", Left([0, 0, 0, told("M 0 0 0"), told("M -44 0 0", "Alarm")] + LIMIT, 5)),
        ("no place", Left([0, 0, 0, told("M 0 0 0"), told("M -40 0 0", "Hold:1")] + LIMIT, 5)),
        ("no place", Left([0, 0, 0, told("M -40 0 0", "Run"), told("M -36 0 0", "Hold:1")] + LIMIT, 5)),
        ("and 0 reports", Left([0, 0, 0] + LIMIT, 5)),
        ("and 3 reports", Left([0, 0, 0, *[told("M 0 0 0")] * 3] + LIMIT, 5)),
    ]),
    # A reset behind it is dropped, if it is scanned before the alarm. A line that is too long may be found there, where there is room
    # on the link, and nothing waits for an answer.
    Case(BEYOND + b"\x18\nX0", [Left([0, 0, 0] + LIMIT, 5)], [
        ("from 320000 to 0", Left([0, 0, 0] + LIMIT, 5, False)),
        ("console", Left([0, 0, 0] + LIMIT[:1], 5)),
        ("console", Left([0, 0, 0] + LIMIT + [0], 5)),
        ("it ended with 0", Left([0, 0, 0] + LIMIT, 5, status=0)),
        ("1 resets, and by the model 0", Left([0, 0, 0] + LIMIT, 5, steps_are=before_end("Z 4\n"))),
    ]),
    Case(BEYOND + b"\x18" + LONG, [Left([0, 0, 0] + LIMIT, 5)], [
        ("standard error", Left([0, 0, 0] + LIMIT, 5, status=6, said=TOO_LONG))]),
    Case(BEYOND + b"\x85" + LONG, [Left([0, 0, 0] + LIMIT, 5)], [
        ("standard error", Left([0, 0, 0] + LIMIT, 5, status=6, said=TOO_LONG))]),
    Case(BEYOND + b"?\n" + LONG, [Left([0, 0, 0] + LIMIT, 5)], [
        ("standard error", Left([0, 0, 0] + LIMIT, 5, status=6, said=TOO_LONG.replace("5", "6")))]),
    Case(BEYOND + FAR + LONG, [Left([0, 0, 0] + LIMIT, 5, status=6, said=TOO_LONG.replace("5", "130"))], []),
    Case(BEYOND + FAR + b"\n" + LONG, [Left([0, 0, 0] + LIMIT, 5)], [
        ("standard error", Left([0, 0, 0] + LIMIT, 5, status=6, said=TOO_LONG.replace("5", "131")))]),
    Case(BEYOND + LONG, [Left([0, 0, 0] + LIMIT, 5), Left([0, 0, 0] + LIMIT, 5, status=6, said=TOO_LONG)], [
        ("console", Left([0, 0, 0], 5, status=6, said=TOO_LONG)),
        ("from 320000 to 0", Left([0, 0, 0] + LIMIT, 5, False, status=6, said=TOO_LONG)),
    ]),
    # A hand may hold the machine before, so that less is known of speeds.
    Case(b"$20=1\nF500\nG1X-0.1\n!\nX1\n", [Left([0, 0, 0, 0] + LIMIT, planned) for planned in (0, 1, 5, 99)], [
        ("from 320000 to 0", Left([0, 0, 0, 0] + LIMIT, 5, is_slow=False))]),
)


def wrong_limits():
    """What is allowed or refused in error of a run that a soft limit has ended, or None."""
    return wrong_of(CASES)
