"""Tries what the model says of jogs that were cut: on runs that it must refuse, each for its cause, and some that it must allow."""
from typing import NamedTuple

from model.bad_reports import told
from model.epochs import run_of
from model.machine import Run
from model.reports import part
from model.trying import what_is_wrong


def along(line, *speeds, axis="X+"):
    """Segments of one event each, of one line, that begin with these squared speeds."""
    return "".join(f"s {line} 1 {speed} 999999\n{axis}\n" for speed in speeds)


class Case(NamedTuple):
    """A job of 250 steps per mm; the answers that are told of it, 0 for `ok`, with reports among them; and steps that are right,
    and some that are refused, each with some words of the cause."""

    job: bytes
    told: list
    right: list
    refused: list

    def wrong(self, steps):
        """What is said of a run with these steps."""
        lines = ["ok" if it == 0 else it if isinstance(it, str) else f"error:{it}" for it in self.told]
        console, reports = part("\r\n".join(["", "Grbl 1.1h ['$' for help]", *lines, ""]))
        refused = sum(isinstance(it, int) and it > 0 for it in self.told)
        run = Run(1 if refused else 0, console, steps + "E\n", f"{refused} lines refused\n" if refused else "", reports)
        wrong, _ = what_is_wrong(run, *run_of(self.job, 10**6, console, run.steps))
        return wrong


UP = (0, 80_000)  # of a machine that has gone a step, and stops over the next
CASES = (
    # A cancel between a jog and a move, which begins where the jog was cut.
    Case(b"$J=G91X1F500\n\x85\nG0X0", [0, 0, 0], [
        along(1, *UP) + "X 1\n" + along(3, *UP, axis="X-"),
        along(1, 0) + "X 1\n" + along(3, 0, axis="X-"),
        "X 1\n",
    ], [
        ("from 160000 to 0", along(1, *UP, 160_000) + "X 1\n"),
        ("by the model of line 1", along(1, *UP) + along(3, *UP, axis="X-")),
        ("from 0 to -1", along(1, *UP) + "X 1\n" + along(3, 0, axis="X-")),
        ("no jog is under way", along(1, *UP) + "X 1\n" + along(3, *UP, axis="X-") + "X 3\n"),
        ("by the model 'E'", "X 1\n" + along(1, 0)),
        ("no jog is under way", along(1, *UP) + "X 2\n" + along(3, *UP, axis="X-")),
        ("no jog is under way", along(1, *UP) + "X 1\nX 1\n" + along(3, *UP, axis="X-")),
        ("no jog is under way", "X 0\n"),
        ("no jog is under way", along(1, *UP) + "X 9\n" + along(3, *UP, axis="X-")),
    ]),
    # A hold, which is raised before the lines before it are answered. A jog that it cuts off loses its steps, or some.
    Case(b"$J=G91X0.008F500\n$J=G91X0.004F500\n!\n$J=G91Y0.004F500", [0, 0, 0, 0], [
        along(1, 0) + "X 1\n" + along(2, 0) + along(4, 0, axis="Y+"),
        along(1, *UP) + "X 2\n" + along(4, 0, axis="Y+"),
        along(1, 0) + "X 2\n" + along(4, 0, axis="Y+"),
        along(1, *UP) + along(2, 80_000) + along(4, 0, axis="Y+"),
    ], [
        ("nothing cancels", along(1, *UP) + "X 3\n" + along(4, 0, axis="Y+")),
        ("fewer bytes cancel", along(1, 0) + "X 1\n" + along(2, 0) + "X 2\n" + along(4, 0, axis="Y+")),
        ("of line 1", along(2, 0) + "X 2\n" + along(4, 0, axis="Y+")),
    ]),
    # Neither in a comment nor behind moves of G-code is there a cut.
    Case(b"$J=G91X0.008F500\n(\x85!)\n", [0, 0], [], [("nothing cancels", along(1, 0) + "X 1\n")]),
    Case(b"G0X0.008\n\x85\n", [0, 0], [], [("no jog is under way", along(1, 0) + "X 1\n")]),
    Case(b"G0X0.004\n$J=G91X0.004F500\n\x85\n", [0, 0, 0], [along(1, 0) + "X 2\n", along(1, 0) + along(2, 0)],
         [("no head", "X 2\n")]),
    Case(b"G0X0.004\n$J=G91X0.004F500\n\x85\n", [0, 8, 0], ["s 1 1 0 320000\nX+\n"], [("no jog is under way", along(1, 0) + "X 2\n")]),
    # The place behind a cut: for offsets, and for reports.
    Case(b"$J=G91X1F500\n\x85\nG92X1\n?", [0, 0, 0, told("M 8 0 0", wco="-992 0 0"), 0], [along(1, *UP) + "X 1\n"],
         [("another offset", along(1, 0) + "X 1\n"), ("another offset", "X 1\n")]),
    Case(b"$J=G91X1F500\n\x85?\nG4P0", [0, told("M 8 0 0"), 0, 0], [along(1, *UP) + "X 1\nD 0\n"],
         [("no place", along(1, 0) + "X 1\nD 0\n")]),
    Case(b"$J=G91X1F500\n\x85?\nG4P0", [0, told("M 4 0 0", "Jog"), 0, 0], [along(1, *UP) + "X 1\nD 0\n", along(1, 0) + "X 1\nD 0\n"],
         [("no place", "X 1\nD 0\n")]),
    Case(b"$J=G91X1F500\n\x85\n?", [0, 0, told("M 4 0 0", "Jog"), 0], [],
         [("nothing moves so", along(1, *UP) + "X 1\n")]),
)


def wrong_cuts():
    """What is allowed or refused in error of a run in which jogs were cut, or None."""
    for case in CASES:
        for steps in case.right:
            wrong = case.wrong(steps)
            if wrong:
                return f"of the job {case.job!r} the steps {steps!r} are refused: {wrong}"
        for words, steps in case.refused:
            wrong = case.wrong(steps)
            if words not in (wrong or ""):
                return f"of the job {case.job!r} the steps {steps!r} are not refused by {words!r}: {wrong}"
    return None
