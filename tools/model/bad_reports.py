"""Tries the auditor of reports itself: on reports that it must refuse, each for its cause, and some that it must allow."""
from typing import NamedTuple

from model.epochs import run_of
from model.motion import event_lines
from model.reports import Way, fault_in, part


def told(at="M 0 0 0", state="Idle", fs="0,0", wco="0 0 0", ov="100,100,100", bf=None):
    """The text of a report. Places are in thousandths of a mm."""
    kind, *place = at.split()
    room = f"|Bf:{bf}" if bf else ""
    return f"<{state}|{kind}Pos:{lengths(place)}{room}|FS:{fs}|WCO:{lengths(wco.split())}|Ov:{ov}>"


def lengths(thousandths):
    """Lengths in mm, separated by commas."""
    return ",".join(f"{int(one) / 1000:.3f}" for one in thousandths)


class Case(NamedTuple):
    """A job, reports of it that are right, and reports of it that are refused: some words of the cause, and the reports. A
    report is written behind so many answers. The run may be attended."""

    job: bytes
    right: list
    refused: list
    is_attended: bool = False


AT_REST = b"F100\nG1X1\nG4P0\n?\nX2"
UNDER_WAY = b"F100\nG1X1\n?\nY1??"
CASES = (
    Case(AT_REST, [(3, told("M 1000 0 0"))], [
        ("no place", [(3, told("M 996 0 0"))]),
        ("no place", [(3, told("M 1004 0 0"))]),
        ("and the feed 100", [(3, told("M 1000 0 0", fs="100,0"))]),
        ("nothing moves", [(3, told("M 1000 0 0", "Run"))]),
        ("nothing holds", [(3, told("M 1000 0 0", "Hold:0"))]),
        ("the mask", [(3, told("M 1000 0 0", bf="15,128"))]),
        ("the mask", [(3, told("W 1000 0 0"))]),
        ("and 2 reports", [(3, told("M 1000 0 0"))] * 2),
        ("and 0 reports", []),
        ("line 3 has 0", [(2, told("M 1000 0 0"))]),
        ("line 4 has 1 `?` and 0", [(4, told("M 1000 0 0"))]),
        ("nothing moves", [(3, told("M 1000 0 0", "Jog"))]),
        ("no soft limit stops", [(3, told("M 1000 0 0", "Alarm"))]),
        ("no report", [(3, told("M 1000 0 0", "Alarm:2"))]),
        ("no report", [(3, told("M 1000 0 0").replace("WCO:0.000", "WCO:-0.000"))]),
        ("no report", [(3, told("M 1000 0 0").replace("1.000", "1.0000"))]),
        ("no report", [(3, told("M 1000 0 0").replace("|WCO:0.000,0.000,0.000", ""))]),
        ("no report", [(3, told("M 1000 0 0") + ">")]),
    ]),
    Case(UNDER_WAY, [(2, told("M 500 0 0", "Run", "100,0")), (3, told("M 1000 0 0", "Run", "100,0")),
                     (3, told("M 1000 24 0", "Run"))], [
        ("no place", [(2, told("M 500 4 0", "Run")), (3, told("M 1000 0 0"))]),
        ("no place", [(2, told("M 500 0 0", "Run")), (3, told("M 996 24 0", "Run"))]),
        ("tick 125", [(2, told("M 500 0 0", "Run")), (3, told("M 496 0 0", "Run"))]),
        ("tick 256", [(2, told("M 500 0 0", "Run")), (3, told("M 1000 24 0", "Run")), (3, told("M 1000 20 0", "Run"))]),
        ("the machine stands", [(2, told("M 500 0 0")), (3, told("M 1000 0 0"))]),
        ("more is to be done", [(2, told("M 1000 0 0", "Run")), (3, told("M 1000 0 0"))]),
        ("more is to be done", [(2, told("M 1000 0 0", "Run", "100,0")), (3, told("M 1000 0 0"))]),
        ("the feed 99", [(2, told("M 500 0 0", "Run", "99,0")), (3, told("M 1000 0 0"))]),
        ("the feed 100", [(2, told("M 996 0 0", "Run", "100,0")), (3, told("M 1000 0 0"))]),
        ("nothing holds", [(2, told("M 500 0 0", "Hold:1", "100,0")), (3, told("M 1000 0 0"))]),
        ("the state Jog", [(2, told("M 500 0 0", "Jog", "100,0")), (3, told("M 1000 0 0"))]),
        ("and 3 reports", [(2, told("M 500 0 0", "Run"))] + [(3, told("M 1000 0 0"))] * 3),
        ("and 1 reports", [(1, told("M 500 0 0", "Run")), (2, told("M 500 0 0", "Run")), (3, told("M 1000 0 0"))]),
    ]),
    Case(b"$10=2\nG28.1\nG28X1\n?", [(3, told("W 4 0 0", "Run", bf="13,128"))],
         [("free blocks", [(3, told("W 4 0 0", "Run", bf="12,128"))])]),
    Case(b"F100\n$10=3\nG1X1\n?\nX2", [(3, told("M 4 0 0", "Run", bf="14,128"))], [
        ("free blocks", [(3, told("M 4 0 0", "Run", bf="13,128"))]),
        ("free blocks", [(3, told("M 1000 0 0", bf="14,128"))]),
    ]),
    Case(b"F100\nG1X1\n?\n!?", [(2, told()), (3, told("M 4 0 0", "Hold:1", "100,0"))],
         [("nothing holds", [(2, told("M 4 0 0", "Hold:0")), (3, told("M 4 0 0", "Hold:1"))]),
          ("the machine stands", [(2, told()), (3, told("M 4 0 0", "Hold:0"))]),
          ("and the feed 100", [(2, told()), (3, told("M 0 0 0", "Hold:0", "100,0"))])]),
    Case(b"?\nG4P0\nM0?\n?", [(0, told()), (2, told(state="Hold:0")), (3, told(state="Hold:0"))],
         [("nothing holds", [(0, told(state="Hold:0")), (2, told()), (3, told())])]),
    Case(b"\x91\x9a\n?\nM2\n?", [(1, told(ov="110,100,110")), (3, told())], [
        ("for the feed", [(1, told(ov="110,100,110")), (3, told(ov="110,100,100"))]),
        ("for the spindle", [(1, told(ov="110,100,110")), (3, told(ov="100,100,110"))]),
        ("for the feed", [(1, told(ov="120,100,110")), (3, told())]),
        ("for the feed", [(1, told(ov="101,100,110")), (3, told())]),
        ("for the feed", [(1, told(ov="90,100,110")), (3, told())]),
        ("for the spindle", [(1, told(ov="110,100,90")), (3, told())]),
        ("for rapids", [(1, told(ov="110,50,110")), (3, told())]),
    ]),
    Case(b"\x94\x9b\n?", [(1, told(ov="99,100,90"))],
         [("for the feed", [(1, told(ov="101,100,90"))]), ("for the spindle", [(1, told(ov="99,100,99"))])]),
    Case(b"?\n\x96", [(0, told())], [("for rapids", [(0, told(ov="100,50,100"))])]),
    Case(b"\x96\n?", [(1, told(ov="100,50,100"))], [("for rapids", [(1, told(ov="100,25,100"))])]),
    Case(b"M3S1000\n\x9a?\nM5\n?", [(1, told(fs="0,1100", ov="100,100,110")), (3, told(ov="100,100,110"))], [
        ("the speed", [(1, told(fs="0,1000", ov="100,100,110")), (3, told())]),
        ("the speed", [(1, told(fs="0,1000")), (3, told(fs="0,1000"))]),
    ]),
    Case(b"G92X1\n?\nG92X2M3S5?", [(1, told(wco="-1000 0 0")), (2, told(wco="-1000 0 0"))], [
        ("another offset", [(1, told(wco="-2000 0 0")), (2, told(wco="-1000 0 0"))]),
        ("another offset", [(1, told(wco="-1000 0 0")), (2, told(wco="-1000 0 0", fs="0,5"))]),
        ("the speed", [(1, told(wco="-1000 0 0")), (2, told(wco="-2000 0 0"))]),
    ]),
    Case(b"G92X2M3S5?\nG10L2P2Y1\n?\nG55", [(0, told(wco="-2000 0 0", fs="0,5")), (2, told(wco="-2000 0 0", fs="0,5"))],
         [("another offset", [(0, told(wco="-2000 0 0", fs="0,5")), (2, told(wco="-2000 1000 0", fs="0,5"))])]),
    Case(b"$10=2\nG92X1\n?", [(2, told("W 1000 0 0", wco="-1000 0 0", bf="15,128"))], [
        ("no place", [(2, told("W 0 0 0", wco="-1000 0 0", bf="15,128"))]),
        ("the mask", [(2, told("M 0 0 0", wco="-1000 0 0", bf="15,128"))]),
        ("the mask", [(2, told("W 1000 0 0", wco="-1000 0 0"))]),
        ("free blocks", [(2, told("W 1000 0 0", wco="-1000 0 0", bf="14,128"))]),
        ("free blocks", [(2, told("W 1000 0 0", wco="-1000 0 0", bf="16,128"))]),
        ("free bytes", [(2, told("W 1000 0 0", wco="-1000 0 0", bf="15,127"))]),
    ]),
    Case(b"F100\nG1X-1Y1\nG4P0\n$100=400\n$101=3\n?", [(5, told("M -625 83333 0"))],
         [("no place", [(5, told("M -1000 83333 0"))]), ("no place", [(5, told("M -625 83334 0"))])]),
    Case(b"F9\n$100=16\n$102=16\nG1X0.06Z-0.06\nG4P0\n?", [(5, told("M 63 0 -63"))],
         [("no place", [(5, told(place))]) for place in ("M 62 0 -63", "M 63 0 -62", "M 63 63 -63", "M 63 0 63")]),
    Case(b"(?)\n;?\n?(?)", [(2, told())],
         [("and 1 reports", [(0, told()), (2, told())]), ("and 2 reports", [(2, told())] * 2)]),
    Case(b"\n" + b"?X" * 128 + b"??", [], [("and 129 reports", [(1, told())] * 129)]),
    Case(b"\n" + b"?X" * 128 + b"??", [(1, told())] * 128, [("nothing holds", [(1, told(state="Hold:0"))])]),
    # In an attended run a report comes wherever its `?` may be scanned, and none is needed.
    Case(AT_REST, [(0, told())], [
        ("report 2", [(0, told())] * 2),
        ("no place", [(0, told("M 4 0 0"))]),
        ("nothing moves", [(0, told("M 4 0 0", "Run"))]),
        ("nothing holds", [(0, told(state="Hold:0"))]),
        ("and the feed 100", [(0, told(fs="100,0"))]),
    ], True),
    Case(AT_REST, [], [], True),
    Case(UNDER_WAY, [(1, told("M 500 0 0", "Run", "100,0")), (3, told("M 1000 0 0", "Run", "100,0")), (4, told("M 1000 1000 0"))], [
        ("report 4", [(1, told())] * 4),
        ("no place", [(1, told("M 500 4 0", "Run"))]),
        ("tick 125", [(1, told("M 500 0 0", "Run")), (2, told("M 496 0 0", "Run"))]),
    ], True),
    Case(b"\n" * 129 + b"?", [(1, told())], [("where 0 `?`", [(0, told())])], True),
)


def steps_of(script):
    """Steps by a machine's script, in which each move begins at rest, and its last event at 100 mm per minute."""
    lines = []
    for moves, mark in script.stretches:
        for move in moves:
            *first, last = event_lines(move.ways, 0, move.events)
            lines += ["s 1 1 0 1", *first, f"s 1 1 {1667 ** 2} 1", last]
        lines += [] if mark is None else [mark]
    return "\n".join([*lines, ""])


def console_with(console, reports):
    """A console in which each report is written behind so many answers."""
    lines = console.split("\r\n")
    answers = [1] + [at for at, line in enumerate(lines) if line == "ok" or line.startswith("error:")]
    for behind, report in reversed(reports):
        lines.insert(answers[behind] + 1, report)
    return "\r\n".join(lines)


def fault_of(job, reports, is_attended):
    """What the auditor says of a job with these reports."""
    run, [epoch] = run_of(job, 10**6, "", is_attended=is_attended)
    rest, parted = part(console_with(run.console, reports))
    if rest != run.console or parted != [(1, *report) for report in reports]:
        return "the reports are not parted from the rest"
    return fault_in(reports, epoch.machine.course, Way(steps_of(epoch.machine.script)))


def wrong_audit():
    """What the auditor of reports allows or refuses in error, or None."""
    for case in CASES:
        fault = fault_of(case.job, case.right, case.is_attended)
        if fault:
            return f"of the job {case.job!r} right reports are refused: {fault}"
        for words, reports in case.refused:
            fault = fault_of(case.job, reports, case.is_attended)
            if words not in (fault or ""):
                return f"of the job {case.job!r} the reports {reports} are not refused by {words!r}: {fault}"
    return None
