"""Three texts each, and what is found of them, worked out by hand from the definitions: where the lines at fault are not the next ones."""
from model.machine import ALARM, LOCKED, LOST
from model.replies import BANNER

STOPPED = (LOST, BANNER, LOCKED)  # what is told at a reset that finds the machine in motion


def told(*replies):
    """A console that begins with the banner."""
    return "".join(f"{reply}\r\n" for reply in (BANNER, *replies))


# A job, a console, steps, the status of the audit, and its number.
WORKED = (
    # Line 1 has no answer. It can't have been begun and broken off, since no reset comes of the job.
    ("G0X1\nG0X2\n", told(BANNER), "s 1 250 0 0\nX+\nE\n", 7, 1),
    ("G0X1\nM3\nG92X0\n", told("ok", LOST, "ok"), "s 1 250 0 0\n" + "X+\n" * 250 + "M3 0\nE\n", 7, 2),
    # Lines 2 and 3 were dropped, and line 4 has no answer: no second reset comes of the job.
    ("G91X0\nG0X1\nG0X2\n\x18\n", told("ok", BANNER, BANNER), "Z 1\nY+\nE\n", 7, 4),
    # Nothing has moved, and no alarm may be told: the mark of the reset may stand, or a record before it breaks a rule.
    ("\x18\n", told(*STOPPED, "ok"), "Z 0\nE\n", 7, 1),
    ("G0X0.004\nM3S100\n\x18\n", told("ok", "ok", *STOPPED, "ok"), "s 1 1 0 0\nX-\nZ 2\nE\n", 7, 3),
    # A line that may have been begun moves nothing.
    ("M8\n\x18\n", told(*STOPPED, "ok"), "Z 0\nE\n", 7, 1),
    ("G0X0\n\x18\n", told(*STOPPED, "ok"), "Z 1\nE\n", 7, 1),
    ("$20=1\nG0X1\n\x18\n", told("ok", *STOPPED, "ok"), "X-\nE\n", 7, 2),
    # One that moves can't have been begun, since one before it waits.
    ("M8\nM9\nG0X0.004\n\x18\n", told("ok", *STOPPED, "ok"), "X-\nE\n", 7, 2),
    # A line that may have been begun moves: so the console stands.
    ("G0X0.004\n\x18\n", told(*STOPPED, "ok"), "Z 0\nE\n", 1, 0),
    ("M8\nG0X0.004\n\x18\n", told("ok", *STOPPED, "ok"), "X-\nE\n", 1, 0),
    # A line leaves the travel: those behind it were sent, unless its alarm is told.
    ("$20=1\nG0X1\nG38.2X1\n", told("ok", "ok"), "E\n", 8, 3),
    ("$20=1\nG0X1\n$H\n", told("ok", ALARM[0]), "E\n", 7, 2),
    ("$20=1\nG0X1\n$H\n", told("ok", *ALARM), "E\n", 0, 0),
    ("$20=1\nG0X1\n$H\n", told("ok", *ALARM), "X+\nE\n", 1, 0),
    # A line leaves the travel, and a reset comes before its alarm is told.
    ("$20=1\nG0X1\n\x18\n", told("ok", BANNER, "ok"), "Z 2\nE\n", 0, 0),
    # Line 1 was begun, and what a reset tells breaks off.
    ("G0X1\n\x18\n", told(LOST), "s 1 250 0 0\nX+\nZ 1\nE\n", 7, 1),
    ("G0X1\n\x18\n", told(LOST, BANNER, "ok"), "s 1 250 0 0\nX+\nZ 1\nE\n", 7, 1),
)
