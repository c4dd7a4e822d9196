"""Jogs that were cut: what a step text tells of each cut, and what becomes of the position there."""
import re
from itertools import product
from typing import NamedTuple

from model.lines import AXES

CUT = re.compile(r"X (0|[1-9][0-9]*)")


def way_of(event):
    """The steps of an event on each axis."""
    return tuple((axis + "+" in event) - (axis + "-" in event) for axis in AXES)


EVENTS = {event: way_of(event) for event in map("".join, product(*[("", axis + "+", axis + "-") for axis in AXES])) if event}


class Cut(NamedTuple):
    """The number of a cut, which is that of the lines that were begun by then; the ticks before it, events and marks; and the
    place, in steps."""

    number: int
    ticks: int
    place: tuple

    @property
    def text(self):
        """Its record."""
        return f"X {self.number}"


def cuts_of(steps, place=(0, 0, 0)):
    """The cuts of a step text that begins at a place, in order."""
    if "X " not in steps:
        return []
    here, ticks, cuts = list(place), 0, []
    for line in steps.split("\n"):
        cut = CUT.fullmatch(line)
        if cut:
            cuts.append(Cut(int(cut[1]), ticks, tuple(here)))
        here = [place + step for place, step in zip(here, EVENTS.get(line, (0, 0, 0)))]
        ticks += line not in ("", "E") and not line.startswith("s ")
    return cuts


def is_cut(mark):
    """Whether a mark, or the want of one, is a cut."""
    return bool(mark) and mark.startswith("X ")
