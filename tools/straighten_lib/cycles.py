"""Drilling cycles as single moves."""
from dataclasses import dataclass, field

from straighten_lib.lines import MILLION, Refused, code_word, word
from straighten_lib.places import Units

DRILLING = ("G73", "G81", "G82", "G83", "G85", "G89")
PECKING = ("G73", "G83")
DWELLING = ("G82", "G89")
FEEDING_OUT = ("G85", "G89")
STICKY = "ZRPQ"  # words that a cycle keeps for the lines after its first
# How far above the last depth a peck begins, and how far a G73 goes back, in millionths.
CLEARANCE = {Units.MILLIMETRES: 250_000, Units.INCHES: 10_000}


@dataclass
class Cycle:
    """A drilling cycle from its first line to the next motion code: its code, the height at which it began, and its words."""

    code: str
    start: int
    words: dict = field(default_factory=dict)

    def steps(self, modes, height, values):
        """The words of each line for one hole; heights are values in millionths."""
        self.words |= {letter: values[letter] for letter in STICKY if letter in values}
        self.test(values, modes)
        bottom, clear = self.words["Z"], self.words["R"]
        top = max(self.start, clear) if modes.returns_to_start else clear
        steps = [rapid(Z=clear)] if height < clear else []
        across = {axis: values[axis] for axis in "XY" if axis in values}
        steps += [rapid(**across)] if across else []
        steps += [rapid(Z=clear)] if height > clear else []
        steps += self.pecks(bottom, clear, modes) if self.code in PECKING else [feed(Z=bottom)]
        if self.code in DWELLING and self.words.get("P", 0) > 0:
            steps.append([code_word("G4"), word("P", self.words["P"])])
        return steps + self.way_out(clear, top)

    def test(self, values, modes):
        """Raises Refused for a cycle that is more than single holes."""
        if modes.plane.code != "G17" or modes.is_incremental:
            raise Refused(f"{self.code} outside of G17 and G90")
        if values.get("L", MILLION) != MILLION:
            raise Refused(f"{self.code} with repeats (L)")
        if "Z" not in self.words or "R" not in self.words:
            raise Refused(f"{self.code} without Z or R")
        if self.words["Z"] > self.words["R"]:
            raise Refused(f"{self.code} whose Z is above its R")
        if self.code in PECKING and self.words.get("Q", 0) <= 0:
            raise Refused(f"{self.code} without a Q above 0")

    def pecks(self, bottom, clear, modes):
        """Each peck goes Q deeper. Between two of them G83 goes out to R, and G73 a little back."""
        back, depth, steps = CLEARANCE[modes.units], clear, []
        while depth > bottom:
            if depth < clear:
                steps += [rapid(Z=clear), rapid(Z=min(depth + back, clear))] if self.code == "G83" else [rapid(Z=min(depth + back, clear))]
            depth = max(depth - self.words["Q"], bottom)
            steps.append(feed(Z=depth))
        return steps

    def way_out(self, clear, top):
        """From the bottom to the height at which a hole ends."""
        if self.code not in FEEDING_OUT:
            return [rapid(Z=top)]
        return [feed(Z=clear)] + ([rapid(Z=top)] if top > clear else [])


def rapid(**values):
    return move("G0", values)


def feed(**values):
    return move("G1", values)


def move(code, values):
    """The words of a straight move."""
    return [code_word(code)] + [word(axis, value) for axis, value in values.items()]
