"""Where the machine is behind each line, and the modes, by the rules of docs/DIALECT.md: a run begins at machine zero."""
from dataclasses import dataclass, field
from enum import Enum

from straighten_lib.arcs import Plane
from straighten_lib.lines import MILLION, Unfit

AXES = "XYZ"
SYSTEMS = ("G54", "G55", "G56", "G57", "G58", "G59")
AXIS_CODES = ("G10", "G28", "G30", "G92")  # codes that take the axis words in place of the motion
NANOMETRES = 1_000_000  # in a millimetre
FARTHEST = 10_000 * NANOMETRES  # no target and no offset is farther from zero


class Units(Enum):
    """Units of length: how many tenths of a nanometre are a millionth, and the grid of written places in millionths, whose
    points are whole nanometres: 0.0001 mm, and 0.000005 inches, which are 127 nm."""

    MILLIMETRES = (10, 100)
    INCHES = (254, 5)

    def __init__(self, tenths, grid):
        self.tenths, self.grid = tenths, grid

    def nanometres(self, value):
        """A value in millionths as a length; what is finer than a nanometre is dropped."""
        length = abs(value) * self.tenths // 10
        return length if value >= 0 else -length

    def on_grid(self, nanometres):
        """The value on the grid, in millionths, that is nearest to a length."""
        return round(nanometres * 10 / self.tenths / self.grid) * self.grid

    def value_at(self, nanometres):
        """The value in millionths that gives a length, or where none does, the nearest."""
        near = round(nanometres * 10 / self.tenths)
        return min((near, near - 1, near + 1), key=lambda value: abs(self.nanometres(value) - nanometres))


@dataclass
class Modes:
    """What stays set from line to line."""

    motion: str = "G0"
    plane: Plane = Plane.XY
    units: Units = Units.MILLIMETRES
    is_incremental: bool = False
    has_absolute_centres: bool = False
    returns_to_start: bool = True  # drilling cycles end at the height of their first line's start
    system: str = "G54"
    tool: int = 0  # in millionths
    feed: int = 0

    def take(self, code):
        """Takes a code that sets a mode, but for the motion."""
        if code in ("G17", "G18", "G19"):
            self.plane = Plane.of(code)
        elif code in ("G20", "G21"):
            self.units = Units.INCHES if code == "G20" else Units.MILLIMETRES
        elif code in ("G90", "G91"):
            self.is_incremental = code == "G91"
        elif code in ("G90.1", "G91.1"):
            self.has_absolute_centres = code == "G90.1"
        elif code in ("G98", "G99"):
            self.returns_to_start = code == "G98"
        elif code in SYSTEMS:
            self.system = code

    def end_program(self):
        """M2 and M30 set these."""
        self.motion, self.plane, self.is_incremental, self.system = "G1", Plane.XY, False, "G54"


@dataclass
class Places:
    """The position of the machine, the offsets of the systems, the shift of G92 and the stored points, in nanometres."""

    position: dict = field(default_factory=lambda: dict.fromkeys(AXES, 0))
    offsets: dict = field(default_factory=lambda: {system: dict.fromkeys(AXES, 0) for system in SYSTEMS})
    shift: dict = field(default_factory=lambda: dict.fromkeys(AXES, 0))
    stored: dict = field(default_factory=lambda: {code: dict.fromkeys(AXES, 0) for code in ("G28", "G30")})

    def offset(self, modes, axis):
        """What is added to a value of G90."""
        return self.offsets[modes.system][axis] + self.shift[axis]

    def in_work(self, modes, axis):
        """The position in the coordinates of the work."""
        return self.position[axis] - self.offset(modes, axis)

    def target(self, modes, values, is_machine=False):
        """Where a move of these values ends."""
        target = dict(self.position)
        for axis in AXES:
            if axis in values:
                length = modes.units.nanometres(values[axis])
                base = 0 if is_machine else self.position[axis] if modes.is_incremental else self.offset(modes, axis)
                target[axis] = base + length
        return tested(target)

    def follow(self, modes, moves):
        """Goes the way of some moves, each given by its values."""
        for axis in AXES:
            values = [values[axis] for values in moves if axis in values]
            if modes.is_incremental:
                self.position[axis] += sum(map(modes.units.nanometres, values))
            elif values:
                self.position[axis] = self.offset(modes, axis) + modes.units.nanometres(values[-1])
        tested(self.position)

    def take_offsets(self, codes, modes, values):
        """Takes G10, G92, G92.1, and the codes that store or go to a point."""
        named = [axis for axis in AXES if axis in values]
        for code in ("G28", "G30"):
            if f"{code}.1" in codes:
                self.stored[code] = dict(self.position)
            if code in codes:
                self.position = self.target(modes, values) | {axis: self.stored[code][axis] for axis in named or AXES}
        if "G10" in codes:
            self.set_system(modes, values, named)
        if "G92" in codes:
            system = self.offsets[modes.system]
            lengths = {axis: modes.units.nanometres(values[axis]) for axis in named}
            self.shift = tested(self.shift | {axis: self.position[axis] - system[axis] - lengths[axis] for axis in named})
        if "G92.1" in codes:
            self.shift = dict.fromkeys(AXES, 0)

    def set_system(self, modes, values, named):
        """G10: a system's offset is the value, or with L20 such that the position has the value."""
        number = values.get("P", 0) // MILLION
        if number > len(SYSTEMS):
            raise Unfit("G10 with P over 6 (error:29)")
        name = SYSTEMS[number - 1] if number else modes.system
        lengths = {axis: modes.units.nanometres(values[axis]) for axis in named}
        if values.get("L") == 20 * MILLION:
            lengths = {axis: self.position[axis] - self.shift[axis] - length for axis, length in lengths.items()}
        self.offsets[name] = tested(self.offsets[name] | lengths)


def tested(place):
    """A place. Raises Unfit for one that no machine reaches."""
    if any(abs(length) > FARTHEST for length in place.values()):
        raise Unfit("beyond 10,000 mm (error:33)")
    return place
