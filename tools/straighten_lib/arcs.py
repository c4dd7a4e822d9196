"""Arcs: planes, centres, and the straight moves that stand for an arc. A point of a plane is a complex number, its first axis the
real part and its second the imaginary one, in mm."""
import cmath
import math
from dataclasses import dataclass
from enum import Enum

from straighten_lib.lines import Unfit

# An end that is less than this angle, in radians, past the start is the start: the arc is a full circle.
LEAST_ANGLE = 5e-7
# The radii at the start and the end may differ by so many mm, or by more up to a share of the radius and up to a bound.
RADIUS_SLACK = 0.005
RADIUS_SHARE = 0.001
RADIUS_BOUND = 0.5
# A chord stands for no more than a quarter of a turn.
WIDEST_HALF_ANGLE = math.pi / 4


class Plane(Enum):
    """The plane of arcs: its code, its first and second axis, by which it turns counterclockwise, and the axis across it."""

    XY = ("G17", "X", "Y", "Z")
    ZX = ("G18", "Z", "X", "Y")
    YZ = ("G19", "Y", "Z", "X")

    def __init__(self, code, first, second, across):
        self.code, self.first, self.second, self.across = code, first, second, across

    @classmethod
    def of(cls, code):
        return next(plane for plane in cls if plane.code == code)


class Turn(Enum):
    """The direction of an arc, as it is seen from the positive end of the axis across its plane."""

    CLOCKWISE = -1
    COUNTERCLOCKWISE = 1


@dataclass(frozen=True)
class Arc:
    """From a start to an end round a centre. If the radii at both differ a little, the radius goes from one to the other evenly."""

    start: complex
    end: complex
    centre: complex
    turn: Turn

    @property
    def start_radius(self):
        return abs(self.start - self.centre)

    @property
    def end_radius(self):
        return abs(self.end - self.centre)

    @property
    def sweep(self):
        """The angle between start and end in the direction of the turn, in radians: above 0, and 2 pi for a full circle."""
        angle = cmath.phase((self.end - self.centre) / (self.start - self.centre)) * self.turn.value
        return angle if angle > LEAST_ANGLE else angle + 2 * math.pi

    def test(self):
        """Raises Unfit for an arc that a board refuses by its radii."""
        if self.start_radius == 0 or self.end_radius == 0:
            raise Unfit("an arc that begins or ends at its centre (error:33)")
        difference = abs(self.start_radius - self.end_radius)
        if difference > RADIUS_SLACK and difference > min(RADIUS_BOUND, RADIUS_SHARE * self.start_radius):
            raise Unfit(f"the radii of the arc are {self.start_radius:.4f} mm at its start and {self.end_radius:.4f} mm at its end (error:33)")

    def chord_count(self, tolerance):
        """How many chords are no farther than a tolerance from the arc: the middle of a chord is r (1 - cos(half its angle)) away."""
        radius = max(self.start_radius, self.end_radius)
        half_angle = min(2 * math.asin(math.sqrt(min(1.0, tolerance / (2 * radius)))), WIDEST_HALF_ANGLE)
        return max(1, math.ceil(self.sweep / (2 * half_angle)))

    def points(self, count):
        """The ends of all of so many chords but the last, each with its share of the way."""
        sweep, radius, growth = self.sweep, self.start_radius, self.end_radius - self.start_radius
        begin = cmath.phase(self.start - self.centre)
        for share in (number / count for number in range(1, count)):
            yield share, self.centre + cmath.rect(radius + growth * share, begin + self.turn.value * sweep * share)


def centre_by_radius(start, end, radius, turn):
    """The centre of the arc of a radius: of less than half a turn if the radius is positive, else of more. A positive radius has
    its centre on the left of the way from start to end if the arc turns counterclockwise, since it bends to there."""
    chord = end - start
    if chord == 0:
        raise Unfit("an arc by R whose end is its start (error:33)")
    half = abs(chord) / 2
    if half > abs(radius) + RADIUS_SLACK:
        raise Unfit(f"a radius of {abs(radius):.4f} mm is less than half the way of {abs(chord):.4f} mm (error:34)")
    height = math.sqrt(max(radius * radius - half * half, 0.0))
    side = turn.value if radius > 0 else -turn.value
    return (start + end) / 2 + side * height * 1j * chord / abs(chord)
