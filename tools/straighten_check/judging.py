"""Whether straight moves stand for an arc; and straighteners that do wrong, by which this judgement is tried."""
import math
from contextlib import contextmanager
from unittest.mock import patch

from straighten_check.answers import Route
from straighten_check.random_arcs import MILLION
from straighten_lib import arcs, rewriting
from straighten_lib.lines import Refused
from straighten_lib.places import Units

EXACT = 0.0001  # mm: ends, and ends of chords, are so near to where they should be
SLACK = 1e-6  # mm, of the arithmetic of this judgement
TOO_MANY = 1.2  # so many times as many chords as the tolerance asks for are too many


def judge_job(job):
    """What is wrong with what the tool makes of a job of arcs, in words, or None."""
    straightener, route = rewriting.Straightener(rewriting.Options(tolerance=job.tolerance)), Route()
    for number, line in enumerate(job.lines):
        first = len(route.places)
        try:
            texts = straightener.rewrite(line)
        except Refused as reason:
            return f"line {number} is refused, {reason}: {line}"
        for text in texts:
            if error := route.error_of(text):
                return f"line {number} becomes {text!r}, which is {error}: {line}"
        if number in job.arcs:
            if wrong := judge_arc(job.arcs[number], job.tolerance, route.places[first:], job.offset):
                return f"line {number}: {wrong}: {line}"
    return None


def judge_arc(arc, tolerance, moves, offset):
    """What is wrong with the moves for one arc, or None."""
    if any(feed != arc.feed for _, feed in moves):
        return "a move has another feed"
    places = [arc.start] + [{axis: (place["XYZ".index(axis)] - offset[axis]) / MILLION for axis in "XYZ"} for place, _ in moves]
    if max(abs(places[-1][axis] - arc.end[axis]) for axis in "XYZ") > EXACT:
        return f"it ends at {places[-1]} in place of {arc.end}"
    first, second, across = arc.axes
    polar = [polar_of(place[first] - arc.centre[0], place[second] - arc.centre[1]) for place in places]
    turns = [math.remainder((b[1] - a[1]) * arc.turn, 2 * math.pi) for a, b in zip(polar, polar[1:])]
    if min(turns) < 0:
        return "a chord goes the wrong way"
    if abs(sum(turns) - arc.sweep) > 0.02:
        return f"all chords turn by {sum(turns):.4f} in place of {arc.sweep:.4f}"
    return judge_chords(arc, tolerance, polar, turns) or judge_climb(arc, places, turns, across)


def polar_of(x, y):
    return math.hypot(x, y), math.atan2(y, x)


def judge_chords(arc, tolerance, polar, turns):
    """What is wrong with how far the chords are from the arc, whose radius goes evenly from that of its start to that of its end,
    and how many they are. A chord's ends are on the arc, and its middle is farthest from it."""
    begin, end, turned = polar[0][0], polar[-1][0], 0.0
    for (radius, _), (next_radius, _), turn in zip(polar, polar[1:], turns):
        if abs(radius - (begin + (end - begin) * turned / sum(turns))) > EXACT + SLACK:
            return f"a chord's end is {radius:.6f} mm from the centre"
        middle = math.sqrt(radius**2 + next_radius**2 + 2 * radius * next_radius * math.cos(turn)) / 2
        turned += turn
        if begin + (end - begin) * (turned - turn / 2) / sum(turns) - middle > tolerance + SLACK:
            return f"a chord is {(radius + next_radius) / 2 - middle:.6f} mm from the arc, and {tolerance} are allowed"
    widest = min(2 * math.acos(max(1 - tolerance / max(begin, end), -1)), math.pi / 2)
    if len(turns) > TOO_MANY * arc.sweep / widest + 1:
        return f"{len(turns)} chords are too many"
    return None


def judge_climb(arc, places, turns, across):
    """What is wrong with the way along the axis across the plane, which goes evenly with the angle."""
    turned, climb = 0.0, arc.end[across] - arc.start[across]
    reach = math.hypot(arc.start[arc.axes[0]] - arc.centre[0], arc.start[arc.axes[1]] - arc.centre[1])
    for place, turn in zip(places[1:], turns):
        turned += turn
        slack = EXACT * (1 + abs(climb) / (reach * sum(turns)))
        if abs(arc.start[across] + climb * turned / sum(turns) - place[across]) > slack:
            return f"{across} does not go evenly"
    return None


# ---- straighteners that do wrong


def instead(target, name, made):
    """A way to have another thing in a place for some time."""

    @contextmanager
    def bad():
        with patch.object(target, name, made):
            yield

    return bad


def moved(change):
    """The chords' places of the tool, changed."""
    right = rewriting.Straightener.chord_places

    def chord_places(self, arc, values):
        return change(self, arc, right(self, arc, values))

    return chord_places


def with_drift(_, arc, places):
    return places[:-1] + [{axis: value + 300 for axis, value in places[-1].items()}]


def with_one_beside(straightener, arc, places):
    """One chord's end moved out by 0.3 micrometres."""
    if len(places) < 3 or straightener.modes.is_incremental:
        return places
    return [{axis: value + 300 for axis, value in places[0].items()}] + places[1:]


def with_uneven_climb(straightener, arc, places):
    across = straightener.modes.plane.across
    if len(places) < 8 or across not in places[0] or straightener.modes.is_incremental:
        return places
    return [places[0] | {across: places[1][across]}] + places[1:]


def fewer(share):
    """So many chords in place of those that the tolerance asks for."""
    right = arcs.Arc.chord_count
    return lambda self, tolerance: max(4, int(right(self, tolerance) * share))


def with_other_side(start, end, radius, turn):
    return RIGHT_CENTRE(start, end, -radius, turn)


RIGHT_CENTRE = rewriting.centre_by_radius
BAD_STRAIGHTENERS = {
    "arcs are turned the wrong way": instead(rewriting, "TURNS", {"G2": arcs.Turn.COUNTERCLOCKWISE, "G3": arcs.Turn.CLOCKWISE}),
    "chords are farther from the arc than the tolerance": instead(arcs.Arc, "chord_count", fewer(0.9)),
    "there are too many chords": instead(arcs.Arc, "chord_count", fewer(1.5)),
    "an end drifts by 0.3 micrometres": instead(rewriting.Straightener, "chord_places", moved(with_drift)),
    "one chord's end is beside the arc": instead(rewriting.Straightener, "chord_places", moved(with_one_beside)),
    "a climb is uneven": instead(rewriting.Straightener, "chord_places", moved(with_uneven_climb)),
    "a radius gives the other arc": instead(rewriting, "centre_by_radius", with_other_side),
    "full circles are nothing": instead(arcs.Arc, "sweep", property(lambda arc: abs(arc.turn.value) * 1e-6 if arc.start == arc.end else RIGHT_SWEEP(arc))),
    "inches are millimetres": instead(Units.INCHES, "tenths", 10),
    "the axes of a plane are exchanged": instead(arcs.Plane.ZX, "first", "X"),
}
RIGHT_SWEEP = arcs.Arc.sweep.fget
