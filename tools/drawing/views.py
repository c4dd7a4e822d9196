"""The path of a run from above and from the side."""
import math
from dataclasses import dataclass

from drawing.frames import (FADED, INK, LEFT, LINE, REFUSED, RIGHT, SLOW, WIDTH, ZERO, Frame, Labels, axis_step, joined_labels,
                            text_at)
from drawing.raster import FINEST, MOST_CELLS, Raster
from texts.job import JOG, RAPID

MOST_LINES = 15_000   # of a path that is drawn line by line
SHORTEST = 0.5        # pixels, of a line
MOST_MARKS = 60       # that are drawn at the path
MOST_DOTS = 4_000
ROOM, GAP = 0.08, 60
TALLEST, LOWEST = 560, 170
SIDE_FLAT, SIDE_LEAST, SIDE_MOST, SIDE_ROOM = 70, 120, 220, 28
FLAT_SPAN = 1.0       # mm, of a side view with one height
WIDEST = WIDTH - LEFT - RIGHT


@dataclass
class View:
    """A frame, the axes that go along it and up, and what it is called."""

    frame: Frame
    axes: tuple
    name: str
    names: tuple  # of the axes, or nothing where the frame below has it

    def pixel(self, point):
        return self.frame.x(point[self.axes[0]]), self.frame.y(point[self.axes[1]])

    def has(self, point):
        return self.frame.has(point[self.axes[0]], point[self.axes[1]])

    def draw(self):
        """The frame, with its name."""
        frame, (across, up) = self.frame, self.axes
        steps = [axis_step(frame.x_range, frame.width), axis_step(frame.y_range, frame.height)]
        if 2 not in (across, up):
            steps = [min(steps)] * 2 if max(steps) > 2.5 * min(steps) else [max(steps)] * 2
        return frame.draw(steps, *self.names) + [text_at(frame.left, frame.top - 8, self.name, "faded")]


def spread(limits, size):
    """A range of a size round the middle of another."""
    middle = sum(limits) / 2
    return middle - size / 2, middle + size / 2


def stretched(factor, way):
    """How the heights of a view from the side are drawn."""
    if 0.95 < factor < 1.05:
        return "to scale"
    return f"Z drawn {factor:.{1 if factor < 9.5 else 0}f} times as {way}"


def views_of(limits, top):
    """The view from above and the one from the side, for these limits of the axes."""
    spans = [max(high - low, 0.001) for low, high in limits]
    room = ROOM * max(spans[:2])
    if spans[1] > 1.3 * spans[0]:
        return beside(limits, spans, room, top)
    scale = min(WIDEST / (spans[0] + room), TALLEST / (spans[1] + room))
    height = max(scale * (spans[1] + room), LOWEST)
    x_range = spread(limits[0], WIDEST / scale)
    above = Frame(LEFT, top, WIDEST, height, x_range, spread(limits[1], height / scale))
    is_flat = limits[2][0] == limits[2][1]
    side_height = SIDE_FLAT if is_flat else min(max(scale * spans[2] + SIDE_ROOM, SIDE_LEAST), SIDE_MOST)
    z_scale = (side_height - SIDE_ROOM) / (FLAT_SPAN if is_flat else spans[2])
    front = Frame(LEFT, above.bottom + GAP, WIDEST, side_height, x_range, spread(limits[2], side_height / z_scale))
    name = "from the front" + ("" if is_flat else ", " + stretched(z_scale / scale, "high"))
    return View(above, (0, 1), "from above", ("", "Y, mm")), View(front, (0, 2), name, ("X, mm", "Z, mm"))


def beside(limits, spans, room, top):
    """The same for a path that is longer along Y: the second view is at the right of the first."""
    scale = TALLEST / (spans[1] + room)
    gap = LEFT - 10
    side_width = min(max(scale * spans[2] + SIDE_ROOM, 200), 300)
    width = WIDEST - gap - side_width
    above = Frame(LEFT, top, width, TALLEST, spread(limits[0], width / scale), spread(limits[1], TALLEST / scale))
    is_flat = limits[2][0] == limits[2][1]
    z_scale = (side_width - SIDE_ROOM) / (FLAT_SPAN if is_flat else spans[2])
    right = Frame(above.right + gap, top, side_width, TALLEST, spread(limits[2], side_width / z_scale), above.y_range)
    name = "from the right" + ("" if is_flat else ", " + stretched(z_scale / scale, "wide"))
    return View(above, (0, 1), "from above", ("X, mm", "Y, mm")), View(right, (2, 1), name, ("Z, mm", ""))


# ---- the path


def draw_way(way, views):
    """The path in each of the views: line by line, or as an image where there are more lines than one can see."""
    if way.lines() > MOST_LINES:
        return draw_raster(way, views)
    return [element for view in views for element in draw_lines(way, view)]


class Shapes:
    """Lines of pixels by the numbers of their colours, 0 for rapids and jogs. One that is shorter than half a pixel goes with
    the line behind it."""

    def __init__(self):
        self.shapes, self.begin, self.end, self.number, self.drawn = {}, None, None, None, None

    def add(self, number, here, there):
        """Adds a line that goes on where the last one ended."""
        if (number == 0) != (self.number == 0):
            self.close()
        if self.begin is None:
            self.begin = here
        self.number, self.end = number, there
        if math.dist(self.begin, there) >= SHORTEST:
            self.close()
            self.begin = there

    def close(self):
        """Draws what is left."""
        if self.begin not in (None, self.end):
            begin, end = (f"{x:.1f} {y:.1f}" for x, y in (self.begin, self.end))
            shape = self.shapes.setdefault(self.number, [])
            shape.append(f"L{end}" if self.drawn == (self.number, begin) else f"M{begin}L{end}")
            self.drawn = self.number, end
        self.begin = None


def draw_lines(way, view):
    """Rapids and jogs first, thin and dashed, then by colour from the top of the scale down, so that what is deepest or
    slowest lies above."""
    lines, out = Shapes(), []
    for number, here, there in way.pieces():
        lines.add(number, view.pixel(here), view.pixel(there))
    lines.close()
    for number, shape in sorted(lines.shapes.items()):
        shape = "".join(shape)
        if not number:
            out.append(f'<path class="rapid" d="{shape}"/>')
            continue
        width = 1.5 if way.by_speed else 1.2 + 0.7 * (number - 1) / (way.scale.bins - 1)
        out.append(f'<path class="way" d="{shape}" stroke="{way.scale.colours[number - 1]}" stroke-width="{width:.1f}"/>')
    return out


def cells_of(way, views):
    """How many cells are drawn, at one cell a pixel, in all views."""
    (x, y), (z, _) = ((view.frame.x_scale, view.frame.y_scale) for view in views)
    rows = [[row[node + 1] - row[node] for node in range(len(way))] for row in way.rows]
    return sum(max(abs(dx) * x, abs(dy) * y) for dx, dy in zip(*rows[:2])) + sum(abs(dz) * z for dz in rows[2]) + len(way)


def draw_raster(way, views):
    """The path as an image in each view. Where it crosses a cell so often that drawing all would take minutes, pieces are
    left out evenly; the last ones never are."""
    cells = cells_of(way, views)
    fine = FINEST if cells * FINEST <= MOST_CELLS else 1
    each = max(1, round(cells * fine / (3 * MOST_CELLS)))
    rasters = [Raster(view.frame, fine) for view in views]
    last, before, ends = len(way) - 1000, None, []
    for at, (number, here, there) in enumerate(way.pieces()):
        begins = ends if here is before else [view.pixel(here) for view in views]
        before, ends = there, [view.pixel(there) for view in views]
        if at % each == 0 or at >= last:
            for raster, begin, end in zip(rasters, begins, ends):
                raster.draw(begin, end, number + 1)
    colours = ["#c9ced4", *way.scale.colours]
    return [raster.element(colours) for raster in rasters]


def draw_dots(way, view):
    """A dot where the tool drilled, in the view from above."""
    frame, dots = view.frame, {}
    still = 0.5 / frame.x_scale
    for point in way.drilled(lambda a, b: math.hypot(a[0] - b[0], a[1] - b[1]) <= still):
        number = way.scale.bin_of(point[2])
        x, y = view.pixel(point)
        spot = f"M{x:.1f} {y:.1f}h.01"
        dots[spot] = max(dots.get(spot, 0), number)
        if len(dots) == MOST_DOTS:
            break
    by_colour = {}
    for spot, number in dots.items():
        by_colour.setdefault(INK if way.by_speed else way.scale.colours[number], []).append(spot)
    return [f'<path d="{"".join(spots)}" fill="none" stroke="{colour}" stroke-width="5" stroke-linecap="round"/>'
            for colour, spots in by_colour.items()]


# ---- what is marked


@dataclass
class Marked:
    """A place of the picture, in mm, what is said of it, and its kind: "start", "end", "mark", "zero", "refused" or
    "number"."""

    point: tuple
    text: str
    kind: str

    @property
    def colour(self):
        return {"refused": REFUSED, "zero": ZERO}.get(self.kind, INK)


def marked_of(run):
    """All that is marked at the path."""
    track = run.track
    told = [Marked(run.point(0), "start", "start"), Marked(run.point(len(track)), "end", "end")]
    told += [Marked(zero.place, f"zero {zero.name}", "zero") for zero in run.used_zeros()[:6]]
    if run.console and run.console.alarm:
        line, number = run.console.alarm
        told.append(Marked(run.point(len(track)), f"line {line}: ALARM:{number}", "refused"))
    told += [Marked(run.point(run.before_line(line)), f"line {line}: error:{number}", "refused")
             for line, number in run.refused()[:MOST_MARKS]]
    if len(track.marks) <= MOST_MARKS:
        told += [Marked(run.millimetres(mark.place), mark.text, "mark") for mark in track.marks]
    return told


def sign(marked, x, y):
    """The sign at a place."""
    if marked.kind == "refused":
        return f'<path d="M{x - 4:.1f} {y - 4:.1f}l8 8m0 -8l-8 8" stroke="{REFUSED}" stroke-width="1.8" fill="none"/>'
    if marked.kind == "zero":
        return (f'<path d="M{x - 9:.1f} {y:.1f}h18M{x:.1f} {y - 9:.1f}v18" stroke="{ZERO}" stroke-width="1.1"/>'
                f'<circle cx="{x:.1f}" cy="{y:.1f}" r="5.5" fill="none" stroke="{ZERO}" stroke-width="1.1"/>')
    if marked.kind == "number":
        return (f'<circle cx="{x:.1f}" cy="{y:.1f}" r="7" fill="{SLOW}" stroke="#fff" stroke-width="1"/>'
                f'<text x="{x:.1f}" y="{y + 3.5:.1f}" text-anchor="middle" style="fill:#fff;font-size:10px">'
                f'{marked.text}</text>')
    if marked.kind == "mark":
        return f'<path d="M{x:.1f} {y:.1f}l5 -7" stroke="{FADED}" stroke-width="1.2"/>'
    fill = "#fff" if marked.kind == "start" else INK
    return f'<circle cx="{x:.1f}" cy="{y:.1f}" r="3.2" fill="{fill}" stroke="{INK}" stroke-width="1.3"/>'


def draw_marked(all_marked, view, has_labels):
    """The signs, and labels where there is room; those that matter most come first, and numbers lie beside each other."""
    frame, groups, signs, numbers = view.frame, {}, {}, {}
    order = ("refused", "zero", "start", "end", "mark", "number")
    for marked in sorted(all_marked, key=lambda it: order.index(it.kind)):
        if not view.has(marked.point):
            continue
        x, y = view.pixel(marked.point)
        spot = round(x), round(y)
        if marked.kind == "number":
            beside = numbers[spot] = numbers.get(spot, -1) + 1
            signs[(*spot, marked.text)] = "number", sign(marked, x - 14 - 15 * beside, y + 12)
        else:
            signs[(*spot, marked.kind)] = marked.kind, sign(marked, x, y)
            groups.setdefault(spot, []).append(marked)
    out = [element for _, element in sorted(signs.values(), key=lambda it: -order.index(it[0]))]
    labels = Labels(frame.left + 2, frame.right - 2)
    for (x, y), group in groups.items() if has_labels else ():
        spots = [(x + 9, y - 9, False), (x + 9, y + 17, False), (x - 9, y - 9, True), (x - 9, y + 17, True)]
        spots = [spot for spot in spots if frame.top + 12 <= spot[1] <= frame.bottom - 4]
        out.extend(labels.place(spots, joined_labels([it.text for it in group]), group[0].colour))
    return out


def draw_faces(run, view):
    """The heights of the work's zeros, in the view from the side."""
    frame, out = view.frame, []
    for z in {round(zero.place[2], 3) for zero in run.used_zeros()}:
        if 2 == view.axes[1] and frame.y_range[0] < z < frame.y_range[1]:
            out.append(f'<path d="M{frame.left:.1f} {frame.y(z):.1f}H{frame.right:.1f}" stroke="{ZERO}" stroke-width="0.8" '
                       'stroke-dasharray="2 3"/>')
        if 2 == view.axes[0] and frame.x_range[0] < z < frame.x_range[1]:
            out.append(f'<path d="M{frame.x(z):.1f} {frame.top:.1f}V{frame.bottom:.1f}" stroke="{ZERO}" stroke-width="0.8" '
                       'stroke-dasharray="2 3"/>')
    return out


def shown_limits(run):
    """The limits of what the picture shows: those of the path, and zeros of the work that are near it."""
    limits = run.limits()
    near = 0.35 * max(max(high - low for low, high in limits[:2]), 0.001)
    for zero in run.used_zeros():
        if all(low - near <= at <= high + near for at, (low, high) in zip(zero.place[:2], limits)):
            limits = [(min(low, at), max(high, at)) if axis < 2 else (low, high)
                      for axis, (at, (low, high)) in enumerate(zip(zero.place, limits))]
    return limits


def draw_signs(run, way, left, frame, all_marked):
    """What lines and signs mean, below the colours' scale."""
    y = frame.top + (70 if way.scale.top == way.scale.bottom else min(frame.height - 30, 240) + 52)
    kinds, out = {marked.kind for marked in all_marked}, []
    rapid = ", ".join(name for kind, name in ((RAPID, "rapid"), (JOG, "jog")) if kind in way.kinds) if run.job else ""
    for kind, name in (("rapid", rapid), ("start", "start"), ("end", "end"), ("zero", "work zero"), ("refused", "refused"),
                       ("number", "slow")):
        if (kind == "rapid" and not rapid) or (kind != "rapid" and kind not in kinds):
            continue
        way_sign = f'<path class="rapid" d="M{left} {y - 4:.1f}h18"/>'
        out.append(way_sign if kind == "rapid" else sign(Marked((), "", kind), left + 9, y - 4))
        out.append(text_at(left + 24, y, name))
        y += LINE + (2 if kind == "zero" else 0)
    return out
