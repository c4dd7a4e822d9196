"""The speed of a run, over the time or over the length of the way."""
import math
from array import array
from itertools import groupby

from drawing.frames import (INK, LEFT, LINE, RAPID_FILL, REFUSED, RIGHT, WIDTH, Frame, Labels, joined_labels, text_at,
                            tick_step)
from texts.job import CUT, JOG, RAPID

HEIGHT = 200
SPEED_LINE, SPEED_FILL, SPEED_BAND, FEED_LINE, RAPID_EDGE = "#2a6f97", "#e3eff6", "#9cc4dc", "#d1600f", "#b9c0c7"
TIME_UNITS = (("h", 3600), ("min", 60), ("s", 1))
MOST_EXACT = 800  # moves that are drawn one by one


class Along:
    """Where each segment begins, over the time or the length, in the units of the axis; the last is the end. The unit of the
    time is that for so many seconds, or for the run's own."""

    def __init__(self, run, over_time, longest=None):
        if over_time:
            longest = run.seconds if longest is None else longest
            unit, seconds = next(it for it in TIME_UNITS if longest > 3 * it[1] or it == TIME_UNITS[-1])
            self.begins, self.label = array("d", (begin / seconds for begin in run.begins)), f"time, {unit}"
            self.marks = [seconds_at / seconds for seconds_at in run.mark_times]
        else:
            self.begins, self.label = lengths(run), "path length, mm"
            self.marks = [self.begins[mark.segment] for mark in run.track.marks]
        self.span = max(self.begins[-1], 1e-3)
        self.waits = {}  # behind so many segments, how long
        for mark in run.track.marks if over_time else ():
            if mark.milliseconds:
                self.waits[mark.segment] = self.waits.get(mark.segment, 0.0) + mark.milliseconds / 1000 / seconds

    def ends(self, segment):
        """Where a segment begins and ends; a wait behind it is none of it."""
        return self.begins[segment], self.begins[segment + 1] - self.waits.get(segment + 1, 0.0)


def lengths(run):
    """The length of the way to each segment, and to the end."""
    out, here = array("d", [0.0]), (0.0, 0.0, 0.0)
    for place in zip(*run.track.places):
        there = run.millimetres(place)
        out.append(out[-1] + math.dist(here, there))
        here = there
    return out


def way_length(run):
    """The length of the whole way."""
    track = run.track
    points = [run.point(move) for move in (*track.moves, len(track))]
    return sum(map(math.dist, points, points[1:]))


class Columns:
    """Of each column of pixels the least, the greatest and the mean speed of what is cut, the rapids' greatest speed, and the
    greatest feed."""

    def __init__(self, run, along, frame):
        count = int(frame.width)
        self.least, self.most = [math.inf] * count, [0.0] * count
        self.sums, self.weights = [0.0] * count, [0.0] * count
        self.rapids, self.feeds = [0.0] * count, [0.0] * count
        scale = count / (frame.x_range[1] - frame.x_range[0])
        for segment in range(len(run.track)):
            begin, end = (at * scale for at in along.ends(segment))
            self.add(run.kinds[segment] == RAPID, run.feeds[segment], begin, end, *run.speeds[segment:segment + 2])

    def add(self, is_rapid, feed, begin, end, speed_in, speed_out):
        """Adds a segment from one place of the axis, in columns, to another."""
        last = len(self.most) - 1
        change = (speed_out - speed_in) / (end - begin) if end > begin else 0.0
        at = begin
        while at < end:
            column = min(int(at), last)
            to = min(end, column + 1.0) if column < last else end
            pair = speed_in + change * (at - begin), speed_in + change * (to - begin)
            if is_rapid:
                self.rapids[column] = max(self.rapids[column], *pair)
            else:
                self.least[column], self.most[column] = min(self.least[column], *pair), max(self.most[column], *pair)
                self.sums[column] += sum(pair) / 2 * (to - at)
                self.weights[column] += to - at
                self.feeds[column] = max(self.feeds[column], feed)
            at = to

    def draw(self, frame):
        """Rapids as a grey ground, what is cut as a band with its mean, and the feed."""
        out, floor = [], frame.y(0)
        bars = {"rapid": "", "ground": "", "band": "", "mean": "", "feed": ""}
        for column, most in enumerate(self.most):
            x = f"{frame.left + column + 0.5:.1f}"
            if self.rapids[column]:
                bars["rapid"] += f"M{x} {floor:.1f}V{frame.y(min(self.rapids[column], frame.y_range[1])):.1f}"
            if self.weights[column]:
                least, mean = self.least[column], self.sums[column] / self.weights[column]
                bars["ground"] += f"M{x} {floor:.1f}V{frame.y(least):.1f}"
                bars["band"] += f"M{x} {frame.y(least):.1f}V{frame.y(most) - 0.5:.1f}"
                bars["mean"] += ("L" if column and self.weights[column - 1] else "M") + f"{x} {frame.y(mean):.1f}"
        for feed, columns in groupby(range(len(self.feeds)), key=self.feeds.__getitem__):
            columns = list(columns)
            if 0 < feed <= frame.y_range[1]:
                bars["feed"] += f"M{frame.left + columns[0]:.1f} {frame.y(feed):.1f}h{len(columns)}"
        for name, colour, width in (("rapid", RAPID_FILL, 1.1), ("ground", SPEED_FILL, 1.1), ("band", SPEED_BAND, 1.1),
                                    ("mean", SPEED_LINE, 1.2), ("feed", FEED_LINE, 1.0)):
            if bars[name]:
                out.append(f'<path d="{bars[name]}" fill="none" stroke="{colour}" stroke-width="{width}"/>')
        return out


def draw_exact(run, along, frame):
    """Each segment as it is: what is cut apart from rapids and jogs, and the feed."""
    lines, fills, feeds, floor, top = {}, {}, "", frame.y(0), frame.y_range[1]
    segments = range(len(run.track))
    for (kind, feed, _), row in groupby(segments, key=lambda it: (run.kinds[it], run.feeds[it], rest_before(run, along, it))):
        row = list(row)
        points = [(frame.x(at), min(run.speeds[segment + end], top))
                  for segment in row for end, at in enumerate(along.ends(segment))]
        shape = "L".join(pixel for pixel, _ in groupby(f"{x:.1f} {frame.y(speed):.1f}" for x, speed in thinned(points)))
        first, last = points[0][0], points[-1][0]
        is_cut = kind == CUT
        lines[is_cut] = lines.get(is_cut, "") + f"M{shape}"
        fills[is_cut] = fills.get(is_cut, "") + f"M{shape}V{floor:.1f}H{first:.1f}Z"
        if kind in (CUT, JOG) and 0 < feed <= frame.y_range[1]:
            feeds += f"M{first:.1f} {frame.y(feed):.1f}H{last:.1f}"
    out = [f'<path d="{fills[is_cut]}" fill="{SPEED_FILL if is_cut else RAPID_FILL}"/>' for is_cut in sorted(fills)]
    if False in lines:
        out.append(f'<path class="way" d="{lines[False]}" stroke="{RAPID_EDGE}" stroke-width="0.8"/>')
    if True in lines:
        out.append(f'<path class="way" d="{lines[True]}" stroke="{SPEED_LINE}" stroke-width="1.1"/>')
    return out + ([f'<path d="{feeds}" fill="none" stroke="{FEED_LINE}" stroke-width="0.9"/>'] if feeds else [])


def thinned(points):
    """Of the points in one half of a pixel the first, the least, the greatest and the last."""
    for _, column in groupby(points, key=lambda point: int(2 * point[0])):
        column = list(column)
        speeds = [speed for _, speed in column]
        for at in sorted({0, speeds.index(min(speeds)), speeds.index(max(speeds)), len(column) - 1}):
            yield column[at]


def rest_before(run, along, segment):
    """The last wait before a segment, by its place: what is parted by a wait is drawn apart."""
    return max((at for at in along.waits if at <= segment), default=0) if len(along.waits) <= 50 else 0


def speed_range(run):
    """Up to which speed the axis goes: over the fastest of what is cut and over the feeds, unless they are far above, and over
    the rapids unless these are; and how fast the rapids are where that is above."""
    fastest = {CUT: 0.0, RAPID: 0.0, JOG: 0.0}
    for kind, pair in zip(run.kinds, zip(run.speeds, run.speeds[1:])):
        fastest[kind] = max(fastest[kind], *pair)
    feeds = max((feed for kind, feed in zip(run.kinds, run.feeds) if kind != RAPID), default=0.0)
    cut = max(fastest[CUT], fastest[JOG])
    high = max(cut, min(feeds, 1.6 * max(cut, 1.0)))
    rapid = fastest[RAPID]
    is_over = 0 < 2.2 * high < rapid
    return (0.0, 1.08 * (1.5 * high if is_over else max(high, rapid, 1.0))), rapid if is_over else None


def draw_speed(run, top, over_time):
    """The frame, the speed, and the marks over it."""
    along = Along(run, over_time)
    y_range, rapid = speed_range(run)
    frame = Frame(LEFT, top, WIDTH - LEFT - RIGHT, HEIGHT, (0.0, along.span), y_range)
    steps = tick_step(along.span, 10), tick_step(frame.y_range[1], 5)
    exact = len(run.track.moves) <= MOST_EXACT
    drawn = draw_exact(run, along, frame) if exact else Columns(run, along, frame).draw(frame)
    grid = frame.draw(steps, along.label, "speed, mm/min")
    return grid + drawn + draw_legend(run, frame, exact, rapid) + draw_ticks(run, along, frame)


def draw_legend(run, frame, exact, rapid):
    """What the lines of the speed are."""
    left, out = frame.right + 14, []
    kinds = {run.kinds[move] for move in run.track.moves}
    uncut = "rapid, jog" if JOG in kinds else "rapid"
    rows = [(SPEED_LINE, 1.1, "cut" if run.job else "speed")]
    if not exact:
        rows = [(SPEED_LINE, 1.2, "cut, mean"), (SPEED_BAND, 7, "range")]
    if kinds - {CUT}:
        rows.append((RAPID_EDGE, 1.0, uncut) if exact else ("#d5d9de", 7, uncut))
    if rapid:
        rows.append(("none", 1, f"to {rapid:,.0f}"))
    if run.job:
        rows.append((FEED_LINE, 1.0, "feed"))
    for number, (colour, wide, name) in enumerate(rows):
        y = frame.top + 16 + LINE * number
        out.append(f'<path d="M{left} {y - 4:.1f}h20" stroke="{colour}" stroke-width="{wide}"/>')
        out.append(text_at(left + 27, y, name))
    return out


def draw_ticks(run, along, frame):
    """An alarm, refused lines and marks, as ticks at the top of the frame, and labels where there is room."""
    told = []
    if run.console and run.console.alarm:
        line, number = run.console.alarm
        told.append((along.begins[-1], f"line {line}: ALARM:{number}", REFUSED))
    told += [(along.begins[run.before_line(line)], f"line {line}: error:{number}", REFUSED) for line, number in run.refused()]
    told += [(at, mark.text, INK) for at, mark in zip(along.marks, run.track.marks)]
    groups, out, labels = {}, [], Labels(frame.left - 10, frame.right + RIGHT - 6)
    for at, text, colour in told:
        groups.setdefault(round(frame.x(at)), []).append((text, colour))
    for x, group in groups.items():
        colour = group[0][1]
        out.append(f'<path d="M{x} {frame.top - 6:.1f}v10" stroke="{colour}" stroke-width="1.2"/>')
        spots = [(x + side, frame.top - up, side < 0) for up in (8, 22) for side in (3, -3)]
        out.extend(labels.place(spots, joined_labels([text for text, _ in group]), colour))
    return out
