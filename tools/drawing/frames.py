"""The picture's measures, its frames with two axes, and labels that keep clear of each other. All lengths are in pixels."""
import math
from xml.sax.saxutils import escape

WIDTH, LEFT, RIGHT, LINE = 1020, 76, 124, 18
INK, FADED, GRID, FRAME = "#22272e", "#6a737d", "#e8eaed", "#a9b1ba"
RAPID_LINE, RAPID_FILL = "#8b949e", "#eef0f2"
REFUSED, ZERO, SLOW = "#c62828", "#1a7f37", "#8250df"
STYLE = """text{font-family:'Helvetica Neue',Helvetica,Arial,'DejaVu Sans',sans-serif;font-size:12px;fill:%s}
.title{font-size:20px;font-weight:600}.faded{fill:%s}.refused{fill:%s}.axis{font-size:13px}
.mark{font-size:11px;paint-order:stroke;stroke:#fff;stroke-width:3px;stroke-linejoin:round}
.way{fill:none;stroke-linecap:round;stroke-linejoin:round}
.rapid{fill:none;stroke:%s;stroke-width:0.8;stroke-dasharray:4 3}""" % (INK, FADED, REFUSED, RAPID_LINE)


def tick_step(span, count):
    """A step of 1, 2 or 5 times a power of ten that cuts the span into about so many parts."""
    rough = span / max(count, 1)
    power = 10.0 ** math.floor(math.log10(rough))
    return next(power * m for m in (1, 2, 5, 10) if power * m >= rough * 0.999)


def ticks(low, high, step):
    """The multiples of the step from low to high."""
    return [k * step for k in range(math.ceil(low / step - 1e-9), math.floor(high / step + 1e-9) + 1)]


def axis_step(limits, pixels):
    """The step of an axis of so many pixels, such that at least two of its multiples are on it."""
    count = max(pixels / 68, 2.0)
    while len(ticks(*limits, step := tick_step(limits[1] - limits[0], count))) < 2:
        count *= 1.5
    return step


def number_text(value, step):
    """A tick's number, with the decimals that its step needs."""
    decimals = max(0, -math.floor(math.log10(step) + 1e-9))
    text = f"{value + 0.0:,.{decimals}f}"
    return text.replace("-", "\u2212") if value < 0 else text.replace("-", "")


def text_at(x, y, text, kind="", anchor="start"):
    """A line of text."""
    kind = f' class="{kind}"' if kind else ""
    anchor = f' text-anchor="{anchor}"' if anchor != "start" else ""
    return f'<text{kind} x="{x:.1f}" y="{y:.1f}"{anchor}>{escape(text)}</text>'


class Frame:
    """A part of the picture with two axes."""

    def __init__(self, left, top, width, height, x_range, y_range):
        self.left, self.top, self.width, self.height = left, top, width, height
        self.x_range, self.y_range = x_range, y_range

    @property
    def right(self):
        return self.left + self.width

    @property
    def bottom(self):
        return self.top + self.height

    @property
    def x_scale(self):
        return self.width / (self.x_range[1] - self.x_range[0])

    @property
    def y_scale(self):
        return self.height / (self.y_range[1] - self.y_range[0])

    def x(self, value):
        return self.left + (value - self.x_range[0]) * self.x_scale

    def y(self, value):
        return self.bottom - (value - self.y_range[0]) * self.y_scale

    def has(self, x, y):
        """Whether a place in its own units is inside."""
        return self.x_range[0] <= x <= self.x_range[1] and self.y_range[0] <= y <= self.y_range[1]

    def draw(self, steps, x_label, y_label):
        """Grid, frame, numbers and names of the axes."""
        (x_step, y_step), out = steps, []
        for value in ticks(*self.x_range, x_step):
            x = self.x(value)
            out.append(f'<path d="M{x:.1f} {self.top:.1f}V{self.bottom:.1f}" stroke="{GRID}"/>')
            out.append(text_at(x, self.bottom + 18, number_text(value, x_step), anchor="middle"))
        for value in ticks(*self.y_range, y_step):
            y = self.y(value)
            out.append(f'<path d="M{self.left:.1f} {y:.1f}H{self.right:.1f}" stroke="{GRID}"/>')
            out.append(text_at(self.left - 9, y + 4, number_text(value, y_step), anchor="end"))
        out.append(f'<rect x="{self.left:.1f}" y="{self.top:.1f}" width="{self.width:.1f}" height="{self.height:.1f}" '
                   f'fill="none" stroke="{FRAME}"/>')
        if x_label:
            out.append(text_at(self.left + self.width / 2, self.bottom + 38, x_label, "axis", "middle"))
        if y_label:
            y = self.top + self.height / 2
            out.append(f'<text class="axis" text-anchor="middle" transform="translate({self.left - 54:.1f} {y:.1f}) '
                       f'rotate(-90)">{escape(y_label)}</text>')
        return out


def label_width(text):
    return 6.2 * len(text) + 6


class Labels:
    """Labels that keep clear of each other and between two ends: one that finds no room is left out, and its mark stays."""

    def __init__(self, left, right):
        self.boxes, self.left, self.right = [], left, right

    def place(self, spots, text, colour=INK):
        """The label's element at the first of the spots, as (x, y, to the left), that has room, or none."""
        width = label_width(text)
        for x, y, is_left in spots:
            box = (x - width if is_left else x, y - 11, x if is_left else x + width, y + 3)
            if box[0] >= self.left and box[2] <= self.right and not any(overlap(box, other) for other in self.boxes):
                self.boxes.append(box)
                anchor = "end" if is_left else "start"
                return [f'<text class="mark" x="{x:.1f}" y="{y:.1f}" text-anchor="{anchor}" style="fill:{colour}">'
                        f'{escape(text)}</text>']
        return []


def overlap(a, b):
    """Whether two boxes, as left, top, right and bottom, have room in common."""
    return a[0] < b[2] and b[0] < a[2] and a[1] < b[3] and b[1] < a[3]


def joined_labels(labels):
    """Labels of one place in one text, in their order, each once."""
    labels = list(dict.fromkeys(labels))
    return ", ".join(labels[:4]) + (", \u2026" if len(labels) > 4 else "")


def counted(count, name):
    """So many of a thing."""
    return f"{count:,} {name if count == 1 else name + 's'}"


def time_text(seconds):
    """A time, as hours, minutes and seconds."""
    minutes, rest = divmod(round(seconds), 60)
    hours, minutes = divmod(minutes, 60)
    if hours:
        return f"{hours} h {minutes} min"
    return f"{minutes} min {rest} s" if minutes else f"{seconds:.1f} s"
