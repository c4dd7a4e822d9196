"""Colours by a value: the depth, or the speed."""
from drawing.frames import FRAME, number_text, text_at, tick_step, ticks

# From the highest Z to the deepest, and from the fastest to rest.
DEPTHS = ["#62b0e8", "#4b9bd8", "#3383c2", "#2868ab", "#2c4b91", "#3f317b", "#571c63"]
SPEEDS = ["#2166ac", "#35978f", "#8ab861", "#e0b13c", "#e2711d", "#b2182b"]
DEPTH_BINS, SPEED_BINS = 24, 12


class Scale:
    """So many bins, from the value at the top of the scale down."""

    def __init__(self, name, top, bottom, colours, bins):
        self.name, self.top, self.bottom, self.bins = name, top, bottom, bins
        self.colours = [mixed(colours, number / (bins - 1)) for number in range(bins)]

    def bin_of(self, value):
        if self.top == self.bottom:
            return self.bins // 2
        return max(0, min(int((self.top - value) / (self.top - self.bottom) * self.bins), self.bins - 1))

    def draw(self, left, frame):
        """The scale at the right of a frame."""
        height = min(frame.height - 30, 240)
        top = frame.top + 22
        out = [text_at(left, top - 12, self.name, "axis")]
        if self.top == self.bottom:
            out.append(f'<rect x="{left}" y="{top:.1f}" width="14" height="14" fill="{self.colours[self.bins // 2]}"/>')
            return out + [text_at(left + 22, top + 11, number_text(self.top, 0.001))]
        cell = height / self.bins
        for number, colour in enumerate(self.colours):
            out.append(f'<rect x="{left}" y="{top + number * cell:.2f}" width="14" height="{cell + 0.3:.2f}" fill="{colour}"/>')
        step = tick_step(self.top - self.bottom, 6)
        for value in ticks(self.bottom, self.top, step):
            y = top + (self.top - value) / (self.top - self.bottom) * height
            out.append(f'<path d="M{left + 14} {y:.1f}h5" stroke="{FRAME}"/>')
            out.append(text_at(left + 24, y + 4, number_text(value, step)))
        return out


def mixed(colours, part):
    """The colour so far along a row of colours."""
    place = part * (len(colours) - 1)
    at = min(int(place), len(colours) - 2)
    pair = [[int(colour[i:i + 2], 16) for i in (1, 3, 5)] for colour in colours[at:at + 2]]
    return "#" + "".join(f"{round(a + (b - a) * (place - at)):02x}" for a, b in zip(*pair))
