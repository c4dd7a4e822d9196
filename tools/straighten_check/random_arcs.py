"""Random jobs of arcs, and what each arc is by closed formulas."""
import math
from dataclasses import dataclass, field
from decimal import Decimal, localcontext

MILLION = 1_000_000
MM_PER_INCH = 25.4
PLANES = {"G17": "XYZ", "G18": "ZXY", "G19": "YZX"}  # first axis, second axis, axis across
CENTRES = {"X": "I", "Y": "J", "Z": "K"}
LARGEST_RADIUS = 200.0  # mm
TOLERANCES = (0.0005, 0.002, 0.01, 0.02, 0.1)
ARCS = 8  # in a job


@dataclass
class TrueArc:
    """An arc as its words say it, in the coordinates of the work, in mm: the axes of its plane, the places of its start and end, its
    centre, the direction (1 is counterclockwise) and the angle of its way, in radians; and its feed in nm per minute."""

    axes: str
    start: dict
    end: dict
    centre: tuple
    turn: int
    sweep: float
    feed: int


@dataclass
class ArcJob:
    """The lines of a job; its arcs, by the number of their line; the work's offset in nm; and the tolerance in mm."""

    tolerance: float
    offset: dict
    lines: list = field(default_factory=list)
    arcs: dict = field(default_factory=dict)


def some_job(chance):
    return JobMaker(chance).job()


class JobMaker:
    """Makes a job by chance. Places are kept in millionths of the job's unit, whole numbers, so that words say them exactly."""

    def __init__(self, chance):
        self.chance = chance
        self.is_inch, self.is_incremental = chance.random() < 0.4, chance.random() < 0.4
        self.has_absolute_centres = chance.random() < 0.2
        self.scale = MM_PER_INCH if self.is_inch else 1.0
        self.grain = 10 ** (6 - chance.randint(4 if self.is_inch else 3, 6))
        self.place, self.plane, self.code, self.feed = dict.fromkeys("XYZ", 0), "G17", None, None

    def job(self):
        offset = {axis: self.chance.randrange(-20_000_000, 20_000_000) for axis in "XYZ"}
        job = ArcJob(self.chance.choice(TOLERANCES), offset)
        job.lines.append("G10 L2 P1 " + " ".join(f"{axis}{self.spelled(offset[axis])}" for axis in "XYZ"))
        centres = "G90.1" if self.has_absolute_centres else "G91.1"
        job.lines.append(f"{'G20' if self.is_inch else 'G21'} G90 {centres}")
        self.place = {axis: self.coarse(self.chance.uniform(-50, 50)) for axis in "XYZ"}
        job.lines.append("G0 " + " ".join(f"{axis}{self.spelled(self.place[axis])}" for axis in "XYZ"))
        job.lines.append("G91" if self.is_incremental else "G90")
        for _ in range(ARCS):
            arc, line = self.arc()
            job.arcs[len(job.lines)] = arc
            job.lines.append(line)
        return job

    def coarse(self, value):
        """A value of the job's unit, in millionths, with as many decimals as the job has."""
        return round(value * MILLION / self.grain) * self.grain

    def arc(self):
        """An arc and its line."""
        words = self.some_modes()
        first, second, across = PLANES[self.plane]
        turn = -1 if self.code == "G2" else 1
        least = 60 * self.grain / MILLION
        radius = math.exp(self.chance.uniform(math.log(least), math.log(LARGEST_RADIUS / self.scale)))
        angle, is_full = self.chance.uniform(0, 2 * math.pi), self.chance.random() < 0.15
        sweep = 2 * math.pi if is_full else self.chance.uniform(0.1, 2 * math.pi - 0.1)
        way = (self.coarse(-radius * math.cos(angle)), self.coarse(-radius * math.sin(angle)))  # from the start to the centre
        start, end = dict(self.place), dict(self.place)
        if not is_full:
            cosine, sine = math.cos(turn * sweep), math.sin(turn * sweep)
            end[first] = self.coarse((start[first] + way[0] - way[0] * cosine + way[1] * sine) / MILLION)
            end[second] = self.coarse((start[second] + way[1] - way[0] * sine - way[1] * cosine) / MILLION)
        if self.chance.random() < 0.4:
            end[across] += self.coarse(self.chance.uniform(-30, 30) / self.scale)
        named = [axis for axis in "XYZ" if end[axis] != start[axis] or self.chance.random() < 0.5]
        words += [f"{axis}{self.spelled(end[axis] - (start[axis] if self.is_incremental else 0))}" for axis in named]
        if is_full or self.chance.random() < 0.5:
            centre = (start[first] + way[0], start[second] + way[1])
            base = centre if self.has_absolute_centres else way
            words += [f"{CENTRES[axis]}{self.spelled(value)}" for axis, value in zip((first, second), base)]
            centre = tuple(value / MILLION for value in centre)
        else:
            size = max(self.coarse(radius), self.least_radius(end[first] - start[first], end[second] - start[second]))
            words.append(f"R{self.spelled(size if sweep < math.pi else -size)}")
            centre, sweep = by_radius((start[first], start[second]), (end[first], end[second]), size, sweep < math.pi, turn)
        self.place = end
        places = ({axis: place[axis] / MILLION * self.scale for axis in "XYZ"} for place in (start, end))
        centre = tuple(value * self.scale for value in centre)
        return TrueArc(first + second + across, *places, centre, turn, sweep, self.feed), self.line(words)

    def least_radius(self, *chord):
        """The least radius for a chord: half of it, and in inches a little more, since there the nanometre that a board drops
        moves the centre of half a circle by hundreds."""
        half = math.isqrt(sum(length**2 for length in chord)) // 2 + 1
        return half + half // 500 if self.is_inch else half

    def some_modes(self):
        """The plane, the code and the feed of the next arc, and the words for what they change."""
        words, chance = [], self.chance
        if chance.random() < 0.5:
            self.plane = chance.choice([*PLANES])
            words.append(self.plane)
        code = self.code if self.code and chance.random() < 0.5 else chance.choice(("G2", "G3"))
        if code != self.code or chance.random() < 0.5:
            words.append(chance.choice((code, f"G0{code[1]}")))
        self.code = code
        if self.feed is None or chance.random() < 0.3:
            value = chance.randrange(1, 3_000) * 100_000
            words.append(f"F{self.spelled(value)}")
            self.feed = value * 254 // 10 if self.is_inch else value
        return words

    def spelled(self, millionths):
        """A number, in one of the ways in which it can be spelled."""
        text = f"{abs(millionths) // MILLION}.{abs(millionths) % MILLION:06}"
        keep = self.chance.randint(0, 6)
        while text[-1] == "0" and len(text.split(".")[1]) > keep:
            text = text[:-1]
        text = text.removeprefix("0") if self.chance.random() < 0.3 and text != "0." else text
        return ("-" if millionths < 0 else self.chance.choice(("", "", "+"))) + text

    def line(self, words):
        """A line of words, with blanks and a number or without, in small letters or capitals."""
        words = [f"N{self.chance.randrange(10_000)}", *words] if self.chance.random() < 0.3 else words
        text = self.chance.choice((" ", "")).join(words)
        text = text.lower() if self.chance.random() < 0.2 else text
        return text + self.chance.choice(("", "", " (a comment)", "; another"))


def by_radius(start, end, radius, is_minor, turn):
    """Centre and sweep of the arc of a radius, from whole numbers in 50 digits: the centre stands on the middle line of the chord,
    on its left where a minor arc turns counterclockwise."""
    with localcontext() as context:
        context.prec = 50
        chord = [Decimal(b - a) for a, b in zip(start, end)]
        length = (chord[0] ** 2 + chord[1] ** 2).sqrt()
        height = max(Decimal(radius) ** 2 - length**2 / 4, Decimal(0)).sqrt() * (turn if is_minor else -turn)
        middle = [Decimal(a + b) / 2 for a, b in zip(start, end)]
        centre = (middle[0] - chord[1] / length * height, middle[1] + chord[0] / length * height)
        half_angle = math.atan2(float(length / 2), float(abs(height)))
    return tuple(float(value) / MILLION for value in centre), 2 * half_angle if is_minor else 2 * math.pi - 2 * half_angle
