"""Line by line from a CAM program's text to the dialect: what is right stays, what can be said otherwise is, what can't is refused."""
import re
from collections import Counter
from dataclasses import dataclass, field, replace

from straighten_lib.arcs import Arc, Turn, centre_by_radius
from straighten_lib.cycles import DRILLING, Cycle, move
from straighten_lib.lines import LONGEST, MILLION, Refused, Unfit, code_word, cut_line, kept_length, read_words, shortened, written
from straighten_lib.places import AXES, AXIS_CODES, NANOMETRES, Modes, Places

GROUPS = (
    "G0 G1 G2 G3 G80 " + " ".join(DRILLING),
    "G17 G18 G19", "G90 G91", "G90.1 G91.1", "G94", "G20 G21", "G40", "G49 G43", "G54 G55 G56 G57 G58 G59", "G61 G61.1 G64",
    "G97", "G98 G99", "M0 M1 M2 M30", "M3 M4 M5", "M8 M9", "M6", "M7", "M48", "G4 G10 G28 G28.1 G30 G30.1 G53 G92 G92.1",
)
GROUP_OF = {code: group for group, codes in enumerate(GROUPS) for code in codes.split()}
MOTIONS = GROUPS[0].split()
STRAIGHT = ("G0", "G1", "G80")
PLACING = "XYZIJKR"  # letters that ask for a motion
TURNS = {"G2": Turn.CLOCKWISE, "G3": Turn.COUNTERCLOCKWISE}
CENTRE_OF = {"X": "I", "Y": "J", "Z": "K"}
LETTERS = "FGIJKLMNPRSTXYZ"
# Codes that are left out, each with the letters that are left out with it.
LEFT_OUT = {"G43": "H", "G49": "H", "G40": "D", "G61.1": "", "G64": "PQ", "G90.1": "", "G97": "", "G98": "", "G99": "", "M7": "", "M48": ""}
STAYING = ("G49", "G40")  # of these, only the letters are left out
AT_THE_END = ("M0", "M1", "M2", "M30")  # are done behind the motion of their line
REASONS = {
    "G41": "cutter compensation", "G42": "cutter compensation", "G43.1": "a tool length that the job sets", "G5": "a spline",
    "G5.1": "a spline", "G10": "a G10 other than L2 and L20", "G52": "a local coordinate system", "G74": "tapping", "G76": "a cycle",
    "G84": "tapping", "G86": "a cycle", "G87": "a cycle", "G88": "a cycle", "G93": "feed as inverse time", "G95": "feed per turn",
    "G96": "constant surface speed", "G33": "threading", "G38.2": "probing", "M98": "a subroutine", "M99": "a subroutine",
}
PROGRAM_NUMBER = re.compile(r"[O:][0-9]+")
PROGRAM_NAME = re.compile(r"[A-Z0-9_]*")
MOST_TOOL, MOST_LINE_NUMBER = 255 * MILLION, 10_000_001 * MILLION - 1
ARCS = "arcs, as straight moves"
# Written places lie on a grid, so a chord's end is up to so many mm beside the arc.
GRID_SLACK = 0.0001


@dataclass(frozen=True)
class Options:
    """What the caller asks for: how far in mm a chord may be from its arc, whether tool changes stay as pauses, and more codes that are
    left out."""

    tolerance: float = 0.002
    keeps_tool_changes: bool = True
    left_out: frozenset = frozenset()


@dataclass
class Straightener:
    """Rewrites one line after the other. `changes` counts what was changed, by kind."""

    options: Options = Options()
    modes: Modes = field(default_factory=Modes)
    places: Places = field(default_factory=Places)
    cycle: Cycle = None
    changes: Counter = field(default_factory=Counter)
    left_out: Counter = field(default_factory=Counter)
    chords: int = 0

    def rewrite(self, text):
        """The texts of the lines that stand for a line. One that is right is its own text. Raises Refused."""
        line = cut_line(text)
        if line.kept.startswith("$"):
            self.pass_system_line(line.kept)
            return [text]
        kept, notes = self.without_names(line.kept)
        words = read_words(kept)
        lines, notes = self.rewrite_words(words, notes)
        self.changes["block deletes, carried out as Grbl does"] += text.lstrip().startswith("/")
        is_right = kept == line.kept and lines == [words] and not notes and not line.has_nested
        if is_right and len(kept) <= LONGEST:
            return [text]
        self.changes["comments with brackets inside, now square"] += line.has_nested
        lines = [self.fitted(each) for each in lines]
        first = written(lines[0], (*notes, *line.comments), line.realtime)
        return [each for each in (first, *map(written, lines[1:])) if each]

    def pass_system_line(self, kept):
        """A jog moves the machine; other lines that begin with $ do not."""
        if kept.startswith("$J="):
            codes, values = parted(read_words(kept[3:]))
            modes = replace(self.modes)
            for code in codes:
                modes.take(code)
            self.places.position = self.places.target(modes, values, "G53" in codes)

    def without_names(self, kept):
        """What is kept without percent signs and program numbers, and comments for what was left out."""
        if kept.startswith("%"):
            if not PROGRAM_NAME.fullmatch(kept[1:]):
                raise Refused("more than a name behind %")
            self.changes["percent signs, left out"] += 1
            return "", [f"({kept[1:]})"] if kept[1:] else []
        number = PROGRAM_NUMBER.match(kept)
        if not number or len(number[0]) < len(kept) and kept[number.end()] not in "GMNT":
            return kept, []
        self.changes["program numbers, as comments"] += 1
        return kept[number.end() :], [f"({number[0]})"]

    def rewrite_words(self, words, notes):
        """The words of each line that stands for these, and the comments of the first."""
        codes, values = parted(words)
        for code in codes:
            self.modes.take(code)
        self.modes.tool = values.get("T", self.modes.tool)
        without = self.left_out_of(words)
        words = [each for each in words if each not in without]
        test_words(words)
        self.modes.feed = values.get("F", self.modes.feed)
        if without := [each for each in without if each.code not in ("G98", "G99") or not self.drills(codes)]:
            notes = [*notes, f"(without {' '.join(each.text for each in without)})"]
            self.left_out.update(each.code if each.letter in "GM" else each.letter for each in without)
        first, words, note = self.part_tool_change(words)
        lines = self.rewrite_motion(words) if words or not first else []
        self.take_ends(codes)
        return ([first] if first else []) + lines, notes + note

    def drills(self, codes):
        """Whether a line of these codes belongs to a drilling cycle."""
        motion = next((code for code in codes if code in MOTIONS), self.modes.motion)
        return motion in DRILLING

    def left_out_of(self, words):
        """Those of some words that the dialect has not, and the job can do without."""
        codes, _ = parted(words)
        letters = "".join(LEFT_OUT.get(code, "") for code in codes)
        letters = letters.replace("P", "") if {"G4", "G10"} & set(codes) else letters
        letters = {*letters, *self.options.left_out}
        idle = {"G80"} if sum(code in MOTIONS for code in codes) > 1 else set()
        out = {*LEFT_OUT, *self.options.left_out, *idle} - set(STAYING)
        return [each for each in words if each.code in out or each.letter in letters or is_too_large(each)]

    def part_tool_change(self, words):
        """The words of a pause in place of a tool change, the words behind it, and its comment."""
        codes, _ = parted(words)
        if "M6" not in codes:
            return [], words, []
        rest = [each for each in words if each.code != "M6"]
        if not self.options.keeps_tool_changes:
            self.changes["tool changes, left out"] += 1
            return [], rest, ["(without M6)"]
        self.changes["tool changes, as pauses (M5 M0)"] += 1
        first = [each for each in rest if each.letter in "NT" or each.code == "M5"]
        later = [each for each in rest if each not in first]
        if "M5" not in codes:
            first.append(code_word("M5"))
        return first + [code_word("M0")], later, [f"(M6: tool {self.modes.tool // MILLION})"]

    # ---- the motion of a line

    def rewrite_motion(self, words):
        """The lines of a line's motion. Other words stay on the first; pauses and ends come behind the last."""
        codes, values = parted(words)
        named = next((code for code in codes if code in MOTIONS), None)
        taker = next((code for code in codes if code in AXIS_CODES), None)
        motion = named or self.modes.motion
        moves = not taker and bool(named or set(values) & set(PLACING))
        self.test_motion(codes, values, motion, named, moves)
        self.begin_motion(motion, named)
        if taker:
            self.places.take_offsets(codes, self.modes, values)
            return self.rewrite_behind_g80(words) if motion == "G80" and set(AXES) & set(values) else [words]
        elif moves and motion in TURNS:
            return self.rewrite_arc(words, values, TURNS[motion])
        elif moves and motion in DRILLING:
            return self.rewrite_cycle(words, values)
        else:
            self.move_straight(codes, values)
        return [words]

    def test_motion(self, codes, values, motion, named, moves):
        """Raises Unfit for words that do not fit the motion of their line."""
        if motion not in STRAIGHT and (named or moves) and (alone := [code for code in codes if code in GROUPS[-1].split()]):
            raise Unfit(f"{alone[0]} with {motion}")
        if motion == "G80" and ("G53" in codes or moves and set(AXES) & set(values)):
            raise Unfit("an axis word or G53 behind G80 (error:30, error:31)")
        if motion not in ("G0", "G80") and moves and self.modes.feed == 0:
            raise Unfit("no feed is set (error:22)")
        used = {*"IJKR"} if motion in TURNS and moves else {*"RPQL"} if motion in DRILLING and moves else set()
        used |= {*"PL"} if "G10" in codes else {"P"} if "G4" in codes else set()
        if unused := [letter for letter in values if letter in "IJKRPQL" and letter not in used]:
            raise Unfit(f"{unused[0]} belongs to no code of the line (error:36)")

    def begin_motion(self, motion, named):
        """Takes the motion mode of a line. A drilling cycle begins at the height where the machine is."""
        if named in DRILLING:
            before = self.cycle or Cycle(named, self.height())
            self.cycle = Cycle(named, before.start, before.words)
        elif named:
            self.cycle = None
        self.modes.motion = motion

    def rewrite_behind_g80(self, words):
        """Behind a G80 no code has axis words, not even those that are no motion: a G0 of its own comes before."""
        self.modes.motion = "G0"
        self.changes["G0, before axis words behind a G80"] += 1
        return [[code_word("G0")], [each for each in words if each.code != "G80"]]

    def height(self):
        """The position on Z in the coordinates of the work, in millionths."""
        return self.modes.units.value_at(self.places.in_work(self.modes, "Z"))

    def move_straight(self, codes, values):
        target = self.places.target(self.modes, values, "G53" in codes)
        self.places.take_offsets([code for code in codes if code not in AXIS_CODES], self.modes, {})
        self.places.position = target

    def rewrite_cycle(self, words, values):
        steps = self.cycle.steps(self.modes, self.height(), values)
        self.places.follow(self.modes, [{each.letter: each.value for each in step if each.letter in AXES} for step in steps])
        self.changes["drilled holes, as single moves"] += 1
        return merged(words, without_repeats(steps), "XYZRPQL")

    def rewrite_arc(self, words, values, turn):
        if not set(PLACING) & set(values):
            self.left_out.update(each.code for each in words if each.code in TURNS)
            return [[each for each in words if each.code not in TURNS]]
        arc = self.arc_of(values, turn)
        arc.test()
        places = self.chord_places(arc, values)
        self.places.follow(self.modes, places)
        self.changes[ARCS] += 1
        self.chords += len(places)
        steps = without_repeats([move("G1", each) for each in places])
        if not self.modes.is_incremental:
            steps[-1] = with_spelling(steps[-1], words)
        return merged(words, steps, PLACING)

    def arc_of(self, values, turn):
        """The arc that a line's words give, in the coordinates of the work."""
        plane, target = self.modes.plane, self.places.target(self.modes, values)
        axes = (plane.first, plane.second)
        start = complex(*(self.places.in_work(self.modes, axis) / NANOMETRES for axis in axes))
        end = complex(*((target[axis] - self.places.offset(self.modes, axis)) / NANOMETRES for axis in axes))
        centres = [CENTRE_OF[axis] for axis in axes]
        given = [letter for letter in centres if letter in values]
        if "R" in values and given:
            raise Unfit("an arc with a centre and a radius")
        if "R" in values:
            radius = self.modes.units.nanometres(values["R"]) / NANOMETRES
            return Arc(start, end, centre_by_radius(start, end, radius, turn), turn)
        if not given or self.modes.has_absolute_centres and len(given) < 2:
            raise Unfit("an arc without its centre or radius (error:35)")
        centre = complex(*(self.modes.units.nanometres(values.get(letter, 0)) / NANOMETRES for letter in centres))
        return Arc(start, end, centre if self.modes.has_absolute_centres else start + centre, turn)

    def chord_places(self, arc, values):
        """The values, in millionths, of each straight move that stands for an arc. The last ends where the line says."""
        plane, count = self.modes.plane, arc.chord_count(self.options.tolerance - GRID_SLACK)
        across = plane.across if plane.across in values else None
        start = {axis: self.places.in_work(self.modes, axis) for axis in AXES}
        climb = self.places.target(self.modes, values)[plane.across] - self.places.position[plane.across]
        places = []
        for share, point in arc.points(count):
            place = {plane.first: point.real * NANOMETRES, plane.second: point.imag * NANOMETRES}
            places.append(place | ({across: start[across] + climb * share} if across else {}))
        named = [axis for axis in AXES if axis in (plane.first, plane.second, across)]
        if self.modes.is_incremental:
            return self.differences(places, start, values, named)
        units = self.modes.units
        last = {axis: values.get(axis, units.value_at(start[axis])) for axis in named}
        return [{axis: units.on_grid(place[axis]) for axis in named} for place in places] + [last]

    def differences(self, places, start, values, named):
        """The same in G91: each value is the way from the place before, and all together are the line's own."""
        done, ways = dict.fromkeys(named, 0), []
        for place in places:
            reached = {axis: self.modes.units.on_grid(place[axis] - start[axis]) for axis in named}
            ways.append({axis: reached[axis] - done[axis] for axis in named})
            done = reached
        return ways + [{axis: values.get(axis, 0) - done[axis] for axis in named}]

    def take_ends(self, codes):
        if {"M2", "M30"} & set(codes):
            self.modes.end_program()
            self.cycle = None

    def fitted(self, words):
        """The words of a line in few enough characters."""
        if kept_length(words) <= LONGEST:
            return words
        self.changes["long lines, with shorter numbers"] += 1
        if kept_length(shorter := shortened(words)) > LONGEST:
            raise Refused("more than 79 characters (error:11)")
        return shorter


def parted(words):
    """The codes of some words, in order, and the values of the other letters."""
    codes = [each.code for each in words if each.letter in "GM"]
    return codes, {each.letter: each.value for each in words if each.letter not in "GM"}


def is_too_large(each):
    """Whether a word is a tool or a line number that the dialect refuses."""
    return each.letter == "T" and each.value > MOST_TOOL or each.letter == "N" and each.value > MOST_LINE_NUMBER


def test_words(words):
    """Raises Refused for words that the dialect has not."""
    seen = set()
    for each in words:
        is_code = each.letter in "GM"
        if is_code and each.code not in GROUP_OF:
            reason = REASONS.get(each.code)
            raise Refused(f"{each.text}{f', {reason},' if reason else ''} is not served")
        if not is_code and each.letter not in LETTERS + "Q":
            raise Refused(f"the letter {each.letter} is not served")
        key = GROUP_OF[each.code] if is_code else each.letter
        if key in seen:
            raise Refused(f"{each.text} is the second of its kind in the line")
        seen.add(key)
    test_company(*parted(words))


def test_company(codes, values):
    """Raises Refused for a code without the words that it needs."""
    if negative := [letter for letter in "FNPST" if values.get(letter, 0) < 0]:
        raise Refused(f"{negative[0]} is below 0 (error:4)")
    if "G4" in codes and "P" not in values:
        raise Refused("G4 without P")
    if "G10" in codes and values.get("L") not in (2 * MILLION, 20 * MILLION):
        raise Refused(f"{REASONS['G10']} is not served")


def merged(words, steps, letters):
    """The first step in the place of a line's motion, and the others; pauses and ends of programs come last."""
    is_motion = [each.code in MOTIONS or each.letter in letters for each in words]
    at = is_motion.index(True)
    before = [each for each, motion in zip(words[:at], is_motion) if not motion]
    behind = [each for each, motion in zip(words[at:], is_motion[at:]) if not motion]
    ends = [each for each in before + behind if each.code in AT_THE_END]
    before, behind = ([each for each in part if each not in ends] for part in (before, behind))
    lines = [before + steps[0] + behind] + steps[1:]
    return lines[:-1] + [lines[-1] + ends]


def without_repeats(steps):
    """Steps without a motion code that the one before has too. A dwell leaves the motion code as it is."""
    last, lines = None, []
    for step in steps:
        code = step[0].code
        lines.append(step[1:] if code == last else step)
        last = last if code == "G4" else code
    return lines


def with_spelling(step, words):
    """A step with the words of its line, where they say the same."""
    own = {(each.letter, each.value): each for each in words}
    return [own.get((each.letter, each.value), each) for each in step]
