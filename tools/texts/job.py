"""What the lines of a job ask for, as pictures and reports show it: rapids, jogs and cuts, feeds, settings, zeros of the work,
marks and sections. The rules are those of docs/DIALECT.md for lines that were accepted; a refused line changes nothing."""
import re
from array import array
from dataclasses import dataclass, field
from functools import lru_cache

from texts.console import Console
from texts.steps import AXES

WORD = re.compile(r"([A-Z])([+-]?(?:[0-9]+\.?[0-9]*|\.[0-9]+))")
SETTING = re.compile(r"\$\+?([0-9]+)=\+?([0-9]+\.?[0-9]*|\.[0-9]+)")
COMMENT = re.compile(rb"\(([^)]*)\)?|;(.*)", re.DOTALL)
DROPPED = bytes([*range(0x21), *b"/?!~", *range(0x80, 0x100)])
RESET = b"\x18"
MM_PER_INCH = 25.4
RAPID, CUT, JOG = range(3)
SYSTEMS = ("G54", "G55", "G56", "G57", "G58", "G59")
DEFAULTS = {11: 0.010, 20: 0.0, **dict.fromkeys((100, 101, 102), 250.0), **dict.fromkeys((110, 111, 112), 500.0),
            **dict.fromkeys((120, 121, 122), 10.0), **dict.fromkeys((130, 131, 132), 200.0)}
MARKING = {"G4", "M2", "M3", "M4", "M5", "M8", "M9", "M30"}  # codes that may record a mark
ZEROS = {"G10", "G92", "G92.1", "M2", "M30", *SYSTEMS}  # codes that may move the zero of the work


def kept_text(line):
    """What is kept of a line of the job."""
    if b"(" in line or b";" in line:
        line = COMMENT.sub(b"", line)
    return line.rpartition(RESET)[2].translate(None, DROPPED).decode("ascii").upper()


def resets_in(line):
    """How many resets a line of the job has."""
    return COMMENT.sub(b"", line).count(RESET) if RESET in line else 0


@lru_cache(maxsize=1000)
def code_of(letter, text):
    """A code as it is named in the dialect: G1 for G01."""
    return f"{letter}{float(text):g}"


def comment_of(line):
    """The first comment of a line that says something."""
    texts = (b" ".join((found[1] or found[2] or b"").split()) for found in COMMENT.finditer(line))
    return next((text.decode("utf-8", "replace") for text in texts if text), "")


@dataclass(frozen=True)
class Section:
    """A part of the job from a line on, and what it is called."""

    line: int
    name: str


@dataclass(frozen=True)
class ZeroChange:
    """What a line says of the zero of the work: its codes, its coordinate system, the P and L of G10, and the axes' values
    in mm."""

    line: int
    codes: frozenset
    system: str
    number: int
    by_position: bool
    values: dict


@dataclass
class Modes:
    """What the lines so far have left."""

    rapid: bool = True
    inch: bool = False
    feed: float = 0.0
    system: str = "G54"
    tool: float = 0.0
    spindle: str = "M5"
    speed: int = 0
    coolant: str = "M9"
    in_comments: bool = False
    tools: list = field(default_factory=list)


class Job:
    """Of each line, by its number from 1: whether its moves are rapids, jogs or cuts, and their feed in mm per minute. A cut is
    any other move at the feed, wherever the tool is. `marks` has the line and the name of each mark that
    is recorded."""

    def __init__(self, text, console=None):
        console = console or Console()
        self.lines = text.split(b"\n")
        if not self.lines[-1]:
            self.lines.pop()
        self.kinds, self.feeds = bytearray([RAPID]), array("d", [0.0])
        self.settings, self.sections, self.zero_changes = [], [], []
        self.marks = []
        self.modes = Modes()
        self.begins = [1] + [number for number, line in enumerate(self.lines, 1) for _ in range(resets_in(line))]
        console.align(self.begins)
        for number, line in enumerate(self.lines, 1):
            if RESET in line and resets_in(line):
                self.reset(number)
            kept = kept_text(line) if console.is_done(number) else ""
            self.take_line(number, line, kept)
        if not self.sections:
            self.sections = self.modes.tools

    def reset(self, number):
        """A reset comes before a line: the modes are those of the start, and G92 shifts the zero no more."""
        self.modes = Modes(tools=self.modes.tools)
        self.zero_changes.append(ZeroChange(number, frozenset(("G54", "G92.1")), "G54", 0, False, {}))

    def take_line(self, number, line, kept):
        """Takes a line, of which so much is kept and accepted."""
        modes = self.modes
        if kept.startswith("$"):
            self.take_system(number, kept)
        else:
            is_rapid = self.take_words(number, line, kept) if kept else modes.rapid
            self.kinds.append(RAPID if is_rapid else CUT)
            self.feeds.append(modes.feed)
        is_comment = not kept and bool(line.strip()) and not kept_text(line)
        if is_comment and not modes.in_comments and (name := comment_of(line)):
            self.sections.append(Section(number, name))
        modes.in_comments = is_comment

    def take_system(self, number, kept):
        """Takes a line that begins with `$`."""
        setting = SETTING.fullmatch(kept)
        if setting:
            self.settings.append((number, int(setting[1]), float(setting[2])))
        is_jog = kept.startswith("$J=")
        self.kinds.append(JOG if is_jog else RAPID)
        self.feeds.append(self.jog_feed(kept[3:]) if is_jog else self.modes.feed)

    def take_words(self, number, line, kept):
        """Takes the modes, the feed, the marks and the zeros of a line. Answers whether its moves are rapids."""
        modes, codes, values = self.modes, set(), {}
        for letter, text in WORD.findall(kept):
            if letter in "GM":
                codes.add(code_of(letter, text))
            else:
                values[letter] = float(text)
        if codes:
            self.take_codes(codes)
        if "F" in values:
            modes.feed = values["F"] * self.unit
        if "S" in values or not codes.isdisjoint(MARKING):
            self.take_marks(number, codes, values)
        if not codes.isdisjoint(ZEROS):
            self.take_zero(number, codes, values)
        if "T" in values or "M0" in codes:
            self.take_tool(number, line, values.get("T", modes.tool))
        is_rapid = modes.rapid or not codes.isdisjoint(("G28", "G30"))
        if "M2" in codes or "M30" in codes:
            modes.rapid, modes.system, modes.spindle, modes.coolant = False, "G54", "M5", "M9"
        return is_rapid

    @property
    def unit(self):
        return MM_PER_INCH if self.modes.inch else 1.0

    def take_codes(self, codes):
        """Takes the modes."""
        modes = self.modes
        if codes & {"G20", "G21"}:
            modes.inch = "G20" in codes
        if codes & {"G0", "G1", "G80"}:
            modes.rapid = "G0" in codes
        modes.system = next((code for code in codes if code in SYSTEMS), modes.system)

    def take_marks(self, number, codes, values):
        """Counts what a line records of the spindle, the coolant and waits."""
        modes = self.modes
        speed = int(values.get("S", modes.speed))
        spindle = next((code for code in ("M3", "M4", "M5") if code in codes), modes.spindle)
        coolant = next((code for code in ("M8", "M9") if code in codes), modes.coolant)
        is_turned = spindle != modes.spindle or (spindle != "M5" and speed != modes.speed)
        names = [(is_turned, spindle), (coolant != modes.coolant, coolant), ("G4" in codes, "D")]
        if codes & {"M2", "M30"}:
            names += [(spindle != "M5", "M5"), (coolant != "M9", "M9")]
        self.marks.extend((number, name) for is_told, name in names if is_told)
        modes.speed, modes.spindle, modes.coolant = speed, spindle, coolant

    def take_zero(self, number, codes, values):
        """Keeps what a line says of the zero of the work."""
        axes = {AXES.index(letter): value * self.unit for letter, value in values.items() if letter in AXES}
        by_position = "G92" in codes or values.get("L") == 20.0
        kept = frozenset(codes & ZEROS)
        self.zero_changes.append(ZeroChange(number, kept, self.modes.system, int(values.get("P", 0)), by_position, axes))

    def take_tool(self, number, line, tool):
        """A section may begin where the tool is changed, or the machine is held for that."""
        name = comment_of(line) or (f"tool {tool:g}" if tool != self.modes.tool else "")
        if name:
            self.modes.tools.append(Section(number, name))
        self.modes.tool = tool

    def jog_feed(self, kept):
        """The feed of a jog, by its words: its own, in its own units. It changes no mode."""
        words = WORD.findall(kept)
        codes = {code_of(letter, text) for letter, text in words if letter == "G"}
        in_inches = "G20" in codes or (self.modes.inch and "G21" not in codes)
        return sum(float(text) for letter, text in words if letter == "F") * (MM_PER_INCH if in_inches else 1.0)

    def kind_of(self, line):
        return self.kinds[line] if line < len(self.kinds) else CUT

    def feed_of(self, line):
        return self.feeds[line] if line < len(self.feeds) else 0.0

    def text_of(self, line):
        """A line as it is written."""
        return self.lines[line - 1].decode("utf-8", "replace").strip() if line <= len(self.lines) else ""

    def value_before(self, line, number):
        """What a setting is set to before a line, or None where the job does not set it."""
        return next((value for at, n, value in reversed(self.settings) if at < line and n == number), None)

    def setting_before(self, line, number):
        """What a setting is before a line."""
        value = self.value_before(line, number)
        return DEFAULTS[number] if value is None else value
