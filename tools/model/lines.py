"""What a line of a job says: its kept characters, its words, and the first error that the words alone have."""
import re
from dataclasses import dataclass, field

WHOLE = 1_000_000  # a value is kept in millionths
AXES = "XYZ"
LONGEST = 79  # so many kept characters at most
LONGEST_SENT = 127  # so many kept characters of a line at most are sent
RESET = "\x18"

GROUPS = {
    "not modal": "G4 G10 G28 G28.1 G30 G30.1 G53 G92 G92.1",
    "motion": "G0 G1 G80",
    "plane": "G17 G18 G19",
    "distance": "G90 G91",
    "arc distance": "G91.1",
    "feed mode": "G94",
    "units": "G20 G21",
    "cutter": "G40",
    "tool length": "G49",
    "system": "G54 G55 G56 G57 G58 G59",
    "path": "G61",
    "flow": "M0 M1 M2 M30",
    "spindle": "M3 M4 M5",
    "coolant": "M8 M9",
}
GROUP_OF = {code: group for group, codes in GROUPS.items() for code in codes.split()}
AXIS_CODES = {"G0", "G1", "G10", "G28", "G30", "G92"}
# Codes beside which others with a fraction are known: such a fraction is a code that is not served.
WITH_NEIGHBOURS = {28, 30, 49, 61, 90, 91, 92}
LETTERS = "FGIJKLMNPRSTXYZ"
SYSTEMS = ("G54", "G55", "G56", "G57", "G58", "G59")

# In a text of bytes, each a character: comments, blanks, the slash, and the realtime bytes.
DROPPED = re.compile(r"\([^)]*\)?|;.*|[\x00-\x20/?!~\x80-\xff]+", re.DOTALL)
COMMENT = re.compile(r"\([^)]*\)?|;.*", re.DOTALL)
# The realtime bytes that change how fast the machine goes, a hold and the changes of overrides; with those that ask for a
# report, and that cancel a jog; and all that is neither.
HAND = re.compile(r"[!\x90-\x97\x99-\x9d]")
REALTIME = re.compile(r"[?!\x85\x90-\x97\x99-\x9d]")
OTHERS = re.compile(r"[^?!\x85\x90-\x97\x99-\x9d]+")
CANCEL = "\x85"
WAITS = re.compile(r"[?\x85]")  # realtime bytes that wait for the answers to the lines before their own
NUMBER = re.compile(r"[+-]?([0-9]*\.[0-9]*|[0-9]+)")


class Refused(Exception):
    """A line is answered with an error of this number."""


def cut(value, by):
    """A quotient without its rest, toward zero."""
    return abs(value) // by * (1 if value >= 0 else -1)


def kept_of(line):
    """The kept characters of a line."""
    return DROPPED.sub("", line).upper()


def realtime_of(line):
    """The realtime bytes of a line that ask for a report, hold, cancel, or change overrides."""
    return OTHERS.sub("", COMMENT.sub("", line)) if REALTIME.search(line) else ""


def has_hand(line):
    """Whether a realtime byte of a line changes how fast the machine goes."""
    return bool(HAND.search(COMMENT.sub("", line)))


def has_cancel(line):
    """Whether a realtime byte of a line cancels a jog, and does nothing else."""
    return CANCEL in COMMENT.sub("", line)


def at_once(line):
    """What is scanned of a line while one before it has no answer: all before a byte that waits for that."""
    if WAITS.search(line):
        for gap in DROPPED.finditer(line):
            wait = None if gap[0][0] in "(;" else WAITS.search(gap[0])
            if wait:
                return line[: gap.start() + wait.start()]
    return line


def scan(line):
    """The parts of a line that its resets part, the last one with what is behind them; and whether that is too long to be sent: then
    it is what is scanned of it."""
    if len(line) <= LONGEST_SENT and RESET not in line:
        return [line], False
    parts, kept, begins, at = [], 0, 0, 0
    for gap in DROPPED.finditer(line):
        kept += gap.start() - at
        if kept > LONGEST_SENT:
            return [*parts, line[begins : gap.start()]], True
        at = gap.end()
        resets = [] if gap[0][0] in "(;" else [gap.start() + place for place, byte in enumerate(gap[0]) if byte == RESET]
        for reset in resets:
            parts.append(line[begins:reset])
            begins, kept = reset + 1, 0
    return [*parts, line[begins:]], kept + len(line) - at > LONGEST_SENT


def read_number(text, at):
    """The number in millionths that begins at a place, and the place behind it."""
    found = NUMBER.match(text, at)
    if not found or not any(c.isdigit() for c in found[0]):
        raise Refused(2)
    sign = -1 if found[0][0] == "-" else 1
    whole, _, part = found[0].lstrip("+-").partition(".")
    if int(whole or "0") >= 1_000_000_000:
        raise Refused(2)
    return sign * (int(whole or "0") * WHOLE + int((part + "000000")[:6])), found.end()


def words_of(kept):
    """The words of a line, as letters and millionths."""
    words, at = [], 0
    while at < len(kept):
        if not "A" <= kept[at] <= "Z":
            raise Refused(1)
        value, end = read_number(kept, at + 1)
        words.append((kept[at], value))
        at = end
    return words


def code_of(letter, value):
    """The code of a G or M word."""
    if letter == "M" and value % WHOLE:
        raise Refused(23)
    whole = value // WHOLE
    if letter == "G" and value >= 0 and value % WHOLE and f"G{whole}" in GROUP_OF and whole not in WITH_NEIGHBOURS:
        raise Refused(23)
    code = f"{letter}{whole}.{value % WHOLE:06}".rstrip("0").rstrip(".")
    if value < 0 or code not in GROUP_OF:
        raise Refused(20)
    return code


@dataclass
class Line:
    """The words of a line that pass each for itself: codes by their groups, and values by their letters."""

    codes: list = field(default_factory=list)
    values: dict = field(default_factory=dict)

    @classmethod
    def read(cls, kept):
        line = cls()
        for letter, value in words_of(kept):
            if letter in "GM":
                line.add_code(code_of(letter, value))
            else:
                line.add_value(letter, value)
        return line

    def add_code(self, code):
        if code in AXIS_CODES and AXIS_CODES & set(self.codes):
            raise Refused(24)
        if GROUP_OF[code] in (GROUP_OF[other] for other in self.codes):
            raise Refused(21)
        self.codes.append(code)

    def add_value(self, letter, value):
        if letter not in LETTERS:
            raise Refused(20)
        if letter == "T" and value > 255 * WHOLE:
            raise Refused(38)
        if letter in self.values:
            raise Refused(25)
        if letter in "FNPST" and value < 0:
            raise Refused(4)
        self.values[letter] = value

    def of(self, group, otherwise):
        """The code that the line has of a group."""
        return next((code for code in self.codes if GROUP_OF[code] == group), otherwise)

    def has(self, *codes):
        return any(code in self.codes for code in codes)

    @property
    def taker(self):
        """The code that takes the axis words in place of the motion."""
        return next((code for code in ("G10", "G28", "G30", "G92") if self.has(code)), None)
