"""What the lines of a job do: answers and what is told, modes, offsets and settings, marks and moves."""
from dataclasses import dataclass
from typing import NamedTuple

from model.buffers import STANDARD
from model.lines import AXES, LONGEST, SYSTEMS, WHOLE, Line, Refused, cut, has_cancel, has_hand, kept_of, read_number
from model.motion import Limits, Script, nearest, to_nm, to_steps
from model.reports import NOTHING, Course, Left, Work

FARTHEST = 10_000 * 10**6  # in nm
OFFSETS = (*SYSTEMS, "G28", "G30", "G92")

# Default, least and greatest value of each setting, in thousandths; 10 and 20 are whole numbers.
SETTINGS = {
    10: (1_000, 0, 255_000),
    11: (10, 0, 10_000),
    20: (0, 0, 255_000),
    **{n: (250_000, 1_000, 10_000_000) for n in (100, 101, 102)},
    **{n: (500_000, 1_000, 1_000_000_000) for n in (110, 111, 112)},
    **{n: (10_000, 1_000, 1_000_000_000) for n in (120, 121, 122)},
    **{n: (200_000, 1_000, 10_000_000) for n in (130, 131, 132)},
}
WHOLE_SETTINGS = (10, 20)
SWITCH = 20  # a whole setting that is off or on
ALARM = ("ALARM:2", "[MSG:Reset to continue]")
BANNER = ("", "Grbl 1.1h ['$' for help]")
LOST = "ALARM:3"  # a reset has stopped a machine that may have moved
LOCKED = "[MSG:'$H'|'$X' to unlock]"


class Limited(Exception):
    """A line is stopped by a soft limit."""


def refuse_by(tests):
    """Refuses a line with the first error that holds."""
    for error, holds in tests:
        if holds:
            raise Refused(error)


def thousandths(value):
    return f"{'-' if value < 0 else ''}{abs(value) // 1000}.{abs(value) % 1000:03}"


@dataclass
class Run:
    """What a run leaves behind: its exit status; the texts of the console without reports, of the steps and of standard
    error; and the reports, each with the number of answers before it."""

    status: int
    console: str
    steps: str
    errors: str
    reports: list


class Kept(NamedTuple):
    """What a reset keeps: the settings, the offsets but for that of G92, how many lines were refused, and for how many events there is
    room; and whether it locks the machine."""

    settings: dict
    offsets: dict
    refused: int
    room: int
    is_locked: bool


class Machine:
    """Lines are answered in order, from a banner on; `console` has the lines of what is told, and the script what is asked of the
    motion."""

    def __init__(self, most_events, told, cuts=(), buffers=STANDARD, is_attended=False):
        self.modes = {"motion": "G0", "plane": "G17", "units": "G21", "distance": "G90", "system": "G54"}
        self.spindle, self.coolant, self.tool, self.feed, self.speed = "M5", "M9", 0, 0, 0
        self.offsets = {name: [0] * 3 for name in OFFSETS}
        self.position, self.position_steps = [0] * 3, [0] * 3
        self.settings = {n: default for n, (default, _, _) in SETTINGS.items()}
        self.script, self.number, self.refused = Script(most_events, buffers.blocks), 0, 0
        self.console, self.told, self.is_locked = [*BANNER], told, False
        self.cuts, self.has_jogged = list(cuts), False  # the cuts that are to come
        self.was_cut = False  # the next line is begun behind a cut, or where jogs are done
        self.under_way = ""  # the machine may be found in this state: "Run" or "Jog", or in none, since all is done
        self.has_moved = False  # a line has moved the machine, and none that settles is answered since
        self.left, self.work = self.leave(), NOTHING
        self.course = Course(self.left, buffers=buffers, is_attended=is_attended)

    def keep(self):
        """What a reset keeps, behind the last answered line."""
        return Kept(dict(self.settings), {**self.offsets, "G92": [0] * 3}, self.refused, self.script.room, self.is_locked)

    def open(self, kept, place, lines):
        """The machine opens behind a reset, where it stands at a place, in steps. So many lines were sent before."""
        self.settings, self.offsets, self.refused, self.is_locked = dict(kept.settings), kept.offsets, kept.refused, kept.is_locked
        self.position_steps, self.number = list(place), lines
        self.position = [to_nm(steps, self.settings[100 + axis]) for axis, steps in enumerate(place)]
        self.console += [LOCKED] if self.is_locked else []
        self.left = self.leave()
        self.course = Course(self.left, lines, self.course.buffers, self.course.is_attended)

    def answer_all(self, lines):
        """Answers lines, up to one that a soft limit stops."""
        for line in lines:
            self.answer(line)
            if self.script.is_halted:
                break

    def end(self, scanned, is_reset):
        """Nothing more is scanned than these lines."""
        self.script.has_hand = any(map(has_hand, scanned)) or (self.has_jogged and any(map(has_cancel, scanned)))
        self.script.is_reset = is_reset
        self.script.end()
        self.console.append("")

    def own_end(self):
        """The status of a run whose sending nothing else ends, and its text."""
        if self.script.is_halted:
            return 8, f"stopped: soft limit at line {self.number}\n"
        return (1, f"{self.refused} lines refused\n") if self.refused else (0, "")

    def answer(self, line):
        self.number += 1
        kept = kept_of(line) if line else line
        self.work = NOTHING
        if has_cancel(line) and not self.course.is_attended:
            self.was_cut |= self.leave_state("Jog")  # a 0x85 is obeyed before its line is begun, and behind all jogs before that
            self.left = self.leave()
        if kept:
            self.judge(kept)
            self.left = self.leave()
        else:
            self.console.append("ok")
        self.work = self.work._replace(stood=self.work.stood or self.was_cut)
        self.has_moved = not self.work.settles and (self.has_moved or self.work.moves > 0)
        self.course.add(line, len(kept) + 1, self.left, self.script.ticks, self.work)
        is_cut = bool(self.cuts) and self.cuts[0].number == self.number
        self.was_cut = is_cut and self.under_way == "Jog"
        if self.was_cut:
            self.cut_jogs(self.cuts.pop(0))

    def begin(self, line):
        """Begins a line that has no answer. Answers whether that may be."""
        told, refused, has_moved = len(self.console), self.refused, self.has_moved
        self.answer(line)
        self.has_moved |= has_moved or self.work.moves > 0  # also where it settles, since it is not answered
        self.refused = refused
        del self.console[told:]
        return not self.script.is_halted

    def drop(self, line):
        """A line that was sent is not begun."""
        self.number += 1
        self.course.add(line, len(kept_of(line)) + 1, self.left, self.script.ticks, NOTHING)

    def judge(self, kept):
        try:
            if len(kept) > LONGEST:
                raise Refused(11)
            if self.is_locked and (kept.startswith("$J") or not kept.startswith("$")):
                raise Refused(8 if kept.startswith("$") else 9)
            if kept.startswith("$"):
                self.do_system(kept)
            else:
                self.do_words(kept)
            self.console.append("ok")
        except Refused as refused:
            self.console.append(f"error:{refused}")
            self.refused += 1
        except Limited:
            self.console += ALARM
            self.script.is_halted = True

    def leave(self):
        """What the last line leaves for reports to tell."""
        offset = zip(self.offsets[self.modes["system"]], self.offsets["G92"])
        return Left(self.settings[10] // 1000, tuple(self.settings[100 + axis] for axis in range(3)),
                    tuple(nearest(sum(both), 1000) for both in offset), 0 if self.spindle == "M5" else self.speed,
                    self.under_way, self.is_locked)

    # ---- a machine that is found in motion

    def refuse_in(self, states, error):
        """A line is refused where the machine is found in some states. Where it may be, the console tells whether it was."""
        at = len(self.console)
        if self.under_way in states and self.told[at : at + 1] == [f"error:{error}"]:
            raise Refused(error)

    def leave_state(self, state):
        """A line is accepted that is not where the machine is found in this state: so all that may be under way in it is
        done. Answers whether any was."""
        if self.under_way != state:
            return False
        self.script.rest()
        self.under_way = ""
        return True

    # ---- lines that begin with `$`

    def do_system(self, kept):
        is_setting = kept[1:2] not in ("", *"$#CGHIJNRSX")
        if kept == "$#" or is_setting:
            self.refuse_in(("Run", "Jog"), 8)
        elif kept == "$$" or kept.startswith("$J"):
            self.refuse_in(("Run",), 8)
        if kept == "$$":
            self.console += [self.told_setting(n) for n in self.settings]
        elif kept == "$G":
            self.console.append(self.told_modes())
        elif kept == "$#":
            self.console += [f"[{name}:{self.told_place(place)}]" for name, place in self.offsets.items()]
            self.console += ["[TLO:0.000]", "[PRB:0.000,0.000,0.000:0]"]
        elif kept.startswith("$J="):
            self.jog(Line.read(kept[3:]))
        elif is_setting:
            self.set(kept)
        elif kept == "$X":
            self.console += ["[MSG:Caution: Unlocked]"] if self.is_locked else []
            self.is_locked = False
        else:
            raise Refused(3)

    def set(self, kept):
        number, at = read_number(kept, 1)
        if kept[at : at + 1] != "=":
            raise Refused(3)
        value, end = read_number(kept, at + 1)
        if end < len(kept) or number % WHOLE or not 0 <= number <= 255 * WHOLE:
            raise Refused(3)
        number //= WHOLE
        if value < 0:
            raise Refused(4)
        if number not in SETTINGS:
            raise Refused(3)
        value = value // WHOLE * 1000 if number in WHOLE_SETTINGS else value // 1000
        _, least, most = SETTINGS[number]
        if not least <= value <= most:
            raise Refused(3)
        self.settings[number] = min(value, 1000) if number == SWITCH else value

    def told_setting(self, n):
        value = self.settings[n]
        return f"${n}={value // 1000 if n in WHOLE_SETTINGS else thousandths(value)}"

    def told_modes(self):
        modes = [self.modes[group] for group in ("motion", "system", "plane", "units", "distance")]
        feed = (self.feed + 500_000) // 10**6
        return f"[GC:{' '.join(modes)} G94 {self.spindle} {self.coolant} T{self.tool} F{feed} S{self.speed}]"

    def told_place(self, place):
        return ",".join(thousandths(nearest(length, 1000)) for length in place)

    # ---- jogs

    def jog(self, line):
        """One move at a feed of its own, which changes no mode."""
        modes, lengths, named = self.read(line)
        self.test_jog(line, named)
        target = self.target_of(line, modes, named)
        self.test_places([target])
        if self.leaves_travel([target]):
            raise Refused(15)
        stood = self.leave_state("Run")
        moves = int(self.go(target, lengths["F"], True))
        self.has_jogged |= bool(moves)
        self.under_way = "Jog" if moves else self.under_way
        self.work = Work(moves, "Jog", stood=stood)

    def test_jog(self, line, named):
        tests = (
            (27, line.values.get("N", 0) // WHOLE > 10_000_000),
            (22, line.values.get("F", 0) == 0),
            (26, not named),
            (36, set("IJKLPRST") & set(line.values)),
            (16, set(line.codes) - {"G20", "G21", "G53", "G90", "G91"}),
        )
        refuse_by(tests)

    def cut_jogs(self, cut):
        """What is left of the jogs is dropped, and the position is where the machine has stopped. The next line is begun when
        that is over."""
        self.script.cut(cut)
        self.course.cut(cut)
        self.position_steps = list(cut.place)
        self.position = [to_nm(steps, self.settings[100 + axis]) for axis, steps in enumerate(cut.place)]
        self.under_way = ""
        self.left = self.leave()

    def fault_in_cuts(self):
        """What is wrong with the cuts, in words, or None."""
        if self.cuts:
            return f"the record {self.cuts[0].text!r} is in the steps, and no jog is under way behind that line"
        return self.course.fault_in_cuts()

    # ---- lines of G-code

    def read(self, line):
        """The modes of a line, its values as lengths, and those of the axes."""
        modes = {group: line.of(group, mode) for group, mode in self.modes.items()}
        lengths = dict(line.values)
        if modes["units"] == "G20":
            lengths = {letter: cut(value * 254, 10) for letter, value in lengths.items()}
        return modes, lengths, {AXES.index(letter): length for letter, length in lengths.items() if letter in AXES}

    def do_words(self, kept):
        self.refuse_in(("Jog",), 9)
        line = Line.read(kept)
        modes, lengths, named = self.read(line)
        feed = lengths.get("F", self.feed)
        self.test(line, modes, named, feed)
        target = self.target_of(line, modes, named)
        offsets = self.new_offsets(line, modes, named)
        ways = self.ways_of(line, modes, named, target, feed)
        self.test_places([place for place, _ in ways])
        self.test_places([place for name, place in offsets.items() if name not in ("G28", "G30")])
        stood = self.leave_state("Jog")
        if self.leaves_travel([place for place, _ in ways]):
            self.work = Work(stood=stood, halts=True)
            raise Limited
        self.feed = feed
        self.tool = line.values.get("T", self.tool * WHOLE) // WHOLE
        marks = self.turn(line)
        self.modes = modes
        self.offsets.update(offsets)
        moves = [self.go(place, rate) for place, rate in ways]
        if line.has("M0"):
            self.script.rest()
        if line.has("M2", "M30"):
            self.end_program()
        settles = line.has("M0", "M2", "M30") or (marks and not ways)
        self.under_way = "" if settles else "Run" if any(moves) else self.under_way
        self.work = Work(sum(moves), "Run", stood, settles, line.has("M0"), line.has("M2", "M30"))

    def test(self, line, modes, named, feed):
        values, taker, off = line.values, line.taker, modes["motion"] == "G80"
        g10, letter_l = taker == "G10", line.values.get("L")
        moves = taker is None and (named or line.has("G0", "G1"))
        tests = (
            (27, values.get("N", 0) // WHOLE > 10_000_000),
            (28, line.has("G4") and "P" not in values),
            (26, g10 and not named),
            (28, g10 and "P" not in values and "L" not in values),
            (29, g10 and values.get("P", 0) // WHOLE > 6),
            (20, g10 and letter_l not in (2 * WHOLE, 20 * WHOLE)),
            (20, g10 and letter_l == 2 * WHOLE and "R" in values),
            (26, taker == "G92" and not named),
            (30, line.has("G53") and off),
            (31, off and named),
            (22, moves and modes["motion"] == "G1" and feed == 0),
            (36, "P" in values and not line.has("G4") and not g10),
            (36, "L" in values and not g10),
            (36, set("IJKR") & set(values)),
        )
        refuse_by(tests)

    def test_places(self, places):
        if any(abs(length) > FARTHEST for place in places for length in place):
            raise Refused(33)

    def leaves_travel(self, places):
        """Whether soft limits are on, and one of these places is above 0, or below minus the travel, on some axis."""
        return self.settings[SWITCH] > 0 and any(
            not -self.settings[130 + axis] * 1000 <= length <= 0 for place in places for axis, length in enumerate(place))

    def target_of(self, line, modes, named):
        target = list(self.position)
        for axis, value in named.items():
            if line.has("G53"):
                target[axis] = value
            elif modes["distance"] == "G91":
                target[axis] += value
            else:
                target[axis] = value + self.offsets[modes["system"]][axis] + self.offsets["G92"][axis]
        return target

    def new_offsets(self, line, modes, named):
        """The offsets and stored points that a line sets."""
        if line.has("G10"):
            number = line.values.get("P", 0) // WHOLE
            name = SYSTEMS[number - 1] if number else modes["system"]
            from_position = line.values["L"] == 20 * WHOLE
            base = [a - b for a, b in zip(self.position, self.offsets["G92"])]
        elif line.has("G92"):
            name, from_position = "G92", True
            base = [a - b for a, b in zip(self.position, self.offsets[modes["system"]])]
        elif line.has("G92.1"):
            return {"G92": [0] * 3}
        else:
            return {code: list(self.position) for code in ("G28", "G30") if line.has(f"{code}.1")}
        place = list(self.offsets[name])
        for axis, value in named.items():
            place[axis] = base[axis] - value if from_position else value
        return {name: place}

    def ways_of(self, line, modes, named, target, feed):
        """The targets of a line's moves, each with its feed, or None for a rapid."""
        if line.has("G28", "G30"):
            stored = self.offsets[line.taker]
            if not named:
                return [(list(stored), None)]
            return [(target, None), ([stored[axis] if axis in named else target[axis] for axis in range(3)], None)]
        if line.has("G10", "G92") or not named:
            return []
        return [(target, None if modes["motion"] == "G0" else feed)]

    def turn(self, line):
        """Spindle, coolant and dwell. Answers whether there is any."""
        speed = line.values.get("S", self.speed * WHOLE) // WHOLE
        spindle, coolant = line.of("spindle", self.spindle), line.of("coolant", self.coolant)
        marks = []
        if spindle != self.spindle or (spindle != "M5" and speed != self.speed):
            marks.append(f"{spindle} {0 if spindle == 'M5' else speed}")
        if coolant != self.coolant:
            marks.append(f"{coolant} 0")
        if line.has("G4"):
            marks.append(f"D {line.values['P'] // 1000}")
        for mark in marks:
            self.script.mark(mark)
        self.spindle, self.coolant, self.speed = spindle, coolant, speed
        return bool(marks)

    def go(self, place, feed, is_jog=False):
        """Moves to a place. Answers whether that has steps."""
        limits = Limits(*([self.settings[first + axis] for axis in range(3)] for first in (100, 110, 120)),
                        self.settings[11])
        goal = [to_steps(length, per_mm) for length, per_mm in zip(place, limits.per_mm)]
        ways = [to - fro for fro, to in zip(self.position_steps, goal)]
        self.position, self.position_steps = place, goal
        return self.script.add(self.number, ways, feed, limits, is_jog)

    def end_program(self):
        """The machine comes to rest, what is on is turned off, and the end is told."""
        self.script.rest()
        if self.spindle != "M5":
            self.script.mark("M5 0")
        if self.coolant != "M9":
            self.script.mark("M9 0")
        self.console.append("[MSG:Pgm End]")
        self.spindle, self.coolant = "M5", "M9"
        self.modes.update({"motion": "G1", "plane": "G17", "distance": "G90", "system": "G54"})
