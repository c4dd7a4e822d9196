"""A run, epoch by epoch: resets part the job, the console and the steps, and what is between two of them is judged by itself."""
from dataclasses import dataclass
from typing import NamedTuple, Optional

from model.buffers import STANDARD
from model.cuts import EVENTS, cuts_of
from model.lines import LONGEST_SENT, realtime_of, scan
from model.machine import ALARM, BANNER, LOST, Machine, Run
from model.reports import is_answer

LARGEST_JOB = 16_777_216  # bytes
LARGEST_READ = 4_096  # bytes
GREETING = "\r\n".join([*BANNER, ""])


class Sent(NamedTuple):
    """The lines of a job that are sent in an epoch, and what is scanned behind them; and whether a `?` stands before the reset in the line
    that the epoch begins with."""

    lines: list
    unsent: str
    has_asked: bool

    @property
    def scanned(self):
        return [*self.lines, self.unsent]


def epochs_of(job):
    """What is sent of a job, epoch by epoch, and the number of the line that is too long to be sent, or None."""
    lines, epochs, sent, has_asked = job[:LARGEST_JOB].decode("latin-1").split("\n"), [], [], False
    rest = lines.pop() if len(job) > LARGEST_JOB or not lines[-1] else ""
    for number, line in enumerate([*lines, rest], 1):
        (*parts, last), is_long = scan(line)
        for at, part in enumerate(parts):
            epochs.append(Sent(sent, part, has_asked))
            sent, has_asked = [], (at > 0 and has_asked) or "?" in realtime_of(part)
        if is_long or number > len(lines):
            return [*epochs, Sent(sent, last, has_asked)], number if is_long else None
        sent.append(last)


class Part(NamedTuple):
    """The steps of an epoch, with `E` in place of the record of the reset that ends it; the number of that; and where the machine stands
    before them."""

    text: str
    number: Optional[int]
    place: tuple


NO_STEPS = Part("E\n", None, (0, 0, 0))


def parts_of(steps):
    """The steps of each epoch."""
    if "Z " not in steps:
        return [Part(steps, None, (0, 0, 0))]
    parts, here, lines = [], [0] * 3, []
    place = tuple(here)
    for line in steps.split("\n"):
        if line.startswith("Z ") and line[2:].isdecimal():
            parts.append(Part("\n".join([*lines, "E", ""]), int(line[2:]), place))
            place, lines = tuple(here), []
            continue
        lines.append(line)
        here = [place + step for place, step in zip(here, EVENTS.get(line, (0, 0, 0)))]
    return [*parts, Part("\n".join(lines), None, place)]


@dataclass
class Epoch:
    """An epoch of a run: its machine, and what it has recorded; whether a reset ends it, behind so many answers, and whether another line
    was begun then; whether it stops a machine that may move, as the console tells; and what is wrong with that, in words."""

    machine: Machine
    part: Part
    is_reset: bool = False
    answers: int = 0
    is_begun: bool = False
    is_lost: bool = False
    fault: Optional[str] = None

    def end_by_reset(self, sent):
        """The epoch ends behind the answers that were told: one line more may have been begun then, and the others are dropped. Answers
        what is kept."""
        machine, self.is_reset = self.machine, True
        self.answers = sum(map(is_answer, machine.told))
        machine.answer_all(sent.lines[: self.answers])
        kept, number = machine.keep(), machine.number
        behind = sent.lines[self.answers :]
        self.is_begun = bool(behind) and self.part.number == number + 1
        if self.is_begun and not machine.begin(behind[0]):
            self.fault = f"a soft limit stops line {number + 1}, and a reset comes behind it"
        elif not self.is_begun and self.part.number != number:
            self.fault = f"the reset behind line {number} has the record 'Z {self.part.number}'"
        for line in behind[self.is_begun :]:
            machine.drop(line)
        machine.course.add_unsent(sent.unsent)
        self.is_lost = LOST in machine.told and machine.has_moved and not machine.is_locked
        machine.console += [LOST] if self.is_lost else []
        machine.end(sent.scanned, True)
        return kept._replace(is_locked=kept.is_locked or self.is_lost)

    def end(self, sent):
        """The run ends with the epoch. Answers what is scanned in it."""
        machine, before = self.machine, self.machine.number
        machine.answer_all(sent.lines)
        scanned, begun = sent.scanned, machine.number - before
        if machine.script.is_halted:
            scanned = [*scanned[:begun], *machine.course.scan_on(scanned[begun:])]
        else:
            machine.course.add_unsent(sent.unsent)
        machine.end(scanned, False)
        return scanned


def ends_of(job, number):
    """What ends the sending of a job, in order: the line of a number that is too long, and how large it is; each with its status."""
    ends = [(6, f"fault: line {number} is longer than {LONGEST_SENT} bytes\n")] if number else []
    return ends + ([(9, f"fault: the job is larger than {LARGEST_JOB} bytes\n")] if len(job) > LARGEST_JOB else [])


def run_of(job, most_events, told, steps="", status=None, buffers=STANDARD, is_attended=False):
    """The run of a job, and its epochs. Where a line may be refused since the machine still moves, it is so if the console
    that was told says so; jogs are cut where the steps that were told say so; a reset comes behind as many lines as the console
    says, and finds a machine in motion, or not, if that does; and what stands behind a line that a soft limit stops ends the sending,
    where it may be scanned, if the status that was told says so. The link and the plan hold as much as the buffers say. In an attended run `?` and 0x85 wait for no answer. A job that moves more events than these is left: `TooLong`. The
    steps are those of the machines' scripts, and what reports may tell follows from their courses."""
    sents, number = epochs_of(job)
    texts, parts = told.split(GREETING)[1:], parts_of(steps)
    epochs, kept, lines, scanned = [], None, 0, 0
    for at, sent in enumerate(sents):
        text = GREETING + (texts[at] if at < len(texts) else "")
        part = parts[at] if at < len(parts) else NO_STEPS
        machine = Machine(kept.room if kept else most_events, text.split("\r\n"), cuts_of(part.text, part.place), buffers, is_attended=is_attended)
        if kept:
            machine.open(kept, part.place, lines)
            machine.course.has_asked = sent.has_asked
        epochs.append(Epoch(machine, part))
        if at + 1 == len(sents) or ALARM[0] in machine.told:
            break
        kept = epochs[-1].end_by_reset(sent)
        lines += len(sent.lines)
        scanned += sum(map(len, sent.scanned)) + len(sent.scanned)
    last = epochs[-1].end(sent)
    ends = ends_of(job, number)
    if machine.script.is_halted:
        is_whole = len(epochs) == len(sents) and last == sent.scanned
        is_near = scanned + sum(map(len, last)) + len(last) > LARGEST_JOB - LARGEST_READ
        ends = [end for end in ends if end[0] == status and (is_near if status == 9 else is_whole)]
    status, errors = [*ends, machine.own_end()][0]
    return Run(status, "".join("\r\n".join(epoch.machine.console) for epoch in epochs), "", errors, []), epochs
