"""The facts of a run, from its texts."""
from bisect import bisect_right
from dataclasses import dataclass, field

from reporting.slow import slow_places
from texts.console import alarm_meaning, meaning_of
from texts.job import CUT, JOG, RAPID
from texts.steps import AXES, BadText

ROUNDING = 0.001  # mm that a place may be off by its steps


@dataclass(frozen=True)
class Refusal:
    """A line that was refused, or that raised an alarm: what it was answered, what that means, and the line."""

    line: int
    answer: str
    meaning: str
    text: str


@dataclass(frozen=True)
class Extent:
    """How far an axis goes in mm of the machine, its travel, and what is wrong with that, or nothing."""

    axis: str
    low: float
    high: float
    travel: float
    fault: str

    @property
    def span(self):
        return self.high - self.low


@dataclass
class SectionTime:
    """A part of the job, and its seconds: cuts, rapids, jogs and waits."""

    line: int
    name: str
    cut: float = 0.0
    rapid: float = 0.0
    jog: float = 0.0
    wait: float = 0.0

    @property
    def seconds(self):
        return self.cut + self.rapid + self.jog + self.wait


@dataclass(frozen=True)
class Happening:
    """A mark: the line that asks for it, or None, when it comes in seconds, what it says, and how long it waits."""

    line: int
    at: float
    text: str
    seconds: float


@dataclass
class Facts:
    """All that a report tells."""

    name: str
    run: object
    lines: int
    answered: int
    dropped: int
    reached: int
    refused: list
    alarm: Refusal
    extents: list
    has_limits: bool
    sections: list
    waits: list = field(default_factory=list)
    changes: list = field(default_factory=list)
    slow: list = field(default_factory=list)
    at_feed: float = 0.0

    @property
    def whole(self):
        """The seconds of the whole run, by their kinds."""
        return SectionTime(0, "", *(sum(getattr(section, kind) for section in self.sections)
                                    for kind in ("cut", "rapid", "jog", "wait")))


def refusal(job, line, kind, number):
    meaning = alarm_meaning(number) if kind == "ALARM" else meaning_of(number)
    return Refusal(line, f"{kind}:{number}", meaning, job.text_of(line))


def extents_of(run):
    """How far each axis goes, against its travel."""
    last = run.track.lines[-1] + 1 if len(run.track) else len(run.job.lines) + 1
    has_limits = run.job.setting_before(last, 20) >= 1
    extents = []
    for axis, (low, high), number in zip(AXES, run.limits(), (130, 131, 132)):
        travel = run.job.setting_before(last, number)
        fault = ""
        if high - low > travel + ROUNDING:
            fault = "longer than the travel"
        elif has_limits and (low < -travel - ROUNDING or high > ROUNDING):
            fault = f"outside \u2212{travel:g} to 0"
        extents.append(Extent(axis, low, high, travel, fault))
    return extents, has_limits


def sections_of(run, happenings):
    """The time of each section that takes some; what comes before the first has no name."""
    begins = [SectionTime(0, "")] + [SectionTime(section.line, section.name) for section in run.job.sections]
    lines = [section.line for section in begins]
    names, at = {CUT: "cut", RAPID: "rapid", JOG: "jog"}, 0
    for segment, line in enumerate(run.track.lines):
        while at + 1 < len(lines) and line >= lines[at + 1]:
            at += 1
        section, kind = begins[at], names[run.kinds[segment]]
        setattr(section, kind, getattr(section, kind) + run.seconds_of(segment))
    for happening in happenings:
        begins[bisect_right(lines, happening.line or 0) - 1].wait += happening.seconds
    return [section for section in begins if section.seconds]


def happenings_of(run):
    """The marks in order."""
    track = run.track
    for mark, at, line in zip(track.marks, run.mark_times, run.mark_lines()):
        if line is None:
            line = track.lines[mark.segment] if mark.segment < len(track) else None
        yield Happening(line, at, mark.text, mark.milliseconds / 1000)


def facts_of(name, run):
    """The facts of a run that has a job and a console."""
    job, console = run.job, run.console
    if console.answered > len(job.lines):
        raise BadText(1, f"the console has {console.answered} answers, and the job {len(job.lines)} lines")
    if len(run.track) and run.track.lines[-1] > len(job.lines):
        raise BadText(1, f"the steps have a move of line {run.track.lines[-1]}, and the job has {len(job.lines)} lines")
    refused = [refusal(job, line, "error", number) for line, number in run.refused()]
    alarm = refusal(job, console.alarm[0], "ALARM", console.alarm[1]) if console.alarm else None
    happenings = list(happenings_of(run))
    extents, has_limits = extents_of(run)
    return Facts(name, run, len(job.lines), console.answered, len(console.dropped), console.reached, refused, alarm, extents, has_limits, sections_of(run, happenings),
                 [it for it in happenings if it.seconds], [it for it in happenings if not it.text.startswith("wait")],
                 slow_places(run), run.share_at_feed())
