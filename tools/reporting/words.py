"""A report as tables of words, and these as text."""
from dataclasses import dataclass

from drawing.frames import counted
from texts.job import JOG, RAPID

MOST_SECTIONS = 60
MOST_MARKS = 60


@dataclass
class Table:
    """A part of the report: its name, the names of its columns, its rows, which columns are numbers, and a line below it."""

    name: str
    columns: tuple
    rows: list
    numbers: frozenset = frozenset()
    note: str = ""


def seconds_text(seconds, decimals=3):
    """A time in hours, minutes and seconds."""
    whole, part = divmod(round(seconds * 10**decimals), 10**decimals)
    minutes, rest = divmod(whole, 60)
    hours, minutes = divmod(minutes, 60)
    text = f"{rest}.{part:0{decimals}} s"
    if hours:
        return f"{hours} h {minutes} min {text}"
    return f"{minutes} min {text}" if minutes else text


def short_time(seconds):
    """The same in a table, or nothing."""
    return seconds_text(seconds, 2) if seconds else ""


def length_text(value):
    return f"{value + 0.0:.3f}".replace("-", "\u2212") if round(value, 3) else "0.000"


def lines_of_place(place):
    lines = f"{place.first_line}" if place.first_line == place.last_line else f"{place.first_line} to {place.last_line}"
    return f"{lines}, {place.like} like it" if place.like else lines


def heading(facts):
    """The first lines: what became of the job, and how long it takes."""
    run, whole = facts.run, facts.whole
    track, refused = run.track, len(facts.refused)
    end = f"{counted(refused, 'line')} refused" if refused else "no line refused"
    if facts.alarm:
        end += f", ended by {facts.alarm.answer} at line {facts.alarm.line}"
    told = [f"{facts.name}: {end}; {seconds_text(run.seconds)}",
            ", ".join([counted(facts.lines, "line"), counted(len(track.moves), "move"), counted(track.events, "event"),
                       counted(track.heads, "segment"), counted(track.stops, "stop")]),
            f"motion {seconds_text(run.motion)}, waits {seconds_text(run.waits)}"]
    if whole.cut:
        told.append(f"cutting {seconds_text(whole.cut)}, {100 * facts.at_feed:.0f} % of it at 95 % of its feed or more; "
                    f"rapids {seconds_text(whole.rapid)}" + (f"; jogs {seconds_text(whole.jog)}" if whole.jog else ""))
    if facts.dropped:
        told.append(f"{counted(facts.dropped, 'line')} dropped by resets: no answer")
    silent = facts.lines - facts.reached
    if silent > 0:
        told.append(f"{counted(silent, 'line')} from line {facts.reached + 1} on: no answer")
    return told


def refused_table(facts):
    rows = [(str(it.line), it.answer, it.meaning, it.text) for it in [*facts.refused, *([facts.alarm] if facts.alarm else [])]]
    note = "A refused line changes nothing; the next one counts from what was before it." if facts.refused else ""
    return Table("Refused lines" + (" and alarm" if facts.alarm else ""), ("line", "answer", "meaning", "text"), rows,
                 frozenset({0}), note)


def extents_table(facts):
    rows = [(it.axis, length_text(it.low), length_text(it.high), length_text(it.span), f"{it.travel:g}", it.fault or "fits")
            for it in facts.extents]
    zeros = facts.run.used_zeros()
    note = "; ".join(f"zero of the work ({zero.name}): " + " ".join(
        f"{axis}{length_text(at)}" for axis, at in zip("XYZ", zero.place)) for zero in zeros[:6])
    columns = ("axis", "from", "to", "length", "travel", "")
    return Table("Extents, mm of the machine", columns, rows, frozenset({1, 2, 3, 4}), note)


def sections_table(facts):
    sections = facts.sections
    kept = sorted(sorted(sections, key=lambda it: -it.seconds)[:MOST_SECTIONS], key=lambda it: it.line)
    rows = [(str(it.line) if it.line else "", short_time(it.seconds), short_time(it.cut), short_time(it.rapid + it.jog),
             short_time(it.wait), it.name or "(before the first section)") for it in kept]
    left = len(sections) - len(kept)
    rest = sum(it.seconds for it in sections) - sum(it.seconds for it in kept)
    note = f"{left} shorter sections take {seconds_text(rest)}." if left else ""
    is_parted = len(sections) > 1 or any(it.name for it in sections)
    return Table("Time by section", ("from line", "time", "cuts", "rapids", "waits", "section"), rows if is_parted else [],
                 frozenset({0, 1, 2, 3, 4}), note)


def slow_table(facts):
    rows = [(str(number), lines_of_place(it), short_time(it.lost), short_time(it.seconds),
             f"{it.mean:,.0f}", f"{it.asked:,.0f}", it.cause,
             it.detail + {RAPID: " (rapid)", JOG: " (jog)"}.get(it.kind, ""),
             f"{it.worst_line}: {facts.run.job.text_of(it.worst_line)}")
            for number, it in enumerate(facts.slow, 1)]
    note = ("Lost: against the greatest feed of the job, a rapid against the rates of its axes. Corner: a greater $11 or "
            "rounder corners; acceleration: $120 to $122, or longer moves; feed: F.") if rows else ""
    return Table("Slowest places", ("", "lines", "lost", "time", "mm/min", "asked", "cause", "", "most at line"), rows,
                 frozenset({0, 2, 3, 4, 5}), note)


def marks_table(name, happenings, note):
    rows = [(str(it.line or ""), seconds_text(it.at, 2), it.text) for it in happenings[:MOST_MARKS]]
    if len(happenings) > MOST_MARKS:
        note = " ".join(filter(None, [f"{len(happenings) - MOST_MARKS} more are not listed.", note]))
    return Table(name, ("line", "at", "what"), rows, frozenset({0, 1}), note)


def tables(facts):
    """The report's tables, those that have rows."""
    waits = marks_table("Waits", facts.waits, f"{counted(len(facts.waits), 'wait')}, {seconds_text(facts.run.waits)}.")
    changes = marks_table("Spindle, coolant, cuts of jogs and resets", facts.changes, "")
    told = (refused_table(facts), extents_table(facts), sections_table(facts), slow_table(facts), waits, changes)
    return [table for table in told if table.rows]


def table_lines(table):
    """A table as lines of text."""
    rows = [table.columns, *table.rows]
    widths = [max(len(row[at]) for row in rows) for at in range(len(table.columns))]
    widths[-1] = 0
    yield table.name
    for row in rows:
        cells = (cell.rjust(width) if at in table.numbers else cell.ljust(width)
                 for at, (cell, width) in enumerate(zip(row, widths)))
        yield "  " + "  ".join(cells).rstrip()
    if table.note:
        yield f"  {table.note}"


def text_lines(facts):
    """The whole report as lines of text."""
    yield from heading(facts)
    for table in tables(facts):
        yield ""
        yield from table_lines(table)
