"""A run of a job as the model makes it: one of those that the program may make, with as many moves known at each segment as
the plan has room for. Where the program may refuse a line since the machine still moves, this run serves it."""
from model.machine import Machine
from model.motion import END, Stretch, event_lines

MOST_EVENTS = 100_000_000


def stretch_lines(moves):
    """The heads and the events of moves that are run from rest to rest."""
    stretch = Stretch(moves)
    while stretch.tail < len(moves):
        move, count = moves[stretch.tail], stretch.count()
        *_, (_, behind) = stretch.ends(count)
        yield f"s {move.line} {count} {stretch.speed} {stretch.cycles(count, behind)}"
        yield from event_lines(move.ways, move.prepared, count)
        stretch.advance(count, behind)


def steps_lines(script):
    """The lines of the steps of a script."""
    for moves, mark in script.stretches:
        yield from stretch_lines(moves)
        if mark not in (None, END):
            yield mark
    yield END


def made_run(job):
    """What a run of a job leaves: the console, and the steps, as bytes."""
    machine = Machine(MOST_EVENTS, [])
    lines = job.decode("latin-1").split("\n")
    machine.answer_all(lines if lines[-1] else lines[:-1])
    machine.end([], False)
    console = "\r\n".join(machine.console).encode("latin-1")
    return console, "".join(line + "\n" for line in steps_lines(machine.script)).encode("ascii")
