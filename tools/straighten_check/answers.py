"""What a text is answered, by the model of the dialect and by the program."""
import subprocess
import tempfile
from pathlib import Path

from model.lines import kept_of
from model.machine import Machine
from model.trying import PROGRAM


class Route(Machine):
    """The model's machine without steps: the places where its moves end, in nm, each with its feed in nm per minute, or None for a
    rapid."""

    def __init__(self):
        super().__init__(most_events=0, told=[])
        self.places = []

    def go(self, place, feed):
        self.places.append((tuple(place), feed))
        self.position = place
        return True

    def error_of(self, line):
        """Answers a line: its error, or None."""
        kept = kept_of(line)
        if kept:
            self.judge(kept)
        return self.console[-1] if kept and self.console[-1].startswith("error:") else None


def refused_by_model(text):
    """The first line of a text that the model refuses, in words, or None."""
    route = Route()
    for number, line in enumerate(text.split("\n"), 1):
        if error := route.error_of(line):
            return f"line {number} of the straightened text is {error}: {line.strip()!r}"
    return None


def refused_by_program(name, text):
    """What the program says of a text that it should accept whole, or None; None too where no program is built."""
    if not PROGRAM.exists():
        return None
    with tempfile.TemporaryDirectory() as folder:
        job = Path(folder) / "job.nc"
        job.write_bytes(text.encode("latin-1"))
        with job.open("rb") as source:
            run = subprocess.run([PROGRAM, "stream", "--lockstep", "0"], stdin=source, cwd=folder, capture_output=True, timeout=60)
    answers, lines = run.stdout.split().count(b"ok"), text.count("\n") + (not text.endswith("\n"))
    if run.returncode or answers != lines:
        return f"{name}: the program ends with {run.returncode}, and answers {answers} of {lines} lines with ok"
    return None
