"""Jobs that leave the same behind by any seed, but for heads and reports."""
import re

from model.lines import RESET, kept_of

WAYS = re.compile(r"[XYZ]|G0*(28|30)")  # what a line has that may move the machine
ANYWHERE = re.compile(r"\$(J|\+?0*20(?![0-9]))")  # a jog, and a setting that turns soft limits on or off


def alike_of(job):
    """The lines of a job whose runs differ in heads and reports alone: without jogs, soft limits and resets, and without each `$`
    line behind one that may move the machine."""
    lines, has_moved = [], False
    for line in job.decode("latin-1").split("\n"):
        kept = kept_of(line)
        is_system = kept.startswith("$")
        if RESET in line or (is_system and (has_moved or ANYWHERE.match(kept))):
            continue
        has_moved = has_moved or bool(not is_system and WAYS.search(kept))
        lines.append(line)
    return "\n".join(lines).encode("latin-1")


def events_of(steps):
    """The lines of a step text that are no heads."""
    return "".join(line for line in steps.splitlines(keepends=True) if not line.startswith("s "))
