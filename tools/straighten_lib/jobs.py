"""A whole job: its text in the dialect, or the lines that are refused."""
from dataclasses import dataclass

from straighten_lib.lines import Refused, Unfit
from straighten_lib.rewriting import ARCS, Straightener


@dataclass
class Result:
    """The text that stands for a job; the lines that are refused, in words, and then the text counts for nothing; and what was
    changed, in words."""

    text: str
    refused: list
    changes: list


def straightened(job, options):
    """Rewrites a job. Behind a refused line it is not known where the machine is, so no line is refused by that."""
    straightener, lines, refused, untouched = Straightener(options), [], [], 0
    texts = job.split("\n")
    for number, text in enumerate(texts, 1):
        body = text.removesuffix("\r")
        try:
            found = straightener.rewrite(body)
        except Refused as reason:
            if not (refused and isinstance(reason, Unfit)):
                refused.append(f"line {number}: {reason}: {body.strip()}")
            continue
        untouched += found == [body]
        lines += [each + text[len(body) :] for each in found]
    is_ended = texts[-1] == ""  # what follows the last LF is no line
    return Result("\n".join(lines), refused, changes_of(straightener, untouched - is_ended, len(texts) - is_ended))


def changes_of(straightener, untouched, count):
    """What was changed, in words."""
    told = {kind: str(number) for kind, number in straightener.changes.items() if number}
    if ARCS in told:
        told[ARCS] += f" as {straightener.chords}, within {straightener.options.tolerance:g} mm"
    changes = [f"{kind}: {number}" for kind, number in told.items()]
    if straightener.left_out:
        changes.append("left out: " + ", ".join(f"{code} {number}" for code, number in sorted(straightener.left_out.items())))
    return changes + [f"lines as they were: {untouched} of {count}"]
