"""Tries what the model allows a line to be answered that may find the machine in motion: answers that it must allow and some that
it must refuse, and steps that it must refuse since the machine stood between two moves."""
from typing import NamedTuple

from model.bad_resets import pieces_of, script_of
from model.epochs import run_of
from model.motion import Wrong, heads_of


class Case(NamedTuple):
    """A job, and the errors of its lines, by their numbers and 0 for `ok`: some that are right, and some that are refused."""

    job: bytes
    right: tuple
    refused: tuple


CASES = (
    # G-code in a jog, and behind a jog of no steps.
    Case(b"$J=X1F9\nG0X2", ("0 0", "0 9"), ("0 8", "9 0", "8 0", "9 9")),
    Case(b"$J=X1F9\n\x85G0X2", ("0 0",), ("0 9",)),
    Case(b"$J=X1F9\n!G0X2\n(\x85)X3", ("0 0 0", "0 9 9"), ("0 0 9",)),
    Case(b"$J=X1F9\nX", ("0 2", "0 9"), ("0 0", "0 8")),
    Case(b"$J=X0F9\nG0X2", ("0 0",), ("0 9",)),
    Case(b"$J=X1F9\n$J=X1F9\n\n$X\nG0X2", ("0 0 0 0 0", "0 0 0 0 9"), ("0 9 0 0 0", "0 0 9 0 0", "0 0 0 9 0")),
    Case(b"$J=X1F9\nG21\nG21", ("0 0 0", "0 9 0", "0 9 9"), ("0 0 9",)),
    # Lines that begin with `$` in a jog.
    Case(b"$J=X1F9\n$10=1", ("0 0", "0 8"), ("0 9", "8 0")),
    Case(b"$J=X1F9\n$5=1", ("0 3", "0 8"), ("0 0",)),
    Case(b"$J=X1F9\n$J", ("0 3",), ("0 8",)),
    Case(b"$J=X1F9\n$J=X2", ("0 22",), ("0 8",)),
    Case(b"$J=X1F9\n$H", ("0 3",), ("0 8",)),
    Case(b"$J=X1F9\nG21\n$10=1", ("0 0 0", "0 9 0", "0 9 8"), ("0 0 8",)),
    # While G-code runs.
    Case(b"G0X1\n$J=X2F9", ("0 0", "0 8"), ("0 9",)),
    Case(b"G0X1\n$J", ("0 3", "0 8"), ("0 0",)),
    Case(b"G0X1\n$J=X2", ("0 22", "0 8"), ("0 0",)),
    Case(b"G0X1\nG4P0\n$J=X2F9", ("0 0 0",), ("0 0 8",)),
    Case(b"G0X0\n$J=X2F9", ("0 0",), ("0 8",)),
    Case(b"G0X1\n$J=X2F9\n$J=X3F9", ("0 0 0", "0 8 0", "0 8 8"), ("0 0 8",)),
    Case(b"G0X1\n$J=X1F9\n$10=1", ("0 0 0", "0 8 0", "0 8 8"), ("0 0 8",)),
    Case(b"G0X1\n$J=X2F9\n$10=1\nG0X3", ("0 0 0 0", "0 0 8 9", "0 8 8 0"), ("0 8 0 9",)),
    # A line that is too long, and a jog that is.
    Case(b"$J=X1F9\nN" + b"0" * 79, ("0 11",), ("0 9",)),
    Case(b"G0X1\n$J=X1F9N" + b"0" * 79, ("0 11",), ("0 8",)),
)

# Two jobs with the same steps of the same lines, but that the machine stands between those of the first.
APART = (
    (b"F500\n$J=X0.1F500\nG1X0.2", b"F500\nG1X0.1\nX0.2"),
    (b"F500\nG1X0.1\n$J=X0.2F500", b"F500\nG1X0.1\nX0.2"),
)
# And two that may be joined.
JOINED = ((b"F500\n$J=X0.1F500\n$J=X0.2F500", b"F500\nG1X0.1\nX0.2"),)


def answer_of(error):
    return "ok" if error == "0" else f"error:{error}"


def is_allowed(job, errors):
    """Whether the lines of a job may be answered so."""
    told = "\r\n".join(["", "Grbl 1.1h ['$' for help]", *map(answer_of, errors.split()), ""])
    return run_of(job, 10**6, told)[0].console == told


def has_steps_of(job, other):
    """Whether the steps of another job may be those of a job."""
    pieces = pieces_of(script_of(other))
    try:
        heads_of(script_of(job), "\n".join([*sum(pieces, []), "E", ""]))
    except Wrong:
        return False
    return True


def wrong_answers():
    """What is allowed or refused in error, or None."""
    for job, right, refused in CASES:
        for errors in right + refused:
            if is_allowed(job, errors) != (errors in right):
                return f"of the job {job!r} the errors {errors} are {'refused' if errors in right else 'allowed'}"
    for pairs, joined in ((APART, False), (JOINED, True)):
        for job, other in pairs:
            if has_steps_of(job, other) != joined:
                return f"the steps of {other!r} are {'refused' if joined else 'allowed'} for the job {job!r}"
    return None
