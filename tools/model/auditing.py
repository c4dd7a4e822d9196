"""The program that audits: what it says of three files, and what it has to say of those that a run leaves behind."""
import resource
import subprocess
from pathlib import Path

from model.cuts import EVENTS
from model.foreign import foreign_in

AUDIT = Path(__file__).resolve().parent.parent.parent / "crates/grbl_audit/out/grbl_audit"
SECONDS = 60  # of processor time
STACK_KILOBYTES = 512
KILOBYTES = 512  # of data of its own; with the stack it has less than 1 MB


def bound():
    resource.setrlimit(resource.RLIMIT_CPU, (SECONDS, SECONDS + 1))
    resource.setrlimit(resource.RLIMIT_STACK, (STACK_KILOBYTES * 1024,) * 2)
    resource.setrlimit(resource.RLIMIT_DATA, (KILOBYTES * 1024,) * 2)


def audit_of(folder, job, console, steps):
    """What the audit of three files of a folder answers: its status, and what it prints."""
    done = subprocess.run([AUDIT, job, console, steps], cwd=folder, stdin=subprocess.DEVNULL, stdout=subprocess.PIPE,
                          stderr=subprocess.PIPE, preexec_fn=bound)
    return done.returncode, (done.stdout + done.stderr).decode("latin-1")


def answer_to(job, alarm, steps):
    """What an audit has to say where nothing is wrong: of a job in which the line of a number raises an alarm, or none does, and of
    steps in form 1."""
    foreign = foreign_in(job, alarm)
    if foreign:
        return 8, f"line {foreign} isn't audited\n"
    return 0, f"fits: {sum(line in EVENTS for line in steps.split(chr(10)))} events\n"


def alarm_of(epochs):
    """The number of the line that has raised an alarm in a run, or None."""
    last = epochs[-1].machine
    return last.number if last.script.is_halted else None


def fault_in_audit(folder, job, steps, epochs):
    """What is wrong with the audit of what a right run has left in a folder, in words, or None."""
    if not AUDIT.exists():
        return None
    told, right = audit_of(folder, "job", "console", "steps.out"), answer_to(job, alarm_of(epochs), steps)
    return None if told == right else f"the audit ends with {told[0]} and says {told[1]!r}, and by the model {right[0]} and {right[1]!r}"
