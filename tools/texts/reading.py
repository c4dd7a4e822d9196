"""A run from its files, and files that are written whole."""
import gc
import os
import sys

from texts.console import Console
from texts.job import Job
from texts.run import Run
from texts.steps import BadText, read_steps


def read_file(name, read):
    """What is read of a file, or of standard input by the name `-`. A fault names the file."""
    try:
        if name == "-":
            return read(sys.stdin.buffer)
        with open(name, "rb") as text:
            return read(text)
    except BadText as fault:
        raise fault.of("standard input" if name == "-" else name) from None


def read_run(steps, job=None, console=None, scales=None):
    """A run, by the names of its texts. What is read has no cycles, so nothing is to be found by collecting garbage."""
    gc.disable()
    told = read_file(console, Console) if console is not None else None
    asked = read_file(job, lambda text: Job(text.read(), told)) if job is not None else None
    return Run(read_file(steps, read_steps), asked, told, scales)


def write_whole(name, lines):
    """Writes a file whole, or not at all."""
    part = f"{name}.part"
    try:
        with open(part, "w", encoding="utf-8") as out:
            out.writelines(f"{line}\n" for line in lines)
        os.replace(part, name)
    except OSError as fault:
        if os.path.exists(part):
            os.remove(part)
        raise OSError(fault.errno, fault.strerror, name) from None


def fault_text(fault):
    """What a fault is, in one line."""
    return f"{fault.filename}: {fault.strerror}" if isinstance(fault, OSError) and fault.filename else str(fault)
