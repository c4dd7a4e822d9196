"""Tries random jobs on the program: runs it within bounds on time and memory, and compares what it leaves behind with what
the model says."""
import contextlib
import os
import random
import re
import resource
import signal
import subprocess
import sys
import tempfile
import threading
import time
from concurrent.futures import ProcessPoolExecutor
from dataclasses import dataclass
from pathlib import Path

from model.alike import alike_of, events_of
from model.auditing import AUDIT, fault_in_audit
from model.buffers import STANDARD, WIDE
from model.epochs import LARGEST_JOB, parts_of, run_of
from model.lines import kept_of
from model.machine import Run
from model.motion import TooLong, Wrong, heads_of
from model.reports import Way, fault_at_reset, fault_in, part
from texts.steps import BadText, in_form_one, in_form_two

PROGRAM = Path(__file__).resolve().parent.parent.parent / "crates/grbl/out/grbl"
PAUSE = re.compile(r"M[-+]?[0.]")
SECONDS = 10  # of processor time, on one thread
ONE_THREAD = {"--lockstep", "--paced"}  # the words of such runs
PACED_EVERY = 4  # each job of such a number by this is paced too
COMPACT_IN = 4  # one job in so many is run with compact steps
WIDE_IN = 4  # and one in so many with wide buffers
SMOOTH_IN = 4  # and one in so many by subticks, which change no text
ATTENDED_EVERY, ATTENDED_AT = 4, 1  # each job of such a number by this is run for a sender that stands by too, where nothing holds it
THREAD_SECONDS = 120  # the same of four threads, which take it while they wait too
STACK_KILOBYTES = 1024  # of each of the four threads
KILOBYTES = 14 * 1024  # less than the largest job has, for the code, the stacks and all else
PIECES = (1, 1, 2, 7, 60, 500, 4_096)  # so many bytes of a job are written to a pipe at once
SEEDS_EVERY, SEEDS_AT = 10, 3  # each job of such a number by this is tried by more seeds; none of these is a flood
SEEDS = 4  # so many
MANY_JOBS = 400  # in the runs of so many jobs, one jog at least is cut
MANY_RESETS = 40  # of so many resets one at least comes before all is carried out
MANY_ALARMS = 40  # of so many runs that a soft limit ends, in one at least the machine stops before its moves are over


# ---- the program


def bound(seconds):
    resource.setrlimit(resource.RLIMIT_CPU, (seconds, seconds + 1))
    resource.setrlimit(resource.RLIMIT_STACK, (STACK_KILOBYTES * 1024,) * 2)
    resource.setrlimit(resource.RLIMIT_AS, (KILOBYTES * 1024,) * 2)


def start(words, stdin, folder):
    """Starts the program. Its console and errors go to files."""
    seconds = SECONDS if ONE_THREAD.intersection(words) else THREAD_SECONDS
    with stdin, (folder / "console").open("wb") as stdout, (folder / "errors").open("wb") as stderr:
        return subprocess.Popen(
            [PROGRAM, *words], stdin=stdin, stdout=stdout, stderr=stderr, cwd=folder, preexec_fn=lambda: bound(seconds)
        )


def start_on_file(words, job, folder):
    """Starts the program on a file, so that each read is as long as it may be."""
    source = folder / "job"
    source.write_bytes(job)
    return start(words, source.open("rb"), folder)


def start_on_pipe(words, job, folder):
    """Starts the program on a pipe, to which a thread writes the job in pieces of any size."""
    source, sink = os.pipe()
    program = start(words, os.fdopen(source, "rb"), folder)
    threading.Thread(target=feed, args=(job, os.fdopen(sink, "wb", buffering=0)), daemon=True).start()
    return program


def feed(job, sink):
    """Writes a job in pieces, as long as somebody reads."""
    at, chance = 0, random.Random(len(job))
    with sink, contextlib.suppress(BrokenPipeError):
        while at < len(job):
            at += sink.write(job[at : at + chance.choice(PIECES)])


def run_program(start_it, words, job, folder):
    """What the program's run of a job leaves behind, or in words why there is nothing."""
    steps = folder / "steps.out"
    steps.unlink(missing_ok=True)
    program = start_it(words, job, folder)
    try:
        status = program.wait(20 * SECONDS)
    except subprocess.TimeoutExpired:
        program.kill()
        program.wait()
        return f"the program has not ended after {20 * SECONDS} seconds"
    if status < 0:
        return f"the program was ended by {signal.Signals(-status).name}"
    if not steps.exists():
        return f"the program ended with {status} and made no steps.out"
    console, made, errors = ((folder / name).read_bytes() for name in ("console", "steps.out", "errors"))
    if "--compact" in words:
        try:
            plain = in_form_one(made)
        except BadText as fault:
            return f"the compact steps can't be read: {fault}"
        if in_form_two(plain) != made:
            return "the compact steps are not those of their records"
        made = plain
    console, reports = part(console.decode("latin-1"))
    return Run(status, console, made.decode("latin-1"), errors.decode("latin-1"), reports)


# ---- comparing


def first_difference(kind, told, right, end="\n", of="the model"):
    """Where the program's text is not the model's, or another's, or None."""
    if told == right:
        return None
    pairs = enumerate(zip(told.split(end) + ["(no line)"], right.split(end) + ["(no line)"]), 1)
    return next(f"line {at} of the {kind} is {shown(a)}, and by {of} {shown(b)}" for at, (a, b) in pairs if a != b)


def shown(line):
    return repr(line) if len(line) < 120 else f"{line[:100]!r} with {len(line) - 100} characters behind it"


def fault_in_epoch(epoch, reports, tally):
    """What is wrong with the steps and the reports of an epoch, in words, or None. Reports are audited where the rest is right, since
    they are judged by it."""
    machine, part = epoch.machine, epoch.part
    wrong = epoch.fault or machine.fault_in_cuts()
    try:
        heads, speeds_behind, is_moving = heads_of(machine.script, part.text)
    except Wrong as fault:
        return wrong or str(fault)
    way = Way(part.text, speeds_behind, part.place)
    is_front = way.ticks != machine.script.ticks
    tally.heads += heads
    tally.stopped += machine.script.is_halted and is_front
    if epoch.is_reset:
        wrong = wrong or ("a reset stops the machine in motion, and no alarm is told" if is_moving and not epoch.is_lost else None)
        tally.broken_off += is_front or epoch.answers < len(machine.course.rows) - 2
        wrong = wrong or fault_at_reset(machine.course, way, epoch.answers, epoch.is_begun)
    return wrong or fault_in(reports, machine.course, way)


def what_is_wrong(told, right, epochs):
    """What a run tells that the model does not allow, or None, and what was tried."""
    tally = Tally(lines=epochs[-1].machine.number, reports=len(told.reports), resets=len(epochs) - 1,
                  cuts=sum(len(epoch.machine.course.cuts) for epoch in epochs), alarms=int(right.status == 8))
    wrong = (first_difference("console", told.console, right.console, "\r\n")
             or first_difference("standard error", told.errors, right.errors))
    resets = len(parts_of(told.steps)) - 1
    if not wrong and resets != tally.resets:
        wrong = f"the steps have {resets} resets, and by the model {tally.resets}"
    for number, epoch in enumerate(epochs, 1):
        reports = [(answers, text) for banners, answers, text in told.reports if banners == number]
        wrong = wrong or fault_in_epoch(epoch, reports, tally)
    status = f"; it ended with {told.status}, and by the model with {right.status}" if told.status != right.status else ""
    return (wrong + status if wrong else status.removeprefix("; ") or None), tally


def what_is_unlike(told, first):
    """What a run by one seed leaves behind otherwise than a run by another, but for heads and reports, or None."""
    seed = "another seed"
    wrong = (first_difference("console", told.console, first.console, "\r\n", seed)
             or first_difference("events", events_of(told.steps), events_of(first.steps), "\n", seed)
             or first_difference("standard error", told.errors, first.errors, "\n", seed))
    status = f"it ended with {told.status}, and by {seed} with {first.status}"
    return wrong or (status if told.status != first.status else None)


# ---- jobs


def is_held(job):
    """Whether something in a job may hold the machine, or looks as if it might. From a file nobody resumes an attended run."""
    return b"!" in job or any(PAUSE.search(kept_of(line)) for line in job.decode("latin-1").split("\n"))


@dataclass
class Tally:
    """What was tried: jobs, and the lines, heads, reports, cuts and resets of their runs; how many of the resets came before all was
    carried out; how many runs a soft limit ended, and in how many of these moves were dropped; how
    many jobs were tried by more seeds, and how many were run with compact steps, with wide buffers, by subticks, and attended; how many runs were audited; and
    the jobs that are left out, since the model would take too long."""

    jobs: int = 0
    lines: int = 0
    heads: int = 0
    reports: int = 0
    cuts: int = 0
    resets: int = 0
    broken_off: int = 0
    alarms: int = 0
    stopped: int = 0
    alike: int = 0
    compact: int = 0
    wide: int = 0
    smooth: int = 0
    attended: int = 0
    audited: int = 0
    left_out: int = 0

    def add(self, other):
        for name, count in vars(other).items():
            setattr(self, name, getattr(self, name) + count)

    def __str__(self):
        rest = f"; {self.left_out} are left out, since they have too many steps" if self.left_out else ""
        rest = (f"; {self.audited} runs are audited" if self.audited else "; no run is audited, since no audit is built") + rest
        return (f"{self.jobs} jobs, each as a stream and in lockstep, one in {PACED_EVERY} paced too, {self.compact} of them with compact steps, {self.wide} with wide buffers, {self.smooth} by subticks, {self.attended} attended too, {self.alike} by {SEEDS} more seeds, in all "
                f"{self.lines} lines with {self.heads} heads and {self.reports} reports, {self.cuts} cuts of jogs, {self.resets} "
                f"resets, {self.broken_off} of them before all was done, and {self.alarms} runs that a soft limit ended, {self.stopped} of them before all was done{rest}")


@dataclass
class Failure:
    """A job of which the program makes something else than the model."""

    number: int
    job: bytes
    wrong: str


@dataclass
class Trial:
    """Jobs that are to be tried: how one is made of chance and its number; the seed; and how long."""

    make: callable
    seed: int
    most_jobs: int
    most_seconds: float
    most_events: int

    def try_job(self, number, folder, tally):
        """Tries the job of a number, as a stream, of a file or a pipe, in lockstep, and, one job in some, paced, and answers a
        failure or None."""
        chance = random.Random(self.seed * 1_000_003 + number)
        job = self.make(chance, number)
        tally.jobs += 1
        lockstep = ["--lockstep", str(chance.choice((number, chance.getrandbits(64))))]
        is_piped = len(job) < LARGEST_JOB // 2 and chance.random() < 0.5
        first = start_on_pipe if is_piped else start_on_file
        is_compact = chance.randrange(COMPACT_IN) == 0
        is_wide = chance.randrange(WIDE_IN) == 0
        tally.compact += int(is_compact)
        tally.wide += int(is_wide)
        (folder / "job").write_bytes(job)  # for the audit, also where the program gets a pipe
        tries = [(first, ["stream"]), (start_on_file, ["stream", *lockstep])]
        if number % PACED_EVERY == 0:
            tries.append((first, ["stream", "--paced"]))
        for option, is_given in (("--compact", is_compact), ("--wide", is_wide)):
            if is_given:
                tries = [(start_it, chance.choice((["stream", option, *words[1:]], [*words, option]))) for start_it, words in tries]
        if chance.randrange(SMOOTH_IN) == 0:
            tally.smooth += 1
            tries = [(start_it, [*words, "--smooth"]) for start_it, words in tries]
        if number % ATTENDED_EVERY == ATTENDED_AT and not is_held(job):
            tally.attended += 1
            tries += [(start_it, [*words, "--attended"]) for start_it, words in tries]
        for start_it, words in tries:
            told = run_program(start_it, words, job, folder)
            if isinstance(told, str):
                return Failure(number, job, f"{' '.join(words)}: {told}")
            try:
                right, epochs = run_of(job, self.most_events, told.console, told.steps, told.status, WIDE if is_wide else STANDARD, is_attended="--attended" in words)
            except TooLong:
                tally.left_out += 1
                return None
            wrong, tried = what_is_wrong(told, right, epochs)
            wrong = wrong or fault_in_audit(folder, job, told.steps, epochs)
            tally.add(tried)
            tally.audited += AUDIT.exists()
            if wrong:
                return Failure(number, job, f"{' '.join(words)}: {wrong}")
        return self.try_seeds(number, job, chance, folder, tally) if number % SEEDS_EVERY == SEEDS_AT else None

    def try_seeds(self, number, job, chance, folder, tally):
        """Tries what of a job leaves the same behind by any seed by some, and answers a failure or None."""
        job, first = alike_of(job), None
        try:
            run_of(job, self.most_events, "")
        except TooLong:
            return None
        tally.alike += 1
        for seed in [chance.getrandbits(64) for _ in range(SEEDS)]:
            told = run_program(start_on_file, ["stream", "--lockstep", str(seed)], job, folder)
            wrong = told if isinstance(told, str) else first and what_is_unlike(told, first)
            if wrong:
                return Failure(number, job, f"stream --lockstep {seed}: {wrong}")
            first = first or told
        return None

    def work(self, first, every):
        """Tries each of so many jobs, until one is a failure or the time is up."""
        end, tally = time.monotonic() + self.most_seconds, Tally()
        for number in range(first, self.most_jobs, every):
            if time.monotonic() > end:
                break
            with tempfile.TemporaryDirectory() as folder:
                failure = self.try_job(number, Path(folder), tally)
            if failure:
                return tally, failure
        return tally, None

    def run(self):
        """Tries the jobs on all processors that it has. Answers the exit status, and says what was tried or what is wrong."""
        name, many = Path(sys.argv[0]).name, len(os.sched_getaffinity(0))
        if not PROGRAM.exists():
            print(f"{name}: left out, no program is built")
            return 0
        total, failures = Tally(), []
        with ProcessPoolExecutor(many) as pool:
            for tally, failure in pool.map(self.work, range(many), [many] * many):
                total.add(tally)
                failures += [failure] if failure else []
        if failures:
            tell(name, self.seed, min(failures, key=lambda failure: failure.number))
            return 1
        if total.jobs >= MANY_JOBS and not total.cuts:
            print(f"{name}: in the runs of {total.jobs} jobs no jog was cut")
            return 1
        if total.resets >= MANY_RESETS and not total.broken_off:
            print(f"{name}: of {total.resets} resets none came before all was carried out")
            return 1
        if total.alarms >= MANY_ALARMS and not total.stopped:
            print(f"{name}: of {total.alarms} runs with a soft limit none was stopped in motion")
            return 1
        print(f"{name}: ok, {total}")
        return 0


def tell(name, seed, failure):
    """Says in one line what is wrong, and keeps the job in a file."""
    kept = Path(tempfile.gettempdir()) / f"{name}-{seed}-{failure.number}.nc"
    kept.write_bytes(failure.job)
    print(f"{name}: job {failure.number} of seed {seed}, kept as {kept}: {failure.wrong}")
