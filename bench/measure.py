"""Runs of the built program, timed from outside: seconds, peak memory, status and text."""

import os
import subprocess
import sys
import tempfile
import time
from contextlib import ExitStack
from functools import partial
from pathlib import Path

TOP = Path(__file__).resolve().parent.parent
PROGRAM = TOP / "out" / "nvmecp"
# GNU time, which tells the peak memory of what it runs.
TIME = Path("/usr/bin/time")


class Run:
    """What one run took and gave: seconds, and seconds of processor time outside the system among them."""

    def __init__(self, seconds, busy, peak_kib, status, text):
        self.seconds = seconds
        self.busy = busy
        self.peak_kib = peak_kib
        self.status = status
        self.text = text


def build(program="nvmecp"):
    """Builds a program where it is missing or older than its sources, so that no old one is ever timed."""
    done = subprocess.run([TOP / "tools" / "renew.bash", program], check=False)
    if done.returncode != 0:
        sys.exit(done.returncode)


def run_once(words, data, keep, program=PROGRAM):
    """One run of a program on these bytes, whose text is kept or not. Input and output lie in files, so that no pipe is
    measured. The peak memory is never below that of this program, which starts the other as a copy of itself;
    so long texts are not kept where memory is measured."""
    with tempfile.TemporaryFile() as source, tempfile.TemporaryFile() as sink:
        source.write(data)
        source.seek(0)
        began = time.perf_counter()
        child = subprocess.Popen([program, *words], stdin=source, stdout=sink, cwd=TOP)
        _, state, usage = os.wait4(child.pid, 0)
        seconds = time.perf_counter() - began
        child.returncode = os.waitstatus_to_exitcode(state)
        sink.seek(0)
        return Run(seconds, usage.ru_utime, usage.ru_maxrss, child.returncode, sink.read() if keep else b"")


def run_together(words, data, count):
    """So many runs of the program on these bytes at once, each with files of its own: the seconds until the last is
    over, the processor time of all and the largest peak memory of one. Each has to end with status 0."""
    with ExitStack() as files:
        sources = [files.enter_context(tempfile.TemporaryFile()) for _ in range(count)]
        sinks = [files.enter_context(tempfile.TemporaryFile()) for _ in range(count)]
        for source in sources:
            source.write(data)
            source.seek(0)
        began = time.perf_counter()
        files_of = zip(sources, sinks)
        children = [subprocess.Popen([PROGRAM, *words], stdin=it, stdout=to, cwd=TOP) for it, to in files_of]
        ends = [os.wait4(child.pid, 0) for child in children]
        seconds = time.perf_counter() - began
    for child, (_, state, _) in zip(children, ends):
        child.returncode = os.waitstatus_to_exitcode(state)
        if child.returncode != 0:
            sys.exit(f"{' '.join(words)}, {count} at once: status {child.returncode}")
    usages = [usage for _, _, usage in ends]
    return Run(seconds, sum(it.ru_utime for it in usages), max(it.ru_maxrss for it in usages), 0, b"")


def timed(command, data, sink, most=0):
    """One run of a command on these bytes under GNU time, whose text goes to a file, or into a pipe of which so many
    bytes are read before it is closed."""
    if not TIME.exists():
        sys.exit(f"{TIME} is missing: without GNU time (the package `time`) no peak memory can be told")
    with tempfile.TemporaryFile() as source, tempfile.NamedTemporaryFile() as report:
        source.write(data)
        source.seek(0)
        began = time.perf_counter()
        words = [TIME, "-f", "%M %U", "-o", report.name, *command]
        child = subprocess.Popen(words, stdin=source, stdout=sink, cwd=TOP)
        text = b""
        if child.stdout:
            text = child.stdout.read(most)
            child.stdout.close()
        status = child.wait()
        seconds = time.perf_counter() - began
        # (a line before the last tells of a status that is not 0)
        peak_kib, busy = report.read().splitlines()[-1].split()
        return Run(seconds, float(busy), int(peak_kib), status, text)


def run_under_time(command, data, keep=False):
    """One run of a command on these bytes under GNU time, whose text is kept or not. Its peak memory is its own, since
    GNU time, which starts it, is small; its seconds have the start of GNU time in them, about a millisecond."""
    with tempfile.TemporaryFile() as sink:
        run = timed(command, data, sink)
        sink.seek(0)
        run.text = sink.read() if keep else b""
        return run


def left_under_time(command, data, most):
    """The same where whoever reads the text leaves after so many bytes; these are kept."""
    return timed(command, data, subprocess.PIPE, most)


def peak_mib(command, data, status=0):
    """The peak resident memory of a command on these bytes in MiB, and the seconds that it took under GNU time. It has
    to end with this status."""
    run = run_under_time(command, data)
    if run.status != status:
        sys.exit(f"{' '.join(map(str, command))}: status {run.status}")
    return run.peak_kib / 1024, run.seconds


def peaks(runs, status=0):
    """The peak memory of the program in MiB for each of these words and inputs, as `best_in_turn` takes them."""
    return [peak_mib([PROGRAM, *words], data, status)[0] for words, data, *_ in runs]


def best_of(times, words, data, status, text=None, keep=True, program=PROGRAM):
    """The fastest of some runs of a program, each of which has to end with this status and, where one is given, with
    this text."""
    runs = [run_once(words, data, keep, program) for _ in range(times)]
    for run in runs:
        if run.status != status or text not in (None, run.text):
            sys.exit(f"{' '.join(words)}: status {run.status}, {run.text[:80]!r}")
    return min(runs, key=lambda run: run.seconds)


def in_turn(times, calls):
    """The fastest run of each of these calls, each of which gives a run. They are called in turn, so that all meet the
    machine alike."""
    best = [None] * len(calls)
    for _ in range(times):
        for number, call in enumerate(calls):
            run = call()
            if best[number] is None or run.seconds < best[number].seconds:
                best[number] = run
    return best


def best_in_turn(times, runs, status=0, program=PROGRAM):
    """The fastest run of a program for each of these words and inputs, taken in turn. Behind an input the text may
    stand that the run has to give; where none stands, texts are not kept."""
    calls = []
    for words, data, *text in runs:
        calls.append(partial(best_of, 1, words, data, status, *text, keep=bool(text), program=program))
    return in_turn(times, calls)


def doubled(rows, empty):
    """For rows of a size and its fastest run: the size, the run, the seconds without those of an empty run,
    and the ratio to the row before."""
    before = None
    for size, run in rows:
        seconds = max(run.seconds - empty.seconds, 1e-9)
        yield size, run, seconds, f"{seconds / before:.2f}" if before else ""
        before = seconds
