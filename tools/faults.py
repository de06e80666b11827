#!/usr/bin/env python3
"""Runs in which memory or threads are refused, or in which reads and writes fail, come short or are interrupted: each
allocation, each read and each write of the stored run in turn, each allocation of its script by threads, and all threads of
scripts but the first few. `./check` calls it.

    python3 tools/faults.py

tools/failing.c is compiled and stands before the C library. Where there is no C compiler, nothing is tried.
"""

import os
import shutil
import subprocess
import sys
import tempfile
from concurrent.futures import ThreadPoolExecutor
from pathlib import Path

from crates import TOP
from hostile import is_legal
from inputs import script
from serving import wrong_with

PROGRAM = TOP / "out" / "nvmecp"
STORED = TOP / "crates" / "nvmecp"
WORDS = (STORED / "args").read_text(encoding="utf-8").split()
SCRIPT = (STORED / "stdin").read_bytes()
TEXT = (STORED / "stdout").read_bytes()
THREADS = ["serve", "4"]
PATIENCE = 120
NO_MEMORY, READ_FAULT, WRITE_FAULT = 5, 3, 4
# The numbers of workers that are tried where threads are refused, and how many threads are made before.
WORKERS = (1, 4, 16)
MADE = (0, 1, 2, 5)


class Faults:
    """The stored run with a library before the C library that has one of its calls fail."""

    def __init__(self, room):
        self.room = Path(room)
        self.library = self.room / "failing.so"
        compiler = shutil.which("cc") or shutil.which("gcc") or shutil.which("clang")
        source = TOP / "tools" / "failing.c"
        words = [compiler, "-O1", "-shared", "-fPIC", "-o", self.library, source, "-ldl"]
        self.is_built = compiler is not None and subprocess.run(words, check=False).returncode == 0

    def run(self, words, script=SCRIPT, **settings):
        """What the program answers to a script with these settings of tools/failing.c."""
        how = {"env": {**os.environ, **settings, "LD_PRELOAD": str(self.library)}, "timeout": PATIENCE}
        return subprocess.run([PROGRAM, *words], input=script, capture_output=True, check=False, **how)

    def counted(self, words, script=SCRIPT, **settings):
        """The same, and how many allocations, reads, writes and threads the run asks for."""
        with tempfile.NamedTemporaryFile(dir=self.room) as file:
            done = self.run(words, script, COUNTS=file.name, **settings)
            return done, tuple(map(int, file.read().split()))

    def counts(self, words):
        """How many allocations, reads and writes a run has in which none fails."""
        return self.counted(words)[1][:3]


def told(done):
    return f"status {done.returncode}, {done.stdout[:80]!r}{done.stderr[:80]!r}"


def without_memory(done):
    """What is wrong where memory was refused: nothing is written, or a legal history is."""
    if done.returncode == NO_MEMORY and not done.stdout and not done.stderr:
        return None
    fits = done.returncode == 0 and not done.stderr and (done.stdout == TEXT or is_legal(SCRIPT, done.stdout))
    return None if fits else told(done)


def with_read_fault(done):
    """What is wrong where a read failed: nothing may be written."""
    return None if done.returncode == READ_FAULT and not done.stdout and not done.stderr else told(done)


def with_write_fault(done):
    """What is wrong where a write failed: a front of the text may be written."""
    fits = done.returncode == WRITE_FAULT and TEXT.startswith(done.stdout) and len(done.stdout) < len(TEXT) and not done.stderr
    return None if fits else told(done)


def whole(done):
    """What is wrong where nothing failed."""
    return None if done.returncode == 0 and done.stdout == TEXT and not done.stderr else told(done)


def sixteen_hosts():
    """16 hosts that fill the same bytes in one phase, write one of them, withdraw that and read all."""
    lines = ["mem 1 bytes=64", "phase"]
    for host in range(1, 17):
        lines.append(f"host {host}")
        for number in range(4):
            lines += [f"send 1 memfill ns=1 at=0 len=64 value={host}", f"send 2 memwrite ns=1 at={host} data={number:02x}"]
            lines += ["send 3 abort cid=2", "send 4 memread ns=1 at=0 len=64", *(f"take {cid}" for cid in (4, 2, 1, 3))]
    return script(*lines, "show mem 1 at=0 len=64")


def with_threads(faults, text, workers, made):
    """What is wrong with a run of a script by so many workers for which only so many threads are made, and how many it asked
    for in vain."""
    try:
        done, counts = faults.counted(["serve", str(workers)], text, FAIL_THREADS=str(made + 1))
    except subprocess.TimeoutExpired:
        return f"no end within {PATIENCE} seconds", 0
    asked = counts[3] if len(counts) == 4 else 0
    return wrong_with(text, done), max(asked - made, 0)


def check_threads(note, faults):
    """Scripts are carried out by `serve` where no thread is made, and where only the first few are."""
    for name, text in (("the stored script", SCRIPT), ("16 hosts in one phase", sixteen_hosts())):
        for made in MADE:
            runs = [(workers, *with_threads(faults, text, workers, made)) for workers in WORKERS]
            refused = sum(count for _, _, count in runs)
            wrong = [f"FAIL_THREADS={made + 1} serve {workers}: {it}" for workers, it, _ in runs if it]
            wrong = wrong or ([] if refused else ["none was refused"])
            note(f"{name} by serve, threads that are made: {made} at most (refused: {refused})", "; ".join(wrong))


def check_faults(note):
    """Each allocation, read and write of the stored run fails in turn, and threads are refused."""
    with tempfile.TemporaryDirectory() as room, ThreadPoolExecutor() as pool:
        faults = Faults(room)
        if not faults.is_built:
            print("not tried: refused memory and threads, failing reads and writes, since there is no C compiler", flush=True)
            return
        allocations, reads, writes = faults.counts(WORDS)
        by_threads, _, _ = faults.counts(THREADS)

        def each(words, count, setting, judge):
            tries = pool.map(lambda number: (number, judge(faults.run(words, **{setting: str(number)}))), range(1, count + 1))
            return "; ".join(f"at {number}: {wrong}" for number, wrong in tries if wrong)[:400] or None

        for run, words, what, count, setting, judge in (
            ("the stored run", WORDS, "allocation", allocations, "FAIL_ALLOCATION", without_memory),
            ("the stored run", WORDS, "read", reads, "FAIL_READ", with_read_fault),
            ("the stored run", WORDS, "write", writes, "FAIL_WRITE", with_write_fault),
            ("its script by threads", THREADS, "allocation", by_threads, "FAIL_ALLOCATION", without_memory),
        ):
            wrong = each(words, count, setting, judge) if count else "there is none"
            note(f"{run}, each {what} fails in turn ({count})", wrong)
        check_threads(note, faults)
        for what, settings in (
            ("each read and write moves one byte", {"SHORT_IO": "1"}),
            ("each read and write is interrupted a hundred times", {"INTERRUPTED": "100"}),
        ):
            note(f"the stored run, {what}", whole(faults.run(WORDS, **settings)))


def main():
    failed = []

    def note(what, wrong):
        failed.extend([what] if wrong else [])
        print(f"FAILED  {what}: {wrong}" if wrong else f"passed  {what}", flush=True)

    check_faults(note)
    return 1 if failed else 0


if __name__ == "__main__":
    sys.exit(main())
