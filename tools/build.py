#!/usr/bin/env python3
"""Builds a program of the repository: proves what is missing or older than its sources, crates side by side,
and puts the program into out/. Called by tools/renew.bash, which sees to it that no two builds run at once.

    python3 tools/build.py nvmecp
    python3 tools/build.py --sources nvmecp      only tells in which folders its sources are

Status: 0 where the program is built, 70 where it is not, 128 and the signal where one came.
"""

import hashlib
import os
import re
import shutil
import signal
import sys
import tempfile
import time
from functools import partial
from pathlib import Path

from crates import PARTS, TOP, Crates, Tree, copy_sources, held, linked, lowest_first, moved
from lanes import Lanes, Task

OUT = TOP / "out"
# What rt said of each crate, and when each crate's library was last found to be that of its sources.
LOGS = OUT / "logs"
PROVED = OUT / "proved"
FAILED = 70
# How many lines of a log are shown, how much of each, and which say nothing of a failure.
LINES_SHOWN = 12
COLUMNS_SHOWN = 240
USUAL = re.compile(r"logic |statements |library |crate |checked |so far: |rt: chose |only=|\S+ \S+: proved$")


class NotBuilt(Exception):
    """Why there is no program."""


class Stopped(Exception):
    """A signal came."""


def say(text):
    print(f"{sys.argv[1]}: {text}", file=sys.stderr, flush=True)


def place_of_trees(program):
    """An empty folder for trees: in .git, where the files of the checkout can have second names and no command of `rt`
    looks, or else among the temporary files."""
    if (TOP / ".git").is_dir():
        place = TOP / ".git" / f"trees-{program}"
    else:
        place = Path(tempfile.gettempdir()) / f"trees-{program}-{hashlib.sha256(bytes(TOP)).hexdigest()[:16]}"
    shutil.rmtree(place, ignore_errors=True)
    place.mkdir(mode=0o700)
    return place


class Build:
    """A build of one program."""

    def __init__(self, program):
        self.program = program
        self.crates = Crates()
        if program not in self.crates or not self.crates.is_program(program):
            raise NotBuilt(f"crates.txt names no program {program}")
        self.names = lowest_first(self.crates, [*self.crates.below(program), program])
        self.lanes = Lanes()
        self.kit = shutil.which("rt")
        if not self.kit:
            raise NotBuilt("there is no command rt: the README says which kit is needed")

    def run(self):
        """Builds the program. The file that tells what it was built from is as old as the start, so that an edit that is
        made meanwhile counts as newer."""
        for it in (OUT, LOGS, PROVED):
            it.mkdir(exist_ok=True)
        mark = OUT / f"{self.program}.building"
        mark.write_text(" ".join(self.folders()) + "\n", encoding="utf-8")
        self.began = mark.stat().st_mtime_ns
        self.place = place_of_trees(self.program)
        try:
            self.sources = self.place / "sources"
            self.libraries = self.place / "libraries"
            self.libraries.mkdir()
            copy_sources(self.crates, self.names, self.sources)
            self.prove([name for name in self.names if not self.takes_library(name)])
        except (NotBuilt, OSError) as error:
            with open(mark, "a", encoding="utf-8") as it:
                it.write(f"{error}\n")
            os.utime(mark, ns=(self.began, self.began))
            mark.replace(OUT / f"{self.program}.failed")
            raise
        finally:
            shutil.rmtree(self.place, ignore_errors=True)
        mark.replace(OUT / f"{self.program}.built")

    def folders(self):
        """Where the sources of the program are, as paths from the top."""
        found = [self.crates.folder(name) / part for name in self.names for part in PARTS]
        return [str(it.relative_to(TOP)) for it in found if it.is_dir()]

    def takes_library(self, name):
        """Puts the library that an earlier build left beside the others, if nothing that it is made from has changed since.
        (`rt` compares sums and not times: a library that does not fit is built again all the same.)"""
        rlib, record = self.crates.folder(name) / "out" / "rlib", PROVED / name
        below = self.crates.below(name)
        if name == self.program or not record.is_file() or not all((self.libraries / it).is_dir() for it in below):
            return False
        changed = max(os.stat(it).st_ctime_ns for it in (self.kit, TOP / "crates.txt"))
        changed = max(changed, *(self.crates.changed(it) for it in [*below, name]))
        lock = held(self.crates.folder(name)) if changed < record.stat().st_mtime_ns else None
        if lock is None:
            return False
        is_there = (rlib / "stamp").is_file()
        if is_there:
            linked(rlib, self.libraries / name)
        os.close(lock)
        return is_there

    def prove(self, names):
        """Proves these crates, of which the last is the program."""
        heights = self.crates.heights(names)
        tasks = []
        for name in names:
            waits = tuple(it for it in self.crates.deps[name] if it in names)
            tasks.append(Task(name, waits, heights[name], partial(self.build, name), self.crates.lines_of(name)))
        say(f"not built, or older than its sources: proving {len(names)} crates, {self.lanes.count} at a time")
        begun = []

        def begins(task):
            begun.append(task.name)
            say(f"proving {task.name}, {len(begun)} of {len(names)}")

        began = time.monotonic()
        answers = self.lanes.run(tasks, begins, lambda task, ran: not ran.is_well())
        failed = [name for name in names if name in answers and not answers[name].is_well()]
        if failed:
            raise NotBuilt(self.why(failed[0]))
        say(f"built in {time.monotonic() - began:.0f} seconds")

    def build(self, name, jobs):
        """Proves and builds one crate in a tree, to which it takes what is kept of the crate, and from which all comes
        back. Where an `rt` is at work in the crate's folder, that is left as it is."""
        log = LOGS / f"{name}.log"
        log.write_bytes(b"")
        folder = self.crates.folder(name)
        tree = Tree(self.place / "trees", self.sources, self.crates, name, self.libraries)
        lock = held(folder)
        if lock is not None and (folder / "out").is_dir():
            moved(folder / "out", tree.made)
        try:
            ran = self.build_in(tree, name, jobs, log)
        finally:
            if lock is not None:
                if tree.made.is_dir():
                    moved(tree.made, folder / "out")
                os.close(lock)
            tree.remove()
        if lock is not None and ran.is_well():
            (PROVED / name).touch()
            os.utime(PROVED / name, ns=(self.began, self.began))
        said = log.read_text(encoding="utf-8", errors="replace").replace(str(tree.place), str(TOP))
        times = f"{name}: {ran.seconds:.0f} seconds, {ran.processor_seconds:.0f} of processor time, with {jobs} jobs\n"
        log.write_text(said + times, encoding="utf-8")
        return ran

    def build_in(self, tree, name, jobs, log):
        """Runs `rt` in a tree, and puts what it made where it is looked for."""
        if name != self.program:
            ran = self.lanes.command(["rt", "lib", "--jobs", str(jobs)], tree.folder, log)
            if ran.is_well():
                linked(tree.made / "rlib", self.libraries / name)
            return ran
        ran = self.lanes.command(["rt", "run", "--jobs", str(jobs), "--"], tree.folder, log)
        # (the status is that of the program, which it runs without words once it is built)
        is_run = "rt: running " in log.read_text(encoding="utf-8", errors="replace")
        is_built = is_run and (tree.made / f"{name}.stamp").is_file()
        if is_built:
            self.hand_out(tree.made / name)
        ran.status = 0 if is_built else FAILED
        return ran

    def hand_out(self, made):
        """Puts a program into the place of an earlier one, which may be running."""
        fresh = OUT / f"{self.program}.new"
        shutil.copy2(made, fresh)
        fresh.replace(OUT / self.program)

    def why(self, name):
        """What is told of a crate that was not built."""
        log = LOGS / f"{name}.log"
        lines = [line for line in log.read_text(encoding="utf-8").splitlines() if not USUAL.match(line)]
        shown = [line[:COLUMNS_SHOWN] for line in lines[-LINES_SHOWN:]]
        return "\n    ".join([f"{name} was not built. What rt said last:", *shown]) + f"\nThe whole log: {log}"


def stop(number, _):
    """Ends the build where a signal asks for it. (Later ones are ignored: all that was kept is put back first.)"""
    for it in (signal.SIGINT, signal.SIGTERM, signal.SIGHUP):
        signal.signal(it, signal.SIG_IGN)
    raise Stopped(number)


def main():
    for it in (signal.SIGINT, signal.SIGTERM, signal.SIGHUP):
        signal.signal(it, stop)
    try:
        if sys.argv[1] == "--sources":
            print(*Build(sys.argv[2]).folders())
        else:
            Build(sys.argv[1]).run()
    except (NotBuilt, OSError) as error:
        say(str(error))
        return FAILED
    except Stopped as stopped:
        return 128 + stopped.args[0]
    return 0


if __name__ == "__main__":
    sys.exit(main())
