#!/usr/bin/env python3
"""How long the parts of the merge gate take for each crate: the crate's proof, that of its tests, and its must-fail edits,
each from nothing.

    python3 bench/gate.py                        all crates, as many commands at a time as there are processors
    python3 bench/gate.py --only CRATE ..        these crates (with the proofs of those below them)
    python3 bench/gate.py --parts check,tests    without the edits
    python3 bench/gate.py --at-a-time 2          with two commands at a time

It prints a table of seconds of processor time, which depend less than others on what else the machine does (up to a half
more where it is busy), and last how long all took. Nothing that was proved before is used: it works on copies, in which each crate has one comment more, so that
nothing that `rt` has kept on the machine fits them.
"""

import argparse
import re
import shutil
import sys
import tempfile
import time
from pathlib import Path

TOP = Path(__file__).resolve().parent.parent
sys.path.insert(0, str(TOP / "tools"))

from crates import Crates, Tree, copy_sources, linked, lowest_first  # noqa: E402
from lanes import Lanes, Ran, Task  # noqa: E402

PARTS = ("check", "tests", "edits")
TEST = re.compile(r"#\s*\[[^]]*\btest\b")


class Gate:
    """The parts of the gate for some crates."""

    def __init__(self, place, names, at_a_time):
        self.place = place
        self.crates = Crates(TOP)
        self.names = names
        self.lanes = Lanes(at_a_time, most_jobs=1)
        self.sources = place / "sources"
        self.libraries = place / "libraries"
        self.libraries.mkdir()
        copy_sources(self.crates, names, self.sources)
        self.lines = {name: self.crates.lines_of(name) for name in names}
        for name in names:
            with open(self.root_file(name), "a", encoding="utf-8") as it:
                it.write(f"// Measured in {place}.\n")

    def root_file(self, name):
        return self.sources / "crates" / name / "src" / ("main.rt" if self.crates.is_program(name) else "lib.rt")

    def has_tests(self, name):
        files = (self.sources / "crates" / name / "src").rglob("*.rt")
        return any(TEST.search(it.read_text(encoding="utf-8")) for it in files)

    def edits(self, name):
        """How many must-fail edits a crate has."""
        return len(list((self.crates.folder(name) / "must-fail").glob("*.edit")))

    def ran(self, name, part, words, folder=None):
        """Runs one part for a crate in a tree of its own. An empty folder for what is kept says that nothing is."""
        tree = Tree(self.place / part, self.sources, self.crates, name, self.libraries)
        (tree.made / "incremental").mkdir(parents=True)
        if part == "edits":
            linked(self.crates.folder(name) / "must-fail", tree.folder / "must-fail")
        ran = self.lanes.command(words, tree.place if part == "edits" else tree.folder, self.place / f"{name}.{part}.log")
        if ran.is_well() and part == "check" and not self.crates.is_program(name):
            linked(tree.made / "rlib", self.libraries / name)
        tree.remove()
        return ran

    def check(self, name):
        verb = "check" if self.crates.is_program(name) else "lib"
        return self.ran(name, "check", ["rt", verb, "--jobs", "1"])

    def tests(self, name):
        if not self.has_tests(name):
            return Ran(0, 0, 0)
        return self.ran(name, "tests", ["rt", "check", "--test", "--jobs", "1"])

    def tried(self, name):
        if not self.edits(name):
            return Ran(0, 0, 0)
        return self.ran(name, "edits", ["env", "RT_JOBS=1", "rt", "must-fail", "--anew", name])

    def run(self, parts, wanted):
        """Runs these parts for the wanted crates, and gives what each took. All are checked, since others stand on them."""
        heights = self.crates.heights(self.names)
        tasks = []
        for name in self.names:
            waits = tuple(f"{it} check" for it in self.crates.deps[name])
            tasks.append(Task(f"{name} check", waits, heights[name], lambda jobs, name=name: self.check(name)))
            own = (f"{name} check",)
            if name in wanted and "tests" in parts:
                tasks.append(Task(f"{name} tests", own, 1, lambda jobs, name=name: self.tests(name)))
            if name in wanted and "edits" in parts:
                tasks.append(Task(f"{name} edits", own, 0, lambda jobs, name=name: self.tried(name)))
        return self.lanes.run(tasks, ended=self.tell)

    def tell(self, task, ran):
        """Tells how a part ended, and goes on."""
        if ran.seconds:
            how = "" if ran.is_well() else f", NOT PASSED: {self.place}/{task.name.replace(' ', '.')}.log"
            print(f"{task.name}: {ran.seconds:.0f} seconds, {ran.processor_seconds:.0f} of processor time{how}", file=sys.stderr, flush=True)
        return False


def table(gate, wanted, answers, began):
    """The table of processor seconds, and the whole."""
    print("| crate | lines | check | tests | edits | together |")
    print("|---|---|---|---|---|---|")
    whole = dict.fromkeys(PARTS, 0.0)
    for name in wanted:
        took = {part: answers[f"{name} {part}"].processor_seconds for part in PARTS if f"{name} {part}" in answers}
        for part, seconds in took.items():
            whole[part] += seconds
        shown = [f"{took[part]:.0f}" if took.get(part) else "" for part in PARTS]
        if shown[2]:
            shown[2] += f" ({gate.edits(name)})"
        print(f"| `{name}` | {gate.lines[name]} | {' | '.join(shown)} | {sum(took.values()):.0f} |")
    shown = [f"{whole[part]:.0f}" if whole[part] else "" for part in PARTS]
    if shown[2]:
        shown[2] += f" ({sum(gate.edits(name) for name in wanted)})"
    print(f"| all | {sum(gate.lines[name] for name in wanted)} | {' | '.join(shown)} | {sum(whole.values()):.0f} |")
    minutes = (time.monotonic() - began) / 60
    print(f"\n{minutes:.1f} minutes with {gate.lanes.count} commands at a time; {sum(whole.values()) / 60:.0f} minutes of processor time")


def main():
    given = argparse.ArgumentParser(description="How long the parts of the merge gate take for each crate.")
    given.add_argument("--only", nargs="+", metavar="CRATE", help="these crates alone")
    given.add_argument("--parts", default=",".join(PARTS), help="some of check, tests and edits")
    given.add_argument("--at-a-time", type=int, metavar="N", help="how many commands, if not as many as processors")
    words = given.parse_args()
    crates = Crates(TOP)
    wanted = lowest_first(crates, words.only or list(crates))
    below = {it for name in wanted for it in crates.below(name)}
    place = Path(tempfile.mkdtemp(prefix="gate-"))
    failed = []
    try:
        began = time.monotonic()
        gate = Gate(place, lowest_first(crates, {*wanted, *below}), words.at_a_time)
        answers = gate.run(words.parts.split(","), wanted)
        table(gate, wanted, answers, began)
        failed = [name for name, ran in answers.items() if not ran.is_well()]
    finally:
        if not failed:
            shutil.rmtree(place, ignore_errors=True)
    if failed:
        sys.exit(f"not passed, so the figures say little: {', '.join(failed)} (logs in {place})")


if __name__ == "__main__":
    main()
