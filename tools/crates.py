"""The crates of the repository, as crates.txt lists them, and trees of their own for the commands of `rt`.

While `rt` works on a crate it keeps every other `rt` out of the folders of that crate and of all below it.
So two crates that stand on one base are never proved side by side in one checkout. In a tree, which has
copies of one crate and of those below it, nothing else is at work.
"""

import fcntl
import os
import shutil
from pathlib import Path

TOP = Path(__file__).resolve().parent.parent
# What a crate is made from.
PARTS = ("src", "specs", "proofs")


class Crates:
    """The crates of a crates.txt: the line of each, and those of the repository that it stands on."""

    def __init__(self, top=TOP):
        self.top = Path(top)
        self.lines = {}
        for line in (self.top / "crates.txt").read_text(encoding="utf-8").splitlines():
            said = line.partition("#")[0].strip()
            if said:
                self.lines[said.partition(":")[0].split()[0]] = said
        named = {name: line.partition(":")[2].replace(",", " ").split() for name, line in self.lines.items()}
        self.deps = {name: [dep for dep in deps if dep in self.lines] for name, deps in named.items()}
        self.known_below = {}

    def __iter__(self):
        return iter(self.lines)

    def below(self, name):
        """The crates that this one stands on, each behind those that it stands on itself."""
        if name not in self.known_below:
            found = []
            for dep in self.deps[name]:
                found += [it for it in [*self.below(dep), dep] if it not in found]
            self.known_below[name] = found
        return self.known_below[name]

    def folder(self, name):
        """The folder of a crate."""
        return self.top / "crates" / name

    def is_program(self, name):
        """Whether a crate is a program."""
        return (self.folder(name) / "src" / "main.rt").is_file()

    def sources(self, name):
        """All that a crate is made from, the folders too, since a file that went changes only its folder."""
        for part in PARTS:
            for at, _, files in os.walk(self.folder(name) / part):
                yield at
                yield from (os.path.join(at, file) for file in files)

    def changed(self, name):
        """When a source of a crate was changed last, in nanoseconds. This is the time that the system keeps of the
        change itself (ctime), which no command sets back."""
        return max((os.stat(it).st_ctime_ns for it in self.sources(name)), default=0)

    def lines_of(self, name):
        """How many lines of code, definitions and proofs a crate has."""
        count = 0
        for file in self.sources(name):
            if file.endswith((".rt", ".antt")):
                with open(file, "rb") as it:
                    count += it.read().count(b"\n")
        return count

    def heights(self, names):
        """For each of these crates the lines of the longest chain of them that begins with it and goes upwards."""
        found = {}
        for name in reversed(lowest_first(self, names)):
            behind = [found[other] for other in found if name in self.deps[other]]
            found[name] = self.lines_of(name) + max(behind, default=0)
        return found


def lowest_first(crates, names):
    """These crates, each behind those of them that it stands on."""
    return sorted(names, key=lambda name: len(crates.below(name)))


def linked(source, target):
    """Copies a file or a folder, by second names of its files where the file system has them. `rt` replaces files that
    it made, and never writes into one."""
    if os.path.isdir(source):
        shutil.copytree(source, target, copy_function=linked)
        return
    try:
        os.link(source, target)
    except OSError:
        shutil.copy2(source, target)


def moved(source, target):
    """Puts a folder into the place of another."""
    shutil.rmtree(target, ignore_errors=True)
    shutil.move(str(source), str(target))


def held(folder):
    """Keeps each `rt` out of a crate's folder until what it gives is closed; None where one is at work there."""
    place = os.open(folder, os.O_RDONLY)
    try:
        fcntl.flock(place, fcntl.LOCK_EX | fcntl.LOCK_NB)
        return place
    except OSError:
        os.close(place)
        return None


def copy_sources(crates, names, target):
    """Copies what these crates are made from, so that an edit that is made meanwhile reaches no build."""
    for name in names:
        for part in PARTS:
            if (crates.folder(name) / part).is_dir():
                shutil.copytree(crates.folder(name) / part, target / "crates" / name / part)
    shutil.copy2(crates.top / "crates.txt", target)


class Tree:
    """A tree for one crate: the crate, those below it with their libraries, and nothing else."""

    def __init__(self, place, sources, crates, name, libraries):
        self.place = Path(place) / name
        self.folder = self.place / "crates" / name
        self.made = self.folder / "out"
        below = crates.below(name)
        for it in [*below, name]:
            linked(sources / "crates" / it, self.place / "crates" / it)
        for it in below:
            (self.place / "crates" / it / "out").mkdir()
            linked(libraries / it, self.place / "crates" / it / "out" / "rlib")
        lines = [crates.lines[it] + "\n" for it in [*below, name]]
        (self.place / "crates.txt").write_text("".join(lines), encoding="utf-8")

    def library(self, libraries, name):
        """Puts the library that was built here beside the others."""
        linked(self.made / "rlib", libraries / name)

    def remove(self):
        shutil.rmtree(self.place, ignore_errors=True)
