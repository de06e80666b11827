#!/usr/bin/env python3
"""How long the first call of the program takes on a machine that has kept nothing: a clone of the last commit proves and
builds the program and carries out an example.

    python3 bench/first_call.py

Each crate of the clone has one comment more and an empty folder for what is kept, so that nothing that `rt` has kept on
the machine fits it.
"""

import re
import subprocess
import sys
import tempfile
import time
from pathlib import Path

TOP = Path(__file__).resolve().parent.parent
sys.path.insert(0, str(TOP / "tools"))

from crates import Crates  # noqa: E402

EXAMPLE = "examples/first-write"
TOOK = re.compile(r"^(\w+): (\d+) seconds, (\d+) of processor time, with (\d+) jobs$", re.M)


def made_new(top):
    """Changes each crate of a clone by a comment."""
    crates = Crates(top)
    for name in crates:
        root = crates.folder(name) / "src" / ("main.rt" if crates.is_program(name) else "lib.rt")
        with open(root, "a", encoding="utf-8") as it:
            it.write(f"// Measured in {top}.\n")
        (crates.folder(name) / "out" / "incremental").mkdir(parents=True)


def main():
    with tempfile.TemporaryDirectory(prefix="first-call-") as place:
        top = Path(place) / "clone"
        subprocess.run(["git", "clone", "-q", TOP, top], check=True)
        made_new(top)
        began = time.monotonic()
        with open(top / f"{EXAMPLE}.script", "rb") as script:
            done = subprocess.run([top / "nvmecp", "step", "1", "0"], stdin=script, stdout=subprocess.PIPE, check=False)
        seconds = time.monotonic() - began
        if done.returncode != 0 or done.stdout != (top / f"{EXAMPLE}.expected").read_bytes():
            sys.exit(f"status {done.returncode}, {done.stdout!r}")
        took = [TOOK.findall(log.read_text(encoding="utf-8"))[-1] for log in sorted((top / "out" / "logs").glob("*.log"))]
    print("| crate | seconds | of processor time | jobs |")
    print("|---|---|---|---|")
    for row in took:
        print(f"| `{row[0]}` | {row[1]} | {row[2]} | {row[3]} |")
    whole = sum(int(row[2]) for row in took)
    print(f"\nthe first result came after {seconds:.0f} seconds, and {whole} of processor time")


if __name__ == "__main__":
    main()
