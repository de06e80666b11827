#!/usr/bin/env python3
"""Runs scripts by `serve`, again and again, with many numbers of workers: each text is that of a legal history with each
command once, by `check`. `./check` calls it.

    python3 tools/serving.py [SECONDS]

With SECONDS it goes on for so long.
"""

import sys
import time

from crates import TOP
from hostile import entries, is_legal, run, told
from inputs import many_hosts, script

STORED = (TOP / "crates" / "nvmecp" / "stdin").read_bytes()
TOTAL = 100


def two_fills():
    return (TOP / "examples" / "overlapping-fills.script").read_bytes()


def aborts():
    """Eight hosts, each of which withdraws what it has just sent, while the others' commands meet it."""
    lines = ["mem 1 bytes=16", "phase"]
    for host in range(1, 9):
        lines.append(f"host {host}")
        for number in range(8):
            lines += [f"send 1 memfill ns=1 at={host} len=2 value={number}", "send 2 abort cid=1", "take 2", "take 1"]
    return script(*lines, "show mem 1 at=0 len=16")


def phases():
    """In each of 32 phases another host adds a byte and reads what the one before wrote."""
    lines = ["mem 1 bytes=64"]
    for number in range(32):
        lines += ["phase", f"host {1 + number % 16}", f"send 1 memwrite ns=1 at={number} data={number + 1:02x}"]
        lines += ["take 1", f"send 2 memread ns=1 at={number - number % 2} len=2"]
    return script(*lines, "show mem 1 at=0 len=64")


SCRIPTS = (
    ("the stored script", STORED),
    ("two fills that overlap", two_fills()),
    ("16 hosts on the same bytes", many_hosts()),
    ("eight hosts that withdraw", aborts()),
    ("32 phases", phases()),
)
WORKERS = (1, 2, 3, 4, 8, 16)


def served(text, workers):
    """What is wrong with a run of a script by so many workers, or None."""
    return wrong_with(text, run(text, ("serve", str(workers))))


def wrong_with(text, done):
    """What is wrong with what a run of a script by threads gave, or None: it is a legal history with each command once."""
    if done.returncode != 0 or done.stderr:
        return told(done)
    read = entries(done.stdout)
    if read is None or len(read[0]) != text.count(b"\nsend "):
        return "not each command once"
    return None if is_legal(text, done.stdout) else f"no legal history: {done.stdout[:400]!r}"


def check_serving(note, seconds=0):
    """Runs each script a hundred times or more by `serve`, and tells each by `note(what, wrong)`."""
    for name, text in SCRIPTS:
        count, wrong, begun = 0, None, time.monotonic()
        while not wrong and (count < TOTAL or time.monotonic() - begun < seconds):
            wrong = served(text, WORKERS[count % len(WORKERS)])
            count += 1
        note(f"{name}, {count} times by serve", wrong)


def main():
    failed = []

    def note(what, wrong):
        print(f"FAILED  {what}: {wrong}" if wrong else f"passed  {what}", flush=True)
        failed.extend([what] if wrong else [])

    check_serving(note, float(sys.argv[1]) if len(sys.argv) > 1 else 0)
    return 1 if failed else 0


if __name__ == "__main__":
    sys.exit(main())
