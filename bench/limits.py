#!/usr/bin/env python3
"""Seconds and peak memory of the program on inputs that mean no good: scripts at every limit of both versions and one
past each, as many outstanding commands as there may be, all memory filled, a history as long as `check` reads, lines of
megabytes, bytes of 0 and what is no UTF-8. Scripts go through `step 1 0`, `serve 16` and, with what `step` printed, `check`;
those with one line too many through all three with an empty line behind them for `check`; inputs that are no scripts through
`step 1 0` and, with an empty line behind them, `check`. Then a text whose reader leaves in its middle, and short commands
of 16 hosts by `serve 16` again and again for a minute, each history confirmed by `check`: one row tells how many runs
there were, the seconds of the longest and the peak of the largest.

    python3 bench/limits.py [WORD ..]

With words only the inputs are taken whose names have one of them. Each run is one alone, under GNU time. The last line
tells how many ended otherwise than they should, and the status is 1 where one did.
"""

import sys
import time
from pathlib import Path

from measure import PROGRAM, Run, build, left_under_time, run_once, run_under_time

sys.path.insert(0, str(Path(__file__).resolve().parent.parent / "tools"))
from inputs import (  # noqa: E402
    MOST_BYTES, STRANGE, VERSION_1, VERSION_2, all_limits, filled_memory, long_reads, many_hosts, many_lines, one_too_many,
)

STEP = ["step", "1", "0"]
SERVE = ["serve", "16"]
CHECK = ["check"]
LEGAL = b"legal\n"
# How many reads of 8,192 bytes give a history that `check` just reads together with its script.
READS = 16_200
# How many of them give the text whose reader leaves in its middle: of the 16,384 digits of each so many are read.
LEFT, DIGITS = 64, 8_192
# For how many seconds a script is run again and again.
AGAIN = 60

# Names, and makers of scripts: one is made when its turn comes, since some have 32 MiB.
SCRIPTS = (
    ("every limit of version 1", all_limits),
    ("every limit of version 2", lambda: all_limits(VERSION_2)),
    ("the most sends of version 1, 1 outstanding", many_lines),
    ("the most sends of version 1, 256 outstanding", lambda: many_lines(VERSION_1, 256)),
    ("the most sends of version 2, 1 outstanding", lambda: many_lines(VERSION_2)),
    ("the most sends of version 2, 4,096 outstanding", lambda: many_lines(VERSION_2, 4_096)),
    ("64 MiB filled, version 1", lambda: filled_memory(VERSION_1)[0]),
    ("64 MiB filled, version 2", lambda: filled_memory(VERSION_2)[0]),
    ("the longest history of reads", lambda: long_reads(READS)),
    ("one byte more than version 1 may have", lambda: all_limits(length=MOST_BYTES + 1)),
    ("one byte more than version 2 may have", lambda: all_limits(VERSION_2, length=MOST_BYTES + 1)),
)


class Table:
    """The rows that are printed, and how many of them are of runs that ended otherwise than they should."""

    def __init__(self):
        self.wrong = 0
        print(f"{'input':48} {'words':9} {'MB in':>7} {'status':>6} {'seconds':>8} {'peak MiB':>8} {'of input':>8}")

    def row(self, name, words, data, fits):
        """Runs the program, and tells the run; `fits` says whether it ended as it should."""
        run = run_under_time([PROGRAM, *words], data, keep=True)
        self.tell(name, words, data, run, not fits(run))
        return run

    def tell(self, name, words, data, run, wrong):
        """Tells a run, or several as one, of which so many ended otherwise than they should."""
        peak = run.peak_kib / 1024
        beside = f"{peak * (1 << 20) / len(data):8.2f}" if len(data) >= 1_000_000 else f"{'':8}"
        mark = f"  WRONG: {wrong:d}, {run.text[:60]!r}" if wrong else ""
        self.wrong += wrong
        print(f"{name:48} {' '.join(words):9} {len(data) / 1e6:7.2f} {run.status:6} {run.seconds:8.3f} "
              f"{peak:8.1f} {beside}{mark}", flush=True)


def refused_with(text):
    return lambda run: run.status == 2 and run.text == text


def scripts(table, name, make):
    """A script by a schedule and by threads, and what the schedule printed by `check`. Of one that is too long nothing
    is printed that `check` could hold against it."""
    text = make()
    too_long = name.startswith("one byte more")
    carried_out = refused_with(b"too long\n") if too_long else lambda run: run.status == 0
    step = table.row(name, STEP, text, carried_out)
    table.row(name, SERVE, text, carried_out)
    if step.status == 0:
        table.row(name, CHECK, text + b"\n" + step.text, lambda run: run.status == 0 and run.text == LEGAL)


def one_more(table, name, text, answer):
    """A script with one line too many, which is refused by a schedule, by threads and as the front of a trace."""
    for words, data in ((STEP, text), (SERVE, text), (CHECK, text + b"\n")):
        table.row(name, words, data, refused_with(answer))


def strange(table, name, text, answer):
    """An input that is no script. (Where `check` finds an empty line before the faulty one, it tells something else.)"""
    table.row(name, STEP, text, refused_with(answer))
    table.row(name, CHECK, text + b"\n\n", lambda run: run.status in (2, 6))


def left(table, name):
    """A text whose reader leaves in its middle: the write fails."""
    text = long_reads(LEFT)
    for words in (STEP, SERVE):
        run = left_under_time([PROGRAM, *words], text, LEFT * DIGITS)
        table.tell(name, words, text, run, run.status != 4 or len(run.text) != LEFT * DIGITS)


def again(table, name):
    """Short commands of 16 hosts by threads, again and again: the most seconds and the largest peak of all runs, and the
    status and the text of the first that is wrong."""
    text = many_hosts()
    runs, wrong = [], []
    begun = time.monotonic()
    while time.monotonic() - begun < AGAIN:
        run = run_under_time([PROGRAM, *SERVE], text, keep=True)
        checked = run_once(CHECK, text + b"\n" + run.text, keep=True)
        runs.append(run)
        if run.status != 0 or checked.status != 0 or checked.text != LEGAL:
            wrong.append(run)
    first = (wrong or runs)[0]
    most = Run(max(it.seconds for it in runs), 0, max(it.peak_kib for it in runs), first.status, first.text)
    table.tell(f"{name}, {len(runs)} runs", SERVE, text, most, len(wrong))


def main():
    build()
    chosen = sys.argv[1:]

    def is_chosen(name):
        return not chosen or any(word in name for word in chosen)

    table = Table()
    for name, make in SCRIPTS:
        if is_chosen(name):
            scripts(table, name, make)
    for name, text, answer in one_too_many():
        if is_chosen(name):
            one_more(table, name, text, answer)
    for name, text, answer in STRANGE:
        if is_chosen(name):
            strange(table, name, text, answer)
    for name, tell in (("a reader who leaves in the middle", left), ("short commands of 16 hosts", again)):
        if is_chosen(name):
            tell(table, name)
    print(f"{table.wrong} runs ended otherwise than they should")
    return 1 if table.wrong else 0


if __name__ == "__main__":
    sys.exit(main())
