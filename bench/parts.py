#!/usr/bin/env python3
"""Times the parts of the core, each by itself, from outside: crates/parts_bench does one thing of one part for so many
rounds.

    python3 bench/parts.py

A time is the difference of two runs with another number of rounds, each the best of several, so that what comes before
the first round is in none of the figures.
"""

import os
import subprocess
import sys
import time

from measure import TOP, build

NAME = "parts_bench"
TRIES = 5


def run(name, workload, rounds):
    """The seconds and the peak KiB of one run of a program. The peak is never below that of this program."""
    began = time.perf_counter()
    child = subprocess.Popen([TOP / "out" / name, workload, str(rounds)], stdout=subprocess.DEVNULL)
    _, state, usage = os.wait4(child.pid, 0)
    seconds = time.perf_counter() - began
    child.returncode = os.waitstatus_to_exitcode(state)
    if child.returncode != 0:
        sys.exit(f"{name} {workload} {rounds}: status {child.returncode}")
    return seconds, usage.ru_maxrss


def least(name, workload, all_rounds, tries=TRIES):
    """The seconds of the fastest run of each of these numbers of rounds. They are run in turn, so that all meet the machine
    alike."""
    seconds = dict.fromkeys(all_rounds, float("inf"))
    for _ in range(tries):
        for rounds in all_rounds:
            seconds[rounds] = min(seconds[rounds], run(name, workload, rounds)[0])
    return seconds


def each(name, workload, rounds):
    """The seconds of a round."""
    seconds = least(name, workload, (0, rounds))
    return max(seconds[rounds] - seconds[0], 1e-9) / rounds


def pieces():
    # (a run takes a few milliseconds, so many are needed)
    counts = (4_096, 8_192, 16_384, 32_768)
    seconds = least(NAME, "pieces", (0, *counts), tries=100)
    print("| lone bytes | us each | ratio |\n|---|---|---|")
    before = None
    for count in counts:
        took = seconds[count] - seconds[0]
        ratio = f"{took / before:.2f}" if before else ""
        print(f"| {count} | {took / count * 1e6:.3f} | {ratio} |")
        before = took


def claims():
    asked = 32
    print("| claims | ns each |\n|---|---|")
    for workload, rounds, calls, what in (
        ("ask-one", 100_000, asked, "one range free beside 32 claims of 16"),
        ("ask-sixteen", 10_000, asked, "16 ranges free beside 32 claims of 16"),
        ("change-one", 1_000_000, 1, "one range added and removed beside 31 of one"),
        ("change-sixteen", 20_000, 1, "16 and 16 ranges added and removed beside 31 such"),
    ):
        print(f"| {what} | {each(NAME, workload, rounds) / calls * 1e9:.0f} |")


def exchanges():
    print("| taken and put back | times | ns each |\n|---|---|---|")
    for workload, counts, what in (
        ("anywhere", (1_000, 10_000, 100_000, 1_000_000), "4,096 bytes at random places"),
        ("aligned", (1_000, 10_000, 100_000, 1_000_000), "4,096 bytes at random multiples of 4,096"),
        ("ascending", (16_384,), "1,024 bytes in ascending order"),
    ):
        for count in counts:
            print(f"| {what} | {count} | {each(NAME, workload, count) * 1e9:.0f} |")
    count = 4_000_000
    seconds, peak = run(NAME, "lone", count)
    print(f"| one byte at random places | {count} | {seconds / count * 1e9:.0f} |")
    print(f"\nThe last took {peak / 1024:.1f} MiB at its peak.")


def builtins():
    print("| program | kernel us | plain us | ratio |\n|---|---|---|---|")
    for name in ("count", "sum", "compare", "classes"):
        kernel, plain = each(NAME, name, 2_000), each(NAME, f"plain-{name}", 200)
        print(f"| `{name}` | {kernel * 1e6:.1f} | {plain * 1e6:.1f} | {plain / kernel:.1f} |")


def main():
    build(NAME)
    for number, table in enumerate((pieces, claims, exchanges, builtins)):
        if number > 0:
            print()
        table()


if __name__ == "__main__":
    main()
