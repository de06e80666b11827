#!/usr/bin/env python3
"""Times the interpreter of programs from outside.

    python3 bench/bpf.py
    python3 bench/bpf.py --beside PROGRAM     beside another built bpf_bench, such as that of an earlier commit

Executes each program of crates/bpf_bench a few times, and prints how many nanoseconds of processor time an
instruction takes: of a counting loop, of a sum over the bytes of 64 KiB, of stores over 64 KiB, and of a loop by
jumps from end to end of a code of 1 KiB (near) and of 64 KiB (far). The last line is the ratio of the last two.

With --beside each execution is followed by the same one of PROGRAM, so that both meet the machine alike. It prints
what an instruction takes in this program and in the one beside it, and the ratio of the first to the second.
"""

import argparse
import re
import resource
import subprocess
import sys
from pathlib import Path

from measure import TOP, build

PROGRAM = TOP / "out" / "bpf_bench"
ROUNDS = {"loop": 20_000_000, "sum": 150, "store": 1_500, "near": 12_000_000, "far": 12_000_000}
TRIES = 5


def seconds_used():
    """The processor time of all processes that were run and are over."""
    used = resource.getrusage(resource.RUSAGE_CHILDREN)
    return used.ru_utime + used.ru_stime


def timed(program, workload, rounds):
    """The seconds of processor time of one execution, and how many instructions it had."""
    start = seconds_used()
    done = subprocess.run([program, workload, str(rounds)], capture_output=True, text=True)
    seconds = seconds_used() - start
    told = re.fullmatch(r"(\d+) instructions, Exit\(\d+\)\n", done.stdout)
    if done.returncode != 0 or told is None:
        sys.exit(f"{program} {workload} {rounds}: status {done.returncode}, {done.stdout!r}")
    return seconds, int(told[1])


def least(programs, rounds_of):
    """For each workload, of each program the least time of a few tries, all taken in turn, and its instructions."""
    times = {workload: [[] for _ in programs] for workload in ROUNDS}
    for _ in range(TRIES):
        for workload in ROUNDS:
            for program, tries in zip(programs, times[workload]):
                tries.append(timed(program, workload, rounds_of(workload)))
    return {workload: [min(tries) for tries in of_programs] for workload, of_programs in times.items()}


def measured(programs):
    """For each workload the nanoseconds that an instruction takes in each program, and how many instructions there
    were, of which all programs have to have as many."""
    short = least(programs, lambda workload: 1)
    long = least(programs, lambda workload: ROUNDS[workload])
    figures = {}
    for workload in ROUNDS:
        both = list(zip(short[workload], long[workload]))
        counts = [of_long[1] - of_short[1] for of_short, of_long in both]
        if len(set(counts)) != 1:
            sys.exit(f"{workload}: the programs differ, with {' and '.join(map(str, counts))} instructions")
        taken = [(of_long[0] - of_short[0]) * 1e9 / counts[0] for of_short, of_long in both]
        figures[workload] = taken, counts[0]
    return figures


def alone(figures):
    """Prints what an instruction takes."""
    for workload, ((taken,), instructions) in figures.items():
        print(f"{workload:5} {taken:8.2f} ns an instruction, over {instructions} instructions")
    print(f"far / near: {figures['far'][0][0] / figures['near'][0][0]:.2f}")


def side_by_side(figures):
    """Prints what an instruction takes in this program and in the one beside it."""
    print(f"{'':5} {'this':>8} {'beside':>8} {'ratio':>6}")
    for workload, ((this, beside), instructions) in figures.items():
        taken = f"{workload:5} {this:8.2f} {beside:8.2f} {this / beside:6.2f}"
        print(f"{taken}   ns an instruction, over {instructions} instructions")
    this, beside = (far / near for far, near in zip(figures["far"][0], figures["near"][0]))
    print(f"far / near: {this:.2f}, beside {beside:.2f}")


def main():
    given = argparse.ArgumentParser(description="How long the interpreter of programs takes for an instruction.")
    given.add_argument("--beside", type=Path, metavar="PROGRAM", help="another built bpf_bench, in turn with this one")
    beside = given.parse_args().beside
    if beside and not beside.is_file():
        given.error(f"there is no program {beside}")
    build("bpf_bench")
    if beside:
        side_by_side(measured([PROGRAM, beside.resolve()]))
    else:
        alone(measured([PROGRAM]))


if __name__ == "__main__":
    main()
