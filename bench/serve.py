#!/usr/bin/env python3
"""Times `serve` beside `step 1 0` on the same scripts: long executions of one host on sets of their own, small
commands of 16 hosts, and one long execution beside 16 workers that have nothing to do. What the machine itself can
give stands beside the first: two and four processes of `step 1 0` that share the same executions, at once and one
after the other.

    python3 bench/serve.py
"""

import os
from functools import partial

from measure import Run, best_in_turn, best_of, build, in_turn, run_together
from programs import BUDGET, HEAD, LOOP

STEP = ["step", "1", "0"]
SMALL = 16_384
EXECUTIONS = 8
# How many processes share the executions, where the machine's own bound is measured.
PROCESSES = (2, 4)


def executions(count, each=BUDGET):
    """So many executions of one host, each on a set of its own and of so many instructions."""
    lines = ["phase", "host 1", f"send 1 load slot=0 size=32 at=0 data={LOOP}", "take 1", "send 2 activate slot=0", "take 2"]
    for number in range(count):
        lines += [f"send 3 setcreate ranges=1:{number}:1", "take 3"]
    for number in range(count):
        lines.append(f"send {number + 4} execute slot=0 set={number + 1} p1=1000000000000 p2=0 budget={each}")
    return (HEAD + "\n".join(lines) + "\n").encode()


def small_commands():
    """Small writes of 16 hosts in their own bytes, each of which has at most 16 outstanding."""
    lines = ["nvmecp 1 block=512 depth=16 budget=1000", "mem 1 bytes=65536", "phase"]
    for host in range(1, 17):
        lines.append(f"host {host}")
        for number in range(SMALL // 16):
            cid = number % 16
            lines += [f"take {cid}"] if number >= 16 else []
            lines.append(f"send {cid} memwrite ns=1 at={host * 1024 + number} data={number % 256:02x}")
    return ("\n".join(lines) + "\n").encode()


def one_after_the_other(words, data, count):
    """So many runs of the program on these bytes, each begun when the one before is over."""
    runs = [best_of(1, words, data, 0, keep=False) for _ in range(count)]
    return Run(sum(it.seconds for it in runs), sum(it.busy for it in runs), 0, 0, b"")


def long_executions():
    """Eight executions by one device, and by processes that have an equal share of them each: what the processes gain
    is the bound that this machine sets. All are taken in turn, and from each the same with short executions is taken
    off."""
    words = [STEP, ["serve", "1"], ["serve", "4"]]
    calls = []
    for it in words:
        calls += [partial(best_of, 1, it, executions(EXECUTIONS, each), 0, keep=False) for each in (1, BUDGET)]
    for count in PROCESSES:
        for run in (one_after_the_other, run_together):
            calls += [partial(run, STEP, executions(EXECUTIONS // count, each), count) for each in (1, BUDGET)]
    runs = in_turn(9, calls)
    seconds = [max(whole.seconds - begun.seconds, 1e-9) for begun, whole in zip(runs[::2], runs[1::2])]
    print(f"{'eight executions of one host':40} {'ms':>9} {'times as fast':>13}")
    for it, took in zip(words, seconds):
        print(f"{' '.join(it):40} {took * 1e3:9.1f} {seconds[0] / took:13.2f}")
    alone, together = seconds[len(words) :: 2], seconds[len(words) + 1 :: 2]
    for count, apart, at_once in zip(PROCESSES, alone, together):
        print(f"{f'{count} x step 1 0, one after the other':40} {apart * 1e3:9.1f} {1:13.2f}")
        print(f"{f'{count} x step 1 0, at once':40} {at_once * 1e3:9.1f} {apart / at_once:13.2f}")


def many_small():
    script = small_commands()
    words = [STEP, ["serve", "1"], ["serve", "4"], ["serve", "16"]]
    runs = best_in_turn(5, [(it, script) for it in words])
    print(f"{f'{SMALL} commands of 16 hosts':32} {'ms':>9} {'us each':>9} {'busy':>5}")
    for it, run in zip(words, runs):
        print(f"{' '.join(it):32} {run.seconds * 1e3:9.1f} {run.seconds / SMALL * 1e6:9.2f} {run.busy / run.seconds:5.2f}")


def waiting():
    script = executions(1)
    words = [STEP, ["serve", "1"], ["serve", "16"]]
    runs = best_in_turn(5, [(it, script) for it in words])
    print(f"{'one execution of one host':32} {'ms':>9} {'busy':>5}")
    for it, run in zip(words, runs):
        print(f"{' '.join(it):32} {run.seconds * 1e3:9.1f} {run.busy / run.seconds:5.2f}")


def main():
    build()
    print("aims: 3 times as fast by `serve 4` and 1.7 times by `serve 1`; busy is processor time over time")
    print(f"this machine has {os.cpu_count()} processors; what processes gain at once bounds what threads can")
    long_executions()
    many_small()
    waiting()


if __name__ == "__main__":
    main()
