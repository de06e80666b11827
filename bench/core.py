#!/usr/bin/env python3
"""Times the core of a device alone: crates/core_bench submits, claims, carries out, finishes and takes commands, with no
script around it.

    python3 bench/core.py

From the fastest run of so many commands that of none is taken off, which in deep queues has filled them. Making a command
is in all figures. A run of few commands takes a millisecond beside the fifteen or more that a device takes to be made, so
that only the fastest of many tries tells what the commands take.
"""

from bytes import TRANSFER, plain
from measure import TOP, best_in_turn, build, doubled

NAME = "core_bench"
PROGRAM = TOP / "out" / NAME
TRIES = 25
TRIES_OF_SMALL = 150
SMALL = ("one-place", "random", "ascending")
DEEP = ("deep", "deep-on-one")
MIB = 1 << 20
SPANS = 1_000
READS = 16_000


def fastest(runs, tries=TRIES):
    """The fastest runs of these workloads, each of so many rounds."""
    return best_in_turn(tries, [([workload, str(rounds)], b"") for workload, rounds in runs], program=PROGRAM)


def table(workloads, counts, tries=TRIES):
    """Times workloads over these counts, each the double of the one before."""
    print("| commands | count | us each | ratio |\n|---|---|---|---|")
    for workload in workloads:
        empty, *runs = fastest([(workload, count) for count in (0, *counts)], tries)
        for count, _, seconds, ratio in doubled(zip(counts, runs), empty):
            print(f"| `{workload}` | {count} | {seconds / count * 1e6:.3f} | {ratio} |")


def spans():
    """Times fills of 1 MiB that was claimed before, beside the same fills of a buffer alone and plain copies."""
    runs = fastest([(workload, rounds) for workload in ("span", "fill-alone") for rounds in (1, 1 + SPANS)])
    begun, whole, alone_begun, alone_whole = (run.seconds for run in runs)
    span, alone, copy = (whole - begun) / SPANS, (alone_whole - alone_begun) / SPANS, plain(MIB, SPANS) / SPANS
    print("| 1 MiB | us each |\n|---|---|")
    print(f"| `span`: a fill by a command | {span * 1e6:.1f} |")
    print(f"| `fill-alone`: the fill by itself | {alone * 1e6:.1f} |")
    print(f"| what the command takes beside its fill | {(span - alone) * 1e6:.1f} |")
    print(f"| a plain copy | {copy * 1e6:.1f} |")


def reads():
    """Times reads of the same 8,192 bytes, which are copied once in the turn and once while they are carried out, beside
    plain copies of as many. Replies are kept, so the memory of each is new."""
    empty, whole = (run.seconds for run in fastest([("read", 0), ("read", READS)]))
    read, copy = (whole - empty) / READS, plain(TRANSFER, READS) / READS
    print("| 8,192 bytes | us each |\n|---|---|")
    print(f"| `read`: a read by a command | {read * 1e6:.3f} |")
    print(f"| a plain copy | {copy * 1e6:.3f} |")
    print(f"| what the command takes beside two copies | {(read - 2 * copy) * 1e6:.3f} |")


def main():
    build(NAME)
    table(SMALL, (1_000, 2_000, 4_000, 8_000, 16_000), TRIES_OF_SMALL)
    print("\nAims: at most 8 us each, a ratio of at most 2.2.\n")
    table(DEEP, (4_096, 8_192, 16_384))
    print("\nAims: at most 100 us each for `deep`; none for `deep-on-one`.\n")
    spans()
    print("\nAim: beside its fill a command takes far less than a copy, since a buffer that was claimed before is moved.\n")
    reads()


if __name__ == "__main__":
    main()
