#!/usr/bin/env python3
"""Time and memory of `make`: a load is made, read, planned, carried out by four workers and summed up, over doubled
numbers of commands.

    python3 bench/make.py
"""

from measure import best_in_turn, build, doubled, peaks

SIZES = [2_048, 4_096, 8_192]


def words(commands):
    return ["make", "7", str(commands)]


def main():
    build()
    loads = [(words(size), b"") for size in (0, *SIZES)]
    empty, *runs = best_in_turn(15, loads)
    begun, *tops = peaks(loads)
    print(f"no commands: {empty.seconds * 1e3:.2f} ms, taken off below; {begun:.1f} MiB")
    print(f"{'commands':>8} {'ms':>9} {'us each':>8} {'ratio':>6} {'peak MiB':>9}")
    for (size, _, seconds, ratio), peak in zip(doubled(zip(SIZES, runs), empty), tops):
        print(f"{size:8} {seconds * 1e3:9.2f} {seconds / size * 1e6:8.3f} {ratio:>6} {peak:9.1f}")


if __name__ == "__main__":
    main()
