#!/usr/bin/env python3
"""How fast scripts are read and parsed: `step 1 0` on scripts whose last line is not ended, so that the
program reads and parses them whole, tells that line and does nothing else. Version 2 stands beside version 1,
and goes on to its own limits. Then scripts of both versions that are read and planned: the second command of
their last host is one too many for its queue, and is told.

    python3 bench/reading.py
"""

from measure import best_in_turn, build, doubled, peaks

WORDS = ["step", "1", "0"]
# The most bytes and sends of a script of version 2.
MOST_BYTES = 33_554_432
MOST_SENDS = 65_536
HEADERS = {1: "nvmecp 1 block=512 depth={} budget=1000\n", 2: "nvmecp 2 block=512 queues=4 depth={} budget=1000\n"}
DEPTHS = {1: 256, 2: 1024}
IDENTIFIERS = {1: "1", 2: "1:1"}
READ = "memread ns=1 at=0 len=1"
WRITE = "memwrite ns=1 at=0 data="


def front(version, depth):
    """The lines before the first send."""
    return HEADERS[version].format(depth) + "mem 1 bytes=16777216\nphase\nhost 1\n"


def filling():
    """A write with as much data as fits into each line where both limits are met: one byte more a line is too much."""
    line = f"send {IDENTIFIERS[2]} {WRITE}\n"
    digits = (MOST_BYTES - len(front(2, DEPTHS[2]))) // MOST_SENDS - len(line)
    return WRITE + "5a" * (digits // 2)


def parsed(command):
    """A maker of scripts of so many equal sends without the last newline, and of the line that is told of them."""

    def script(version, count):
        head = front(version, DEPTHS[version])
        line = f"send {IDENTIFIERS[version]} {command}"
        text = head + "\n".join([line] * count)
        return text.encode(), f"line {head.count(chr(10)) + count}: Word\n".encode()

    return script


def planned(version, count):
    """A script of so many commands, each taken before the next is sent, but for the last, whose queue is full."""
    send = f"send {IDENTIFIERS[version]} {READ}\n"
    text = front(version, 1) + (send + f"take {IDENTIFIERS[version]}\n") * count + send + send
    return text.encode(), f"line {text.count(chr(10))}: QueueFull\n".encode()


SMALL = (4_096, 8_192, 16_384)
TO_THE_LIMIT = (*SMALL, 32_768, 65_536)
# What is sent, and how often in each version.
FORMS = (
    ("data of 8,192 bytes", parsed(WRITE + "5a" * 8192), {1: (250, 500, 1_000), 2: (250, 500, 1_000)}),
    ("data of 238 bytes", parsed(filling()), {1: SMALL, 2: TO_THE_LIMIT}),
    ("short", parsed(READ), {1: SMALL, 2: TO_THE_LIMIT}),
    ("planned", planned, {1: (2_048, 4_096, 8_192), 2: (2_048, 4_096, 8_192, 16_384, 32_768)}),
)


def table(name, script, counts):
    """Times the scripts of both versions in turn. A line of version 2 stands beside one of version 1, a size beside
    half of it, and the peak memory beside the text."""
    keys = [(version, count) for version in counts for count in counts[version]]
    scripts = [(WORDS, *script(*key)) for key in keys]
    empty, *runs = best_in_turn(15, [(WORDS, b"", b"line 1: Order\n"), *scripts], 2)
    found = dict(zip(keys, zip(scripts, runs, peaks(scripts, 2))))
    print(f"an empty input: {empty.seconds * 1e3:.2f} ms, taken off below")
    print(f"{name:20} {'version':>7} {'sends':>6} {'MB':>6} {'ms':>8} {'us each':>8} {'MB/s':>7} {'ratio':>6} "
          f"{'of 1':>5} {'peak MiB':>8} {'of text':>7}")
    first = {}
    for version, sizes in counts.items():
        rows = [(count, found[version, count][1]) for count in sizes]
        for count, _, seconds, ratio in doubled(rows, empty):
            (_, text, _), _, peak = found[version, count]
            first.setdefault(count, seconds)
            beside = f"{seconds / first[count]:.2f}" if version == 2 and count in counts[1] else ""
            print(f"{'':20} {version:7} {count:6} {len(text) / 1e6:6.2f} {seconds * 1e3:8.2f} "
                  f"{seconds / count * 1e6:8.3f} {len(text) / 1e6 / seconds:7.1f} {ratio:>6} {beside:>5} "
                  f"{peak:8.1f} {peak * (1 << 20) / len(text):7.2f}")


def main():
    build()
    print("aims: a line of version 2 at most 1.2 times one of version 1; a ratio of doublings of at most 2.2; "
          f"at {MOST_SENDS} sends a peak of at most 3 times the text")
    for form in FORMS:
        table(*form)


if __name__ == "__main__":
    main()
