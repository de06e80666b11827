#!/usr/bin/env python3
"""Time and memory of `step` with 1 and 16 workers on scripts of many small commands, of deep queues, of long reads and of
shows, over doubled sizes.

    python3 bench/commands.py
"""

import random

from measure import best_in_turn, build, doubled, peaks

ONE = ["step", "1", "0"]
SIXTEEN = ["step", "16", "0"]


def commands(count):
    """Small writes and reads of one host in turn, each taken before the next one is sent."""
    lines = ["nvmecp 1 block=512 depth=16 budget=1000", "mem 1 bytes=65536", "phase", "host 1"]
    for i in range(count):
        at = i * 37 % 65_000
        if i % 2 == 0:
            lines.append(f"send 1 memwrite ns=1 at={at} data={i % 256:02x}{i % 251:02x}")
        else:
            lines.append(f"send 1 memread ns=1 at={at} len=16")
        lines.append("take 1")
    return ("\n".join(lines) + "\n").encode()


def writes(places):
    """Small writes of one host at these places of 16 MiB, by their numbers, each taken before the next one is sent."""

    def script(count):
        lines = ["nvmecp 1 block=512 depth=16 budget=1000", "mem 1 bytes=16777216", "phase", "host 1"]
        for i in range(count):
            lines += [f"send 1 memwrite ns=1 at={places(i)} data=07070707070707070707070707070707", "take 1"]
        return ("\n".join(lines) + "\n").encode()

    return script


def deep_queues(count, apart=True):
    """Small writes of 16 hosts, each of which has 256 outstanding before it takes their replies: of bytes apart, or all of
    the same byte."""
    lines = ["nvmecp 1 block=512 depth=256 budget=1000", "mem 1 bytes=65536", "phase"]
    for host in range(1, 17):
        lines.append(f"host {host}")
        for i in range(count // 16):
            lines.append(f"send {i % 256} memwrite ns=1 at={(host * 256 + i) * 37 % 65_000 if apart else 0} data={i % 256:02x}")
            if i % 256 == 255:
                lines += [f"take {cid}" for cid in range(256)]
    return ("\n".join(lines) + "\n").encode()


def reads(count):
    """Reads of 8,192 bytes, whose replies are kept until all commands are carried out."""
    lines = ["nvmecp 1 block=512 depth=16 budget=1000", "mem 1 bytes=8192", "phase", "host 1"]
    lines += ["send 1 memread ns=1 at=0 len=8192", "take 1"] * count
    return ("\n".join(lines) + "\n").encode()


def shows(count):
    """Shows of 8,192 bytes."""
    lines = ["nvmecp 1 block=512 depth=16 budget=1000", "mem 1 bytes=8192"]
    lines += ["show mem 1 at=0 len=8192"] * count
    return ("\n".join(lines) + "\n").encode()


RANDOM = random.Random(1)
DOUBLED = [1_000, 2_000, 4_000, 8_000, 16_000]
FORMS = [
    ("small commands, 1 worker", ONE, commands, [4_096, 8_192, 16_384]),
    ("small commands, 16 workers", SIXTEEN, commands, [4_096, 8_192, 16_384]),
    ("writes at one place", ONE, writes(lambda i: 0), DOUBLED),
    ("writes at random places", ONE, writes(lambda i: RANDOM.randrange(16_777_200)), DOUBLED),
    ("writes in ascending order", ONE, writes(lambda i: i * 64), DOUBLED),
    ("16 queues of 256, 16 workers", SIXTEEN, deep_queues, [4_096, 8_192, 16_384]),
    ("the same on one byte", SIXTEEN, lambda count: deep_queues(count, False), [4_096, 8_192, 16_384]),
    ("reads of 8,192 bytes", ONE, reads, [4_096, 8_192, 16_384]),
    ("shows of 8,192 bytes", ONE, shows, [256, 512, 1_024]),
]


def main():
    build()
    # (all forms and sizes in one turn, so that what is told of one can be held against another)
    forms = [[(words, script(size)) for size in (0, *sizes)] for _, words, script, sizes in FORMS]
    runs = iter(best_in_turn(11, [run for form in forms for run in form]))
    for (name, _, _, sizes), form in zip(FORMS, forms):
        empty, *fastest = [next(runs) for _ in form]
        begun, *tops = peaks(form)
        print(f"without commands: {empty.seconds * 1e3:.2f} ms, taken off below; {begun:.1f} MiB")
        print(f"{name:28} {'count':>7} {'ms':>9} {'us each':>8} {'ratio':>6} {'peak MiB':>9}")
        for (size, _, seconds, ratio), peak in zip(doubled(zip(sizes, fastest), empty), tops):
            print(f"{'':28} {size:7} {seconds * 1e3:9.2f} {seconds / size * 1e6:8.3f} {ratio:>6} {peak:9.1f}")


if __name__ == "__main__":
    main()
