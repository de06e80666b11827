#!/usr/bin/env python3
"""Times fills, copies, reads and writes of the device beside a plain copy of the same bytes in this process.

    python3 bench/bytes.py
"""

import time

from measure import best_of, build

MIB = 1 << 20
SPAN = 1 << 20
TRANSFER = 8192
BLOCK = 4096
HEAD = f"nvmecp 1 block={BLOCK} depth=16 budget=1000\nnvm 1 blocks=4096\nmem 1 bytes={16 * MIB}\nphase\nhost 1\n"

# Each kind of command: its word, how many bytes it moves, how many of them there are, and its fields at number i.
KINDS = [
    ("memfill", SPAN, 2000, lambda i: f"ns=1 at={i % 16 * SPAN} len={SPAN} value={i % 256}"),
    ("nvmzeroes", SPAN, 2000, lambda i: f"ns=1 lba={i % 16 * 256} count=256"),
    ("memcopy", SPAN, 1000, lambda i: f"ns=1 at={i % 8 * 2 * SPAN} from=m1:{(i % 8 * 2 + 1) * SPAN}:{SPAN}"),
    ("nvmcopy", SPAN, 1000, lambda i: f"ns=1 lba={i % 16 * 256} from=m1:{i % 16 * SPAN}:{SPAN}"),
    ("nvmread", TRANSFER, 8000, lambda i: f"ns=1 lba={i % 2048 * 2} count=2"),
    ("nvmwrite", TRANSFER, 1000, lambda i: f"ns=1 lba={i % 2048 * 2} data={'5a' * TRANSFER}"),
]


def script(word, count, fields):
    """A script of so many commands, each taken before the next one is sent."""
    return (HEAD + "".join(f"send 1 {word} {fields(i)}\ntake 1\n" for i in range(count))).encode()


def plain(size, count):
    """Seconds of as many plain copies of so many bytes within 16 MiB."""
    area = memoryview(bytearray(16 * MIB))
    piece = bytes(size)
    slots = len(area) // size

    def once():
        began = time.perf_counter()
        for i in range(count):
            start = i % slots * size
            area[start : start + size] = piece
        return time.perf_counter() - began

    return min(once() for _ in range(5))


def main():
    build()
    empty = best_of(5, ["step", "1", "0"], HEAD.encode(), 0)
    print("| command | bytes | us each | GB/s | plain us | ratio |")
    print("|---|---|---|---|---|---|")
    for word, size, count, fields in KINDS:
        run = best_of(5, ["step", "1", "0"], script(word, count, fields), 0)
        each = max(run.seconds - empty.seconds, 1e-9) / count
        beside = plain(size, count) / count
        print(f"| `{word}` | {size} | {each * 1e6:.2f} | {size / each / 1e9:.2f} | {beside * 1e6:.2f} | {each / beside:.2f} |")


if __name__ == "__main__":
    main()
