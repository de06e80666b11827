#!/usr/bin/env python3
"""Time and memory of `check` on histories of many small commands, of deep queues and of long reads, over doubled sizes, beside
that of the `step` that printed them.

    python3 bench/check.py
"""

from commands import ONE, SIXTEEN, commands, deep_queues, reads
from measure import best_in_turn, best_of, build, doubled, peaks

SIZES = [4_096, 8_192, 16_384]
FORMS = [
    ("small commands, 1 worker", ONE, commands, SIZES),
    ("16 queues of 256, 16 workers", SIXTEEN, deep_queues, SIZES),
    ("reads of 8,192 bytes", ONE, reads, [2_048, 4_096, 8_192]),
]
LEGAL = b"legal\n"
HEADER = b"nvmecp 1 block=512 depth=16 budget=1000\n"


def trace(words, script):
    """The input of `check` that a script and its `step` give."""
    return script + b"\n" + best_of(1, words, script, 0).text


def table(name, words, script, sizes):
    """Times `step` and `check` in turn over all sizes, and tells `check`."""
    scripts = [script(size) for size in sizes]
    traces = [(["check"], trace(words, it), LEGAL) for it in scripts]
    steps = [(words, HEADER), *((words, it) for it in scripts)]
    runs = best_in_turn(7, [(["check"], HEADER + b"\n", LEGAL), *traces, *steps])
    empty, *checked = runs[: len(traces) + 1]
    begun, *stepped = runs[len(traces) + 1 :]
    print(f"headers alone, taken off below: check {empty.seconds * 1e3:.2f} ms, step {begun.seconds * 1e3:.2f} ms")
    print(f"{name:28} {'count':>7} {'ms':>9} {'us each':>8} {'ratio':>6} {'of step':>7} {'peak MiB':>9} {'of input':>8}")
    rows = zip(doubled(zip(sizes, checked), empty), stepped, peaks(traces), traces)
    for (size, _, seconds, ratio), step, peak, (_, text, _) in rows:
        times = seconds / max(step.seconds - begun.seconds, 1e-9)
        beside = peak * (1 << 20) / len(text)
        print(f"{'':28} {size:7} {seconds * 1e3:9.2f} {seconds / size * 1e6:8.3f} {ratio:>6} {times:7.2f} {peak:9.1f} {beside:8.2f}")


def main():
    build()
    for form in FORMS:
        table(*form)


if __name__ == "__main__":
    main()
