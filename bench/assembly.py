#!/usr/bin/env python3
"""How fast programs are assembled and disassembled: `asm` and `dis` on 1,024, 4,096 and 8,192 instructions.

    python3 bench/assembly.py
"""

from measure import best_of, build, doubled

SIZES = (1_024, 4_096, 8_192)

# One line for each kind of operand; each instruction has one unit.
LINES = (
    "mov64 r0 7",
    "mov32 r9 r10",
    "add64 r1 -2147483648",
    "sdiv32 r2 r3",
    "neg64 r4",
    "movsx64 r5 r6 32",
    "swap r7 64",
    "ldxb r0 r1 -1",
    "ldsxw r2 r10 32767",
    "std r10 -8 0",
    "stxh r10 -16 r9",
    "afaddd r1 0 r2",
    "cmpxchgw r3 4 r5",
    "jeq32 r0 -5 -2",
    "jsgt64 r8 r9 3",
    "ja -32768",
    "call 1",
    "callp -3",
    "exit",
)


def text_of(count):
    """A text of this many instructions."""
    return "".join(LINES[place % len(LINES)] + "\n" for place in range(count)).encode()


def main():
    build()
    one = best_of(15, ["asm"], b"exit\n", 0)
    empty = {"asm": one, "dis": best_of(15, ["dis"], one.text, 0, b"exit\n")}
    rows = {"asm": [], "dis": []}
    for count in SIZES:
        assembled = best_of(7, ["asm"], text_of(count), 0)
        rows["asm"].append((count, assembled))
        rows["dis"].append((count, best_of(7, ["dis"], assembled.text, 0, text_of(count))))
    print("the time of one instruction is taken off below; the sizes have the ratios 4 and 2")
    for word in ("asm", "dis"):
        print(f"{word:4} {'count':>6} {'ms':>9} {'per second':>12} {'ratio':>6}")
        for count, _, seconds, ratio in doubled(rows[word], empty[word]):
            print(f"{'':4} {count:6} {seconds * 1e3:9.2f} {count / seconds:12.0f} {ratio:>6}")


if __name__ == "__main__":
    main()
