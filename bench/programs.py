#!/usr/bin/env python3
"""Times programs as commands load and execute them.

    python3 bench/programs.py

The time of an instruction in one long `execute` of a script stands beside that of the same loop in bpf_bench, in the
same run; each of the device's own programs over 1 MiB beside a loaded program that does the same to the same bytes; programs
that are loaded byte by byte, the last byte first, beside half as many bytes.
"""

import re
from dataclasses import dataclass
from functools import partial

from measure import PROGRAM, TOP, best_of, build, doubled, in_turn, run_once

BUDGET = 10_000_000
WORDS = ["step", "1", "0"]
HEAD = f"nvmecp 1 block=512 depth=16 budget={BUDGET}\nmem 1 bytes=16\n"
# The loop of bpf_bench: counts up to the first parameter.
LOOP = "b7000000000000000700000001000000ad10feff000000009500000000000000"
EXECUTION = (
    f"phase\nhost 1\nsend 1 setcreate ranges=1:0:16\ntake 1\nsend 2 load slot=0 size=32 at=0 data={LOOP}\ntake 2\n"
    "send 3 activate slot=0\ntake 3\nsend 4 execute slot=0 set=1 p1=1000000000000 p2=0 budget="
)
# How many bytes a range has, and a piece of them, over and over in the first range: each byte up to 250 in turn.
SPAN = 1_048_576
PIECE = bytes(it % 251 for it in range(8_192))
# What the device's programs do, for ranges that are not empty.
COUNT = """mov64 r6 r1
and64 r6 255
mov64 r1 0
call 1
lddw r3 4294967296
mov64 r7 r3
add64 r7 r0
mov64 r0 0
ldxb r5 r3 0
jne64 r5 r6 1
add64 r0 1
add64 r3 1
jne64 r3 r7 -5
exit
"""
SUM = """mov64 r1 0
call 1
lddw r3 4294967296
mov64 r7 r3
add64 r7 r0
mov64 r0 0
ldxb r5 r3 0
add64 r0 r5
add64 r3 1
jne64 r3 r7 -4
exit
"""
COMPARE = """mov64 r1 0
call 1
mov64 r7 r0
mov64 r1 1
call 1
jge64 r0 r7 1
mov64 r7 r0
lddw r3 4294967296
lddw r4 8589934592
mov64 r0 0
ldxb r5 r3 0
ldxb r6 r4 0
jne64 r5 r6 5
add64 r3 1
add64 r4 1
add64 r0 1
jne64 r0 r7 -7
mov64 r0 -1
exit
"""
CLASSES = """mov64 r8 r1
and64 r8 255
mov64 r9 r2
and64 r9 255
mov64 r1 0
call 1
mov64 r7 r0
mov64 r1 1
call 1
jge64 r0 r7 1
mov64 r7 r0
lddw r3 4294967296
lddw r4 8589934592
add64 r7 r3
mov64 r0 0
ldxb r5 r3 0
jlt64 r5 r8 4
jgt64 r5 r9 3
add64 r0 1
stb r4 0 1
ja 1
stb r4 0 0
add64 r3 1
add64 r4 1
jne64 r3 r7 -10
exit
"""
# Which of three ranges of a namespace are in each set, and the sets' numbers.
SETS = ((0,), (0, 1), (0, 2), (1, 2))
FIRST, WITH_SECOND, WITH_THIRD, SECOND_AND_THIRD = range(1, 5)


@dataclass(frozen=True)
class OwnProgram:
    """A program of the device: its slot, the text of one that does the same, and its parameters and its result."""

    slot: int
    text: str
    p1: int
    p2: int
    result: int

    def execution(self, slot, ranges):
        """The command that executes the program of this slot, in place of its own, on a set."""
        return f"execute slot={slot} set={ranges} p1={self.p1} p2={self.p2} budget={BUDGET}"


PIECES_OF_SPAN = SPAN // len(PIECE)
COUNTED = OwnProgram(64, COUNT, 7, 0, PIECES_OF_SPAN * PIECE.count(7))
SUMMED = OwnProgram(65, SUM, 0, 0, PIECES_OF_SPAN * sum(PIECE))
# (the first two ranges differ in their last byte alone)
COMPARED = OwnProgram(66, COMPARE, 0, 0, SPAN - 1)
MARKED = OwnProgram(67, CLASSES, 64, 127, PIECES_OF_SPAN * sum(64 <= it <= 127 for it in PIECE))
# Each with its name and its set; the loaded program has the slot of its place here.
OWN = (("count", COUNTED, FIRST), ("sum", SUMMED, FIRST), ("compare", COMPARED, WITH_SECOND), ("classes", MARKED, WITH_SECOND))
NO_DIFFERENCE = 2**64 - 1
PIECES = [4_096, 8_192, 16_384]


def instruction():
    """Nanoseconds of an instruction in an execution of a script, and in bpf_bench."""
    scripts = [(HEAD + EXECUTION + f"{budget}\n").encode() for budget in (1000, BUDGET)]
    runs = [(WORDS, script, PROGRAM) for script in scripts]
    runs += [(["loop", str(rounds)], b"", TOP / "out" / "bpf_bench") for rounds in (500, BUDGET // 2)]
    seconds = [float("inf")] * len(runs)
    # (in turn and by the same clock, so that both programs meet the machine alike)
    for _ in range(25):
        for number, run in enumerate(runs):
            seconds[number] = min(seconds[number], run_once(*run[:2], keep=False, program=run[2]).seconds)
    short, long, begun, whole = seconds
    return (long - short) * 1e9 / (BUDGET - 1000), (whole - begun) * 1e9 / (BUDGET - 1000)


def prepared():
    """Commands that fill the ranges, make the sets, and load a program for each of the device's own."""
    commands = [f"memwrite ns=1 at=0 data={PIECE.hex()}"]
    there = len(PIECE)
    while there < SPAN:
        commands.append(f"memcopy ns=1 at={there} from=m1:0:{there}")
        there *= 2
    commands += [f"memcopy ns=1 at={SPAN} from=m1:0:{SPAN}", f"memwrite ns=1 at={2 * SPAN - 1} data=ff"]
    commands.append(f"memfill ns=1 at={2 * SPAN} len={SPAN} value=255")
    for ranges in SETS:
        commands.append("setcreate ranges=" + ",".join(f"1:{it * SPAN}:{SPAN}" for it in ranges))
    for slot, (_, own, _) in enumerate(OWN):
        code = best_of(1, ["asm"], own.text.encode(), 0).text.decode().strip()
        commands += [f"load slot={slot} size={len(code) // 2} at=0 data={code}", f"activate slot={slot}"]
    return commands


def executed(front, executions, results):
    """A run of a script with these executions behind other commands; each has to be `Ok` with its result."""
    lines = [f"nvmecp 1 block=512 depth=16 budget={BUDGET}", f"mem 1 bytes={3 * SPAN}", "phase", "host 1"]
    for command in front + executions:
        lines += [f"send 1 {command}", "take 1"]
    run = best_of(1, WORDS, ("\n".join(lines) + "\n").encode(), 0)
    told = re.findall(r" execute (\w+) r=(\d+) ", run.text.decode())
    assert told == [("Ok", str(result)) for result in results], told[:8]
    return run


def own_programs():
    """For each of the device's own programs its name, and the seconds that an execution of it takes and one of the loaded
    program, which gives the same result. All are run in turn, and what comes before the executions is taken off."""
    front = prepared()
    many, few = 200, 4
    calls = [partial(executed, front, [], [])]
    for loaded, (_, own, ranges) in enumerate(OWN):
        for slot, times in ((own.slot, many), (loaded, few)):
            calls.append(partial(executed, front, [own.execution(slot, ranges)] * times, [own.result] * times))
    begun, *runs = in_turn(9, calls)
    for (name, _, _), by_device, by_code in zip(OWN, runs[::2], runs[1::2]):
        yield name, max(by_device.seconds - begun.seconds, 1e-9) / many, max(by_code.seconds - begun.seconds, 1e-9) / few


def same_marks():
    """Sees to it that `classes` marks the second range as the loaded program marks the third, whose bytes were others."""
    marks = [MARKED.execution(MARKED.slot, WITH_SECOND), MARKED.execution(len(OWN) - 1, WITH_THIRD)]
    compared = COMPARED.execution(COMPARED.slot, SECOND_AND_THIRD)
    executed(prepared(), [compared, *marks, compared], [0, MARKED.result, MARKED.result, NO_DIFFERENCE])


def lone_bytes(count):
    """A program of so many bytes, each of which is a piece, the last one first."""
    lines = ["phase", "host 1"]
    for at in reversed(range(count)):
        lines += [f"send 1 load slot=0 size={count} at={at} data=95", "take 1"]
    return (HEAD + "\n".join(lines) + "\n").encode()


def main():
    build()
    build("bpf_bench")
    in_script, alone = instruction()
    print(f"an instruction of an execution of {BUDGET}: {in_script:.2f} ns, in bpf_bench {alone:.2f} ns, ratio {in_script / alone:.2f}")
    print(f"{'1 MiB':10} {'us own':>9} {'us loaded':>10} {'ratio':>6}")
    same_marks()
    for name, own, loaded in own_programs():
        print(f"{name:10} {own * 1e6:9.1f} {loaded * 1e6:10.1f} {loaded / own:6.1f}")
    empty = best_of(15, WORDS, HEAD.encode(), 0, keep=False)
    print(f"{'lone bytes':10} {'ms':>9} {'us each':>8} {'ratio':>6}")
    rows = [(count, best_of(5, WORDS, lone_bytes(count), 0, keep=False)) for count in PIECES]
    for count, _, seconds, ratio in doubled(rows, empty):
        print(f"{count:10} {seconds * 1e3:9.2f} {seconds / count * 1e6:8.3f} {ratio:>6}")


if __name__ == "__main__":
    main()
