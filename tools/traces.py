#!/usr/bin/env python3
"""Holds histories against their scripts by `check`: outputs of the program as they are, and changed in ways whose first bad
line is known. `./check` calls it.

    python3 tools/traces.py
"""

import subprocess
import sys
from concurrent.futures import ThreadPoolExecutor

from crates import TOP

PROGRAM = TOP / "nvmecp"
EXAMPLES = TOP / "examples"
HEADER = b"nvmecp 1 block=512 depth=16 budget=1000\n"
LEGAL = 0, b"legal\n"
# The largest input of `check`, in bytes.
MOST_BYTES = 268_435_456


def bad(line):
    """What is told of a history whose first bad line this is."""
    return 6, f"history line {line}: NotLegal\n".encode()


def refused(text):
    """What is told of an input that is refused."""
    return 2, text + b"\n"


def check(data):
    """The status of `check` on an input, and what it wrote."""
    done = subprocess.run([PROGRAM, "check"], input=data, capture_output=True, check=False)
    return done.returncode, done.stdout + done.stderr


def example(name):
    """The script of an example, and the lines of its history."""
    script = (EXAMPLES / f"{name}.script").read_bytes()
    return script, (EXAMPLES / f"{name}.expected").read_bytes().splitlines(keepends=True)


def numbered(lines):
    """The same lines, of which the entries are counted anew."""
    return [b"#%d %s" % (k + 1, line.split(b" ", 1)[1]) if line.startswith(b"#") else line for k, line in enumerate(lines)]


def exchanged(lines, one, other):
    """The lines with two entries exchanged, counted from 1, and numbered anew."""
    lines = list(lines)
    lines[one - 1], lines[other - 1] = lines[other - 1], lines[one - 1]
    return numbered(lines)


def first_write_cases():
    """The smallest script, with what a device may answer and what none answers."""
    script, (entry, show) = example("first-write")
    no_memory, zeros = entry.replace(b" Ok ", b" NoMemory "), show.replace(b"d=01020000", b"d=00000000")
    yield "its output", script, [entry, show], LEGAL
    yield "no memory for the write", script, [no_memory, zeros], LEGAL
    yield "a write that is not shown", script, [entry, zeros], bad(2)
    yield "a write that found no memory, shown", script, [no_memory, show], bad(2)
    yield "no show", script, [entry], bad(2)
    yield "no line", script, [], bad(1)
    yield "a line too many", script, [entry, show, show], bad(3)
    yield "an empty line behind", script, [entry, show, b"\n"], bad(3)
    yield "the show before the entry", script, [show, entry], bad(1)
    yield "an unended last line", script, [entry, show[:-1]], bad(2)
    yield "an unended first line", script, [entry[:-1]], bad(1)
    yield "another status", script, [entry.replace(b" Ok ", b" OutOfRange "), zeros], bad(1)
    yield "another result", script, [entry.replace(b"r=0", b"r=1"), show], bad(1)
    yield "another number", script, [entry.replace(b"#1", b"#2"), show], bad(1)
    yield "two spaces", script, [entry.replace(b" Ok ", b"  Ok "), show], bad(1)
    yield "the entry twice", script, [entry, entry.replace(b"#1", b"#2"), show], bad(2)


def stored_run_cases():
    """The run of blocks that are summed up, whose commands wait for others and not for others."""
    script, lines = example("sum-of-blocks")
    yield "its output", script, lines, LEGAL
    yield "entries 2 and 3 exchanged", script, exchanged(lines, 2, 3), LEGAL
    yield "entries 1 and 2 exchanged", script, exchanged(lines, 1, 2), bad(1)
    yield "entry 2 twice", script, numbered(lines[:2] + lines[1:]), bad(3)
    yield "entry 3 left out, for which the activation waits", script, numbered(lines[:2] + lines[3:]), bad(5)


def phases_cases():
    """Hosts of two phases."""
    script, lines = example("two-phases")
    yield "its output", script, lines, LEGAL
    yield "the other host first", script, exchanged(lines, 1, 2), LEGAL
    yield "a command of the later phase first", script, exchanged(lines, 1, 3), bad(1)
    yield "a wrong number", script, lines[:1] + [lines[1].replace(b"#2", b"#3")] + lines[2:], bad(2)


def other_cases():
    """Commands that take no memory, Aborts, and scripts of other forms."""
    one_host = HEADER + b"phase\nhost 1\nsend 1 "
    entry = b"#1 h1 n1 c1 setdelete %s r=0 d=\n"
    yield "no set", one_host + b"setdelete set=1\n", [entry % b"NoSuchSet"], LEGAL
    yield "a setdelete that found no memory", one_host + b"setdelete set=1\n", [entry % b"NoMemory"], bad(1)
    yield "no command and no line", HEADER, [], LEGAL
    yield "no command and a line", HEADER, [b"legal\n"], bad(1)
    for name in ("overlapping-fills", "overlapping-fills.host-2-first"):
        script = (EXAMPLES / "overlapping-fills.script").read_bytes()
        yield name, script, [(EXAMPLES / f"{name}.expected").read_bytes()], LEGAL
    script, late = example("abort")
    in_time = (EXAMPLES / "abort.in-time.expected").read_bytes().splitlines(keepends=True)
    yield "an Abort that came late", script, late, LEGAL
    yield "an Abort that came in time", script, in_time, LEGAL
    yield "an Abort in time of a fill that was done", script, [late[0], in_time[0].replace(b"#1", b"#2"), late[2]], bad(2)
    yield "a fill that no Abort withdrew", script, [in_time[1].replace(b"#2", b"#1"), late[1], in_time[2]], bad(1)
    yield "an Abort in time whose fill was done", script, [in_time[0], late[0].replace(b"#1", b"#2"), late[2]], bad(2)
    for script in sorted(EXAMPLES.glob("*.script")):
        output = script.with_suffix(".expected").read_bytes()
        if not script.with_suffix(".status").exists():
            yield f"the output of {script.name}", script.read_bytes(), [output], LEGAL


def changed_bytes():
    """The stored run with each byte of its second and of its last entry changed once: the line is the first bad one."""
    script, lines = example("sum-of-blocks")
    for number in (2, sum(line.startswith(b"#") for line in lines)):
        line = lines[number - 1]
        for place in range(min(len(line), 120)):
            other = line[:place] + bytes([line[place] ^ 1]) + line[place + 1 :]
            yield f"byte {place} of line {number} changed", script, lines[: number - 1] + [other] + lines[number:], bad(number)


def refusals():
    """Inputs without a history, or whose script is refused."""
    script, lines = example("first-write")
    yield "no input", b"", refused(b"no history")
    yield "no empty line", script, refused(b"no history")
    yield "no empty line behind a faulty script", b"x\n" + script, refused(b"no history")
    yield "an unended script", script[:-1], refused(b"no history")
    yield "an empty line first", b"\n" + script, refused(b"line 1: Order")
    yield "a faulty line", script.replace(b"len=4", b"len=04") + b"\n" + b"".join(lines), refused(b"line 6: Number")
    yield "a full queue", (EXAMPLES / "full-queue.script").read_bytes() + b"\n", refused(b"line 6: QueueFull")
    yield "an input that is too long", b"x" * (MOST_BYTES + 1), refused(b"too long")
    yield "an input as long as it may be", b"x" * MOST_BYTES, refused(b"no history")


def check_traces(note):
    """Tells each input that is answered otherwise."""
    groups = (first_write_cases, stored_run_cases, phases_cases, other_cases)
    cases = [(f"{group.__name__[:-6]}: {what}", script + b"\n" + b"".join(lines), wanted) for group in groups for what, script, lines, wanted in group()]
    for what, data, wanted in (*cases, *refusals()):
        told = check(data)
        note(f"check, {what}", None if told == wanted else f"{told} and not {wanted}")
    changes = [(what, script + b"\n" + b"".join(lines), wanted) for what, script, lines, wanted in changed_bytes()]
    with ThreadPoolExecutor() as pool:
        answers = list(pool.map(lambda it: check(it[1]), changes))
    wrong = [f"{what}: {told}" for (what, _, wanted), told in zip(changes, answers) if told != wanted]
    note(f"check, {len(changes)} histories with one byte changed", "; ".join(wrong[:3]))


def main():
    failed = []

    def note(what, wrong):
        failed.extend([what] * bool(wrong))
        print(f"FAILED  {what}: {wrong}" if wrong else f"passed  {what}", flush=True)

    check_traces(note)
    return 1 if failed else 0


if __name__ == "__main__":
    sys.exit(main())
