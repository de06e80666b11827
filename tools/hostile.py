#!/usr/bin/env python3
"""Inputs at their limits and inputs that mean no good, as the program meets them: scripts as large as they may be, each
limit at its value and one past it, scripts that are cut or changed at each of their bytes, programs of random code, and an
output that nobody reads. `./check` calls it.

    python3 tools/hostile.py
"""

import random
import re
import subprocess
import sys
from concurrent.futures import ThreadPoolExecutor

from crates import TOP
from inputs import (
    MOST_BYTES, STRANGE, VERSION_1, VERSION_2, all_limits, filled_memory, long_reads, many_lines, one_too_many, script,
)
from loads import words_from

PROGRAM = TOP / "nvmecp"
STORED = TOP / "examples" / "sum-of-blocks.script"
# How long one run may take, in seconds. No run comes near it.
PATIENCE = 120
FAULT = re.compile(rb"line (\d+): [A-Z][A-Za-z]+\n")
ENTRY = re.compile(rb"#(\d+) h(\d+) n(\d+) c(\d+) ([a-z]+) ([A-Z][A-Za-z]+) r=(\d+) d=([0-9a-f]*)")


def run(script, words=("step", "1", "0")):
    """What the program answers to a script."""
    return subprocess.run([PROGRAM, *words], input=script, capture_output=True, timeout=PATIENCE, check=False)


def told(done):
    """The status and the beginning of the text of a run, for a person to read."""
    return f"status {done.returncode}, {done.stdout[:120]!r}{done.stderr[:120]!r}"


def answered(script, status, text):
    """What is wrong with the run of a script that has to end with this status and this text, or None."""
    done = run(script)
    fits = done.returncode == status and done.stdout == text and not done.stderr
    return None if fits else f"{told(done)} and not status {status}, {text[:120]!r}"


def is_legal(text, history):
    """Whether the sequential device, stepped through a history by `check`, confirms it for a script."""
    done = run(text + b"\n" + history, ("check",))
    return done.returncode == 0 and done.stdout == b"legal\n"


def entries(text):
    """The entries of a history by host and ordinal, and the lines behind them; None where a line is none, or numbers do not
    ascend from 1, or a command stands there twice."""
    lines = text.split(b"\n")[:-1]
    found = {}
    for number, line in enumerate(lines):
        if line.startswith(b"show "):
            return found, lines[number:]
        fits = ENTRY.fullmatch(line)
        if not fits or int(fits[1]) != number + 1 or (int(fits[2]), int(fits[3])) in found:
            return None
        found[int(fits[2]), int(fits[3])] = fits
    return found, []


# ---- scripts as large as they may be


def one_transfer():
    """The largest write and read of one command."""
    data = bytes(it % 251 for it in range(8192)).hex()
    lines = ("mem 1 bytes=8192", "phase", "host 1", f"send 1 memwrite ns=1 at=0 data={data}", "take 1", "send 2 memread ns=1 at=0 len=8192",
             "show mem 1 at=0 len=8192")
    text = f"#1 h1 n1 c1 memwrite Ok r=0 d=\n#2 h1 n2 c2 memread Ok r=0 d={data}\nshow mem 1 at=0 len=8192 d={data}\n"
    return answered(script(*lines), 0, text.encode())


def each_line(version, outstanding):
    """The most commands of 16 hosts, of which each has so many outstanding: each is told once, and the last shown."""
    done = run(many_lines(version, outstanding))
    read = entries(done.stdout) if done.returncode == 0 and not done.stderr else None
    if read is None:
        return told(done)
    found, shown = read
    wanted = {(host, number) for host in range(1, 17) for number in range(1, version.sends // 16 + 1)}
    all_ok = all(it[6] == b"Ok" for it in found.values())
    if set(found) != wanted or not all_ok or shown != [b"show mem 1 at=0 len=16 d=" + b"ff" * 16]:
        return "not each command once, or not as it should be"
    return None


def all_memory(version):
    """Four namespaces of 16 MiB, filled from end to end."""
    text, printed = filled_memory(version)
    return answered(text, 0, printed)


def every_limit_at_once(version):
    """A script that has the most bytes, sends, phases and shows is carried out whole; one byte more is too long."""
    text = all_limits(version)
    if len(text) != MOST_BYTES:
        return f"the script has {len(text)} bytes"
    done = run(text)
    read = entries(done.stdout) if done.returncode == 0 and not done.stderr else None
    if not read or len(read[0]) != version.sends or len(read[1]) != version.shows:
        return told(done)
    return answered(all_limits(version, length=MOST_BYTES + 1), 2, b"too long\n")


LIMITS = (
    ("depth=%s", "nvmecp 1 block=512 depth={} budget=1\nmem 1 bytes=1\nphase\nhost 1\n", 256),
    ("budget=%s", "nvmecp 1 block=512 depth=1 budget={}\nmem 1 bytes=1\nphase\nhost 1\n", 10_000_000),
    ("host %s", "nvmecp 1 block=512 depth=1 budget=1\nmem 1 bytes=1\nphase\nhost {}\n", 16),
    ("bytes=%s", "nvmecp 1 block=512 depth=1 budget=1\nmem 1 bytes={}\nphase\nhost 1\n", 16_777_216),
    ("mem %s", "nvmecp 1 block=512 depth=1 budget=1\nmem {} bytes=1\nphase\nhost 1\n", 8),
    ("blocks=%s", "nvmecp 1 block=4096 depth=1 budget=1\nnvm 1 blocks={}\nphase\nhost 1\n", 4_096),
    ("cid %s", "nvmecp 1 block=512 depth=1 budget=1\nmem 1 bytes=1\nphase\nhost 1\nsend {} memread ns=1 at=0 len=2\n", 65_535),
    ("value=%s", "nvmecp 1 block=512 depth=1 budget=1\nmem 1 bytes=1\nphase\nhost 1\nsend 1 memfill ns=1 at=0 len=2 value={}\n", 255),
    ("slot=%s", "nvmecp 1 block=512 depth=1 budget=1\nmem 1 bytes=1\nphase\nhost 1\nsend 1 unload slot={}\n", 4_294_967_295),
    ("show len=%s", "nvmecp 1 block=512 depth=1 budget=1\nmem 1 bytes=8193\nphase\nhost 1\nshow mem 1 at=0 len={}\n", 8_192),
    ("queues=%s", "nvmecp 2 block=512 queues={} depth=1 budget=1\nphase\nhost 1\n", 16),
    ("depth=%s of a queue", "nvmecp 2 block=512 queues=4 depth={} budget=1\nphase\nhost 1\n", 1_024),
    ("depth=%s of 16 queues", "nvmecp 2 block=512 queues=16 depth={} budget=1\nphase\nhost 1\n", 256),
    ("budget=%s in version 2", "nvmecp 2 block=512 queues=1 depth=1 budget={}\nphase\nhost 1\n", 100_000_000),
    ("queue %s", "nvmecp 2 block=512 queues=3 depth=1 budget=1\nphase\nhost 1\nsend {}:1 unload slot=0\n", 3),
    ("cid %s of a queue", "nvmecp 2 block=512 queues=3 depth=1 budget=1\nphase\nhost 1\nsend 1:{} unload slot=0\n", 65_535),
    ("host %s in version 2", "nvmecp 2 block=512 queues=1 depth=1 budget=1\nphase\nhost {}\n", 16),
    ("bytes=%s in version 2", "nvmecp 2 block=512 queues=1 depth=1 budget=1\nmem 1 bytes={}\nphase\nhost 1\n", 16_777_216),
    ("cid %s of an abort", "nvmecp 2 block=512 queues=3 depth=1 budget=1\nphase\nhost 1\nsend 1:1 abort cid=3:{}\n", 65_535),
    ("queue %s of an abort", "nvmecp 2 block=512 queues=3 depth=1 budget=1\nphase\nhost 1\nsend 1:1 abort cid={}:1\n", 3),
)


def one_limit(form, most):
    """A number is taken at its limit, and one more is refused in the line that has it, as is 2^64."""
    line = form[: form.index("{}")].count("\n") + 1
    done = run(form.format(most).encode())
    if done.returncode != 0:
        return f"at the limit: {told(done)}"
    return answered(form.format(most + 1).encode(), 2, f"line {line}: Limit\n".encode()) or answered(
        form.format(1 << 64).encode(), 2, f"line {line}: Number\n".encode())


# ---- scripts that are cut or changed


def fits(text, done):
    """What is wrong with what a run of a changed script gave, or None: a whole history, or a fault in a line that there is."""
    if done.stderr:
        return told(done)
    if done.returncode == 2:
        fault = FAULT.fullmatch(done.stdout)
        return None if fault and 1 <= int(fault[1]) <= text.count(b"\n") + 1 else told(done)
    read = entries(done.stdout) if done.returncode == 0 else None
    if read is None:
        return told(done)
    return None if len(read[0]) == len(re.findall(rb"^send ", text, re.M)) else f"not each command: {told(done)}"


def confirmed(text):
    """What is wrong with the run of a script that has to end with a whole history which `check` confirms, or None."""
    done = run(text)
    if done.returncode != 0:
        return told(done)
    return fits(text, done) or (None if is_legal(text, done.stdout) else f"no legal history: {told(done)}")


# What is told of the stored script where it is cut at the end of one of these lines: no line at all, and a phase without hosts.
CUT_AT_AN_END = {0: b"line 1: Order\n", 4: b"line 4: NoHosts\n"}


def cut_anywhere(stored):
    """The stored script, cut before and behind each of its bytes: a line that is not ended is told, by its number, and at the
    end of a line what is left is told too or carried out whole."""
    def one(length):
        text = stored[:length]
        ended = text.count(b"\n")
        if text and not text.endswith(b"\n"):
            return answered(text, 2, f"line {ended + 1}: Word\n".encode())
        if ended in CUT_AT_AN_END:
            return answered(text, 2, CUT_AT_AN_END[ended])
        return confirmed(text)
    return first_wrong(one, range(len(stored) + 1))


def changed_anywhere(stored):
    """The stored script with one of its bytes changed, each in turn."""
    chance = random.Random(8)

    def one(place):
        changed = chance.choice([it for it in b" \n\0\xff09azAZ:=,-" if it != stored[place]])
        text = stored[:place] + bytes([changed]) + stored[place + 1 :]
        return fits(text, run(text))
    return first_wrong(one, range(len(stored)))


def first_wrong(one, cases):
    with ThreadPoolExecutor() as pool:
        for case, wrong in zip(cases, pool.map(one, cases)):
            if wrong:
                return f"at {case}: {wrong}"
    return None


# ---- wild programs


# Opcodes with what else they have: a register that is written (never the frame pointer) or read, a second one, an offset, a
# number. All else has to be 0.
INSTRUCTIONS = (
    (0x07, "w i"), (0x0F, "w s"), (0x15, "r o i"), (0x1D, "r s o"), (0x05, "o"), (0x61, "w s o"), (0x63, "r s o"), (0x79, "w s o"), (0x7B, "r s o"),
    (0x85, "call"), (0x95, ""), (0xB7, "w i"), (0xBF, "w s"), (0xC3, "r s o atomic"), (0xDB, "r s o atomic"),
)


def instruction(chance):
    """Eight bytes: mostly an allowed instruction, now and then any bytes."""
    if chance.randrange(40) == 0:
        return chance.randbytes(8)
    opcode, fields = chance.choice(INSTRUCTIONS)
    first = chance.randrange(10 if "w" in fields else 11) if fields[:1] in ("w", "r") else 0
    second = chance.randrange(11) if " s" in fields else 0
    offset = chance.randrange(-4, 8) if "o" in fields.split() else 0
    number = chance.randrange(64) if " i" in fields else chance.choice((0, 1, 64, 225, 241)) if "atomic" in fields else int(fields == "call")
    return bytes([opcode, first | second << 4]) + offset.to_bytes(2, "little", signed=True) + number.to_bytes(4, "little")


def wild_programs(count=400):
    """Programs of random code: what is refused tells its place, and what runs ends in a known way and within its budget."""
    chance = random.Random(9)
    lines = ["mem 1 bytes=256", "phase", "host 1", "send 1 setcreate ranges=1:0:64,1:64:64:r", "take 1"]
    for _ in range(count):
        code = b"".join(instruction(chance) for _ in range(chance.randrange(1, 12)))
        lines += [f"send 1 load slot=0 size={len(code) + 8} at=0 data={code.hex()}9500000000000000", "take 1", "send 1 activate slot=0", "take 1",
                  "send 1 execute slot=0 set=1 p1=0 p2=64 budget=500", "take 1", "send 1 deactivate slot=0", "take 1", "send 1 unload slot=0", "take 1"]
    lines += ["show mem 1 at=64 len=192"]
    done = run(script(*lines))
    read = entries(done.stdout) if done.returncode == 0 else None
    if read is None:
        return told(done)
    found, shown = read
    ends = {it[6] for it in found.values() if it[5] == b"execute"}
    if ends != {b"Ok", b"BadAccess", b"BadJump", b"BudgetSpent", b"SlotInactive"} or shown != [b"show mem 1 at=64 len=192 d=" + b"00" * 192]:
        return f"{sorted(ends)}, {shown[0][:80]!r}"
    return None


# ---- programs at the edges


# A code, how many of the 16 bytes its range has, the first parameter, the budget, and what the execution is told: stores and
# loads at the ends of the stack and of the range, calls and jumps to places far away.
EDGES = (
    ("720a000001000000 9500000000000000", 1, 0, 10, "BadAccess r=0"),
    ("720affff01000000 9500000000000000", 1, 0, 10, "Ok r=0"),
    ("1801000000000000 0000000001000000 7910000000000000 9500000000000000", 7, 0, 10, "BadAccess r=2"),
    ("1801000000000000 0000000001000000 7910000000000000 9500000000000000", 8, 0, 10, "Ok r=0"),
    ("b7010000ffffffff 7110010000000000 9500000000000000", 1, 0, 10, "BadAccess r=1"),
    ("85100000ffffffff", 1, 0, 8, "CallDepth r=0"),
    ("85100000ffffffff", 1, 0, 7, "BudgetSpent r=7"),
    ("0500ff7f00000000", 1, 0, 10, "BadJump r=0"),
    ("06000000ffffff7f", 1, 0, 10, "BadJump r=0"),
)


def execution(code, length, p1, budget):
    """A script that makes a set of the first bytes, loads a code, activates it and executes it."""
    return script(
        *("mem 1 bytes=16", "phase", "host 1", f"send 1 setcreate ranges=1:0:{length}", "take 1"),
        *(f"send 2 load slot=0 size={len(code) // 2} at=0 data={code}", "take 2", "send 3 activate slot=0", "take 3"),
        *(f"send 4 execute slot=0 set=1 p1={p1} p2=0 budget={budget}", "show mem 1 at=0 len=16"),
    )


def edges():
    for code, length, p1, budget, told_so in EDGES:
        front = "#1 h1 n1 c1 setcreate Ok r=1 d=\n#2 h1 n2 c2 load Ok r=0 d=\n#3 h1 n3 c3 activate Ok r=0 d=\n"
        text = f"{front}#4 h1 n4 c4 execute {told_so} d=\nshow mem 1 at=0 len=16 d={'00' * 16}\n"
        wrong = answered(execution(code.replace(" ", ""), length, p1, budget), 0, text.encode())
        if wrong:
            return f"{code}: {wrong}"
    return None


def drawn_codes(count=200):
    """Codes of 1 to 64 units whose bytes are drawn: each command is told, and the sequential device confirms the history."""
    def one(number):
        words = words_from(number)
        units = 1 + next(words) % 64
        code = b"".join(next(words).to_bytes(8, "little") for _ in range(units))
        return confirmed(execution(code.hex(), 16, 0, 1000))
    return first_wrong(one, range(1, count + 1))


# ---- an output that nobody reads


def closed_pipe():
    """The reader of the output leaves after its first bytes: a failed write, and no other end."""
    with subprocess.Popen([PROGRAM, "step", "1", "0"], stdin=subprocess.PIPE, stdout=subprocess.PIPE, stderr=subprocess.PIPE) as it:
        it.stdin.write(long_reads(64))
        it.stdin.close()
        it.stdout.read(100)
        it.stdout.close()
        status, error = it.wait(PATIENCE), it.stderr.read()
    return None if status == 4 and not error else f"status {status}, {error[:120]!r}"


def check_hostile(note):
    """Runs all cases, and tells each by `note(what, wrong)`."""
    stored = STORED.read_bytes()
    note("a write and a read of 8,192 bytes", one_transfer())
    note("16 hosts and 32,768 lines of sends and takes", each_line(VERSION_1, 1))
    note("16 hosts with 256 outstanding commands", each_line(VERSION_1, 256))
    note("16 hosts with 4,096 outstanding commands in 16 queues", each_line(VERSION_2, 4_096))
    for number, version in enumerate((VERSION_1, VERSION_2), 1):
        note(f"64 MiB of memory, filled from end to end, version {number}", all_memory(version))
        note(f"every limit of a script of version {number} at once, and one byte more", every_limit_at_once(version))
    for name, form, most in LIMITS:
        note(f"{name % most}, and one more", one_limit(form, most))
    for name, text, answer in (*one_too_many(), *STRANGE):
        note(name, answered(text, 2, answer))
    note(f"{len(stored) + 1} scripts that are cut", cut_anywhere(stored))
    note(f"{len(stored)} scripts of which a byte is changed", changed_anywhere(stored))
    note("400 programs of random code", wild_programs())
    note("programs at the edges of their bytes and of code", edges())
    note("200 codes whose bytes are drawn", drawn_codes())
    note("a reader that leaves", closed_pipe())


def main():
    failed = []

    def note(what, wrong):
        print(f"FAILED  {what}: {wrong}" if wrong else f"passed  {what}", flush=True)
        failed.extend([what] if wrong else [])

    check_hostile(note)
    return 1 if failed else 0


if __name__ == "__main__":
    sys.exit(main())
