#!/usr/bin/env python3
"""Makes loads by `make`, and compares each summary with that of the history that `step` prints of the same script, which
a second reading of docs/FORMATS.md, "Loads", makes. `./check` calls it.

    python3 tools/loads.py
"""

import re
import subprocess
import sys

from crates import TOP

PROGRAM = TOP / "nvmecp"
BITS = 2**64
ENTRY = re.compile(rb"^#\d+ h\d+ n\d+ c\d+ [a-z]+ ([A-Za-z]+) r=(\d+) d=", re.M)
CODE = "180100000000000000000000010000007110000000000000070000000100000073010000000000009500000000000000"
READY = f"""nvmecp 1 block=512 depth=16 budget=1000
nvm 1 blocks=64
mem 1 bytes=65536
phase
host 1
send 1 setcreate ranges=1:0:256
take 1
send 2 setcreate ranges=1:1024:256,1:0:16
take 2
send 3 load slot=0 size=48 at=0 data={CODE}
take 3
send 4 activate slot=0
take 4
phase
"""
# Seeds and numbers of commands, at their limits too.
LOADS = [(0, 0), (0, 1), (7, 63), (7, 64), (7, 65), (1, 1_000), (2**64 - 1, 513), (7, 8_192)]
# Summaries that were worked out from the definitions by hand and by another program.
KNOWN = {
    (0, 0): b"commands 4\nok 4\nother 0\nsum 3\n",
    (7, 8_192): b"commands 8196\nok 8196\nother 0\nsum 136609\n",
}


def words_from(seed):
    """The words of SplitMix64 (Steele, Lea and Flood)."""
    state = seed
    while True:
        state = (state + 0x9E3779B97F4A7C15) % BITS
        word = (state ^ state >> 30) * 0xBF58476D1CE4E5B9 % BITS
        word = (word ^ word >> 27) * 0x94D049BB133111EB % BITS
        yield word ^ word >> 31


def command(word):
    """The command that a word stands for."""
    place, value = word // 8 % 65_536, word // 2**32 % 256
    block, at = place % 64, place % 64_512
    return (
        f"nvmread ns=1 lba={block} count=1",
        f"nvmwrite ns=1 lba={block} data={f'{value:02x}' * 512}",
        f"memread ns=1 at={at} len=256",
        f"memwrite ns=1 at={at} data={f'{value:02x}' * 16}",
        f"memfill ns=1 at={at} len=1024 value={value}",
        f"memcopy ns=1 at={at} from=n1:{block}:1",
        f"nvmcopy ns=1 lba={block} from=m1:{at}:512",
        f"execute slot=0 set={1 + place % 2} p1=0 p2=0 budget=100",
    )[word % 8]


def load(seed, commands):
    """The script of a load."""
    parts = [[] for _ in range(4)]
    for number, word in zip(range(commands), words_from(seed)):
        part, own = parts[number % 4], number // 4
        if own >= 16:
            part.append(f"take {own % 16}")
        part.append(f"send {own % 16} {command(word)}")
    lines = [line for host, part in enumerate(parts) for line in (f"host {host + 1}", *part)]
    return (READY + "".join(f"{line}\n" for line in lines)).encode()


def summary(history):
    """The summary of a printed history."""
    entries = ENTRY.findall(history)
    ok = sum(status == b"Ok" for status, _ in entries)
    total = sum(int(result) for _, result in entries) % BITS
    return f"commands {len(entries)}\nok {ok}\nother {len(entries) - ok}\nsum {total}\n".encode()


def run(words, script=b""):
    """The status of a run and what it wrote."""
    done = subprocess.run([PROGRAM, *words], input=script, capture_output=True, check=False)
    return done.returncode, done.stdout + done.stderr


def check_loads(note):
    """Tells each load whose summary is another one than that of its history, or than the one that is known."""
    for seed, commands in LOADS:
        made = run(["make", str(seed), str(commands)])
        status, history = run(["step", "4", str(seed)], load(seed, commands))
        wanted = (status, summary(history))
        wrong = None if made == wanted else f"{made} and not {wanted}"
        if (seed, commands) in KNOWN and made != (0, KNOWN[seed, commands]):
            wrong = f"{made} and not {KNOWN[seed, commands]}"
        if made != run(["make", str(seed), str(commands)]):
            wrong = "another text in a second run"
        note(f"make {seed} {commands}", wrong)


def main():
    failed = []

    def note(what, wrong):
        failed.extend([what] * bool(wrong))
        print(f"FAILED  {what}: {wrong}" if wrong else f"passed  {what}", flush=True)

    check_loads(note)
    return 1 if failed else 0


if __name__ == "__main__":
    sys.exit(main())
