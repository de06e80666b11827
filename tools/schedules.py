#!/usr/bin/env python3
"""Runs scripts by `step` with many numbers of workers and choices, and compares each text with that of a small model of the
schedule: a second reading of docs/COMMANDS.md, "Workers and choices". Its scripts use fills, writes, reads and Aborts.
`./check` calls it.

    python3 tools/schedules.py
"""

import subprocess
import sys
from concurrent.futures import ThreadPoolExecutor
from dataclasses import dataclass

from crates import TOP
from hostile import is_legal

PROGRAM = TOP / "nvmecp"
HEADER = "nvmecp 1 block=512 depth=16 budget=1000\nmem 1 bytes=16\n"
SHOW = "show mem 1 at=0 len=16\n"
# How many workers each script is run with, and by which choices.
WORKERS = (1, 2, 3, 16)
CHOICES = (*range(200), 2**64 - 1)


@dataclass
class Sent:
    """A command that was sent: who sent it, which of its host's it is, its identifier, its word and fields, the command that
    it names, and how far it has come."""

    host: int
    ordinal: int
    cid: int
    word: str
    fields: dict
    named: "Sent" = None
    stage: str = "waits"
    read: str = ""

    def region(self):
        """The first place that it touches, and the place behind the last."""
        at = int(self.fields["at"])
        data = self.fields.get("data")
        return at, at + (int(self.fields["len"]) if data is None else len(data) // 2)

    def meets(self, other):
        """Whether both touch a byte, and one of them may write it."""
        (start, end), (first, behind) = self.region(), other.region()
        return start < behind and first < end and not self.word == other.word == "memread"


class Device:
    """The model of the device: its bytes, all commands in the order in which they were sent, what is being carried out, and
    the history so far."""

    def __init__(self):
        self.bytes = bytearray(16)
        self.sent = []
        self.claims = []
        self.history = []

    def ends(self, command, status, result):
        """A command is over."""
        command.stage = "posted"
        k = len(self.history) + 1
        name = f"#{k} h{command.host} n{command.ordinal} c{command.cid} {command.word}"
        self.history.append(f"{name} {status} r={result} d={command.read}\n")

    def outstanding(self, host, cid):
        """A host's outstanding command under an identifier, or None."""
        mine = [it for it in self.sent if it.host == host and it.cid == cid and it.stage != "taken"]
        return mine[0] if mine else None

    def send(self, host, cid, word, fields):
        ordinal = 1 + sum(it.host == host for it in self.sent)
        named = self.outstanding(host, int(fields["cid"])) if word == "abort" else None
        self.sent.append(Sent(host, ordinal, cid, word, fields, named))

    def may_be_picked(self, command):
        return command.stage == "waits" and (command.word == "abort" or not any(command.meets(it) for it in self.claims))

    def turn_to(self, command):
        """A worker begins a command, or does an Abort."""
        if command.word != "abort":
            command.stage = "works"
            self.claims.append(command)
        elif command.named and command.named.stage == "waits":
            self.ends(command, "Ok", 0)
            self.ends(command.named, "Aborted", 0)
        else:
            self.ends(command, "Ok", 1)

    def finish(self, command):
        """A command that was begun ends."""
        self.claims.remove(command)
        start, end = command.region()
        if command.word == "memread":
            command.read = self.bytes[start:end].hex()
        elif command.word == "memwrite":
            self.bytes[start:end] = bytes.fromhex(command.fields["data"])
        else:
            self.bytes[start:end] = bytes([int(command.fields["value"])] * (end - start))
        self.ends(command, "Ok", 0)


def with_takes(items):
    """The items of a part, and behind them the takes of what is outstanding then."""
    left = []
    for item in items:
        if item[0] == "send":
            left.append(item[1])
        else:
            left.remove(item[1])
    return [*items, *(("take", cid) for cid in left)]


def phases_of(lines):
    """The phases of a script: the items of each host."""
    phases = []
    for line in lines.splitlines():
        words = line.split(" ")
        if words[0] == "phase":
            phases.append({})
        elif words[0] == "host":
            items = phases[-1].setdefault(int(words[1]), [])
        elif words[0] == "send":
            items.append(("send", int(words[1]), words[2], dict(it.split("=") for it in words[3:])))
        elif words[0] == "take":
            items.append(("take", int(words[1])))
    return [{host: with_takes(items) for host, items in sorted(phase.items())} for phase in phases]


def listed(device, parts, workers):
    """All that may be done."""
    actions = []
    for host, items in parts.items():
        if not items:
            continue
        if items[0][0] == "send":
            actions.append((lambda host=host, item=items[0]: device.send(host, *item[1:]), items))
        else:
            taken = device.outstanding(host, items[0][1])
            if taken.stage == "posted":
                actions.append((lambda taken=taken: setattr(taken, "stage", "taken"), items))
    actions += [(lambda it=it: device.finish(it), None) for it in device.claims]
    if len(device.claims) < workers:
        actions += [(lambda it=it: device.turn_to(it), None) for it in device.sent if device.may_be_picked(it)]
    return actions


def text_of(lines, workers, choices):
    """The text of the schedule that workers and choices select."""
    device = Device()
    for parts in phases_of(lines):
        while any(parts.values()):
            actions = listed(device, parts, workers)
            act, items = actions[choices % len(actions)]
            choices //= len(actions)
            act()
            if items:
                items.pop(0)
    return "".join(device.history) + f"show mem 1 at=0 len=16 d={device.bytes.hex()}\n"


def fill(cid, at, length, value):
    return f"send {cid} memfill ns=1 at={at} len={length} value={value}\n"


def scripts():
    """Each script by its name, without its first two lines and its show."""
    yield "two overlapping fills", f"phase\nhost 1\n{fill(1, 0, 4, 1)}host 2\n{fill(1, 2, 4, 2)}"
    yield "a fill that is withdrawn", f"phase\nhost 1\n{fill(1, 0, 4, 1)}send 2 abort cid=1\n"
    yield "three hosts that withdraw their fills", "phase\n" + "".join(
        f"host {n}\n{fill(7, n, 4, n)}send 8 abort cid=7\nsend 9 abort cid=8\ntake 7\n{fill(7, 0, 16, 16 + n)}" for n in (1, 2, 3)
    )
    yield "sixteen hosts", "phase\n" + "".join(f"host {n}\n{fill(1, n - 1, min(3, 17 - n), n)}" for n in range(1, 17))
    yield "a host in every second phase", "".join(
        f"phase\nhost 1\nsend 1 memwrite ns=1 at={n} data=0{n}0{n}\nsend 2 memread ns=1 at=0 len=8\n"
        + (f"host 3\nsend 1 memread ns=1 at={n} len=4\n{fill(2, n + 1, 2, 9)}" if n % 2 else "")
        for n in range(4)
    )
    yield "no sends", "phase\nhost 1\nhost 2\nphase\nhost 2\n"


def wrong_text(lines, workers, choices):
    """What is wrong with one run, or None."""
    words, script = ("step", str(workers), str(choices)), (HEADER + lines + SHOW).encode()
    done = subprocess.run([PROGRAM, *words], input=script, capture_output=True, timeout=60, check=False)
    wanted = text_of(lines, workers, choices)
    if done.returncode == 0 and done.stdout.decode() == wanted and not done.stderr:
        return None if is_legal(script, done.stdout) else f"the sequential device does not confirm what {' '.join(words)} wrote: {wanted!r}"
    return f"{' '.join(words)} wrote {done.stdout.decode()!r}, status {done.returncode}, and not {wanted!r}"


def check_schedules(note):
    """Each script with all workers and choices."""
    with ThreadPoolExecutor() as pool:
        for name, lines in scripts():
            cases = [(lines, workers, choices) for workers in WORKERS for choices in CHOICES]
            wrong = [it for it in pool.map(lambda case: wrong_text(*case), cases) if it]
            note(f"schedules of {name}, {len(cases)} of them", f"{len(wrong)} of them, first {wrong[0]}" if wrong else None)


def main():
    failed = []
    check_schedules(lambda what, wrong: (print(f"FAILED  {what}: {wrong}" if wrong else f"passed  {what}"), failed.append(what) if wrong else None))
    return 1 if failed else 0


if __name__ == "__main__":
    sys.exit(main())
