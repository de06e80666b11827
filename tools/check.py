#!/usr/bin/env python3
"""What the merge gate does not see: the program as it is called, the examples, inputs at their limits and such as mean no
good, schedules, the blocks of the documents and the page of definitions. `./check` calls it behind the gate.

    python3 tools/check.py
"""

import re
import subprocess
import sys
from pathlib import Path

from crates import TOP
from faults import check_faults
from hostile import check_hostile
from loads import check_loads
from schedules import check_schedules
from serving import check_serving
from traces import check_traces

PROGRAM = "./nvmecp"
# More than the largest input, whose limit the documents state.
TOO_LONG = 33_554_433
FIRST_WRITE = "examples/first-write.script"


class Checks:
    """How many checks passed, and how many did not."""

    def __init__(self):
        self.passed = 0
        self.failed = 0

    def note(self, what, wrong):
        """Tells a check that passed, or what is wrong."""
        self.passed += not wrong
        self.failed += bool(wrong)
        print(f"FAILED  {what}: {wrong}" if wrong else f"passed  {what}", flush=True)


def shell(command, stdin=subprocess.DEVNULL):
    """Runs a command of bash at the top."""
    return subprocess.run(["bash", "-c", command], cwd=TOP, stdin=stdin, capture_output=True, check=False)


def wrong_in(done, status, text):
    """What is wrong with a run that has to end with this status and this text, or None."""
    found = []
    if done.returncode != status:
        found.append(f"status {done.returncode} and not {status}")
    if text is not None and done.stdout != text:
        found.append(f"it wrote {done.stdout[:200]!r} and not {text[:200]!r}")
    if done.stderr:
        found.append(f"on standard error {done.stderr[:200]!r}")
    return "; ".join(found) or None


def beside(file, ending, otherwise=None):
    """The text of the file beside an example with another ending."""
    other = file.with_suffix(ending)
    return other.read_bytes() if other.is_file() else otherwise


def check_examples(checks):
    """Each script gives what stands beside it: .expected, and where they are others than `step 1 0` and 0 the words in
    .words and the status in .status. Where there are NAME.CASE.words too, it gives NAME.CASE.expected for them. So does each
    trace by `check`. Assembly and code of one name give each other."""
    for script in sorted((TOP / "examples").glob("*.script")):
        name = script.relative_to(TOP)
        for case in [script, *sorted(script.parent.glob(f"{script.stem}.*.words"))]:
            words = beside(case, ".words", b"step 1 0").decode().strip()
            status = int(beside(case, ".status", b"0"))
            expected = beside(case, ".expected")
            done = shell(f"{PROGRAM} {words} < {name}")
            checks.note(f"{name}, {words}", wrong_in(done, status, expected) if expected is not None else "it has no .expected beside it")
    for trace in sorted((TOP / "examples").glob("*.trace")):
        name = trace.relative_to(TOP)
        done = shell(f"{PROGRAM} check < {name}")
        checks.note(f"{name}, check", wrong_in(done, int(beside(trace, ".status", b"0")), trace.with_suffix(".expected").read_bytes()))
    for text in sorted((TOP / "examples").glob("*.asm")):
        code = text.with_suffix(".hex")
        for word, source, target in (("asm", text, code), ("dis", code, text)):
            name = source.relative_to(TOP)
            checks.note(f"{name}, {word}", wrong_in(shell(f"{PROGRAM} {word} < {name}"), 0, target.read_bytes()))


def check_statuses(checks):
    """The statuses that no example has."""
    for words in (
        *("", "help", "--help", "step", "step 1", "step 1 00", "step 0 0", "step 17 0", "step -- 1 0", "step 1 0 0", "asm dis", "asm x", "'' "),
        *("make", "make 7", "make 0 8193", "make 18446744073709551616 1", "make 07 1", "make -1 1", "make 7 1 1", "upgrade 1"),
        *("serve", "serve 0", "serve 17", "serve 04", "serve 4 0"),
    ):
        checks.note(f"wrong words: {words or 'none'}", wrong_in(shell(f"{PROGRAM} {words} < {FIRST_WRITE}"), 1, b""))
    for what, command, status, text in (
        ("standard input closed", f"{PROGRAM} step 1 0 <&-", 3, b""),
        ("a folder as standard input", f"{PROGRAM} step 1 0 < .", 3, b""),
        ("a full device as standard output", f"{PROGRAM} step 1 0 < {FIRST_WRITE} > /dev/full", 4, b""),
        ("upgrade with a full device as standard output", f"{PROGRAM} upgrade < {FIRST_WRITE} > /dev/full", 4, b""),
        ("upgrade twice", f"{PROGRAM} upgrade < {FIRST_WRITE} | {PROGRAM} upgrade | {PROGRAM} step 1 0", 0, b"#1 h1 n1 c1 memwrite Ok r=0 d=\nshow mem 1 at=0 len=4 d=01020000\n"),
        ("serve with standard input closed", f"{PROGRAM} serve 4 <&-", 3, b""),
        ("serve with a full device as standard output", f"{PROGRAM} serve 4 < {FIRST_WRITE} > /dev/full", 4, b""),
        ("serve of a script that is refused", f"{PROGRAM} serve 4 < examples/full-queue.script", 2, b"line 6: QueueFull\n"),
        ("standard output closed", f"{PROGRAM} step 1 0 < {FIRST_WRITE} >&-", 4, b""),
        ("make with standard input closed", f"{PROGRAM} make 0 0 <&-", 0, b"commands 4\nok 4\nother 0\nsum 3\n"),
        ("make with a full device as standard output", f"{PROGRAM} make 0 0 > /dev/full", 4, b""),
        ("an input that is too long", f"head -c {TOO_LONG} /dev/zero | {PROGRAM} step 1 0", 2, b"too long\n"),
        ("an input as long as it may be", f"head -c {TOO_LONG - 1} /dev/zero | {PROGRAM} step 1 0", 2, b"line 1: Word\n"),
    ):
        checks.note(what, wrong_in(shell(command), status, text))


def check_blocks(checks, page):
    """Each block ```console of a page: its lines that begin with `$ ` are run at the top, one after the other, and what
    each writes has to be the lines behind it. `echo $?` tells the status of the command before it."""
    text = page.read_text(encoding="utf-8")
    for found in re.finditer(r"^```console\n(.*?)^```$", text, re.M | re.S):
        line = text.count("\n", 0, found.start()) + 1
        wrong, status = [], 0
        for step in re.split(r"^\$ ", found[1], flags=re.M)[1:]:
            command, _, expected = step.partition("\n")
            done = shell(f"(exit {status}); {command}")
            status = done.returncode
            if done.stdout.decode(errors="replace") != expected or done.stderr:
                wrong.append(f"`{command}` wrote {done.stdout[:200]!r}{done.stderr[:200]!r} and not {expected[:200]!r}")
        checks.note(f"{page.relative_to(TOP)}, the block at line {line}", "; ".join(wrong))


def check_promises(checks):
    """Each wrong body is named in docs/PROMISES.md."""
    named = set(re.findall(r"`(\w+)`", (TOP / "docs" / "PROMISES.md").read_text(encoding="utf-8")))
    missing = sorted(it.stem for it in TOP.glob("crates/*/must-fail/*.edit") if it.stem not in named)
    checks.note("docs/PROMISES.md names each wrong body", ", ".join(missing))


def check_links(checks, page):
    """What a page links to is there."""
    targets = re.findall(r"\]\(([^)#:]+)(?:#[^)]*)?\)", page.read_text(encoding="utf-8"))
    missing = sorted({it for it in targets if not (page.parent / it).exists()})
    checks.note(f"{page.relative_to(TOP)}, its links", ", ".join(missing))


def main():
    if subprocess.run([TOP / "tools" / "renew.bash", "nvmecp"], check=False).returncode:
        sys.exit("beside the gate: nothing was checked, since the program was not built")
    checks = Checks()
    check_examples(checks)
    check_statuses(checks)
    check_hostile(checks.note)
    check_schedules(checks.note)
    check_serving(checks.note)
    check_loads(checks.note)
    check_faults(checks.note)
    check_traces(checks.note)
    for page in [*sorted(TOP.glob("*.md")), *sorted((TOP / "docs").glob("*.md"))]:
        check_blocks(checks, page)
        check_links(checks, page)
    check_promises(checks)
    done = subprocess.run([sys.executable, TOP / "docs" / "definitions.py", "--check"], check=False)
    checks.note("docs/DEFINITIONS.md", "run docs/definitions.py" if done.returncode else None)
    print(f"beside the gate: {checks.passed} passed, {checks.failed} failed")
    return 1 if checks.failed else 0


if __name__ == "__main__":
    sys.exit(main())
