#!/usr/bin/env python3
"""Runs the tests of crates/nvmecp/src/tests/threads.rt again and again, one at a time, each in a process of its own, and
tells how many failed. Threads decide what these tests meet, so that one run says little.

    python3 tools/repeat_tests.py [COUNT]

COUNT is how many times, 100 where it is left out. The test program is the one that the gate or `rt test` built last; nothing
is built here. Status: 0 where all passed.
"""

import resource
import subprocess
import sys

from crates import TOP

PROGRAM = TOP / "crates" / "nvmecp" / "out" / "nvmecp_tests"
# How the names of these tests begin.
MODULE = "tests::threads::"
COUNT = 100
# How long one test may take, in seconds, which is what the gate gives it.
PATIENCE = 60
# What a test program writes last where its test passed. Status 0 alone does not say so.
PASSED = b"\ntest result: ok\n"


def names():
    """The tests, by their full names."""
    done = subprocess.run([PROGRAM, "--list"], capture_output=True, text=True, timeout=PATIENCE, check=True)
    listed = [line.removesuffix(": test") for line in done.stdout.splitlines() if line.endswith(": test")]
    return [name for name in listed if name.startswith(MODULE)]


def wrong_in(name):
    """What is wrong with one run of a test, or None."""
    try:
        done = subprocess.run([PROGRAM, name], stdin=subprocess.DEVNULL, capture_output=True, timeout=PATIENCE, check=False)
    except subprocess.TimeoutExpired:
        return f"no end within {PATIENCE} seconds"
    if done.returncode == 0 and done.stdout.endswith(PASSED):
        return None
    return f"status {done.returncode}, {done.stdout[-200:]!r}{done.stderr[-200:]!r}"


def repeated(name, count):
    """Runs a test so many times, tells what became of it, and gives how many runs failed."""
    wrong = [it for it in (wrong_in(name) for _ in range(count)) if it]
    said = f"FAILED  {name}, {len(wrong)} of {count} times, first {wrong[0]}" if wrong else f"passed  {name}, {count} times"
    print(said, flush=True)
    return len(wrong)


def main():
    given = sys.argv[1] if len(sys.argv) > 1 else str(COUNT)
    if not given.isdecimal() or int(given) == 0:
        sys.exit("repeat_tests.py [COUNT]: COUNT is a number from 1 on")
    if not PROGRAM.is_file():
        sys.exit(f"there is no {PROGRAM.relative_to(TOP)}: `rt test` in crates/nvmecp builds it, and so does the gate")
    # (a test that fails aborts, and would leave a core file)
    resource.setrlimit(resource.RLIMIT_CORE, (0, 0))
    tests = names()
    if not tests:
        sys.exit(f"{PROGRAM.relative_to(TOP)} has no test whose name begins with {MODULE}")
    failed = sum(repeated(name, int(given)) for name in tests)
    print(f"{len(tests)} tests, each {given} times: {failed} runs failed")
    return 1 if failed else 0


if __name__ == "__main__":
    sys.exit(main())
