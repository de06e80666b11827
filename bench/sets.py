#!/usr/bin/env python3
"""Times how sets are made and deleted among others by `step 1 0`.

    python3 bench/sets.py

A script first makes so many sets, and then makes and deletes one more set over and over: what one such command takes,
beside as many in a table that is else empty.
"""

from measure import best_of, build

WORDS = ["step", "1", "0"]
PAIRS = 7_500
HEAD = "nvmecp 1 block=512 depth=16 budget=1000\nmem 1 bytes=4096\nphase\nhost 1\n"


def script(others, pairs):
    """So many sets of 16 ranges, and then pairs of commands that make and delete one more of them."""
    ranges = ",".join(f"1:{i * 32}:16" for i in range(16))
    made = f"send 1 setcreate ranges={ranges}\ntake 1\n"
    return (HEAD + made * others + (made + f"send 1 setdelete set={others + 1}\ntake 1\n") * pairs).encode()


def main():
    build()
    print(f"{'other sets':>10} {'us a command':>13}")
    for others in (0, 64, 128, 254):
        begun = best_of(5, WORDS, script(others, 1), 0, keep=False)
        whole = best_of(5, WORDS, script(others, PAIRS), 0, keep=False)
        each = (whole.seconds - begun.seconds) / (2 * (PAIRS - 1))
        print(f"{others:10} {each * 1e6:13.3f}")


if __name__ == "__main__":
    main()
