"""Scripts at their limits and one past them, of many hosts, and inputs that are no scripts: tools/hostile.py and
tools/serving.py try the program with them, and bench/limits.py measures it."""

from dataclasses import dataclass

# The largest input of a script, in bytes, in both versions.
MOST_BYTES = 33_554_432
# The largest namespace, and the most bytes of one fill.
NAMESPACE = 1 << 24
FILL = 1 << 20


@dataclass(frozen=True)
class Version:
    """How the scripts of one version begin, with each number of the header as large as it may be, and how many of its
    lines and queues they may have."""

    header: str
    queues: int
    sends: int
    phases: int
    shows: int

    def identifier(self, number):
        """What a host's command is sent under: the queues in turn."""
        return str(number) if self.queues == 1 else f"{1 + number % self.queues}:{number // self.queues}"

    def printed(self, number):
        """The same as the lines of a history show it."""
        return number % self.queues * 65_536 + number // self.queues


VERSION_1 = Version("nvmecp 1 block=512 depth=256 budget=10000000", 1, 16_384, 1_024, 1_024)
# (16 queues of 256 are as many outstanding commands as a host may have)
VERSION_2 = Version("nvmecp 2 block=512 queues=16 depth=256 budget=100000000", 16, 65_536, 4_096, 4_096)


def header(depth=16, budget=1000, block=512):
    return f"nvmecp 1 block={block} depth={depth} budget={budget}\n"


def text_of(lines):
    return "".join(f"{it}\n" for it in lines).encode()


def script(*lines, **limits):
    return header(**limits).encode() + text_of(lines)


def many_lines(version=VERSION_1, outstanding=1):
    """16 hosts that send as many commands as a script may have, each host on a byte of its own, and take so many at a
    time."""
    lines = [version.header, "mem 1 bytes=16", "phase"]
    for host in range(1, 17):
        lines.append(f"host {host}")
        for first in range(0, version.sends // 16, outstanding):
            row = [(it, version.identifier(it)) for it in range(first, first + outstanding)]
            lines += [f"send {cid} memfill ns=1 at={host - 1} len=1 value={it % 256}" for it, cid in row]
            lines += [f"take {cid}" for _, cid in row]
    return text_of([*lines, "show mem 1 at=0 len=16"])


def many_hosts(each=16):
    """16 hosts that fill the same bytes, write and read, and one that sums them up."""
    lines = ["mem 1 bytes=64", "phase", "host 1", "send 1 setcreate ranges=1:0:64", "phase"]
    for host in range(1, 17):
        lines.append(f"host {host}")
        for number in range(each // 4):
            lines += [f"send 1 memfill ns=1 at=0 len=64 value={host}", f"send 2 memwrite ns=1 at={host} data={number:02x}"]
            lines += ["send 3 memread ns=1 at=0 len=64", f"send 4 execute slot=65 set={host % 2} p1=64 p2=0 budget=1000"]
            lines += ["take 4", "take 3", "take 1", "take 2"]
    return script(*lines, "show mem 1 at=0 len=64")


def long_reads(count):
    """So many reads of 8,192 bytes, whose text has twice as many digits."""
    lines = ("send 1 memread ns=1 at=0 len=8192", "take 1")
    return script("mem 1 bytes=8192", "phase", "host 1", *(lines * count))


def filled_memory(version=VERSION_1):
    """Four namespaces of 16 MiB, filled from end to end by 1 MiB at a time: the script, and what is printed."""
    lines = [version.header, *(f"mem {it} bytes={NAMESPACE}" for it in range(1, 5)), "phase", "host 1"]
    places = [(namespace, at) for namespace in range(1, 5) for at in range(0, NAMESPACE, FILL)]
    printed = []
    for number, (namespace, at) in enumerate(places, 1):
        cid = version.identifier(number)
        lines += [f"send {cid} memfill ns={namespace} at={at} len={FILL} value={number}", f"take {cid}"]
        printed.append(f"#{number} h1 n{number} c{version.printed(number)} memfill Ok r=0 d=")
    for namespace in range(1, 5):
        show = f"show mem {namespace} at={NAMESPACE - 2} len=2"
        lines.append(show)
        printed.append(f"{show} d={16 * namespace:02x}{16 * namespace:02x}")
    return text_of(lines), text_of(printed)


def all_limits(version=VERSION_1, sends=None, phases=None, shows=None, length=MOST_BYTES):
    """A script with so many sends, phases and shows, else the most, that has so many bytes: as many of the sends write
    as fill it."""
    left = version.sends if sends is None else sends
    phases = version.phases if phases is None else phases
    shows = version.shows if shows is None else shows
    lines = [version.header, f"mem 1 bytes={NAMESPACE}"]
    per_phase = -(-left // phases)
    for _ in range(phases):
        lines += ["phase", "host 1"]
        for it in range(min(per_phase, left)):
            lines.append(f"send {version.identifier(it)} memwrite ns=1 at=0 data=")
        left -= min(per_phase, left)
    lines += ["show mem 1 at=0 len=1"] * shows
    missing = max(0, length - sum(len(it) + 1 for it in lines))
    for place, line in enumerate(lines):
        digits = min(missing, 16_384) // 2 * 2
        if line.endswith("data=") and digits:
            lines[place] = line + "0" * digits
            missing -= digits
    if missing:
        lines[-1] = lines[-1].replace("len=1", "len=10")
    return text_of(lines)


def one_too_many():
    """For both versions and each kind of line of which there may be only so many: a name, a script that has one line more,
    and what is told of it, which is the last of these lines."""
    for number, version in enumerate((VERSION_1, VERSION_2), 1):
        for word, text in (
            ("send", all_limits(version, sends=version.sends + 1, length=0)),
            ("phase", all_limits(version, phases=version.phases + 1, length=0)),
            ("show", all_limits(version, shows=version.shows + 1, length=0)),
        ):
            last = text.count(b"\n", 0, text.rindex(f"\n{word}".encode()) + 1) + 1
            yield f"one {word} too many, version {number}", text, f"line {last}: Limit\n".encode()


MANY_SOURCES = "send 1 memcopy ns=1 at=0 from=" + "m1:0:1," * 300_000 + "m1:0:1"
# Inputs that are no scripts, and what is told of them.
STRANGE = (
    ("no byte at all", b"", b"line 1: Order\n"),
    ("bytes of 0", header().encode() + b"\0\0\0\0\n", b"line 2: Word\n"),
    ("8 MB of bytes of 0", b"\0" * 8_000_000, b"line 1: Word\n"),
    ("a byte of 0 behind a word", header().encode() + b"mem\0 1 bytes=1\n", b"line 2: Word\n"),
    ("what is no UTF-8", header().encode() + b"mem 1 bytes=\xff\xfe\n", b"line 2: Number\n"),
    ("a word that is no UTF-8", header().encode() + b"\xc3\x28 1\n", b"line 2: Word\n"),
    ("8 MB that are no UTF-8", b"\xff\xfe" * 4_000_000 + b"\n", b"line 1: Word\n"),
    ("ends of lines as on other systems", header().encode()[:-1] + b"\r\n", b"line 1: Number\n"),
    ("a line of 8 MB of one letter", b"x" * 8_000_000 + b"\n", b"line 1: Word\n"),
    ("a number of 8 MB", header().encode() + b"mem 1 bytes=" + b"9" * 8_000_000 + b"\n", b"line 2: Number\n"),
    ("8 MB of separators", header().encode() + b"mem" + b" " * 8_000_000 + b"\n", b"line 2: Field\n"),
    ("8 MB of empty lines", header().encode() + b"\n" * 8_000_000, b"line 2: Word\n"),
    ("a list of 2 MB of elements", script("mem 1 bytes=1", "phase", "host 1", MANY_SOURCES), b"line 5: Limit\n"),
)
