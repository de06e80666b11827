#!/usr/bin/env python3
"""Writes what the documents say of the crates, from their files: docs/DEFINITIONS.md, which is every definition in
crates/*/specs with the comment that stands above it, and the two tables of docs/ARCHITECTURE.md, of the crates and of the
types that contracts see as another.

    python3 docs/definitions.py            writes them
    python3 docs/definitions.py --check    status 1 where one of them is not what the files make
"""

import re
import sys
from pathlib import Path

TOP = Path(__file__).resolve().parent.parent
sys.path.insert(0, str(TOP / "tools"))

from crates import Crates, lowest_first  # noqa: E402

DEFINITIONS = TOP / "docs" / "DEFINITIONS.md"
ARCHITECTURE = TOP / "docs" / "ARCHITECTURE.md"
HEAD = """# Definitions

Every definition that contracts cite, with the comment that stands above it, crate by crate from the lowest on. `docs/definitions.py` makes this page from the files, and `./check` compares it; to change a line, change the comment.
"""
# A definition that other modules see, by its name: a function, a record or a type with cases.
DEFINITION = re.compile(r"(?:(?:abbrev|unfoldable|opaque) +)*pub +(?:(?:abbrev|unfoldable|opaque) +)*(?:(?:record|data) +)?([^\s:(){}]+)(?=[\s:({])")
# A type of the code, and what contracts see it as.
MODEL = re.compile(r"^impl(?:<[^>]*>)? Model for (\w+)[^{]*\{.*?ghost Value = \{ (.*?) \};", re.M | re.S)


def in_one_line(comment):
    """The lines of a comment as a text; None where there is none."""
    text = " ".join(line.lstrip("-").strip() for line in comment)
    return text or None


def definitions_of(file):
    """The comment at the head of a file, and each definition with the comment above it."""
    head, found, comment = None, [], []
    for line in file.read_text(encoding="utf-8").splitlines():
        if line.startswith("-- ---"):
            comment = []
        elif line.startswith("--"):
            comment.append(line)
        else:
            if head is None:
                head = in_one_line(comment) or ""
                comment = []
            named = DEFINITION.match(line)
            if named and named[1] not in ("mod", "use"):
                found.append((named[1], in_one_line(comment)))
            comment = []
    return head or "", found


def purpose_of(crates, name):
    """What a crate is for, as the head of its root file says."""
    root = crates.folder(name) / "src" / ("main.rt" if crates.is_program(name) else "lib.rt")
    lines = root.read_text(encoding="utf-8").splitlines()
    return " ".join(line[3:].strip() for line in lines if line.startswith("//!"))


def definitions(crates, names):
    """The page of definitions."""
    lines = [HEAD]
    for name in names:
        folder = crates.folder(name)
        files = [it for it in sorted((folder / "specs").glob("**/*.antt")) if it.name != "Lib.antt"]
        sections = [(file, *definitions_of(file)) for file in files]
        if not any(found for _, _, found in sections):
            continue
        lines += [f"## `{name}`", "", purpose_of(crates, name), ""]
        for file, head, found in sections:
            if found:
                lines += [f"### `{name}/{file.relative_to(folder)}`", ""] + ([head, ""] if head else [])
                lines += [f"- `{it}`: {comment}" if comment else f"- `{it}`" for it, comment in found] + [""]
    return "\n".join(lines).rstrip("\n") + "\n"


def table_of_crates(crates, names):
    """Each crate, what it stands on directly, and the first sentence of what it is for."""
    rows = ["| Crate | Stands on | What it is for |", "|---|---|---|"]
    for name in names:
        # (a crate that stands below another of the list is left out)
        deps = crates.deps[name]
        direct = [dep for dep in deps if not any(dep in crates.below(other) for other in deps)]
        purpose = re.split(r"(?<=\w)\. ", purpose_of(crates, name))[0].rstrip(".")
        rows.append(f"| `{name}` | {', '.join(f'`{dep}`' for dep in direct)} | {purpose} |")
    return rows


def table_of_models(crates, names):
    """Each type that contracts see as another."""
    rows = ["| Type | Crate | Contracts see |", "|---|---|---|"]
    for name in names:
        for file in sorted((crates.folder(name) / "src").rglob("*.rt")):
            for found in MODEL.finditer(file.read_text(encoding="utf-8")):
                rows.append(f"| `{found[1]}` | `{name}` | `{found[2]}` |")
    return rows


def with_table(text, name, rows):
    """A page with these rows between the two lines that mark the table of this name."""
    mark = re.compile(rf"(<!-- {name}: [^\n]*-->\n).*?(<!-- end -->)", re.S)
    if not mark.search(text):
        sys.exit(f"docs/ARCHITECTURE.md has no table {name}")
    return mark.sub(lambda found: found[1] + "\n" + "\n".join(rows) + "\n\n" + found[2], text)


def main():
    crates = Crates(TOP)
    names = lowest_first(crates, crates)
    text = ARCHITECTURE.read_text(encoding="utf-8")
    text = with_table(text, "crates", table_of_crates(crates, names))
    text = with_table(text, "models", table_of_models(crates, names))
    pages = {DEFINITIONS: definitions(crates, names), ARCHITECTURE: text}
    if sys.argv[1:] == ["--check"]:
        return int(any(not it.is_file() or it.read_text(encoding="utf-8") != text for it, text in pages.items()))
    for file, text in pages.items():
        file.write_text(text, encoding="utf-8")
    return 0


if __name__ == "__main__":
    sys.exit(main())
