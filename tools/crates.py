#!/usr/bin/env python3
"""crates.py [--check]: fills in the table of docs/CRATES.md: what each crate stands on, from crates.txt, and its lines.

The sentence of a crate is the table's own; a new crate gets an empty one. With --check nothing is written, and the status is 1 where the
table isn't what this run gives."""

import pathlib
import re
import sys

TOP = pathlib.Path(__file__).resolve().parent.parent
PAGE = TOP / "docs/CRATES.md"
HEAD = "| Crate | What it is | Stands on | Code | Definitions | Proofs |\n|---|---|---|---:|---:|---:|"
KINDS = (("src", "*.rt"), ("specs", "*.antt"), ("proofs", "*.antt"))


def crates():
    """Each crate of crates.txt, in its order, with those that it names."""
    for line in (TOP / "crates.txt").read_text(encoding="utf-8").splitlines():
        name, colon, below = line.split("#")[0].partition(":")
        if colon:
            yield name.strip(), below.split()


def lines(name):
    """Lines of code, of definitions and of proofs."""
    return [sum(path.read_bytes().count(b"\n") for path in (TOP / "crates" / name / folder).rglob(kind)) for folder, kind in KINDS]


def table(text):
    said = dict(re.findall(r"^\| `(\w+)` \| ([^|]*) \|", text, re.M))
    rows, sums = [HEAD], [0, 0, 0]
    for name, below in crates():
        counted = lines(name)
        sums = [a + b for a, b in zip(sums, counted)]
        stands = ", ".join(f"`{crate}`" for crate in below)
        rows.append(f"| `{name}` | {said.get(name, '')} | {stands} | " + " | ".join(map(str, counted)) + " |")
    rows.append("| all | | | " + " | ".join(map(str, sums)) + " |")
    return "\n".join(rows)


def main():
    text = PAGE.read_text(encoding="utf-8")
    begin = text.index(HEAD)
    end = re.compile(r"^\| all \|.*\|$", re.M).search(text, begin).end()
    new = text[:begin] + table(text) + text[end:]
    if "--check" in sys.argv[1:]:
        print("docs/CRATES.md has the crates as they are" if new == text else "docs/CRATES.md differs from the crates: run tools/crates.py")
        return new != text
    PAGE.write_text(new, encoding="utf-8")


sys.exit(main())
