#!/usr/bin/env python3
"""calls.py [--check]: writes docs/CALLS.md: of each public call of the program's crates that may refuse, what it answers, what its comment says of
it, and the clauses of its contract. With --check nothing is written, and the status is 1 where the page isn't what this run gives."""

import pathlib
import re
import sys

TOP = pathlib.Path(__file__).resolve().parent.parent
PAGE = TOP / "docs/CALLS.md"
HEAD = """# What each public call may refuse

Every public call of the program's crates returns on all input that meets its `requires`. This page has each call that
answers a `Result` or an `Option`: what its comment says, and the names of the clauses of its contract, which give the
exact cause of each refusal. Only `AllocError`, or a variant `Memory`, has a cause that the contract doesn't give:
memory ran out, or a list, a page number or a count would be too large, as the comments in `bdb_text_format` and the
`mk` crates say. A call that isn't here always answers.

| Crate | Call | Answers | What it says | Clauses |
|---|---|---|---|---|
"""


def crates_of_the_program():
    """The crates that the program stands on, in the order of crates.txt."""
    below = {}
    for line in (TOP / "crates.txt").read_text(encoding="utf-8").splitlines():
        name, colon, rest = line.split("#")[0].partition(":")
        if colon:
            below[name.strip()] = rest.split()
    seen, left = set(), ["bdbtool"]
    while left:
        name = left.pop()
        if name in below and name not in seen:
            seen.add(name)
            left += below[name]
    return [name for name in below if name in seen and name != "bdbtool"]


def handed_on(crate):
    """The names that the crate's root makes public, of its own modules."""
    text = (TOP / "crates" / crate / "src/lib.rt").read_text(encoding="utf-8")
    mods = set(re.findall(r"^(?:pub )?mod (\w+);", text, re.M))
    names = set()
    for module, rest in re.findall(r"^pub use (?:crate::)?(\w+)::([^;]*);", text, re.M | re.S):
        if module in mods:
            names |= set(re.findall(r"\w+", rest))
    return names, set(re.findall(r"^pub mod (\w+);", text, re.M))


FUNCTION = re.compile(r"^( *)(pub )?fn (\w+)", re.M)


def declared(text, at, indent):
    """What stands between a function's name and its body: its signature and its clauses."""
    ends = [found.start() for found in re.finditer(rf"\n{indent}\{{| \{{$|;$", text[at:], re.M)]
    return text[at : at + min(ends)] if ends else ""


def owner_of(before):
    """The type or trait in whose block a function stands."""
    heads = re.findall(r"^(?:pub )?(?:impl(?:<[^{]*?>)? (?:\w+(?:<[^{]*?>)? for )?|trait )(\w+)", before, re.M)
    return heads[-1] if heads else ""


def comment_of(before):
    lines = []
    for line in reversed(before.splitlines()):
        if line.strip().startswith("///"):
            lines.insert(0, line.strip()[3:].strip())
        elif not line.strip().startswith("#["):
            break
    return " ".join(lines)


def calls(crate):
    """Each public call that may refuse: its name, what it answers, its comment and its clauses."""
    names, open_mods = handed_on(crate)
    for path in sorted((TOP / "crates" / crate / "src").rglob("*.rt")):
        text = path.read_text(encoding="utf-8")
        traits = set(re.findall(r"^pub trait (\w+)", text, re.M))
        for found in FUNCTION.finditer(text):
            indent, is_public, name = found.groups()
            rest = declared(text, found.end(), indent)
            signature = re.split(r"\n\s*(?:requires|ensures)\b", rest)[0]
            answer = " ".join(signature.rpartition("->")[2].split()) if "->" in signature else ""
            before = text[: found.start()]
            owner = owner_of(before) if indent else ""
            is_open = path.stem in open_mods or (owner or name) in names
            if not answer.startswith(("Result<", "Option<")) or not is_open or not (is_public or owner in traits):
                continue
            clauses = re.findall(r"\bensures (?:(\w+) )?\{", rest)
            yield f"{owner}::{name}" if owner else name, answer, comment_of(before), clauses


def cell(text):
    return text.replace("|", "\\|")


def page():
    rows = []
    for crate in crates_of_the_program():
        for name, answer, comment, clauses in calls(crate):
            said = ", ".join(f"`{clause}`" if clause else "the one clause" for clause in clauses) or "–"
            rows.append(f"| `{crate}` | `{name}` | `{cell(answer)}` | {cell(comment)} | {said} |")
    return HEAD + "\n".join(rows) + "\n"


def main():
    text = page()
    if "--check" in sys.argv[1:]:
        is_same = PAGE.read_text(encoding="utf-8") == text
        print("docs/CALLS.md has the calls as they are" if is_same else "docs/CALLS.md differs from the calls: run tools/calls.py")
        return not is_same
    PAGE.write_text(text, encoding="utf-8")


if __name__ == "__main__":
    sys.exit(main())
