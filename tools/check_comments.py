#!/usr/bin/env python3
"""check_comments.py: lists what of the program's crates is public without a doc comment, and the public calls whose comment leaves something
out: when a `Result` is refused, or that memory runs out; or when an `Option` is none. Status 1 where there are any."""

import re
import sys

import calls

REFUSES = re.compile(r"\b(error|errors|refus\w+|fails?|failed|memory|unless|exactly|only where|Err)\b|\bor (the|why|its|else|`)", re.I)
MISSES = re.compile(r"\b(none|if|where|unless|until|next|first|last|behind|exactly)\b", re.I)

TYPE = re.compile(r"^pub (?:struct|enum|trait|const|type) (\w+)", re.M)


def wants(answer, comment):
    """What a comment leaves out, or None."""
    if answer.startswith("Result<") and not REFUSES.search(comment):
        return "doesn't say when it is refused"
    if answer.startswith("Option<") and not MISSES.search(comment):
        return "doesn't say when there is none"
    return None


def bare(crate):
    """The public types and calls of a crate that have no comment."""
    names, open_mods = calls.handed_on(crate)
    for path in sorted((calls.TOP / "crates" / crate / "src").rglob("*.rt")):
        text = path.read_text(encoding="utf-8")
        for found in calls.FUNCTION.finditer(text):
            indent, is_public, name = found.groups()
            before = text[: found.start()]
            owner = calls.owner_of(before) if indent else ""
            is_open = path.stem in open_mods or (owner or name) in names
            if is_public and is_open and not calls.comment_of(before):
                yield f"{owner}::{name}" if owner else name
        for found in TYPE.finditer(text):
            if found.group(1) in names and not calls.comment_of(text[: found.start()]):
                yield found.group(1)


def main():
    found = 0
    for crate in calls.crates_of_the_program():
        for name in bare(crate):
            found += 1
            print(f"{crate}: {name}: no comment")
        for name, answer, comment, _clauses in calls.calls(crate):
            want = wants(answer, comment)
            if want:
                found += 1
                print(f"{crate}: {name}: {want}: {comment}")
    print(f"{found} comments that leave something out")
    return 1 if found else 0


if __name__ == "__main__":
    sys.exit(main())
