#!/usr/bin/env python3
"""edits.py [--keep] [CRATE..]: tries the must-fail edits that the gate leaves alone, those of must-fail/NAME.md, of these crates or of all.

They are tried in a copy of the tree in which each NAME.md is a NAME.edit, by one `rt must-fail`, which begins with what `rt check` kept in any
checkout on this machine; the gate's own edits of these crates are tried with them. The copy lies beside the checkout and is removed again, but
with --keep. A line a crate, once all are tried; the last line is `N refused, M otherwise`, and the status is 1 where anything is otherwise: an edit
that the prover passes, one that can't be applied, or one that wasn't tried.
"""

import re
import shutil
import subprocess
import sys
import tempfile
from pathlib import Path

TOP = Path(__file__).resolve().parent.parent
# What `rt must-fail` says of an edit that the prover refused.
REFUSED = ": refused, as it must be"


def crates_of(names):
    """The crates that have an edit, in the order of crates.txt, or those of these names."""
    listed = re.findall(r"^([a-z0-9_]+)", re.sub(r"#.*", "", (TOP / "crates.txt").read_text()), re.M)
    found = [name for name in listed if edits_of(TOP / "crates" / name)]
    lacking = [name for name in names if name not in found]
    if lacking:
        sys.exit(f"edits.py: no edits in {' '.join(lacking)}")
    return [name for name in found if not names or name in names]


def edits_of(crate):
    folder = crate / "must-fail"
    return sorted([*folder.glob("*.edit"), *folder.glob("*.md")])


def copy_tree(to):
    """Copies what `rt` reads, with what checks kept, and makes an edit of each text."""
    for name in ("crates.txt", "HANDLES"):
        shutil.copy2(TOP / name, to / name)
    shutil.copytree(TOP / "crates", to / "crates", ignore=shutil.ignore_patterns("out"), symlinks=True)
    for text in (to / "crates").glob("*/must-fail/*.md"):
        text.rename(text.with_suffix(".edit"))


def tell(name, edits, lines):
    """Says how many edits of a crate were refused, and which weren't; returns how many that are."""
    told = {edit.name: [line for line in lines if f"{name}/{edit.name}:" in line] for edit in edits}
    otherwise = [edit for edit, said in told.items() if not any(REFUSED in line for line in said)]
    print(f"{name}: {len(edits) - len(otherwise)} of {len(edits)} refused", flush=True)
    for edit in otherwise:
        print(f"  {edit}: {(told[edit] or ['not tried'])[-1].strip()}", flush=True)
    return len(otherwise)


def main():
    names = [word for word in sys.argv[1:] if word != "--keep"]
    if any(word.startswith("-") for word in names):
        sys.exit(__doc__)
    crates = crates_of(names)
    copy = Path(tempfile.mkdtemp(prefix="edits-", dir=TOP.parent))
    try:
        copy_tree(copy)
        edits = {name: edits_of(copy / "crates" / name) for name in crates}
        print(f"trying {sum(map(len, edits.values()))} edits of {len(crates)} crates, half a minute of a processor each", flush=True)
        ran = subprocess.run(["rt", "must-fail", *crates], cwd=copy, stdout=subprocess.PIPE, stderr=subprocess.STDOUT, text=True, errors="replace")
        lines = ran.stdout.splitlines()
        otherwise = sum(tell(name, edits[name], lines) for name in crates)
    finally:
        if "--keep" not in sys.argv:
            shutil.rmtree(copy, ignore_errors=True)
    if otherwise:
        print("\n".join(lines[-10:]))
    print(f"{sum(map(len, edits.values())) - otherwise} refused, {otherwise} otherwise")
    sys.exit(1 if otherwise else 0)


if __name__ == "__main__":
    main()
