#!/usr/bin/env python3
"""crate_paths.py [FILE [MOST]]: counts the paths through crates.txt, from each crate down to each below it.

Kit 13b reads every file below a crate once for each path, before and after its proof. Where a crate names only the crates directly below it,
there are few. Prints the crates with the most paths, and what of their line could come through others; a crate that a `#[tactic(..)]` names
can't. Status 1 where all crates together have more than MOST paths.
"""

import re
import sys
from functools import lru_cache
from pathlib import Path

SHOWN = 8


def listed(file):
    """The names behind each crate's colon that are crates of the same file."""
    rows = re.findall(r"^(\w+):(.*)$", re.sub(r"#.*", "", Path(file).read_text()), re.M)
    names = {name for name, _ in rows}
    return {name: [it for it in rest.split() if it in names] for name, rest in rows}


def main(words):
    below = listed(words[0] if words else "crates.txt")
    most = int(words[1]) if len(words) > 1 else None

    @lru_cache(None)
    def paths(name):
        return 1 + sum(map(paths, below[name]))

    @lru_cache(None)
    def reached(name):
        return frozenset(below[name]).union(*map(reached, below[name]))

    for name in sorted(below, key=paths)[-SHOWN:]:
        twice = [it for it in below[name] if any(it in reached(other) for other in below[name])]
        print(f"{paths(name):8} {name}" + (f", of which these could come through others: {' '.join(twice)}" if twice else ""))
    total = sum(map(paths, below))
    print(f"{total} paths over {len(below)} crates" + (f", at most {most}" if most else ""))
    return 1 if most is not None and total > most else 0


if __name__ == "__main__":
    sys.exit(main(sys.argv[1:]))
