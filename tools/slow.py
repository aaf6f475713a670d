#!/usr/bin/env python3
"""slow.py [COUNT]: of each crate that is being proved on this machine, what took longest so far: the COUNT (8) slowest modules of its proofs.

rattle keeps each module that it has checked in a file of a temporary folder of its own, one after another, so a module took as long as its
file came after the one before. A module `Lts` is about lifetimes and drops: where one of a function takes long, the function holds values
that are dropped by code over many ways out, most of all a list that it goes over in a loop. Lent to a function of its own, as `&mut`, the
list is dropped once, and such a module takes seconds in place of minutes.
"""

import sys
import time
from pathlib import Path


def modules(folder):
    """Each module of a folder with the seconds that it took, and when the last one was done."""
    done = sorted((file.stat().st_mtime, file.stem) for file in folder.glob("*.oantt"))
    return [(after - before, name) for (before, _), (after, name) in zip(done, done[1:])], done[-1][0] if done else None


def main():
    count = int(sys.argv[1]) if len(sys.argv) > 1 else 8
    for folder in sorted(Path("/tmp").glob("rattle-logic-built-locked-*")):
        # the folder of a check that was stopped is left behind
        if not Path("/proc", folder.name.split("-")[4]).exists():
            continue
        taken, last = modules(folder)
        if not taken:
            continue
        print(f"{len(taken)} modules in {sum(seconds for seconds, _ in taken):.0f} s, the last one {time.time() - last:.0f} s ago")
        for seconds, name in sorted(taken, reverse=True)[:count]:
            print(f"{seconds:7.1f} {name}")


if __name__ == "__main__":
    main()
