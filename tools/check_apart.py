#!/usr/bin/env python3
"""Damages each real file that is sound, has `repair --apart` make a new one, and compares its databases with those that the file had.

usage: check_apart.py [PROGRAM [WORD..]]

PROGRAM is the built program bdbtool; without it, crates/bdbtool/out/bdbtool. With WORDs only those files are damaged in whose names one of them stands.
The files are those of crates/check_salvage/data, the damages those of check_rescues.py: a page of zeros, a page over another one, a sector of other bytes,
and the last third cut off, each drawn twice, never on page 0. Where `repair --apart` ends with 0, the new file is sound for `verify` and for
`db5.3_verify`, and `db5.3_dump` reads it. A database of a name that the file had has no pair that it hadn't under that name, and one that is called
`page M` none that no database had. A page over another may move pairs, and other bytes on a page of a chain that still has its header are bytes of a value
to any reader, so there pairs are counted alone.

Prints a line for each new file that is otherwise, and then how many values were under the names that they had. The exit status is 1 where a line was printed.
"""
import collections
import pathlib
import random
import sys
import tempfile

from check_rescues import DAMAGES, TOP, page_size, page_over_page, run, unsound
from clients import texts

DRAWS = 2
NO_DATABASE = 10
OVERFLOW = 7


def by_name(text):
    """The pairs of each database of a dump text, by its name."""
    return {base.name: collections.Counter((key, datum.rstrip(b" ")) for key, datum in base.pairs) for base in texts.bases_of(text)}


def dumped(path):
    """What the original's tool dumps of a file, records with their numbers."""
    return run("db5.3_dump", "-k", str(path)).stdout


def added(new, old):
    """How many pairs of the new databases the old ones hadn't: under the same name, or, where the name is new, at all."""
    everything = sum(old.values(), collections.Counter())
    return sum(sum((pairs - old.get(name, everything)).values()) for name, pairs in new.items())


def kept(new, old):
    """How many pairs of the old databases are in the new ones under the same name."""
    return sum(sum((pairs & new[name]).values()) for name, pairs in old.items() if name in new)


def changes_a_chain(image, copy, size):
    """Whether a page of a chain has other bytes, and is one still."""
    pages = range(0, min(len(image), len(copy)) - size + 1, size)
    return any(image[at + 25] == copy[at + 25] == OVERFLOW and image[at : at + size] != copy[at : at + size] for at in pages)


def wrong_of(program, path, image, old, strict):
    """What is wrong with what `repair --apart` makes of an image, and how many pairs were kept."""
    ran = run(program, "repair", "--apart", given=image)
    if ran.returncode:
        return (None if ran.returncode == NO_DATABASE else f"ended with {ran.returncode}: {ran.stderr.decode()}"), 0
    path.write_bytes(ran.stdout)
    told = unsound(program, path)
    if told:
        return told, 0
    new = by_name(dumped(path))
    more = added(new, old)
    return (f"{more} pairs that it hadn't" if strict and more else None), kept(new, old)


def main():
    program = sys.argv[1] if len(sys.argv) > 1 else str(TOP / "crates/bdbtool/out/bdbtool")
    words, wrongs = sys.argv[2:], 0
    counts = {name: [0, 0, 0] for name, _ in DAMAGES}
    with tempfile.TemporaryDirectory() as folder:
        path = pathlib.Path(folder) / "new.db"
        for file in sorted((TOP / "crates/check_salvage/data").iterdir()):
            image = file.read_bytes()
            if words and not any(word in file.name for word in words) or run(program, "verify", given=image).returncode:
                continue
            size = page_size(image)
            path.write_bytes(image)
            if unsound(program, path) or len(image) // size < 4:
                continue
            old = by_name(dumped(path))
            for name, damage in DAMAGES:
                for draw in range(DRAWS):
                    copy = damage(image, size, random.Random(f"{file.name} {name} {draw}"))
                    strict = damage is not page_over_page and not changes_a_chain(image, copy, size)
                    wrong, same = wrong_of(program, path, copy, old, strict)
                    counts[name][0] += 1
                    counts[name][1] += same
                    counts[name][2] += sum(map(sum, map(collections.Counter.values, old.values())))
                    if wrong:
                        wrongs += 1
                        print(f"{file.name}, {name}, {draw}: {wrong}")
    for name, (files, same, all_) in counts.items():
        print(f"{name}: {files} files, {same} of {all_} values under the names that they had")
    sys.exit(wrongs > 0)


main()
