#!/usr/bin/env python3
"""Damages files of the programs that own them, rescues each with `repair`, and asks its program for every record.

usage: check_rescues.py [--write] [PROGRAM [WORD..]]

PROGRAM is the built program bdbtool; without it, crates/bdbtool/out/bdbtool. With WORDs only those programs are asked in whose names one of them stands.
A program of tools/clients makes a file of 600 records (of one that takes long, of 120). A copy of it is damaged: a page of zeros, a page that is written over another one, a
sector of other bytes, and the last third cut off, never page 0. `repair --apart` makes a new file of it. It has to be sound for `verify` and for
`db5.3_verify`; then the program is asked for each record, and for its list.

Prints a table: how many records the program has as they were, how many it hasn't, and how many it has otherwise. With --write the table stands in
docs/ORIGINAL.md, below "Rescues". The exit status is 1 where a record is otherwise than it was, or a new file isn't sound. A program that isn't installed
has a row that says so.
"""
import pathlib
import random
import re
import shutil
import subprocess
import sys
import tempfile

from clients import keepers, programs

TOP = pathlib.Path(__file__).resolve().parent.parent
PAGE = TOP / "docs/ORIGINAL.md"
HEADING = "## Rescues"
RECORDS = keepers.Keeper.count
SECONDS_A_RUN = 120
SECTOR = 512
NO_METADATA = 10
SUCCEEDED = re.compile(rb"BDB5105 Verification of .* succeeded\.\n")
COLUMNS = ("Program", "File", "Damage", "As they were", "Lost", "Otherwise")
INTRODUCTION = """Each program made a file of 600 records. A copy of it was damaged, `bdbtool repair --apart` made a new file of that, and
the program was asked for every record. The new file was sound for `verify` and for `db5.3_verify`. A record that is
*lost* stood on a page that the damage took, or in a chain or a set that has such a page. If the metadata page of the
only database was lost, nothing is made (`no metadata page`), and `repair --as btree` has the pairs. Subversion finds no
file if the list of their folder is lost, which stands in `strings` as their contents do. The entries of 389 were read
by `dbscan` from the new file, and imported."""


def run(*words, given=b""):
    return subprocess.run(words, input=given, capture_output=True, timeout=SECONDS_A_RUN, check=False)


def page_size(image):
    """The page size that page 0 tells, in the order in which it is a small number."""
    return min((int.from_bytes(image[20:24], order) for order in ("little", "big")))


def zeros(image, size, chance):
    """A page of zeros."""
    at = chance.randrange(1, len(image) // size) * size
    return image[:at] + bytes(size) + image[at + size :]


def page_over_page(image, size, chance):
    """A page that is written over another one."""
    one, other = (number * size for number in chance.sample(range(1, len(image) // size), 2))
    return image[:one] + image[other : other + size] + image[one + size :]


def sector(image, size, chance):
    """A sector of other bytes."""
    at = chance.randrange(size // SECTOR, len(image) // SECTOR) * SECTOR
    return image[:at] + chance.randbytes(SECTOR) + image[at + SECTOR :]


def cut(image, size, chance):
    """The last third cut off."""
    return image[: max(size, len(image) * 2 // 3)]


DAMAGES = (("a page of zeros", zeros), ("a page over another", page_over_page), ("a sector of other bytes", sector), ("the last third cut off", cut))


def kind_of(path):
    """The kind of the one database of a sound file, as db5.3_dump tells it."""
    header = run("db5.3_dump", str(path)).stdout.decode(errors="replace").split("HEADER=END")[0].split()
    return next(word.removeprefix("type=") for word in header if word.startswith("type="))


def unsound(program, path):
    """What the verifiers tell of a new file; nothing where it is sound."""
    ours, theirs = run(program, "verify", given=path.read_bytes()), run("db5.3_verify", str(path))
    return (ours.stderr + SUCCEEDED.sub(b"", theirs.stdout) + theirs.stderr).decode(errors="replace")


def asked(user, path, held):
    """How many records the program has as they were, how many it hasn't, and how many it has otherwise, in its answers and its list."""
    found = user.ask(path, held)
    same = sum(found.get(key) == value for key, value in held.items())
    lost = sum(found.get(key) is None for key in held)
    listed = user.listing(path) if user.listing else []
    false = sum(key not in held or value not in ([], [held[key]]) for key, *value in listed)
    return same, lost, len(held) - same - lost + false


def rescued(program, user, folder):
    """A row for each damage, and whether all is as it should be."""
    held = dict(user.entries(0, getattr(user, "count", RECORDS)))
    path = user.write(folder, dict(held))
    image = path.read_bytes()
    file = f"{kind_of(path)}, {len(image):,} bytes"
    for name, damage in DAMAGES:
        chance = random.Random(f"{user.name} {name}")
        new = run(program, "repair", "--apart", given=damage(image, page_size(image), chance))
        if new.returncode:
            yield (user.name, file, name, 0, len(held), new.stderr.decode().strip()), new.returncode == NO_METADATA
            continue
        path.write_bytes(new.stdout)
        told = unsound(program, path)
        if isinstance(user, keepers.Keeper):
            user.opened(path)
        same, lost, otherwise = asked(user, path, held)
        yield (user.name, file, name, same, lost, told or otherwise), not told and not otherwise


def rows(program, words):
    """The rows of all programs, and whether all is as it should be."""
    for user in (*programs.PROGRAMS, *keepers.KEEPERS):
        if words and not any(word in user.name for word in words):
            continue
        package = user.lacking()
        if package:
            yield (user.name, f"not installed: {package}", "", "", "", ""), True
            continue
        with tempfile.TemporaryDirectory() as folder:
            yield from rescued(program, user, pathlib.Path(folder))


def table(lines):
    """A table in Markdown."""
    marks = ["---"] * 3 + ["---:"] * 3
    return "".join("| " + " | ".join(map(str, line)) + " |\n" for line in (COLUMNS, marks, *lines))


def main():
    words = [word for word in sys.argv[1:] if word != "--write"]
    program = words[0] if words else str(TOP / "crates/bdbtool/out/bdbtool")
    if shutil.which("db5.3_dump") is None:
        sys.exit("check_rescues.py: install db5.3-util")
    told = list(rows(program, words[1:]))
    text = table(row for row, _ in told)
    print(text, end="")
    if "--write" in sys.argv:
        before = PAGE.read_text(encoding="utf-8").split(HEADING)[0].rstrip("\n")
        PAGE.write_text(f"{before}\n\n{HEADING}\n\n{INTRODUCTION}\n\n{text}", encoding="utf-8")
    sys.exit(not all(right for _, right in told))


if __name__ == "__main__":
    main()
