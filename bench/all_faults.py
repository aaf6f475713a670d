#!/usr/bin/env python3
"""Times `verify` on files in which every page, or every leaf, has a fault, beside the sound file of which each is made.

usage: all_faults.py [PROGRAM [BYTES]]

PROGRAM is the built program bdbtool; without it, crates/bdbtool/out/bdbtool. For each of two page sizes a btree of about BYTES bytes (100,000,000, where none
are given) is made in a temporary folder, always with the same contents, and of it three files: one in which each page tells another number (PageNumber,
stage 2), one in which each leaf names itself as its previous page (LeafLink, stage 6), and one in which each leaf has two keys in the wrong order (KeyOrder,
stage 8). First each is held against the number of lines that it must have, and the status. Then `verify` runs on the sound file and on the three by turns,
three times each, and its lines are thrown away. Prints a Markdown table: the least user time of each and how much more that is than of the sound file, the
least peak memory by the size of the file, and how many bytes a fault takes above the peak of the sound file. Where the program is missing, nothing is timed.
"""
import multiprocessing
import os
import pathlib
import struct
import subprocess
import sys
import tempfile
from typing import NamedTuple

from times import RUNS, TOP, Spent, print_head, print_row

BYTES = 100_000_000
SIZES = (512, 4096)
HEADER, INTERNAL, LEAF, METADATA = 26, 3, 5, 9
KEY, DATUM = 8, 60
SOUND, FAULTY = 0, 1
COLUMNS = ("File", "Pages", "Faults", "User s", "By the sound file", "Peak by file", "Bytes a fault above the sound file")


class Tree(NamedTuple):
    """A btree: its page size, its pages, and how many of them are leaves. These are the pages from 2 on; page 1 is the root."""

    size: int
    pages: list
    leaves: int


class File(NamedTuple):
    """A file to verify: what it is called, its pages, how many of them have a fault, and what stands in the line of each."""

    name: str
    path: pathlib.Path
    pages: int
    faults: int
    told: str


# Pages.


def page_of(number, kind, level, items, size, links=(0, 0)):
    """A page of these items, the first of which stands last on it."""
    page = bytearray(size)
    at = size
    for index, item in enumerate(items):
        at -= len(item)
        page[at : at + len(item)] = item
        struct.pack_into("<H", page, HEADER + 2 * index, at)
    struct.pack_into("<IIIIIHHBB", page, 0, 0, 1, number, *links, len(items), at, level, kind)
    return page


def leaf_item(value):
    return struct.pack("<HB", len(value), 1) + value


def internal_item(key, child):
    return struct.pack("<HBBII", len(key), 1, 0, child, 0) + key


def key_of(number):
    return b"%0*x" % (KEY, number)


def metadata(size, last):
    page = bytearray(size)
    struct.pack_into("<IIIIIIBBBBIIII", page, 0, 0, 1, 0, 0x53162, 9, size, 0, METADATA, 0, 0, 0, last, 0, 0)
    page[52:72] = bytes(range(20))
    struct.pack_into("<IIIII", page, 72, 0, 2, 0, 0x20, 1)
    return page


def tree_of(size, wanted):
    """A tree of about so many bytes."""
    a_leaf = (size - HEADER) // (2 * (2 + 3) + KEY + DATUM)
    an_inner = (size - HEADER) // (2 + 12 + KEY)
    leaves = max(an_inner + 1, wanted // size * an_inner // (an_inner + 1))
    pages = [None, None]
    for number in range(2, leaves + 2):
        first = (number - 2) * a_leaf
        items = [item for i in range(first, first + a_leaf) for item in (leaf_item(key_of(i)), leaf_item(b"%0*d" % (DATUM, i)))]
        pages.append(page_of(number, LEAF, 1, items, size, (number - 1 if number > 2 else 0, number + 1 if number <= leaves else 0)))
    below, level = [(key_of((number - 2) * a_leaf), number) for number in range(2, leaves + 2)], 2
    while len(below) > an_inner:
        above = []
        for at in range(0, len(below), an_inner):
            children = below[at : at + an_inner]
            above.append((children[0][0], len(pages)))
            pages.append(page_of(len(pages), INTERNAL, level, [internal_item(*child) for child in children], size))
        below, level = above, level + 1
    pages[1] = page_of(1, INTERNAL, level, [internal_item(*child) for child in below], size)
    pages[0] = metadata(size, len(pages) - 1)
    return Tree(size, pages, leaves)


# Damage: each changes the pages of a sound tree, which are copies, and says how many faults that makes.


def wrong_numbers(tree):
    for number, page in enumerate(tree.pages):
        struct.pack_into("<I", page, 8, number ^ 0x40000000)
    return len(tree.pages)


def wrong_links(tree):
    for number in range(2, tree.leaves + 2):
        struct.pack_into("<I", tree.pages[number], 12, number)
    return tree.leaves


def wrong_order(tree):
    for page in tree.pages[2 : tree.leaves + 2]:
        first, second = struct.unpack_from("<HxxH", page, HEADER + 4)
        struct.pack_into("<H", page, HEADER + 4, second)
        struct.pack_into("<H", page, HEADER + 8, first)
    return tree.leaves


DAMAGE = (
    ("PageNumber on each page", wrong_numbers, "fault: stage 2 page {} code 1 PageNumber"),
    ("LeafLink on each leaf", wrong_links, "fault: stage 6 page {} code 3 LeafLink"),
    ("KeyOrder on each leaf", wrong_order, "fault: stage 8 page {} code 3 KeyOrder"),
)


def files_of(size, wanted, folder):
    """The sound file of a page size, and the three that are made of it."""
    sound = tree_of(size, wanted)
    made = [File(f"{size}, sound", folder / f"{size}.db", len(sound.pages), 0, "")]
    made[0].path.write_bytes(b"".join(sound.pages))
    for at, (name, damage, told) in enumerate(DAMAGE):
        tree = sound._replace(pages=[bytearray(page) for page in sound.pages])
        faults = damage(tree)
        made.append(File(f"{size}, {name}", folder / f"{size}-{at}.db", len(tree.pages), faults, told))
        made[-1].path.write_bytes(b"".join(tree.pages))
    return made


# Runs.


def lines_wrong(program, file):
    """Why `verify` doesn't tell what it must of a file; none where it does."""
    with file.path.open("rb") as image:
        ran = subprocess.run([program, "verify"], stdin=image, capture_output=True, check=False)
    first = 0 if file.faults == file.pages else 2
    err = "".join(file.told.format(number) + "\n" for number in range(first, first + file.faults))
    out = "" if file.faults else f"sound, {file.pages} pages\n"
    if (ran.returncode, ran.stdout.decode(), ran.stderr.decode()) == (FAULTY if file.faults else SOUND, out, err):
        return None
    return f"{file.name}: status {ran.returncode}, {ran.stdout!r}, {ran.stderr.count(10)} lines, the first {ran.stderr.splitlines()[:1]}"


def tried(program, size, wanted, folder):
    """The files of a page size, and why one isn't told as it must be. A process of its own makes them: memory of this one would count as a run's."""
    made = files_of(size, wanted, folder)
    return made, [wrong for file in made if (wrong := lines_wrong(program, file))]


def spent(program, file):
    """What a run takes whose lines are thrown away."""
    with file.path.open("rb") as image:
        run = subprocess.Popen([program, "verify"], stdin=image, stdout=subprocess.DEVNULL, stderr=subprocess.DEVNULL)
        _, status, usage = os.wait4(run.pid, 0)
        run.returncode = os.waitstatus_to_exitcode(status)
    if run.returncode != (FAULTY if file.faults else SOUND):
        sys.exit(f"{file.name}: status {run.returncode}")
    return Spent(usage.ru_utime, 1024 * usage.ru_maxrss)


def print_file(file, least, sound):
    """A row of the table."""
    size = file.path.stat().st_size
    cells = [f"{file.pages:,}", f"{file.faults:,}", f"{least.user:.3f}", f"× {least.user / max(sound.user, 0.001):.2f}", f"{least.peak / size:.3f}"]
    print_row([file.name, *cells, f"{(least.peak - sound.peak) / file.faults:.1f}" if file.faults else "–"])


def time_size(program, size, wanted, folder):
    """The rows of a page size."""
    with multiprocessing.Pool(1) as pool:
        files, wrong = pool.apply(tried, (program, size, wanted, folder))
    if wrong:
        sys.exit("\n".join(wrong))
    rounds = [[spent(program, file) for file in files] for _ in range(RUNS)]
    all_least = [Spent(min(run.user for run in runs), min(run.peak for run in runs)) for runs in zip(*rounds)]
    for file, least in zip(files, all_least):
        print_file(file, least, all_least[0])
        file.path.unlink()


def main(program, wanted):
    if not pathlib.Path(program).is_file():
        sys.exit(f"skipped: {program} isn't there; ./bdbtool builds it")
    print_head(COLUMNS)
    with tempfile.TemporaryDirectory() as name:
        for size in SIZES:
            time_size(program, size, wanted, pathlib.Path(name))


if __name__ == "__main__":
    if len(sys.argv) > 3:
        sys.exit(__doc__)
    main(sys.argv[1] if len(sys.argv) > 1 else TOP / "crates/bdbtool/out/bdbtool", int(sys.argv[2]) if len(sys.argv) > 2 else BYTES)
