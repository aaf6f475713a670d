#!/usr/bin/env python3
"""Runs every command of the built program on damaged copies of the real files, and on damaged dump texts of real/dumps.

usage: check_hostile.py [--copies N] [--seed S] [PROGRAM]

PROGRAM is the built program bdbtool; without it, crates/bdbtool/out/bdbtool. Of each file and each text N copies (100, where none is given) are made by
a generator that a seed fixes, each with one to four changes: bytes, numbers of two or four bytes in either order, page numbers of the file itself, pages
that are written over, exchanged, moved, cut off or added. Then

- each run ends within a second for each megabyte of its input and output, and one at least, with a status that its command may have, and just the
  output and the error lines that go with it;
- each line of `verify` tells a fault, or a case that is left out, by its name in docs/FAULTS.md; the faults are of one stage and ascend by page and then by
  code, each once; and the status is that of the first line;
- `list`, `get`, `range`, `dump`, `convert` and `stat` refuse what `verify` refuses, with its status and the first of its lines, and nothing else;
- the nine classes of `stat` add up to its pages, which are those that `verify` tells;
- what `verify` calls sound is dumped in either spelling, and, unless it has no database or a queue of empty records, loads to a file that is sound, and
  whose dump is the same text; a damaged text that loads does so too;
- `salvage` without a guess answers with status 0 or 10, with a guess with status 0; its text loads to a sound file, unless that would be too large;
- `survey` answers as `salvage`, with lines that have their forms and order, and its figures of what is given are those of `salvage --apart` and `--rest`;
- `repair` answers as `salvage`, unless the file would be too large, with the very file that the text loads to; and of each shape with a sound file.

Prints a line for each run that is otherwise, and then how many copies and runs there were, how often each status came, and the slowest run by its
megabytes. The exit status is 1 where a run is otherwise.
"""
import argparse
import collections
import pathlib
import random
import re
import subprocess
import sys
import time
from typing import NamedTuple

TOP = pathlib.Path(__file__).resolve().parent.parent
MEGABYTE = 1_000_000
MOST = 1 << 26
LONGEST_SHOWN = 400
FAULT = re.compile(r"fault: stage (?P<stage>[1-8]) page (?P<page>0|[1-9]\d*) code (?P<code>[1-9]\d*) (?P<name>[A-Za-z]+)\n")
SURVEY = re.compile(
    rb"pages \d+\ncut \d+\nzero \d+\n(unsupported [A-Za-z]+\n)?(refused page \d+ code \d+ [A-Za-z]+\n)*(number \d+ \d+\n)*"
    rb"(?P<databases>(database (btree|hash|recno|queue) \d+ \d+( [ -~]*)?\n)*)rest (?P<pairs>\d+) (?P<records>\d+)\n"
)
UNSUPPORTED = re.compile(r"unsupported: (?P<name>[A-Za-z]+), page (?P<page>0|[1-9]\d*)\n")
LINES = {
    6: rb"image longer than \d+ bytes\n",
    8: rb"line \d+: (reason \d+|load error \d+) [A-Za-z]+\n",
    9: rb"not found\n",
    10: rb"no metadata page\n",
    12: rb"not a btree\n",
    13: rb"items overlap, page \d+\n",
    14: rb"not one btree, hash or recno\n",
}
ALLOWED = {
    "verify": {0, 1, 3},
    "list": {0, 1, 3},
    "get": {0, 1, 3, 9},
    "range": {0, 1, 3, 9, 12},
    "convert": {0, 1, 3, 13},
    "stat": {0, 1, 3},
    "dump": {0, 1, 3, 9},
    "load": {0, 6, 8},
    "survey": {0, 10},
    "salvage": {0, 3, 10},
    "repair": {0, 3, 6, 10, 14},
}


class Row(NamedTuple):
    """A row of docs/FAULTS.md."""

    stage: int
    code: int
    name: str
    left_out: bool


class Told(NamedTuple):
    """What a line tells: a page, and the rows that it may mean."""

    status: int
    page: int
    rows: frozenset


def fault_rows():
    """The rows of the tables of docs/FAULTS.md."""
    stage = 0
    for line in (TOP / "docs/FAULTS.md").read_text(encoding="utf-8").splitlines():
        if line.startswith("## "):
            heading = re.match(r"## Stage (\d)", line)
            stage = int(heading[1]) if heading else 0
        elif stage and (row := re.match(r"\| (\d+) \| (\w+) \|(.*)", line)):
            yield Row(stage, int(row[1]), row[2], "not supported: " in row[3])


ROWS = frozenset(fault_rows())


def told(line):
    """What a line tells; none where it has another form, or no row has its name."""
    if it := FAULT.fullmatch(line):
        row = Row(int(it["stage"]), int(it["code"]), it["name"], False)
        return Told(1, int(it["page"]), frozenset([row])) if row in ROWS else None
    if it := UNSUPPORTED.fullmatch(line):
        rows = frozenset(row for row in ROWS if row.left_out and row.name == it["name"])
        return Told(3, int(it["page"]), rows) if rows else None
    return None


def refusal_wrong(status, lines):
    """What is wrong with the lines on a file that isn't sound; none where nothing is."""
    all_told = [told(line) for line in lines]
    if not lines or None in all_told:
        return "a line has another form"
    if all_told[0].status != status:
        return "the status isn't that of the first line"
    stages = {row.stage for row in all_told[0].rows}
    for it in all_told:
        stages &= {row.stage for row in it.rows}
    if len(stages) == 0:
        return "the lines are of several stages"
    if not any(ascends(all_told, stage) for stage in stages):
        return "the lines don't ascend"
    return None


def ascends(all_told, stage):
    """Whether lines of a stage ascend by page and then by code, each once."""
    places = [(it.page, row.code) for it in all_told for row in it.rows if row.stage == stage]
    return all(before < after for before, after in zip(places, places[1:]))


class Runs:
    """What was run, and what was otherwise."""

    def __init__(self, program):
        self.program = program
        self.statuses = collections.Counter()
        self.wrong = self.faults = 0
        self.slowest = (0.0, "")

    def tell(self, name, why):
        self.wrong += 1
        print(f"{name}: {why}", flush=True)

    def run(self, name, words, given):
        """Runs the program, and holds its time, status and error line against what they may be."""
        before = time.monotonic()
        most = max(1.0, len(given) / MEGABYTE)
        try:
            ran = subprocess.run([self.program, *words], input=given, capture_output=True, timeout=60 + 10 * most, check=False)
        except subprocess.TimeoutExpired:
            self.tell(name, f"{words} doesn't end")
            return None
        seconds = time.monotonic() - before
        megabytes = max(1.0, (len(given) + len(ran.stdout)) / MEGABYTE)
        self.slowest = max(self.slowest, (seconds / megabytes, f"{name} {' '.join(words)}"))
        if seconds > megabytes:
            self.tell(name, f"{words} took {seconds:.1f} s for {megabytes:.1f} MB")
        status, command = ran.returncode, words[0]
        self.statuses[command, status] += 1
        if wrong := ending_wrong(command, status, ran):
            self.tell(name, f"{words} ended with {status}, {wrong}: it wrote {len(ran.stdout)} bytes and told {ran.stderr[:LONGEST_SHOWN]!r}")
        elif status in (1, 3):
            self.faults += ran.stderr.count(b"\n")
        return ran


def ending_wrong(command, status, ran):
    """What is wrong with how a run ended; none where nothing is."""
    if status not in ALLOWED[command]:
        return "a status that isn't its command's"
    if status == 0:
        return "with error lines" if ran.stderr else None
    if ran.stdout:
        return "with output"
    if status in LINES:
        return None if re.fullmatch(LINES[status], ran.stderr) else "the line has another form"
    lines = ran.stderr.decode("latin-1").splitlines(keepends=True)
    if command != "verify" and len(lines) != 1:
        return "with other than one line"
    return refusal_wrong(status, lines)


def changed_number(draw, image, places):
    """Another number at a place of a page: small, a page of the file, one beside the old one, or the greatest."""
    order = draw.choice(("little", "big"))
    width = draw.choice((2, 4))
    if not places:
        return
    at = draw.choice(places)
    if at + width > len(image):
        return
    old = int.from_bytes(image[at : at + width], order)
    pages = max(1, len(image) // 512)
    new = draw.choice((0, 1, draw.randrange(pages), old + 1, old - 1, old ^ (1 << draw.randrange(8 * width)), 2 ** (8 * width) - 1))
    image[at : at + width] = (new % 2 ** (8 * width)).to_bytes(width, order)


def change(draw, image, size):
    """Changes an image once."""
    count = max(1, len(image) // size)
    page = draw.randrange(count) * size
    other = draw.randrange(count) * size
    kind = draw.randrange(10)
    if kind == 0:
        image[draw.randrange(len(image))] = draw.randrange(256)
    elif kind <= 2:
        changed_number(draw, image, range(page, page + 26))
    elif kind == 3:
        changed_number(draw, image, range(page, page + size - 4))
    elif kind == 4:
        changed_number(draw, image, range(0, min(512, len(image) - 4)))
    elif kind == 5:
        image[page : page + size] = image[other : other + size]
    elif kind == 6:
        image[page : page + size], image[other : other + size] = image[other : other + size], image[page : page + size]
    elif kind == 7:
        image[page : page + size] = draw.choice((bytes(size), draw.randbytes(size)))
    elif kind == 8:
        del image[draw.choice((page, draw.randrange(len(image)))) :]
    else:
        image += draw.choice((bytes(size), draw.randbytes(size), image[page : page + size], draw.randbytes(draw.randrange(1, 600))))


def damaged(draw, image, size):
    """A copy with one to four changes."""
    copy = bytearray(image)
    for _ in range(draw.randrange(1, 5)):
        if copy:
            change(draw, copy, size)
    return bytes(copy)


def page_size(image):
    """The page size that page 0 tells in either order, or 512."""
    for order in ("little", "big"):
        size = int.from_bytes(image[20:24], order)
        if size in (512, 1024, 2048, 4096, 8192, 16384, 32768):
            return size
    return 512


def loads_again(runs, name, text):
    """Holds that a text loads to a sound file, and gives the dump of that; None where it isn't loaded."""
    built = runs.run(name, ["load"], text)
    if built is None or built.returncode:
        return None
    verdict = runs.run(name, ["verify"], built.stdout)
    if verdict is None or verdict.returncode:
        runs.tell(name, "what load built isn't sound")
        return None
    dump = runs.run(name, ["dump"], built.stdout)
    return dump.stdout if dump else None


def check_dumps(runs, name, image):
    """Holds that a sound file is dumped, and loads to the same dump."""
    for spelling in ([], ["--print"]):
        dump = runs.run(name, ["dump", *spelling], image)
        if dump is None or dump.returncode:
            runs.tell(name, "a sound file isn't dumped")
            continue
        plain = runs.run(name, ["dump"], image).stdout
        unloaded = not dump.stdout or re.search(rb"^type=queue\n", dump.stdout, re.M) and not re.search(rb"^re_len=[1-9]", dump.stdout, re.M)
        if not unloaded and loads_again(runs, name, dump.stdout) != plain:
            runs.tell(name, "its dump, loaded and dumped, is another text")


def check_salvage(runs, name, image):
    """Holds salvage with and without a guess, and that its text loads."""
    for guess in ([], ["--order", "little", "--page-size", "512"], ["--order", "big", "--page-size", "4096"]):
        ran = runs.run(name, ["salvage", *guess], image)
        if ran is None:
            continue
        if guess and ran.returncode:
            runs.tell(name, f"salvage {guess} ended with {ran.returncode}")
        if ran.returncode == 0 and not guess and len(ran.stdout) < MOST:
            loads_again(runs, name, ran.stdout)
            check_repair(runs, name, image, ran.stdout)


def lines_of(text):
    """How many data lines each section of a dump text has."""
    return [section.count(b"\n ") for section in text.split(b"VERSION=3\n")[1:]]


def check_survey(runs, name, image):
    """Holds that the lines of survey have their forms, and that it counts what salvage --apart and --rest give."""
    ran, apart, rest = (runs.run(name, words, image) for words in (["survey"], ["salvage", "--apart"], ["salvage", "--rest"]))
    if ran is None or ran.returncode:
        return
    told = SURVEY.fullmatch(ran.stdout)
    if not told:
        runs.tell(name, f"survey tells {ran.stdout!r}")
        return
    given = [int(line.split()[2]) for line in told["databases"].splitlines()]
    if apart and apart.returncode == 0 and [2 * count for count in given] != lines_of(apart.stdout):
        runs.tell(name, "survey counts other than salvage --apart gives")
    if rest and rest.returncode == 0 and [2 * int(told["pairs"]), 2 * int(told["records"])] != (lines_of(rest.stdout) + [0])[:2]:
        runs.tell(name, "survey counts other than salvage --rest gives")


def check_repair(runs, name, image, text):
    """Holds that what is repaired is what the salvaged text loads to, and that each shape of it is sound."""
    loaded, repaired = runs.run(name, ["load"], text), runs.run(name, ["repair"], image)
    if loaded and repaired and (loaded.returncode, loaded.stdout, loaded.stderr) != (repaired.returncode, repaired.stdout, repaired.stderr):
        runs.tell(name, "what is repaired isn't what the salvaged text loads to")
    for words in (["btree"], ["btree", "--duplicates"], ["btree", "--dupsort"], ["hash"], ["hash", "--duplicates"], ["recno"]):
        shaped = runs.run(name, ["repair", "--as", *words], image)
        if shaped and shaped.returncode == 0 and runs.run(name, ["verify"], shaped.stdout).returncode:
            runs.tell(name, f"repair --as {' '.join(words)} isn't sound")


def check_figures(runs, name, sound, text):
    """The classes of pages add up to all pages."""
    figures = {name: int(figure) for name, figure in (line.split() for line in text.decode().splitlines())}
    pages = int(sound.split()[1])
    classes = sum(figure for name, figure in figures.items() if name not in ("pages", "levels", "unused"))
    if not figures["pages"] == classes == pages:
        runs.tell(name, f"{pages} pages, and stat tells {text!r}")


def check_image(runs, name, image):
    """Runs all commands that read a file."""
    verdict = runs.run(name, ["verify"], image)
    if verdict is None:
        return
    first = verdict.stderr.splitlines(keepends=True)[:1]
    for words in (["list"], ["get", "a"], ["get", "1"], ["range", "a", "b"], ["range", "", "~"], ["dump"], ["convert", "big"], ["convert", "little"], ["stat"]):
        ran = runs.run(name, words, image)
        if ran is None:
            continue
        refused = ran.returncode in (1, 3)
        if refused != (verdict.returncode != 0) or (refused and (ran.returncode, [ran.stderr]) != (verdict.returncode, first)):
            runs.tell(name, f"verify told {first!r} first, and {words} {ran.returncode}: {ran.stderr[:LONGEST_SHOWN]!r}")
        if words == ["stat"] and ran.returncode == 0:
            check_figures(runs, name, verdict.stdout, ran.stdout)
    if verdict.returncode == 0:
        check_dumps(runs, name, image)
    check_salvage(runs, name, image)
    check_survey(runs, name, image)


def main():
    parser = argparse.ArgumentParser(description="Runs every command on damaged copies of real files and texts.")
    parser.add_argument("--copies", type=int, default=100)
    parser.add_argument("--seed", type=int, default=1)
    parser.add_argument("program", nargs="?", default=str(TOP / "crates/bdbtool/out/bdbtool"))
    given = parser.parse_args()
    runs, copies = Runs(given.program), 0
    for file in sorted(TOP / "crates/check_salvage/data" / text.name.removesuffix(".dump") for text in (TOP / "real/dumps").iterdir()):
        image = file.read_bytes()
        draw = random.Random(f"{given.seed} {file.name}")
        for number in range(given.copies):
            check_image(runs, f"{file.name}, copy {number}", damaged(draw, image, page_size(image)))
            copies += 1
    for file in sorted((TOP / "real/dumps").iterdir()):
        text = file.read_bytes()
        draw = random.Random(f"{given.seed} {file.name}")
        for number in range(given.copies):
            name = f"{file.name}, copy {number}"
            dump = loads_again(runs, name, damaged(draw, text, 64))
            if dump and loads_again(runs, name, dump) != dump:
                runs.tell(name, "the dump of what it loads to, loaded and dumped, is another text")
            copies += 1
    for (command, status), count in sorted(runs.statuses.items()):
        print(f"{command} {status}: {count}")
    print(f"{runs.faults} lines on files that aren't sound")
    print(f"slowest: {runs.slowest[0]:.3f} seconds a megabyte, {runs.slowest[1]}")
    print(f"{copies} copies, {sum(runs.statuses.values())} runs, {runs.wrong} otherwise")
    return 1 if runs.wrong else 0


if __name__ == "__main__":
    sys.exit(main())
