#!/usr/bin/env python3
"""Runs `salvage` beside the original's `db5.3_dump -r` and `db5.3_dump -R` on damaged files whose keys have many data.

usage: sets.py [PROGRAM [DATA]]

PROGRAM is the built program bdbtool; without it, crates/bdbtool/out/bdbtool. DATA is how many data each file has; without it, a million. The files are made
with `db5.3_load` in a temporary folder: btrees and hashes with four data of each key, which stand on the page of the key, and with a hundred, which stand on
pages of their own. Then every hundredth page is overwritten by other bytes, as `times.py salvage` does. A datum tells its key, so each that comes is held
against what the file had. Prints a Markdown table: how each run ended, its seconds of user time (of `salvage` the least of three runs, of the others one)
and the peak memory of `salvage`, how many data came with their keys, and how many without, how many came again, how many lines are none of the file's keys
and data, and how many data on pages that weren't overwritten didn't come. A run is stopped after LONGEST seconds of processor time, or LONGEST_WAIT by the
clock. Where the program or the original's tools are missing, nothing is run.
"""
import os
import pathlib
import re
import resource
import signal
import struct
import subprocess
import sys
import tempfile
import threading
from typing import NamedTuple

from times import CACHE, DAMAGED, MILLION, PAGE_SIZE, RUNS, TOP, Spent, damage, make, missing, print_head, print_row, spent

LONGEST, LONGEST_WAIT = 120, 600
FACTOR, WORD = 2654435761, 2**32
BACK = pow(FACTOR, -1, WORD)
KEY, DATUM = re.compile(rb"[0-9a-f]{8}"), re.compile(rb"[0-9a-f]{16}w{56}")
UNKNOWN = (b"UNKNOWN", b"UNKNOWN_KEY", b"UNKNOWN_DATA")
LEAVES, HASH, INLINE = (5, 6, 12), (2, 13), 1
COLUMNS = ("File", "Tool", "Ended", "User s", "Peak by file", "Pairs", "Data without key", "Came again", "Not the file's", "Missing")


class File(NamedTuple):
    """A file to make: what it is called, its kind, the settings of its text, how many keys it has, and how many data each has."""

    name: str
    kind: str
    settings: str
    keys: int
    each: int


class Came:
    """What of the data of a file came, and how."""

    def __init__(self, file):
        self.file = file
        self.paired, self.alone = bytearray(file.keys * file.each), bytearray(file.keys * file.each)
        self.again = self.strange = 0

    def take(self, datum, before, is_numbered):
        """A datum, behind the line `before`: its key, another, or none."""
        at = place(self.file, datum)
        flags = self.paired if before == datum[:8] else self.alone
        if at is None or (flags is self.alone and not is_numbered and before is not None and KEY.fullmatch(before)):
            self.strange += 1
        elif flags[at]:
            self.again += 1
        else:
            flags[at] = 1

    def read(self, text):
        """The lines of a dump text."""
        before, is_numbered = None, False
        for line in text:
            if not line.startswith(b" "):
                before, is_numbered = None, line.startswith(b"keys=1") or (is_numbered and not line.startswith(b"DATA=END"))
                continue
            value = bytes_of(line)
            if DATUM.fullmatch(value):
                self.take(value, before, is_numbered)
            elif not is_key(self.file, value) and value.rstrip(b"\0") not in UNKNOWN and not (is_numbered and value.isdigit()):
                self.strange += 1
            before = value

    def lacks(self, there):
        """How many of these data didn't come."""
        return sum(1 for was, paired, alone in zip(there, self.paired, self.alone) if was and not paired and not alone)


def bytes_of(line):
    try:
        return bytes.fromhex(line.decode("ascii"))
    except ValueError:
        return b"?"


def number(file, key):
    """Which key of the file it is; none where it is none."""
    found = int(key, 16) * BACK % WORD
    return found if found < file.keys else None


def is_key(file, value):
    return KEY.fullmatch(value) is not None and number(file, value) is not None


def place(file, datum):
    """Which datum of the file it is."""
    key, which = number(file, datum[:8]), int(datum[8:16], 16)
    return None if key is None or which >= file.each else key * file.each + which


def lines(file):
    """Keys of eight digits in scrambled order, each with so many data of 72 letters and digits, which begin with the key."""
    for i in range(file.keys):
        key = f"{i * FACTOR % WORD:08x}"
        for j in range(file.each):
            yield f" {key}\n {key}{j:08x}{'w' * 56}\n"


def stored(page):
    """The bytes of the items on a leaf or a hash page."""
    count, kind = struct.unpack_from("<H", page, 20)[0], page[25]
    offsets = struct.unpack_from(f"<{count}H", page, 26) if kind in LEAVES + HASH else ()
    if kind in LEAVES:
        for at in set(offsets):
            length, item = struct.unpack_from("<HB", page, at)
            if item == INLINE:
                yield page[at + 3 : at + 3 + length]
    else:
        for at, end in zip(offsets, (PAGE_SIZE, *offsets)):
            yield page[at + 1 : end]


def undamaged(file, image):
    """The data that stand on pages which will not be overwritten: a flag for each."""
    there = bytearray(file.keys * file.each)
    with image.open("rb") as pages:
        for at, page in enumerate(iter(lambda: pages.read(PAGE_SIZE), b"")):
            if at % DAMAGED != DAMAGED - 1:
                for datum in (datum for item in stored(page) for datum in DATUM.findall(item)):
                    there[place(file, datum)] = 1
    return there


def limit():
    resource.setrlimit(resource.RLIMIT_CPU, (LONGEST, LONGEST + 1))


def run_once(words, image, came):
    """How a run ended, and what it took."""
    with image.open("rb") as standard_input:
        run = subprocess.Popen(words, stdin=standard_input, stdout=subprocess.PIPE, stderr=subprocess.DEVNULL, preexec_fn=limit)
        timer = threading.Timer(LONGEST_WAIT, run.kill)
        timer.start()
        came.read(run.stdout)
        _, status, usage = os.wait4(run.pid, 0)
        timer.cancel()
        run.returncode = os.waitstatus_to_exitcode(status)
    if run.returncode == -signal.SIGXCPU:
        ended = f"not in {LONGEST} s"
    elif run.returncode == -signal.SIGKILL:
        ended = f"not in {LONGEST_WAIT} s by the clock"
    elif run.returncode < 0:
        ended = f"crash ({signal.Signals(-run.returncode).name})"
    else:
        ended = f"status {run.returncode}"
    return ended, Spent(usage.ru_utime, 1024 * usage.ru_maxrss)


def print_tool(shown, words, file, image, there, again):
    """A row of the table. The program runs a few times again, with its output thrown away. The peak of the original is told by none: it is less than that of
    this process, which a run's begins with."""
    came = Came(file)
    ended, first = run_once(words, image, came)
    runs = [first] + [spent(words, image) for _ in range(again)]
    user, peak = min(run.user for run in runs), min(run.peak for run in runs)
    alone = sum(1 for paired, alone in zip(came.paired, came.alone) if alone and not paired)
    counts = (sum(came.paired), alone, came.again, came.strange, came.lacks(there))
    by_file = f"{peak / image.stat().st_size:.2f}" if again else "–"
    print_row([*shown, ended, f"{user:.3g}", by_file, *(f"{count:,}" for count in counts)])


def main(program, data):
    if lack := missing(program, "db5.3_dump"):
        sys.exit(f"skipped: {lack}")
    files = [
        File("btree, sets on the page", "btree", "duplicates=1\n", data // 4, 4),
        File("btree, sets of their own pages", "btree", "duplicates=1\n", data // 100, 100),
        File("hash, sets on the page", "hash", "duplicates=1\n", data // 4, 4),
        File("hash, sets of their own pages", "hash", "duplicates=1\n", data // 100, 100),
        File("btree, sorted sets of their own pages", "btree", "duplicates=1\ndupsort=1\n", data // 100, 100),
    ]
    print_head(COLUMNS)
    with tempfile.TemporaryDirectory() as place_of_files:
        folder = pathlib.Path(place_of_files)
        (folder / "DB_CONFIG").write_text(CACHE)
        for file in files:
            image = make(file.name, file.kind, lines(file), folder, settings=file.settings)
            there = undamaged(file, image)
            damage(image)
            print_tool([f"{file.name}, {image.stat().st_size:,} bytes", "`bdbtool salvage`"], [program, "salvage"], file, image, there, RUNS - 1)
            print_tool(["", "`db5.3_dump -r`"], ["db5.3_dump", "-r", image], file, image, there, 0)
            print_tool(["", "`db5.3_dump -R`"], ["db5.3_dump", "-R", image], file, image, there, 0)
            image.unlink()


if __name__ == "__main__":
    if len(sys.argv) > 3:
        sys.exit(__doc__)
    main(sys.argv[1] if len(sys.argv) > 1 else TOP / "crates/bdbtool/out/bdbtool", int(sys.argv[2]) if len(sys.argv) > 2 else MILLION)
