#!/usr/bin/env python3
"""Times the reading of a dump text beside the original library's `db5.3_load`, on a text of a million pairs.

usage: reading.py [PROGRAM [PAIRS]]

PROGRAM is the built program check_dumps; without it, crates/check_dumps/out/check_dumps. The text is made in a temporary folder: a
btree's, in bytevalue, with keys of ten digits in order and data of 72 bytes. Prints a Markdown table of user time and peak memory,
the least of three runs. Where the program or the library's tool is missing, nothing is timed.
"""
import os
import pathlib
import shutil
import sys
import tempfile

from laying import once

TOP = pathlib.Path(__file__).resolve().parent.parent
RUNS = 3


def write_text(path, pairs):
    with open(path, "wb") as text:
        text.write(b"VERSION=3\nformat=bytevalue\ntype=btree\ndb_pagesize=4096\nHEADER=END\n")
        for i in range(pairs):
            value = (b"%010d" % (i * 7919 % pairs) * 8)[:72]
            text.write(b" %s\n %s\n" % ((b"%010d" % i).hex().encode(), value.hex().encode()))
        text.write(b"DATA=END\n")


def least(words, text, before=lambda: None):
    runs = []
    for _ in range(RUNS):
        before()
        runs.append(once(words, text))
    return min(run[0] for run in runs), min(run[2] for run in runs)


def arguments(name):
    """The built program of a crate, and the number of pairs; ends where the program or the original's is missing."""
    program = sys.argv[1] if len(sys.argv) > 1 else str(TOP / "crates" / name / "out" / name)
    if not pathlib.Path(program).is_file():
        sys.exit(f"{program} isn't there; `rt run` in crates/{name} builds it")
    if shutil.which("db5.3_load") is None:
        sys.exit("db5.3_load not found; Debian's package db5.3-util has it")
    return program, int(sys.argv[2]) if len(sys.argv) > 2 else 1000000


def main():
    program, pairs = arguments("check_dumps")
    with tempfile.TemporaryDirectory() as folder:
        text, image = os.path.join(folder, "text"), os.path.join(folder, "image")
        write_text(text, pairs)
        own = least([program, "count"], text)
        original = least(["db5.3_load", image], text, lambda: pathlib.Path(image).unlink(missing_ok=True))
        print(f"{pairs} pairs, {os.path.getsize(text) / 2**20:.0f} MB\n")
        print("| | user s | peak MB |\n|---|---:|---:|")
        print(f"| `read_dump` | {own[0]:.2f} | {own[1]:.0f} |")
        print(f"| `db5.3_load` | {original[0]:.2f} | {original[1]:.0f} |")
        print(f"\nratio of user times: {own[0] / original[0]:.2f}")


if __name__ == "__main__":
    main()
