#!/usr/bin/env python3
"""Times the building of a hash table beside the original library's `db5.3_load`, on dump texts of a quarter of a million pairs up to a million.

usage: tables.py [PROGRAM [PAIRS]]

PROGRAM is the built program time_table; without it, crates/time_table/out/time_table. The texts have keys of ten digits in scrambled order and data of
72 bytes. With a word time_table only makes the list, so what building takes is the difference of its two runs. Prints a Markdown table of user time
and peak memory, the least of three runs. Where the program or the library's tool is missing, nothing is timed.
"""
import os
import pathlib
import tempfile

from reading import arguments, least


def write_text(path, pairs):
    with open(path, "wb") as text:
        text.write(b"VERSION=3\nformat=bytevalue\ntype=hash\ndb_pagesize=4096\nHEADER=END\n")
        for i in range(pairs):
            key, value = b"%010d" % (i * 7919 % pairs), (b"%010d" % i * 8)[:72]
            text.write(b" %s\n %s\n" % (key.hex().encode(), value.hex().encode()))
        text.write(b"DATA=END\n")


def main():
    program, most = arguments("time_table")
    print("| pairs | reads, settles and builds, s | reads and settles, s | builds, s | `db5.3_load`, s | peak MB | its peak MB |")
    print("|---:|---:|---:|---:|---:|---:|---:|")
    with tempfile.TemporaryDirectory() as folder:
        text, image = os.path.join(folder, "text"), os.path.join(folder, "image")
        for pairs in (most // 4, most // 2, most):
            write_text(text, pairs)
            both, lists = least([program], text), least([program, "list"], text)
            original = least(["db5.3_load", image], text, lambda: pathlib.Path(image).unlink(missing_ok=True))
            print(f"| {pairs} | {both[0]:.2f} | {lists[0]:.2f} | {both[0] - lists[0]:.2f} | {original[0]:.2f} | {both[1]:.0f} | {original[1]:.0f} |")


if __name__ == "__main__":
    main()
