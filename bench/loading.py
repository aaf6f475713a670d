#!/usr/bin/env python3
"""Times loading beside the original library's `db5.3_load`, on dump texts of a quarter of a million pairs up to a million.

usage: loading.py [PROGRAM [PAIRS]]

PROGRAM is the built program time_load; without it, crates/time_load/out/time_load. Two tables of user time and peak memory are printed, the
least of three runs each. The first has the texts of reading.py: a btree's, with keys of ten digits in order and data of 72 bytes; it writes the
file. The second has keys in scrambled order, each key twice, with data of ten digits: `settle` makes the list alone. With the word `read`
time_load only reads, so what the rest takes is the difference. Where the program or the library's tool is missing, nothing is timed.
"""
import os
import pathlib
import tempfile

from reading import arguments, least, write_text


def write_scrambled(path, pairs):
    with open(path, "wb") as text:
        text.write(b"VERSION=3\nformat=bytevalue\ntype=btree\ndb_pagesize=4096\nHEADER=END\n")
        keys = pairs // 2
        for i in range(pairs):
            key, value = b"%010d" % (i * 7919 % keys), b"%010d" % i
            text.write(b" %s\n %s\n" % (key.hex().encode(), value.hex().encode()))
        text.write(b"DATA=END\n")


def main():
    program, most = arguments("time_load")
    sizes = (most // 4, most // 2, most)
    with tempfile.TemporaryDirectory() as folder:
        text, image = os.path.join(folder, "text"), os.path.join(folder, "image")
        print("| pairs in order | `time_load`, s | reads, s | settles and builds, s | `db5.3_load`, s | peak MB | its peak MB |")
        print("|---:|---:|---:|---:|---:|---:|---:|")
        for pairs in sizes:
            write_text(text, pairs)
            both, reads = least([program, "write"], text), least([program, "read"], text)
            original = least(["db5.3_load", image], text, lambda: pathlib.Path(image).unlink(missing_ok=True))
            print(f"| {pairs} | {both[0]:.2f} | {reads[0]:.2f} | {both[0] - reads[0]:.2f} | {original[0]:.2f} | {both[1]:.0f} | {original[1]:.0f} |")
        print("\n| pairs in scrambled order, each key twice | reads, s | reads and settles, s | settles, s | peak MB |")
        print("|---:|---:|---:|---:|---:|")
        for pairs in sizes:
            write_scrambled(text, pairs)
            reads, settles = least([program, "read"], text), least([program, "settle"], text)
            print(f"| {pairs} | {reads[0]:.2f} | {settles[0]:.2f} | {settles[0] - reads[0]:.2f} | {settles[1]:.0f} |")


if __name__ == "__main__":
    main()
