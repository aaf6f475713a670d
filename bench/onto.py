#!/usr/bin/env python3
"""Times `load --onto` of a text of a thousand pairs onto a file of many, beside other ways to come to the same pairs.

usage: onto.py [PROGRAM [PAIRS]]

PROGRAM is the built program bdbtool; without it, crates/bdbtool/out/bdbtool. The base has a million pairs, or PAIRS of them, with data of
20 bytes, as a btree, a hash and a recno, made with `db5.3_load`. Of the text half the keys are there, in no order, and half are new. Beside
it stand `verify` and `dump` of the base, `load` of that dump alone, `load --onto` of an empty text, and `db5.3_load` of the same text into
a copy: seconds of user time, the least of three runs, and peak memory. Where the program or the library's tool is missing, nothing is
timed.
"""
import os
import shutil
import subprocess
import tempfile

from reading import arguments, least

KINDS = ("btree", "hash", "recno")
MORE = 1000


def key_of(kind, i):
    """The data line of the i-th key: of a recno its number, else digits in no order."""
    return b" %s\n" % (b"%d" % (i + 1)).hex().encode() if kind == "recno" else b" %s\n" % (b"%08x" % (i * 2654435761 % 2**32)).hex().encode()


def write_pairs(path, kind, numbers):
    with open(path, "wb") as text:
        keys = b"keys=1\n" if kind == "recno" else b""
        text.write(b"VERSION=3\nformat=bytevalue\ntype=%s\n%sdb_pagesize=4096\nHEADER=END\n" % (kind.encode(), keys))
        for i in numbers:
            text.write(key_of(kind, i) + b" %s\n" % (b"%020d" % i).hex().encode())
        text.write(b"DATA=END\n")


def main():
    program, pairs = arguments("bdbtool")
    first = f"| {pairs} pairs of | `verify`, s | `dump`, s | `load` of it, s | `load --onto`, no pair, s | {MORE} pairs, s "
    print(first + "| `db5.3_load` into a copy, s | peak MB | its peak MB |")
    print("|---|---:|---:|---:|---:|---:|---:|---:|---:|")
    with tempfile.TemporaryDirectory() as folder:
        whole, more, none, base, copy, dump = (os.path.join(folder, name) for name in ("whole", "more", "none", "base", "copy", "dump"))
        for kind in KINDS:
            write_pairs(whole, kind, range(pairs))
            write_pairs(more, kind, (pairs - MORE // 2 + i * 389 % MORE for i in range(MORE)))
            write_pairs(none, kind, ())
            if os.path.exists(base):
                os.unlink(base)
            with open(whole, "rb") as given:
                subprocess.run(["db5.3_load", base], stdin=given, check=True)
            with open(base, "rb") as given, open(dump, "wb") as to:
                subprocess.run([program, "dump"], stdin=given, stdout=to, check=True)
            onto = [program, "load", "--onto", base]
            times = [least([program, "verify"], base), least([program, "dump"], base), least([program, "load"], dump), least(onto, none), least(onto, more)]
            original = least(["db5.3_load", copy], more, lambda: shutil.copy(base, copy))
            told = " | ".join(f"{time[0]:.2f}" for time in [*times, original])
            print(f"| {kind} | {told} | {times[-1][1]:.0f} | {original[1]:.0f} |", flush=True)


if __name__ == "__main__":
    main()
