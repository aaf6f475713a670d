"""Dump texts of hostile input, for hostile.py. Each function makes one of a count, always with the same bytes, and gives its pieces.

The grammar is that of docs/FORMAT.md, "Read header". Pages have 512 bytes, so that a built file is small.
"""
import functools
import itertools
import random

PIECE = 100_000
SEED = 20261129
END = b"DATA=END\n"

# Words whose `hash5` is 0, so that it is 0 of any row of them.
WORDS = b"a6Wdjz a9ZX48 okDSr3 o9Mbpi qgH0aO rdauVB sfYa9J xc3D5i zwmWPm 452Nun EW9Nu6 L8CDn7 MkEblM NV0Jz8 StoX6B TpNLlN".split()


def header(kind, *lines):
    """The header of a section whose data are printed."""
    return b"\n".join((b"VERSION=3", b"format=print", b"type=" + kind, b"db_pagesize=512", *lines, b"HEADER=END", b""))


def section(kind, body, *lines):
    """A text of one section."""
    return itertools.chain((header(kind, *lines),), body, (END,))


def repeated(piece, count):
    """A piece so many times, in larger ones."""
    for at in range(0, count, PIECE):
        yield piece * min(PIECE, count - at)


# Named sections.


def named(numbers, pairs):
    """A section for each number, whose name has it behind what all begin with, each with the same pairs. A file of a million takes nearly 2^30 bytes."""
    return (header(b"btree", b"database=section-%08x" % number) + pairs + END for number in numbers)


def names_up(count):
    return named(range(count), b" a\n b\n")


def names_down(count):
    return named(reversed(range(count)), b" a\n b\n")


def names_mixed(count):
    return named(random.Random(SEED).sample(range(count), count), b" a\n b\n")


def sections(count):
    return named(range(count), b"")


# Lines without an end.


def long_line(count):
    return itertools.chain((header(b"btree"), b" "), repeated(b"a", count))


def long_escapes(count):
    """A line of so many bytes, which has a third as many escapes."""
    return itertools.chain((header(b"btree"), b" "), repeated(rb"\00", count // 3))


def long_header(count):
    return itertools.chain((b"VERSION=3\ntype=btree\ndatabase=",), repeated(b"a", count))


# Pairs and records without bytes.


def empty(kind, *lines):
    """What makes a section of so many pairs without bytes."""
    return lambda count: section(kind, repeated(b" \n \n", count), *lines)


empty_pairs = empty(b"btree")
empty_duplicates = empty(b"btree", b"duplicates=1")
empty_sorted = empty(b"btree", b"dupsort=1")
empty_hash = empty(b"hash", b"duplicates=1")


def empty_records(count):
    return section(b"recno", repeated(b" \n", count))


# Pairs in an order that sorting may take amiss.


def data_down(count):
    return section(b"btree", (b" a\n %08x\n" % number for number in reversed(range(count))), b"dupsort=1")


def keys_mixed(count):
    """Of each key a hundredth of the pairs."""
    draw = random.Random(SEED)
    return section(b"btree", (b" %02d\n %08x\n" % (draw.randrange(100), number) for number in range(count)), b"duplicates=1")


# Numbers in place of bytes.


def one_short_record(count):
    return section(b"recno", (b" a\n",), b"re_len=%d" % count)


def short_records(count):
    return section(b"recno", repeated(b" a\n", count), b"re_len=50000000")


def far_record(count):
    return section(b"recno", (b" %d\n a\n" % count,), b"keys=1")


def far_queue_record(count):
    return section(b"queue", (b" %d\n a\n" % count,), b"keys=1", b"re_len=3")


# Keys of one hash.


def hash5(data):
    """The hash of bytes, by docs/FORMAT.md, "Hash formulas"."""
    return functools.reduce(lambda before, byte: before * 16777619 % 2**32 ^ byte, data, 0)


def key_of_hash_zero(number):
    """A key for a number below 2^20: a word for each of its digits."""
    return b"".join(WORDS[int(digit, 16)] for digit in f"{number:05x}")


def keys_of_one_hash(count):
    if any(map(hash5, WORDS)):
        raise ValueError("a word's hash isn't 0")
    return section(b"hash", (b" %b\n a\n" % key_of_hash_zero(number) for number in range(count)))
