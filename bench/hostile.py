#!/usr/bin/env python3
"""Shows how the time of the built program grows on hostile input: each class of it is made at four sizes, each twice the one before.

usage: hostile.py [--largest FACTOR] [PROGRAM] [CLASS..]

PROGRAM is the built program bdbtool; without it, crates/bdbtool/out/bdbtool. A CLASS is a word of the table CLASSES below, or else the beginning of some:
`chain` has all classes of chains run alone. The classes of the table GROWING run only where they are asked for so, and don't hold. FACTOR makes each size of
each class as many times as large as it is here (1, where none is given). The files and texts are made in a temporary folder by hostile_files.py and
hostile_texts.py, always with the same contents.

Each command of a class runs on its four sizes, and what it writes is thrown away. Prints a Markdown table with a row for each class: the bytes of the largest
size, and of each command the user and system seconds that it took there, and how they grew from each size to the next. A growth is for twice the size. The
size is the input alone, unless the output grows more than it does; then it is both together, and the cell has the bytes that were written: where these are
four times as many and the time is four times as long, the growth is 2. Where a growth is above MOST and the time above FLOOR, the command runs again, up to
ROUNDS times in all, and of each size the time in the middle counts: the least would be too little of short runs, which other work on the machine disturbs
less often. A growth that is still above stands in bold. Where the time grows by more than CLEAR from the first size to the last, the command doesn't run
again. A run is stopped after LONGEST seconds of processor time, and larger sizes aren't run then; it may take MEMORY bytes. Where a run ends with another
status than its class has, the cell says so; where the first line that the first command tells has another name, a line on standard error does. Either fails
the class.

The last line says how many runs grow by at most MOST; the exit status is 1 where some run doesn't.
"""
import argparse
import math
import os
import pathlib
import resource
import signal
import subprocess
import sys
import tempfile
import typing

import hostile_files as files
import hostile_texts as texts
from times import TOP, print_head, print_row

SIZES, LEAST = (1 / 8, 1 / 4, 1 / 2, 1), 4
MOST, FLOOR = 2.3, 0.05
ROUNDS, CLEAR = 11, 20
LONGEST, MEMORY = 60, 3 << 30
COMMANDS = ("verify", "dump", "survey", "salvage", "get", "load", "repair")
COLUMNS = ("Class", "Bytes", *(f"`{command}`" for command in COMMANDS))


class Run(typing.NamedTuple):
    """A command to run: its words, the status that it must end with, and the text that it reads where the input is the base that this is loaded onto."""

    words: tuple
    status: int
    onto: bytes = b""


class Class(typing.NamedTuple):
    """A class of hostile input: its word, what it is, what makes an input for a count, the count of the largest size, the name of the first line that the
    first command tells on standard error (none where it tells nothing), and the commands to run."""

    word: str
    name: str
    make: typing.Callable
    largest: int
    told: str
    runs: tuple


def get(*words, status=0):
    return Run(("get", *words), status)


NO_PAIRS = b"VERSION=3\nformat=bytevalue\ntype=btree\nduplicates=1\nHEADER=END\nDATA=END\n"
NO_DUPLICATES = NO_PAIRS.replace(b"duplicates=1\n", b"")
NO_RECORDS = NO_DUPLICATES.replace(b"btree", b"recno")
NO_TABLE = NO_DUPLICATES.replace(b"btree", b"hash")
# More pairs than the base of a class has.
MANY_PAIRS = b"".join(b" %s\n 61\n" % (b"%06d" % at).hex().encode() for at in range(6_000))
LOADED, REFUSED, TOO_LARGE = (Run(("load",), 0),), (Run(("load",), 8),), (Run(("load", "--max-bytes", "100000"), 6),)
SURVEYED = (Run(("survey",), 0),)
SOUND = (Run(("verify",), 0), Run(("dump",), 0), *SURVEYED, Run(("salvage",), 0))
FAULTY = (Run(("verify",), 1), Run(("dump",), 1), *SURVEYED, Run(("salvage",), 0))
JUDGED, REFUTED = SOUND[:1] + SURVEYED, FAULTY[:3]
# What is salvaged is far longer than the input, and the limit above all inputs of the class.
CUT_OFF = tuple(Run(("repair", *apart, "--max-bytes", "1000000"), 6) for apart in ((), ("--apart",)))
SHAPED_CUT_OFF = tuple(Run(("repair", "--as", kind, "--duplicates", "--max-bytes", "1000000"), 6) for kind in ("btree", "hash"))
# The sections of such a file would be too long to write as a text.
REPAIRED = (Run(("repair",), 0),)
# The data of such a base are far longer than it, too.
ONTO_CUT_OFF = (Run(("load", "--max-bytes", "1000000"), 6, onto=NO_PAIRS),)
SINGLE_CUT_OFF = (Run(("load", "--max-bytes", "1000000"), 6, onto=NO_DUPLICATES),)
TABLE_CUT_OFF = (Run(("load", "--max-bytes", "1000000"), 6, onto=NO_TABLE),)
RECORDS_CUT_OFF = (Run(("load", "--max-bytes", "1000000"), 6, onto=NO_RECORDS),)
LONG_CUT_OFF = (Run(("load", "--max-bytes", "4000000"), 6, onto=NO_RECORDS), Run(("repair", "--max-bytes", "4000000"), 6), Run(("repair", "--apart", "--max-bytes", "4000000"), 6))
OVERLAP_CUT_OFF = (Run(("load", "--max-bytes", "4000000"), 6, onto=NO_PAIRS), *LONG_CUT_OFF[1:])
# A key has one datum there, though many are salvaged, all of them one chain.
KEPT_ONCE = tuple(Run(("repair", "--as", kind, "--max-bytes", "1000000"), 0) for kind in ("btree", "hash"))
ONTO = (Run(("load",), 0, onto=NO_PAIRS),)
# What is salvaged has no room within the limit that there is without a word.
MEGABYTES = tuple(Run(("repair", *words), 6) for words in ((), ("--as", "btree"), ("--as", "hash"), ("--apart",)))
# Of many databases a text replaces none of the data, or all of them.
OF_DATABASE = "VERSION=3\nformat=bytevalue\ndatabase={}\ntype=btree\nHEADER=END\n{}DATA=END\n"
OTHER_DATABASE = OF_DATABASE.format("other", "").encode()
ALL_REPLACED, ALL_FULL_REPLACED = ("".join(OF_DATABASE.format(f"{at:08x}", " 6b6579\n 61\n") for at in range(count)).encode() for count in (2_000, 8_000))
ONTO_DATABASES = (Run(("load", "--max-bytes", "4000000"), 6, onto=OTHER_DATABASE), Run(("load", "--max-bytes", "4000000"), 0, onto=ALL_REPLACED))
ONTO_FULL_DATABASES = (Run(("load", "--max-bytes", "10000000"), 6, onto=OTHER_DATABASE), Run(("load",), 0, onto=ALL_FULL_REPLACED))
# Each database of the base is sought by its name.
ONTO_NAMES = (Run(("load",), 0, onto=OTHER_DATABASE),)
# The base itself is within the limit.
ONTO_MEGABYTES, ONTO_TABLE_MEGABYTES = (
    (
        *(Run(("load", "--max-bytes", "4000000"), 6, onto=text.replace(b"DATA=END\n", pairs + b"DATA=END\n")) for pairs in (b"", MANY_PAIRS)),
        Run(("repair", "--max-bytes", "4000000"), 6),
    )
    for text in (NO_DUPLICATES, NO_TABLE)
)
# Database by database.
APART = (Run(("salvage", "--apart"), 0), Run(("salvage", "--rest"), 0), Run(("repair", "--apart"), 0))
BY_HAND = tuple(Run(("salvage", "--order", "little", "--page-size", size), 0) for size in ("512", "32768"))

# At the largest size a run whose time grows as its input takes some hundredths of a second, up to a few tenths.
CLASSES = (
    # Texts.
    Class("text-names-up", "named sections with a pair each, names of one length and beginning, ascending", texts.names_up, 40_000, "", LOADED),
    Class("text-names-down", "such sections, descending", texts.names_down, 40_000, "", LOADED),
    Class("text-names-mixed", "such sections, shuffled", texts.names_mixed, 40_000, "", LOADED),
    Class("text-sections", "named sections without pairs", texts.sections, 1_000_000, "", LOADED),
    Class("text-line", "a line of data without an end", texts.long_line, 64_000_000, "NoEnd", REFUSED),
    Class("text-line-escapes", "a line of escapes without an end", texts.long_escapes, 32_000_000, "NoEnd", REFUSED),
    Class("text-line-header", "a line of a header without an end", texts.long_header, 64_000_000, "NoEnd", REFUSED),
    Class("text-empty", "empty pairs of a btree", texts.empty_pairs, 10_000_000, "", LOADED),
    Class("text-empty-duplicates", "empty pairs of a btree with duplicates", texts.empty_duplicates, 1_000_000, "", LOADED),
    Class("text-empty-sorted", "empty pairs of a btree with sorted duplicates", texts.empty_sorted, 1_000_000, "", LOADED),
    Class("text-empty-hash", "empty pairs of a hash with duplicates", texts.empty_hash, 1_000_000, "", LOADED),
    Class("text-empty-recno", "empty records", texts.empty_records, 1_000_000, "", LOADED),
    Class("text-length-one", "re_len is the size; one short record", texts.one_short_record, 4_000_000_000, "bytes", TOO_LARGE),
    Class("text-length-many", "re_len is 50,000,000; short records", texts.short_records, 1_000, "bytes", TOO_LARGE),
    Class("text-number", "a record whose number is the size", texts.far_record, 8_000_000, "", LOADED),
    Class("text-number-large", "a record whose number is the size, for too large a file", texts.far_record, 4_000_000_000, "bytes", TOO_LARGE),
    Class("text-number-queue", "a record of a queue whose number is the size, for too large a file", texts.far_queue_record, 4_000_000_000, "bytes", TOO_LARGE),
    Class("text-data-down", "data of one key of a btree with sorted duplicates, descending", texts.data_down, 1_000_000, "", LOADED),
    Class("text-keys-mixed", "keys of a btree, of which each stands again and again, shuffled", texts.keys_mixed, 100_000, "", LOADED),
    Class("text-one-hash", "keys of a hash that have one hash", texts.keys_of_one_hash, 25_000, "", LOADED),
    # Hash metadata pages that name the same buckets.
    Class("bucket-master", "hashes under a master that name the same buckets", files.shared_buckets, 32_768, "TooMany", FAULTY + APART),
    Class("bucket-zero", "hashes under a master that name the same zero pages as buckets", files.shared_zero_buckets, 32_768, "TooMany", FAULTY + APART),
    Class("bucket-overlap", "hashes under a master that each name the buckets from one page further on", files.buckets_that_overlap, 32_768, "TooMany", FAULTY + APART),
    Class("bucket-wrong", "hashes that name the same pages, the last of which is no bucket", files.buckets_of_wrong_kind, 32_768, "WrongKind", FAULTY),
    Class("bucket-groups", "one hash whose groups all begin at one page", files.groups_on_one_page, 65_536, "TooMany", FAULTY + APART),
    Class("bucket-chain", "one bucket of pages, each of which is the next one of the page behind it", files.bucket_down, 48_000, "", SOUND + (get("a"),) + APART),
    Class("bucket-ring", "a ring of pages of a bucket", files.bucket_ring, 131_072, "Unreached", FAULTY + APART),
    # Items that share one chain of full pages: the texts of these are longer than their files.
    Class("chain-full-btree", "data of a btree share a chain", files.full_chain_btree, 8_000, "", SOUND + (get("00000000"),) + CUT_OFF + SINGLE_CUT_OFF),
    Class("chain-full-hash", "data of a hash share a chain", files.full_chain_hash, 8_000, "", SOUND + (get("00000000"),) + CUT_OFF + TABLE_CUT_OFF),
    Class("chain-full-recno", "records share a chain", files.full_chain_recno, 8_000, "", JUDGED + CUT_OFF + RECORDS_CUT_OFF),
    Class("chain-full-set", "data of one key share a chain", files.full_chain_set, 8_000, "", SOUND + (get("key"),) + CUT_OFF + KEPT_ONCE + ONTO_CUT_OFF),
    Class("chain-megabyte", "a million pairs name one chain of a megabyte", files.megabyte_chain_btree, 1_000_000, "bytes", MEGABYTES),
    Class("chain-megabyte-base", "data of a sound base are one chain of a megabyte", files.megabyte_chain_btree, 5_000, "bytes", ONTO_MEGABYTES),
    Class("chain-megabyte-hash", "data of a sound hash are one chain of a megabyte", files.megabyte_chain_hash, 5_000, "bytes", ONTO_TABLE_MEGABYTES),
    Class("chain-megabyte-databases", "data of the databases of a sound base are one chain of a megabyte", files.megabyte_chain_databases, 2_000, "bytes", ONTO_DATABASES),
    Class("chain-full-databases", "data of the databases of a sound base share a chain", files.full_chain_databases, 8_000, "bytes", ONTO_FULL_DATABASES),
    # Chains of full pages that aren't written: those of the outputs would be too long to write.
    Class("chain-full-order", "sorted data, two chains that begin alike under each key", files.full_chains_order, 16_000, "", JUDGED + (get("x", status=9),)),
    Class("chain-full-grid", "sorted data, each two of many such chains under a key", files.full_chains_grid, 32_000, "", JUDGED + (get("x", status=9),)),
    Class("chain-full-keys", "two chains that begin alike alternate as keys of a btree", files.full_chains_keys, 16_000, "KeyOrder", REFUTED),
    Class("chain-full-hashes", "hashes whose one key is the same chain", files.full_chain_hashes, 8_000, "", JUDGED),
    # Items that share blank chains: chains of pages, of which the last alone has data.
    Class("chain-btree", "data of a btree share a chain that is blank but for its last page", files.chain_btree, 24_000, "", SOUND + (get("00000000"),)),
    Class("chain-hash", "data of a hash share a blank chain", files.chain_hash, 24_000, "", SOUND + (get("00000000"),)),
    Class("chain-duplicates", "sorted data that share their keys share a blank chain", files.chain_duplicates, 24_000, "DuplicateOrder", FAULTY),
    Class("chain-set", "data of one key, in a set, share a blank chain", files.chain_set, 24_000, "", SOUND + (get("key"),)),
    Class("chain-set-sorted", "data of one key, in a sorted set, share a blank chain", files.chain_sorted_set, 24_000, "DuplicateOrder", FAULTY),
    Class("chain-keys", "keys of a btree share a blank chain", files.chain_keys, 12_000, "KeyOrder", FAULTY),
    Class("chain-keys-two", "two blank chains alternate as keys of a btree", files.chain_keys_two, 12_000, "KeyOrder", FAULTY),
    Class("chain-keys-hash", "keys of a hash share a blank chain", files.chain_keys_hash, 16_000, "KeyTwice", FAULTY),
    Class("chain-keys-hash-two", "two blank chains alternate as keys of a hash", files.chain_keys_hash_two, 16_000, "KeyTwice", FAULTY),
    Class("chain-names", "names of a master share a blank chain", files.chain_names, 16_000, "MetaTwice", FAULTY),
    Class("chain-names-two", "two blank chains alternate as names of a master", files.chain_names_two, 16_000, "MetaTwice", FAULTY),
    Class("chain-name-data", "data of a master share a blank chain", files.chain_name_data, 24_000, "MetaTwice", FAULTY),
    Class("chain-first-keys", "first keys of internal pages share a blank chain", files.chain_first_keys, 8_000, "", SOUND + (get("00000000"),)),
    Class("chain-separator", "a separator in a blank chain above many leaves", files.chain_separator, 6_000, "", SOUND + (get("a"),)),
    Class("chain-gap", "a separator in a chain that is blank but for its ends", files.chain_gap, 6_000, "", SOUND + (get("a"),)),
    Class("chain-name", "one of many names in a blank chain", files.chain_name, 6_000, "", SOUND + (get("--name", "zzzz", "key"),)),
    Class("chain-key-hash", "one of many keys of a bucket in a blank chain, two of one hash", files.chain_key_hash, 12_000, "", SOUND + (get("00000000"),)),
    Class("chain-down", "a chain whose pages each name the page before them", files.chain_down, 48_000, "", SOUND + (get("key"),)),
    Class("chain-ring", "a ring of overflow pages", files.chain_ring, 131_072, "Unreached", FAULTY),
    Class("chain-join", "chains that join behind their heads", files.chain_join, 131_072, "WrongBack", FAULTY),
    Class("chain-length", "data share a blank chain that has another length than they tell", files.chain_length, 60_000, "ChainLength", FAULTY),
    Class("chain-pivot", "keys of a hash that begin alike, one in a blank chain", files.chain_pivot, 16_000, "", SOUND + (get("a-key-of-00000000"),)),
    # Sets off the page.
    Class("set-own", "each key has a set of its own", files.own_sets, 32_000, "", SOUND + (get("00000000"),) + APART),
    Class("set-shared", "keys share a set", files.shared_set, 8_000, "TooMany", FAULTY),
    Class("set-long-key", "one key in a long chain, with a set of many short data", files.set_of_long_key, 60_000, "", JUDGED + REPAIRED + ONTO),
    Class("set-shared-long", "keys share a set of many data", files.shared_long_set, 16_000, "TooMany", REFUTED + CUT_OFF + SHAPED_CUT_OFF),
    Class("set-shared-long-hash", "keys of a hash share a set of many data", files.shared_long_set_hash, 16_000, "TooMany", REFUTED + CUT_OFF + SHAPED_CUT_OFF),
    Class("set-shared-blank", "keys share a set of leaves without entries", files.shared_blank_set, 16_000, "TooMany", FAULTY),
    Class("set-shared-sparse", "keys share a set of leaves of which the last alone has an entry", files.shared_sparse_set, 16_000, "TooMany", FAULTY),
    Class("set-joined", "keys have sets of their own, whose roots share leaves without entries", files.joined_sets, 16_000, "TooMany", FAULTY),
    Class("set-shared-deleted", "keys share a set of leaves full of deleted entries", files.shared_deleted_set, 4_000, "TooMany", FAULTY),
    Class("set-shared-hash", "keys of a hash share a set of leaves without entries", files.shared_blank_set_hash, 16_000, "TooMany", FAULTY),
    Class("set-shared-deep", "keys share a set below a growing row of full pages", files.shared_deep_set, 1_000, "TooMany", FAULTY),
    # Free pages.
    Class("free-list", "free pages that each name the page before them", files.free_down, 131_072, "", SOUND + (get("a"),)),
    Class("free-ring", "a ring of free pages", files.free_ring, 131_072, "Unreached", FAULTY + APART),
    Class("free-join", "free pages that all name one", files.free_join, 131_072, "TooMany", FAULTY),
    # Trees.
    Class("deep-many", "named btrees of 254 levels with one child a page", files.deep_trees, 256, "", SOUND + (get("--name", "00000000", "a"),) + APART),
    Class("deep-join", "a btree over rows of 250 pages with one child each", files.deep_rows, 64, "", SOUND + (get("00000000"),)),
    Class("deep-wide", "one child a page for 250 levels above many leaves", files.deep_wide, 10_000, "", SOUND + (get("00000000"),)),
    Class("deep-disorder", "such levels, and keys out of order", files.deep_disorder, 1_000, "KeyOrder", FAULTY),
    Class("deep-counts", "such levels of a btree with counts", files.deep_counts, 4_000, "", SOUND + (get("00000000"),)),
    Class("deep-recno", "such levels of a recno", files.deep_recno, 40_000, "", SOUND + (get("1"),)),
    Class("leaf-empty-recno", "leaves full of entries without bytes, of a recno", files.empty_entries, 256, "", SOUND + (get("1"),)),
    Class("leaf-long-recno", "leaves full of entries that are one long item", files.long_entries, 64, "", JUDGED + LONG_CUT_OFF),
    Class("leaf-overlap-recno", "leaves full of entries that are long items, which overlap", files.overlapping_entries, 64, "", JUDGED + LONG_CUT_OFF),
    Class("leaf-overlap-btree", "leaves full of data of a key that are such items", files.overlapping_data, 64, "", JUDGED + OVERLAP_CUT_OFF),
    Class("leaf-empty-duplicates", "leaves full of data without bytes", files.empty_duplicates, 256, "", SOUND + (get("00000000"),)),
    Class("leaf-empty-sorted", "leaves full of sorted data without bytes", files.empty_sorted_duplicates, 256, "DuplicateOrder", FAULTY),
    Class("leaf-empty-keys", "leaves full of keys without bytes", files.empty_keys, 256, "KeyOrder", FAULTY),
    # Files of zeros.
    Class("zero-bytes", "zeros", files.zeros, 100_000_000, "Magic", (Run(("verify",), 1), *BY_HAND)),
    Class("zero-pages-hash", "zero pages in a hash", files.zero_pages_hash, 131_072, "", SOUND + (get("a", status=9),)),
    Class("zero-pages-btree", "zero pages in a btree", files.zero_pages_btree, 131_072, "NoOwner", FAULTY),
    Class("zero-pages-tail", "zero pages behind the last one", files.zero_pages_tail, 131_072, "", SOUND + (get("a"),)),
    # Names, and queues.
    Class("name-many", "names of one length and beginning", files.many_names, 16_000, "", SOUND + (get("--name", "zzzz", "key"),) + APART + ONTO_NAMES),
    Class("name-none", "metadata pages without a name", files.metadata_without_names, 24_000, "Unnamed", FAULTY + APART),
    Class("name-one-page", "names of one metadata page", files.names_of_one_page, 131_072, "MetaTwice", FAULTY + APART),
    Class("queue-range", "a queue of all numbers, with few full pages", files.queue_range, 16_384, "", SOUND + (get("1"), get("4294967294", status=9))),
    Class("queue-range-zero", "such a queue of zero pages but for the last", files.queue_range_zero, 131_072, "", SOUND + (get("4294967294", status=9),)),
)
# Classes whose time grows by more, as docs/BENCH.md says. They run only where a word asks for them.
GROWING = (Class("more-names", "names of a master are one chain, a quarter as many pages as names", files.full_chain_names, 8_000, "", SURVEYED + APART[::2]),)


class Spent(typing.NamedTuple):
    """What a run took: seconds of user and system time, the bytes that it wrote, and how it ended otherwise than it must, or None."""

    seconds: float
    written: int
    wrong: str


class Measured(typing.NamedTuple):
    """What was measured of a command: the bytes of each size, and what the run on it in the middle of its runs took, of as many sizes as were run."""

    sizes: list
    middle: list


# Runs.


def written_by(process):
    """How many bytes a process that has ended, and isn't waited for yet, wrote in all."""
    for line in pathlib.Path(f"/proc/{process}/io").read_text(encoding="ascii").splitlines():
        if line.startswith("wchar: "):
            return int(line.split()[1])
    return 0


def ending_wrong(status, wanted):
    """How a run ended, where it is otherwise than it must be."""
    if status == wanted:
        return None
    if status == -signal.SIGXCPU:
        return f"above {LONGEST} s"
    return f"signal {-status}" if status < 0 else f"status {status}"


def started(program, run, path, told):
    """A run that has its limits, whose output is thrown away."""
    words, read = run.words, path
    if run.onto:
        words, read = (*run.words, "--onto", path), path.with_name("no-pairs")
        read.write_bytes(run.onto)
    with read.open("rb") as given:
        process = subprocess.Popen([program, *words], stdin=given, stdout=subprocess.DEVNULL, stderr=told)
    resource.prlimit(process.pid, resource.RLIMIT_AS, (MEMORY, MEMORY))
    resource.prlimit(process.pid, resource.RLIMIT_CPU, (LONGEST, LONGEST + 1))
    return process


def spent(program, run, path):
    """What a run takes."""
    process = started(program, run, path, subprocess.DEVNULL)
    os.waitid(os.P_PID, process.pid, os.WEXITED | os.WNOWAIT)
    written = written_by(process.pid)
    _, status, usage = os.wait4(process.pid, 0)
    process.returncode = os.waitstatus_to_exitcode(status)
    return Spent(usage.ru_utime + usage.ru_stime, written, ending_wrong(process.returncode, run.status))


def one_round(program, run, paths):
    """A run on each size, up to one that ends otherwise than it must."""
    for path in paths:
        it = spent(program, run, path)
        yield it
        if it.wrong:
            return


def measured(program, run, paths):
    """A round, and others two by two where the time grows by more than it may, but not so much more that they can't change it."""
    sizes, rounds = [path.stat().st_size for path in paths], []
    while True:
        rounds.append(list(one_round(program, run, paths)))
        now = Measured(sizes, [sorted(runs)[len(runs) // 2] for runs in zip(*rounds)])
        if holds(now) or is_clear(now) or len(rounds) == ROUNDS:
            return now
        rounds.append(list(one_round(program, run, paths)))


# Growth.


def bytes_grown(now, at):
    """By how much the bytes of a size are more than of the one before: those of the input, or together with those written where these grow by more."""
    whole = [size + it.written for size, it in zip(now.sizes, now.middle)]
    return max(2, whole[at] / whole[at - 1])


def growth(now, at):
    """By how much the time grows from one size to the next, for twice the size."""
    grown = now.middle[at].seconds / max(now.middle[at - 1].seconds, 1e-6)
    return grown ** (1 / math.log2(bytes_grown(now, at)))


def is_above(now, at):
    """Whether the time of a size grew by more than it may."""
    return now.middle[at].seconds > FLOOR and growth(now, at) > MOST


def holds(now):
    """Whether all sizes were run, and none grew by more than it may."""
    return len(now.middle) == len(now.sizes) and not now.middle[-1].wrong and not any(is_above(now, at) for at in range(1, len(now.middle)))


def is_clear(now):
    """Whether the time of all sizes together grew so much more than it may, or a run ended so, that no other round is needed."""
    return bool(now.middle[-1].wrong) or math.prod(growth(now, at) for at in range(1, len(now.middle))) > CLEAR


# The table.


def growth_of(now, at):
    """A growth, in bold where it is more than it may be."""
    shown = f"{growth(now, at):.1f}"
    return f"**{shown}**" if is_above(now, at) else shown


def cell(now):
    """What was measured of a command."""
    if now.middle[-1].wrong:
        return f"**{now.middle[-1].wrong}**, {now.sizes[len(now.middle) - 1]:,} bytes"
    grew = " ".join(growth_of(now, at) for at in range(1, len(now.middle)))
    written = f", {now.middle[-1].written:,} bytes" if bytes_grown(now, -1) > 2.2 else ""
    return f"{now.middle[-1].seconds:.3f} s{written}, × {grew}"


def print_kind(kind, size, measures):
    """The row of a class. Several runs of one command stand in one cell."""
    cells = ["; ".join(cell(now) for run, now in zip(kind.runs, measures) if run.words[0] == command) or "–" for command in COMMANDS]
    print_row([f"`{kind.word}`: {kind.name}", f"{size:,}", *cells])


def made(kind, factor, folder):
    """The files of a class, the smallest first."""
    paths = []
    for size in SIZES:
        paths.append(folder / f"{kind.word}-{len(paths)}")
        with paths[-1].open("wb") as file:
            file.writelines(kind.make(max(LEAST, int(kind.largest * factor * size))))
    return paths


def told_wrong(program, kind, path):
    """Why the first command of a class doesn't tell what it must; None where it does."""
    with started(program, kind.runs[0], path, subprocess.PIPE) as process:
        first = process.communicate()[1].decode().partition("\n")[0]
    if process.returncode == kind.runs[0].status and first.endswith(kind.told) and bool(first) == bool(kind.told):
        return None
    return f"{kind.word}: status {process.returncode}, {first!r} in place of {kind.told!r}"


def print_class(program, kind, factor, folder):
    """The row of a class. Gives whether each of its runs holds."""
    try:
        paths = made(kind, factor, folder)
    except ValueError as reason:
        print(f"{kind.word} isn't run: {reason}", file=sys.stderr)
        return []
    if wrong := told_wrong(program, kind, paths[0]):
        print(wrong, file=sys.stderr)
    measures = [measured(program, run, paths) for run in kind.runs]
    print_kind(kind, paths[-1].stat().st_size, measures)
    for path in paths:
        path.unlink()
    return [holds(now) and not wrong for now in measures]


def asked_by(word):
    """The classes that a word asks for."""
    kinds = CLASSES + GROWING
    return [kind for kind in kinds if kind.word == word] or [kind for kind in kinds if kind.word.startswith(word)]


def chosen(words):
    """The program and the classes that some words ask for."""
    programs = [word for word in words if not asked_by(word)]
    if len(programs) > 1:
        sys.exit(f"no classes, and more than one program: {' '.join(programs)}")
    asked = [kind for word in words for kind in asked_by(word)]
    return pathlib.Path(programs[0]) if programs else TOP / "crates/bdbtool/out/bdbtool", asked or CLASSES


def main():
    parser = argparse.ArgumentParser(description="Shows how the time of the program grows on hostile input.")
    parser.add_argument("--largest", type=float, default=1, metavar="FACTOR")
    parser.add_argument("words", nargs="*", metavar="PROGRAM or CLASS")
    given = parser.parse_args()
    program, kinds = chosen(given.words)
    if not program.is_file():
        sys.exit(f"skipped: {program} isn't there; ./bdbtool builds it")
    print_head(COLUMNS)
    with tempfile.TemporaryDirectory() as folder:
        runs = [run for kind in kinds for run in print_class(program, kind, given.largest, pathlib.Path(folder))]
    print(f"\n{sum(runs)} of {len(runs)} runs grow by at most {MOST}")
    return 0 if all(runs) else 1


if __name__ == "__main__":
    sys.exit(main())
