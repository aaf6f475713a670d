#!/usr/bin/env python3
"""Times `bdbtool` beside the original library's tools, both in one run on the same files.

usage: times.py verify|kinds|chains|range|dump|load|convert|stat|survey|salvage|repair|apart [PROGRAM]
       times.py before PROGRAM BEFORE

PROGRAM is the built program; without it, crates/bdbtool/out/bdbtool. The files are made with `db5.3_load` in a temporary folder. Prints a
Markdown table. `verify` stands beside `db5.3_verify`, on a btree and a hash of tenfold growing numbers of pairs: seconds by the clock, and
how pages and seconds grew from the row above. A kind ends where a run takes a minute, or where ten times the pairs wouldn't fit into the
longest input. `kinds` has `verify` beside `db5.3_verify` and `md5sum` on files of each kind of about 100 MB, seconds of user time, and
beside `cat`, seconds of system time; and `chains` has it on chains of pages that grow longer, one by one: seconds of user time. `dump`
stands beside `db5.3_dump -k`, on a file of each kind: seconds of user time, and peak memory. `range` stands beside `verify`, `get` and
`dump`, on a btree of a million pairs: of ten pairs, of a thousand and of all. `load` stands beside `db5.3_load` and `md5sum`, on the texts that `dump`
and `dump --print` give of such files, of files whose data are lines of 40 to 90 bytes, and of files with a quarter of the items, and on
those of a btree and a hash with their pairs in no order. `convert`
stands beside `verify` and a copy by `cat`, on a file of each kind, and `stat` beside `verify` and `db5.3_stat -f`: seconds of user time,
and of user and system time, of runs by turns. `salvage` stands beside `db5.3_dump -r`, on the files of `kinds`, and on each of them with
every hundredth page overwritten by other bytes: seconds of user time, peak memory, and how many pairs or records each gives. `survey`
stands beside `salvage --apart` on these files, and what both write is thrown away: user time, and the peak of `survey`. `repair`
stands beside `salvage | load`, on the same files: user time of both commands of the pipe together, and the greater peak. `apart` has
`salvage --apart` beside `salvage`, and `repair --apart` beside `salvage --apart | load`, on the same files: user time. `before` has
`verify` of two programs by turns, on the files of `kinds` and `chains` and on the files of `verify` that have a million pairs, and `dump`
of both on the files of `dump`: the least user and system time of each, and their ratio. Where the program or the library's tools are
missing, nothing is timed. docs/BENCH.md says how to read the tables.
"""
import itertools
import os
import pathlib
import random
import resource
import shutil
import struct
import subprocess
import sys
import tempfile
import time
from typing import NamedTuple

TOP = pathlib.Path(__file__).resolve().parent.parent
PAGE_SIZE = 4096
RUNS = 3
CACHE = "set_cachesize 1 0 1\n"

# `verify`
KINDS = ("btree", "hash")
FEWEST_PAIRS = 100
LONGEST_INPUT = 2**30
LONG_RUN = 60
LONGEST_RUN = 600
GROWTH_COLUMNS = ("Kind", "Pairs", "Pages", "`bdbtool`", "`db5.3_verify`", "Ratio", "Pages grew", "`bdbtool` grew", "`db5.3_verify` grew")

# What the launcher sets for the program. Here all programs have it.
TUNABLES = "glibc.malloc.hugetlb=1"

# `kinds`
KIND_COLUMNS = ("File", "Bytes", "`bdbtool`", "`db5.3_verify`", "Ratio", "`md5sum`", "Ratio", "`bdbtool`, system", "`cat`, system", "Ratio")
KIND_TURNS = 5

# `chains`
USER_COLUMNS = ("File", "Bytes of the file", "`bdbtool`", "`db5.3_verify`", "Ratio")
SMALL_PAGE = 512
CHAINS = (50_000, 100_000, 200_000, 500_000)
FREE_PAGES = 18_000

# `before`, and `dump`
TURNS = 15
DUMP_TURNS = 5
BEFORE_COLUMNS = ("File", "Bytes of the file", "Program", "Before", "Ratio")

# `dump`
MILLION = 1_000_000
LONG_VALUES, LONG_BYTES = 1_000, 100_000
DUMP_COLUMNS = (
    *("File", "Items", "Bytes of the file", "`bdbtool`", "`db5.3_dump -k`", "Ratio"),
    *("Peak of `bdbtool`, bytes", "Peak by file", "Bytes an item above 1.3 files"),
)

# `range`
RANGES = (10, 1_000)
RANGE_COLUMNS = ("Command", "Pairs", "`bdbtool`", "Above `verify`", "Peak of `bdbtool`, bytes", "Peak by file")

# `load`
LOAD_COLUMNS = (
    *("Text", "Spelling", "Items", "Bytes of the text", "Bytes of the file", "`bdbtool`", "`db5.3_load`", "Ratio", "`md5sum`", "Ratio"),
    *("`bdbtool` grew", "Peak of `bdbtool`, bytes", "Bytes an item above the text and the file"),
)
SPELLINGS = {"bytevalue": [], "print": ["--print"]}
LETTERS, LEAST_LINE, LINE_LENGTHS = 100_003, 40, 51
SCATTERED = ("btree", "hash", "btree, lines", "hash, lines")

# `salvage`
DAMAGED, SEED = 100, 20261128
SALVAGE_COLUMNS = (
    *("File", "Bytes of the file", "`bdbtool`", "`db5.3_dump -r`", "Ratio"),
    *("Peak of `bdbtool`, bytes", "Peak by file", "Items of `bdbtool`", "Items of `db5.3_dump -r`"),
)


class Step(NamedTuple):
    """The pages of a file, and the seconds that the program and the original take for it."""

    pages: int
    own: float
    original: float


class Spent(NamedTuple):
    """What a run took: seconds of user time, bytes of memory at its peak, and seconds of system time."""

    user: float
    peak: int
    system: float = 0.0

    def processor(self):
        """User and system time: both, since they are told apart by ticks of the clock alone, which is too coarse for a short run."""
        return self.user + self.system


class Sample(NamedTuple):
    """A file to dump: what it is called, its kind, how many items it has, and their lines in a dump text."""

    name: str
    kind: str
    items: int
    lines: object


def missing(program, tool):
    """What isn't there, and where it comes from; none where all is there."""
    if not pathlib.Path(program).is_file():
        return f"{program} isn't there; ./bdbtool builds it"
    lacking = [name for name in ("db5.3_load", tool) if shutil.which(name) is None]
    return f"{' and '.join(lacking)} not found; Debian's package db5.3-util has them" if lacking else None


def dump_text(kind, lines, page_size=PAGE_SIZE, settings=""):
    """A dump text with these data lines. Records of a queue have 72 bytes."""
    length = "re_len=72\n" if kind == "queue" else ""
    yield f"VERSION=3\nformat=print\ntype={kind}\n{length}{settings}db_pagesize={page_size}\nHEADER=END\n"
    yield from lines
    yield "DATA=END\n"


def pairs(count, least):
    """Keys of eight digits in scrambled order, no two the same, and data of so many letters at least and 63 more at most."""
    for i in range(count):
        key = i * 2654435761 % 2**32
        yield f" {key:08x}\n {'x' * (least + key % 64)}\n"


def ordered(count, least):
    """The same data under keys in ascending order."""
    for i in range(count):
        yield f" {i:08x}\n {'x' * (least + i % 64)}\n"


def records(count):
    """Records of 72 letters."""
    return (f" {'y' * 72}\n" for _ in range(count))


def long_pairs(count, length):
    """Keys of eight digits, and data of so many letters."""
    return (f" {i:08x}\n {'z' * length}\n" for i in range(count))


def lines_of_text(count):
    """Lines of 40 to 90 bytes, from space to tilde, always the same."""
    letters = "".join(random.Random(SEED).choices([chr(byte) for byte in range(32, 127) if byte != 92], k=LETTERS))
    for i in range(count):
        start = i * 7919 % (LETTERS - 2 * LEAST_LINE - LINE_LENGTHS)
        yield letters[start : start + LEAST_LINE + i * 31 % LINE_LENGTHS]


def pairs_of_lines(count):
    """Keys of eight digits in ascending order, and a line each."""
    return (f" {i:08x}\n {line}\n" for i, line in enumerate(lines_of_text(count)))


def repeated_keys(count, data):
    """Keys of eight digits in scrambled order, each with so many data of 72 letters and digits."""
    for i in range(count):
        for j in range(data):
            yield f" {i * 2654435761 % 2**32:08x}\n {j:08x}{'w' * 64}\n"


def one_chain(pages):
    """One pair, whose data fill so many small pages of a chain."""
    return iter([" 61\n", f" {'c' * ((SMALL_PAGE - 26) * pages)}\n"])


def make(name, kind, lines, folder, page_size=PAGE_SIZE, settings=""):
    """A new file. The library finds in the folder that its cache may hold the whole file."""
    image = folder / f"{name}.db"
    with subprocess.Popen(["db5.3_load", "-h", folder, image], stdin=subprocess.PIPE, text=True) as load:
        load.stdin.writelines(dump_text(kind, lines, page_size, settings))
    if load.returncode != 0:
        sys.exit(f"db5.3_load: status {load.returncode}")
    return image


def print_row(cells):
    print("| " + " | ".join(cells) + " |", flush=True)


def print_head(columns):
    print_row(columns)
    print("|---|" + "---:|" * (len(columns) - 1))


def seconds(words, image):
    """How long a run takes with the file on its standard input; the limit where it takes longer. It must find the file sound."""
    with image.open("rb") as standard_input:
        start = time.perf_counter()
        try:
            run = subprocess.run(words, stdin=standard_input, capture_output=True, timeout=LONGEST_RUN)
        except subprocess.TimeoutExpired:
            return float(LONGEST_RUN)
        taken = time.perf_counter() - start
    if run.returncode != 0:
        sys.exit(f"{words} over {image.name}: status {run.returncode}, {run.stderr.decode()}")
    return taken


def one_round(program, image):
    """The times of both on a file, one after the other."""
    return seconds([program, "verify"], image), seconds(["db5.3_verify", image], image)


def step(program, image):
    """The least times of a few rounds; of a single one where a run is long."""
    first = one_round(program, image)
    others = [] if max(first) >= LONG_RUN else [one_round(program, image) for _ in range(RUNS - 1)]
    return Step(image.stat().st_size // PAGE_SIZE, *(min(times) for times in zip(first, *others)))


def last_reason(step):
    """Why no larger file follows; none where one does."""
    if max(step.own, step.original) >= LONG_RUN:
        return f"a run took {LONG_RUN} seconds or more"
    if 10 * step.pages * PAGE_SIZE > LONGEST_INPUT:
        return f"ten times the pairs take more than {LONGEST_INPUT} bytes"
    return None


def growth(before, now):
    """By how much each number of a step is larger than before."""
    return ["–"] * len(now) if before is None else [f"× {after / number:.1f}" for number, after in zip(before, now)]


def measure(program, kind, folder):
    """Prints the rows of a kind; tells why the last is the last."""
    before, count = None, FEWEST_PAIRS
    while True:
        image = make(f"{kind}-{count}", kind, pairs(count, 0), folder)
        now = step(program, image)
        image.unlink()
        times = [f"{now.own:.3g}", f"{now.original:.3g}", f"{now.own / now.original:.3g}"]
        print_row([kind, f"{count:,}", f"{now.pages:,}", *times, *growth(before, now)])
        if reason := last_reason(now):
            return reason
        before, count = now, 10 * count


def time_verify(program, folder):
    """The table of `verify`."""
    print_head(GROWTH_COLUMNS)
    reasons = [f"{kind}: {measure(program, kind, folder)}." for kind in KINDS]
    print("\nWhy no larger file follows:\n", *reasons, sep="\n- ")


def spent(words, image):
    """What a run takes whose output is thrown away. It must end with status 0."""
    with image.open("rb") as standard_input:
        run = subprocess.Popen(words, stdin=standard_input, stdout=subprocess.DEVNULL)
        _, status, usage = os.wait4(run.pid, 0)
        run.returncode = os.waitstatus_to_exitcode(status)
    if run.returncode != 0:
        sys.exit(f"{words} over {image.name}: status {run.returncode}")
    return Spent(usage.ru_utime, 1024 * usage.ru_maxrss, usage.ru_stime)


def least_of(runs):
    """The least user time of some runs, and their least peak."""
    return Spent(min(run.user for run in runs), min(run.peak for run in runs))


def least(words, image):
    """The least that a few runs take."""
    return least_of([spent(words, image) for _ in range(RUNS)])


def spent_after(before, words, image):
    """What a run takes after a step before it."""
    before()
    return spent(words, image)


def turns(commands, image, count=TURNS, before=lambda: None):
    """What each of some commands took, which run by turns, each run after a step: so what else the machine does falls on all of them alike."""
    return list(zip(*([spent_after(before, words, image) for words in commands] for _ in range(count))))


def by_turns(commands, image, count=TURNS):
    """The least processor time of each of some commands, which run by turns, and its least peak."""
    return [(min(run.processor() for run in runs), min(run.peak for run in runs)) for runs in turns(commands, image, count)]


def samples(share=1):
    """The files to dump, or such files with a share of the items."""
    many, few = MILLION // share, LONG_VALUES // share
    return [
        Sample("btree", "btree", many, pairs(many, 40)),
        Sample("hash", "hash", many, pairs(many, 40)),
        Sample("recno", "recno", many, records(many)),
        Sample("queue", "queue", many, records(many)),
        Sample("btree, long values", "btree", few, long_pairs(few, LONG_BYTES)),
    ]


def load_samples(share=1):
    """The files to load the texts of: those to dump, and such whose data are lines."""
    many = MILLION // share
    return samples(share) + [
        Sample("btree, lines", "btree", many, pairs_of_lines(many)),
        Sample("hash, lines", "hash", many, pairs_of_lines(many)),
        Sample("recno, lines", "recno", many, (f" {line}\n" for line in lines_of_text(many))),
    ]


def print_dump(program, sample, folder):
    """A row of the table of `dump`."""
    image = make(sample.name, sample.kind, sample.lines, folder)
    size = image.stat().st_size
    runs = turns(([program, "dump"], ["db5.3_dump", "-k", image]), image, DUMP_TURNS)
    own, original = map(least_of, runs)
    image.unlink()
    times = [f"{own.user:.3g}", f"{original.user:.3g}", f"{own.user / original.user:.3g}"]
    above = max(0, own.peak - 1.3 * size) / sample.items
    print_row([sample.name, f"{sample.items:,}", f"{size:,}", *times, f"{own.peak:,}", f"{own.peak / size:.2f}", f"{above:.1f}"])


def time_dump(program, folder):
    """The table of `dump`."""
    print_head(DUMP_COLUMNS)
    for sample in samples():
        print_dump(program, sample, folder)


def print_range(name, count, run, judged, size):
    """A row of the table of `range`."""
    print_row([name, f"{count:,}", f"{run.user:.3g}", f"{run.user - judged.user:.3g}", f"{run.peak:,}", f"{run.peak / size:.2f}"])


def time_range(program, folder):
    """The table of `range`: the pairs stand in the middle of the file."""
    print_head(RANGE_COLUMNS)
    image = make("btree", "btree", pairs(MILLION, 40), folder)
    keys = sorted(f"{i * 2654435761 % 2**32:08x}" for i in range(MILLION))
    middle = MILLION // 2
    judged, size = least([program, "verify"], image), image.stat().st_size
    print_range("`verify`", 0, judged, judged, size)
    print_range("`get`", 1, least([program, "get", keys[middle]], image), judged, size)
    for count in RANGES:
        print_range("`range`", count, least([program, "range", keys[middle], keys[middle + count]], image), judged, size)
    print_range("`range`", MILLION, least([program, "range", "0", "g"], image), judged, size)
    print_range("`dump`", MILLION, least([program, "dump"], image), judged, size)


def scatter(text):
    """Puts the pairs of a dump text into an order of no kind, always the same. A process of its own does it: the peak of a program counts
    from what the one that starts it has."""
    child = os.fork()
    if child == 0:
        shuffle(text)
        os._exit(0)
    if os.waitpid(child, 0)[1] != 0:
        sys.exit(f"{text}: not put into another order")


def shuffle(text):
    """Does that, in memory."""
    lines = text.read_bytes().splitlines(keepends=True)
    first = lines.index(b"HEADER=END\n") + 1
    pairs = list(zip(lines[first:-1:2], lines[first + 1 : -1 : 2]))
    random.Random(MILLION).shuffle(pairs)
    with text.open("wb") as shuffled:
        shuffled.writelines(lines[:first])
        shuffled.writelines(itertools.chain.from_iterable(pairs))
        shuffled.write(lines[-1])


def is_read_by_original(sample, spelling):
    """Whether `db5.3_load` reads such a text: it loses its place in a printed one of records with numbers."""
    return spelling != "print" or sample.kind not in ("recno", "queue")


def print_load(program, name, spelling, sample, folder, before):
    """A row of the table of `load`, on a text that is already there, and what the program took."""
    text, built = folder / "text", folder / "built.db"
    with text.open("rb") as standard_input, built.open("wb") as standard_output:
        subprocess.run([program, "load"], stdin=standard_input, stdout=standard_output, check=True)
    size = built.stat().st_size
    original = [["db5.3_load", "-h", folder, built]] if is_read_by_original(sample, spelling) else []
    commands = ([program, "load"], ["md5sum"], *original)
    own, sums, *originals = map(least_of, turns(commands, text, RUNS, lambda: built.unlink(missing_ok=True)))
    long = text.stat().st_size
    grew = "–" if before is None else f"× {own.user / before.user:.1f}"
    above = max(0, own.peak - long - size) / sample.items
    beside = [f"{originals[0].user:.3g}", f"{own.user / originals[0].user:.3g}"] if originals else ["–", "–"]
    ratios = [f"{own.user:.3g}", *beside, f"{sums.user:.3g}", f"{own.user / sums.user:.3g}"]
    print_row([name, spelling, f"{sample.items:,}", f"{long:,}", f"{size:,}", *ratios, grew, f"{own.peak:,}", f"{above:.1f}"])
    return own


def load_spelling(program, sample, spelling, image, folder, before):
    """The rows of the text that `dump` gives of a file in a spelling, and of the same text with its pairs in no order where the kind has keys."""
    text = folder / "text"
    with image.open("rb") as standard_input, text.open("wb") as standard_output:
        subprocess.run([program, "dump", *SPELLINGS[spelling]], stdin=standard_input, stdout=standard_output, check=True)
    rows = [print_load(program, sample.name, spelling, sample, folder, before[0])]
    if sample.name in SCATTERED:
        scatter(text)
        rows.append(print_load(program, f"{sample.name}, in no order", spelling, sample, folder, before[-1]))
    return rows


def load_both(program, sample, folder, before):
    """The rows of a file's texts in both spellings. `before` has what the rows of a smaller one took, by spelling."""
    image = make(sample.name, sample.kind, sample.lines, folder)
    rows = {spelling: load_spelling(program, sample, spelling, image, folder, before.get(spelling, [None])) for spelling in SPELLINGS}
    image.unlink()
    return rows


def time_load(program, folder):
    """The table of `load`."""
    print_head(LOAD_COLUMNS)
    for quarter, whole in zip(load_samples(4), load_samples()):
        load_both(program, whole, folder, load_both(program, quarter, folder, {}))


def free_list(pages, folder):
    """A new btree without pairs, and so many small pages on its free list: page 0 names page 2, and each page the next."""
    last = pages + 1
    metadata = bytearray(SMALL_PAGE)
    struct.pack_into("<IIIIIIBBBBIIII", metadata, 0, 0, 1, 0, 0x53162, 9, SMALL_PAGE, 0, 9, 0, 0, 2, last, 0, 0)
    metadata[52:72] = bytes(range(20))
    struct.pack_into("<IIIII", metadata, 72, 0, 2, 0, 0x20, 1)
    leaf = struct.pack("<IIIIIHHBB", 0, 1, 1, 0, 0, 0, SMALL_PAGE, 1, 5).ljust(SMALL_PAGE, b"\0")
    image = folder / "free.db"
    with image.open("wb") as file:
        file.write(metadata)
        file.write(leaf)
        for page in range(2, last + 1):
            following = page + 1 if page < last else 0
            file.write(struct.pack("<IIIIIHHBB", 0, 1, page, 0, following, 0, 0, 0, 0).ljust(SMALL_PAGE, b"\0"))
    return image


def print_user(name, program, image):
    """A row of user times of `verify`."""
    size = image.stat().st_size
    own, original = least([program, "verify"], image), least(["db5.3_verify", image], image)
    image.unlink()
    print_row([name, f"{size:,}", f"{own.user:.3g}", f"{original.user:.3g}", f"{own.user / max(original.user, 0.001):.3g}"])


def kinds(folder):
    """A file of each kind, one after another."""
    for sample in samples():
        yield sample.name, make(sample.name, sample.kind, sample.lines, folder)
    yield "btree, in order", make("ordered", "btree", ordered(MILLION, 40), folder)
    for settings, name in (("duplicates=1\n", "btree, duplicates"), ("duplicates=1\ndupsort=1\n", "btree, sorted duplicates")):
        yield name, make(name, "btree", repeated_keys(10_000, 100), folder, settings=settings)


def print_kind(name, program, image):
    """A row of the table of `verify` on each kind. The commands run by turns."""
    commands = ([program, "verify"], ["db5.3_verify", image], ["md5sum"], ["cat"])
    runs = list(zip(*([spent(words, image) for words in commands] for _ in range(KIND_TURNS))))
    own, original, digest, _ = (min(run.user for run in each) for each in runs)
    system, copy = (min(run.system for run in each) for each in (runs[0], runs[3]))
    row = [name, f"{image.stat().st_size:,}", f"{own:.3g}"]
    for other in (original, digest):
        row += [f"{other:.3g}", f"{own / max(other, 0.001):.3g}"]
    print_row(row + [f"{system:.3g}", f"{copy:.3g}", f"{system / max(copy, 0.001):.3g}"])
    image.unlink()


def time_kinds(program, folder):
    """The table of `verify` on each kind."""
    print_head(KIND_COLUMNS)
    for name, image in kinds(folder):
        print_kind(name, program, image)


# `convert`
CONVERT_COLUMNS = ("File", "Bytes", "`convert`", "`verify`", "`cat`", "Above `verify`, copies", "Peak of `bdbtool`, bytes", "Peak by file")


def copied(image):
    """The seconds of processor time, user's and system's, that a copy by `cat` takes, the least of some."""
    best = None
    for _ in range(3):
        before = resource.getrusage(resource.RUSAGE_CHILDREN)
        with image.open("rb") as given, open(os.devnull, "wb") as sink:
            copy = subprocess.Popen(["cat"], stdin=given, stdout=subprocess.PIPE)
            subprocess.run(["tail", "-c", "1"], stdin=copy.stdout, stdout=sink, check=True)
            copy.wait()
        after = resource.getrusage(resource.RUSAGE_CHILDREN)
        taken = after.ru_utime + after.ru_stime - before.ru_utime - before.ru_stime
        best = taken if best is None else min(best, taken)
    return best


def print_convert(name, program, image):
    """A row of the table of `convert`."""
    size = image.stat().st_size
    (own, peak), (judged, _) = by_turns(([program, "convert", "big"], [program, "verify"]), image)
    copy = copied(image)
    image.unlink()
    times = [f"{own:.3g}", f"{judged:.3g}", f"{copy:.3g}", f"{(own - judged) / max(copy, 0.001):.3g}"]
    print_row([name, f"{size:,}", *times, f"{peak:,}", f"{peak / size:.2f}"])


def time_convert(program, folder):
    """The table of `convert`."""
    print_head(CONVERT_COLUMNS)
    for name, image in kinds(folder):
        print_convert(name, program, image)


# `stat`
STAT_COLUMNS = (
    *("File", "Bytes of the file", "`stat`, user", "`verify`, user", "Ratio", "Ratio with system time"),
    *("`db5.3_stat -f`, both", "Peak of `bdbtool`, bytes", "Peak by file"),
)


def print_stat(name, program, image):
    """A row of the table of `stat`."""
    size = image.stat().st_size
    own, judged, original = turns(([program, "stat"], [program, "verify"], ["db5.3_stat", "-f", "-d", image]), image)
    image.unlink()
    users = [min(run.user for run in runs) for runs in (own, judged)]
    both = [min(run.processor() for run in runs) for runs in (own, judged, original)]
    times = [*(f"{time:.3g}" for time in users), f"{users[0] / users[1]:.3g}", f"{both[0] / both[1]:.3g}", f"{both[2]:.3g}"]
    peak = min(run.peak for run in own)
    print_row([name, f"{size:,}", *times, f"{peak:,}", f"{peak / size:.2f}"])


def time_stat(program, folder):
    """The table of `stat`."""
    print_head(STAT_COLUMNS)
    for name, image in kinds(folder):
        print_stat(name, program, image)


def damage(image):
    """Overwrites every hundredth page by other bytes, which are the same in each run."""
    generator = random.Random(SEED)
    with image.open("r+b") as file:
        for page in range(DAMAGED - 1, image.stat().st_size // PAGE_SIZE, DAMAGED):
            file.seek(page * PAGE_SIZE)
            file.write(generator.randbytes(PAGE_SIZE))


def items(text):
    """How many pairs and records the lines of a dump text have."""
    count, lines, alone = 0, 0, False
    for line in text:
        if line.startswith(b" "):
            lines += 1
        elif line.startswith(b"type="):
            alone = line.strip() in (b"type=recno", b"type=queue")
        elif line.startswith(b"keys=1"):
            alone = False
        elif line.startswith(b"DATA=END"):
            count, lines, alone = count + (lines if alone else lines // 2), 0, False
    return count


def counted(words, image, ends=(0,)):
    """What a run takes whose output is read, and how many pairs and records that has."""
    with image.open("rb") as standard_input:
        run = subprocess.Popen(words, stdin=standard_input, stdout=subprocess.PIPE, stderr=subprocess.DEVNULL)
        count = items(run.stdout)
        _, status, usage = os.wait4(run.pid, 0)
        run.returncode = os.waitstatus_to_exitcode(status)
    if run.returncode not in ends:
        sys.exit(f"{words} over {image.name}: status {run.returncode}")
    return Spent(usage.ru_utime, 1024 * usage.ru_maxrss), count


def print_salvage(name, program, image):
    """A row of the table of `salvage`. The original is run once, since it takes long; it ends with status 1 where it finds faults."""
    size = image.stat().st_size
    own, (_, given) = least([program, "salvage"], image), counted([program, "salvage"], image)
    original, original_given = counted(["db5.3_dump", "-r", image], image, (0, 1))
    times = [f"{own.user:.3g}", f"{original.user:.3g}", f"{own.user / max(original.user, 0.001):.3g}"]
    print_row([name, f"{size:,}", *times, f"{own.peak:,}", f"{own.peak / size:.2f}", f"{given:,}", f"{original_given:,}"])


def time_salvage(program, folder):
    """The table of `salvage`."""
    print_head(SALVAGE_COLUMNS)
    for name, image in kinds(folder):
        print_salvage(name, program, image)
        damage(image)
        print_salvage(f"{name}, damaged", program, image)
        image.unlink()


# `repair`
BY_TURNS = 5
REPAIR_COLUMNS = (
    *("File", "Bytes of the file", "`repair`", "`salvage \\| load`", "Ratio"),
    *("Peak of `repair`, bytes", "Peak by file", "Peak of the pipe, bytes", "Bytes of the new file"),
)


def piped(program, image, *words):
    """What `salvage | load` takes, `salvage` with these words, both commands together: user time, and the greater peak; and how many bytes it writes."""
    with image.open("rb") as given:
        salvage = subprocess.Popen([program, "salvage", *words], stdin=given, stdout=subprocess.PIPE)
        load = subprocess.Popen([program, "load"], stdin=salvage.stdout, stdout=subprocess.PIPE)
        salvage.stdout.close()
        size = sum(len(piece) for piece in iter(lambda: load.stdout.read(1 << 20), b""))
        ends = [os.wait4(run.pid, 0) for run in (salvage, load)]
    for run, (_, status, _) in zip((salvage, load), ends):
        run.returncode = os.waitstatus_to_exitcode(status)
    if any(run.returncode for run in (salvage, load)):
        return None, 0
    return Spent(sum(usage.ru_utime for _, _, usage in ends), 1024 * max(usage.ru_maxrss for _, _, usage in ends)), size


SURVEY_COLUMNS = ("File", "Bytes of the file", "`survey`", "`salvage --apart`", "Ratio", "Peak of `survey`, bytes", "Peak by file")


def print_survey(name, program, image):
    """A row of the table of `survey`. Both run by turns, what they write is thrown away, and the least of each counts."""
    size = image.stat().st_size
    rounds = [(spent([program, "survey"], image), spent([program, "salvage", "--apart"], image)) for _ in range(BY_TURNS)]
    own, apart = (min(column) for column in zip(*rounds))
    times = [f"{own.user:.3g}", f"{apart.user:.3g}", f"{own.user / max(apart.user, 0.001):.3g}"]
    print_row([name, f"{size:,}", *times, f"{own.peak:,}", f"{own.peak / size:.2f}"])


def time_survey(program, folder):
    """The table of `survey`."""
    print_head(SURVEY_COLUMNS)
    for name, image in kinds(folder):
        print_survey(name, program, image)
        damage(image)
        print_survey(f"{name}, damaged", program, image)
        image.unlink()


def print_repair(name, program, image):
    """A row of the table of `repair`. Both run by turns, and the least of each counts. A pipe whose text is longer than an input may be has no time."""
    size = image.stat().st_size
    rounds = [(spent([program, "repair"], image), piped(program, image)) for _ in range(BY_TURNS)]
    own = min(it for it, _ in rounds)
    pipe, built = min((it for _, it in rounds if it[0]), default=(None, 0))
    both = [f"{pipe.user:.3g}", f"{own.user / max(pipe.user, 0.001):.3g}"] if pipe else ["–", "–"]
    ends = [f"{pipe.peak:,}", f"{built:,}"] if pipe else ["–", "–"]
    print_row([name, f"{size:,}", f"{own.user:.3g}", *both, f"{own.peak:,}", f"{own.peak / size:.2f}", *ends])


def time_repair(program, folder):
    """The table of `repair`."""
    print_head(REPAIR_COLUMNS)
    for name, image in kinds(folder):
        print_repair(name, program, image)
        damage(image)
        print_repair(f"{name}, damaged", program, image)
        image.unlink()


# `apart`
APART_COLUMNS = ("File", "Bytes", "`salvage`", "`salvage --apart`", "Ratio", "`repair --apart`", "`salvage --apart \\| load`", "Ratio")


def ratio_of(run, other):
    """The user times of a run and of another, and their ratio; none where the other has no time."""
    return [f"{run.user:.3g}", f"{other.user:.3g}", f"{run.user / max(other.user, 0.001):.3g}"] if other else [f"{run.user:.3g}", "–", "–"]


def print_apart(name, program, image):
    """A row of the table of `apart`. All run by turns, and the least of each counts. A pipe whose text is longer than an input may be has no time."""
    commands = (["salvage"], ["salvage", "--apart"], ["repair", "--apart"])
    rounds = [(*(spent([program, *words], image) for words in commands), piped(program, image, "--apart")[0]) for _ in range(BY_TURNS)]
    whole, apart, repair = (min(column) for column in list(zip(*rounds))[:3])
    pipe = min((it for *_, it in rounds if it), default=None)
    both = ratio_of(apart, whole)
    print_row([name, f"{image.stat().st_size:,}", both[1], both[0], both[2], *ratio_of(repair, pipe)])


def time_apart(program, folder):
    """The table of `apart`."""
    print_head(APART_COLUMNS)
    for name, image in kinds(folder):
        print_apart(name, program, image)
        damage(image)
        print_apart(f"{name}, damaged", program, image)
        image.unlink()


def chains(folder):
    """A file with each chain, and one with free pages, one after another."""
    for pages in CHAINS:
        yield f"a chain of {pages:,} pages", make(f"chain-{pages}", "btree", one_chain(pages), folder, SMALL_PAGE)
    yield f"{FREE_PAGES:,} free pages", free_list(FREE_PAGES, folder)


def time_chains(program, folder):
    """The table of `verify` on chains."""
    print_head(USER_COLUMNS)
    for name, image in chains(folder):
        print_user(name, program, image)


def growing(folder):
    """The file of each kind in the table of `verify` that has a million pairs."""
    for kind in KINDS:
        yield f"{kind}, data of 0 to 63", make(f"{kind}-{MILLION}", kind, pairs(MILLION, 0), folder)


def print_before(name, command, program, before, image, count):
    """A row of the table of two programs: a command on a file, run by turns so often."""
    (own, _), (other, _) = by_turns(([program, command], [before, command]), image, count)
    print_row([f"`{command}`, {name}", f"{image.stat().st_size:,}", f"{own:.3g}", f"{other:.3g}", f"{own / max(other, 0.001):.3f}"])


def time_before(program, before, folder):
    """The table of two programs. They run by turns, so that other work on the machine slows both."""
    print_head(BEFORE_COLUMNS)
    for name, image in itertools.chain(kinds(folder), growing(folder), chains(folder)):
        print_before(name, "verify", program, before, image, TURNS)
        image.unlink()
    for sample in samples():
        image = make(sample.name, sample.kind, sample.lines, folder)
        print_before(sample.name, "dump", program, before, image, DUMP_TURNS)
        image.unlink()


TABLES = {
    "verify": ("db5.3_verify", time_verify),
    "kinds": ("db5.3_verify", time_kinds),
    "chains": ("db5.3_verify", time_chains),
    "range": ("db5.3_dump", time_range),
    "dump": ("db5.3_dump", time_dump),
    "load": ("db5.3_load", time_load),
    "convert": ("db5.3_load", time_convert),
    "stat": ("db5.3_stat", time_stat),
    "survey": ("db5.3_load", time_survey),
    "salvage": ("db5.3_dump", time_salvage),
    "repair": ("db5.3_load", time_repair),
    "apart": ("db5.3_load", time_apart),
}


def main(table, program, before=None):
    tool, fill = TABLES.get(table, ("db5.3_load", None))
    os.environ["GLIBC_TUNABLES"] = TUNABLES
    if lack := next(filter(None, (missing(it, tool) for it in (program, before or program))), None):
        sys.exit(f"skipped: {lack}")
    with tempfile.TemporaryDirectory() as name:
        folder = pathlib.Path(name)
        (folder / "DB_CONFIG").write_text(CACHE)
        if before:
            time_before(program, before, folder)
        else:
            fill(program, folder)


if __name__ == "__main__":
    if len(sys.argv) == 4 and sys.argv[1] == "before":
        main(*sys.argv[1:])
    elif len(sys.argv) in (2, 3) and sys.argv[1] in TABLES:
        main(sys.argv[1], sys.argv[2] if len(sys.argv) == 3 else TOP / "crates/bdbtool/out/bdbtool")
    else:
        sys.exit(__doc__)
