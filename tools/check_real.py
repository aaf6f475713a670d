#!/usr/bin/env python3
"""Asks the built program about each file of real/expected.tsv and compares its answers with what the original library has there.

usage: check_real.py [PROGRAM]

PROGRAM is the built program; without it, crates/bdbtool/out/bdbtool. Each file of real/expected.tsv is given to `verify`, `list` and, for
each database of its dump text, `get` of the first, a middle and the last key, `range` of each half of its keys, and `dump` in both
spellings, whole and by name. Where `verify` finds no sound file, it must tell each fault of the table, and these commands the first of
them. Output, error lines and status are compared whole, but of a `dump` the names, kinds and data lines, those of a hash in the order of
their keys. Of a sound file `salvage` must give the pairs of all its btree and hash databases, and of the list of their names, and the
records of its recno databases, in any order. Prints a line for each answer that differs, and then how many files have none; the exit status
is 1 where a file has one.
"""
import collections
import itertools
import pathlib
import re
import subprocess
import sys
from typing import NamedTuple

TOP = pathlib.Path(__file__).resolve().parent.parent
REAL = TOP / "real"
# Where the gate wants the files of a program that it runs.
FILES = TOP / "crates/check_salvage/data"
SECONDS_A_RUN = 60
NOT_BTREE = 12
LONGEST_SHOWN = 120


class Answer(NamedTuple):
    """What a run of the program gives, or has to give."""

    status: int
    out: str
    err: str


class Row(NamedTuple):
    """A row of the table: a file, and the answers to `verify` and `list`. Where it isn't sound, `get`, `range` and `dump` answer as `list` does."""

    file: str
    verify: Answer
    list: Answer


class Database(NamedTuple):
    """A section of a dump text: the words that name it, its kind, and its pairs, those of a hash in the order of their keys."""

    naming: list
    kind: str
    pairs: list

    @property
    def data(self):
        """The data of each key, in order."""
        data = {}
        for key, value in self.pairs:
            data.setdefault(key, []).append(value)
        return data


def lines_text(lines):
    """Lines as they stand in a text."""
    return "".join(line + "\n" for line in lines)


def row(line):
    """The row that a line of the table is. Lines of one answer stand between bars. `verify` tells all of them, `list` the first."""
    file, judged, listed, _ = line.split("\t")
    status, told = judged.split(" ", 1)
    lines = told.split(" | ")
    if status != "0":
        return Row(file, Answer(int(status), "", lines_text(lines)), Answer(int(status), "", lines_text(lines[:1])))
    return Row(file, Answer(0, lines_text(lines), ""), Answer(0, lines_text(listed.split(" | ")), ""))


def table():
    """The rows below the heading."""
    return [row(line) for line in (REAL / "expected.tsv").read_text().splitlines()[1:]]


def unescaped(match):
    """The byte that a backslash and what follows spell: another backslash, or two digits."""
    return match[1] if match[1] == b"\\" else bytes.fromhex(match[1].decode())


def spelled_bytes(text, form):
    """The bytes that a line spells, in the format `bytevalue` or `print`."""
    if form == "bytevalue":
        return bytes.fromhex(text)
    return re.sub(rb"\\(\\|[0-9a-f]{2})", unescaped, text.encode())


def escaped(byte):
    """A byte as it is printed."""
    if byte == ord("\\"):
        return "\\\\"
    return chr(byte) if 0x20 <= byte <= 0x7E else f"\\{byte:02x}"


def spelling(data, form):
    """The line that spells bytes, in the format `bytevalue` or `print`."""
    return data.hex() if form == "bytevalue" else "".join(map(escaped, data))


def sections(text):
    """The fields of the header, and the lines of data without their space, of each section of a dump text."""
    lines = iter(text.splitlines())
    for version in lines:
        header = [version, *itertools.takewhile(lambda line: line != "HEADER=END", lines)]
        data = itertools.takewhile(lambda line: line != "DATA=END", lines)
        yield dict(field.split("=", 1) for field in header), [line[1:] for line in data]


def database(header, lines):
    """The database of a section, whose keys and data take turns."""
    items = [spelled_bytes(line, header["format"]) for line in lines]
    pairs = list(zip(items[::2], items[1::2], strict=True))
    if header["type"] == "hash":
        pairs.sort(key=lambda pair: pair[0])
    naming = ["--name", header["database"]] if "database" in header else []
    return Database(naming, header["type"], pairs)


def databases(file):
    """The databases of the dump text of a file; none where there is no text."""
    path = REAL / "dumps" / f"{file}.dump"
    return [database(*section) for section in sections(path.read_text())] if path.exists() else []


def some_keys(keys):
    """The first, a middle and the last key, each once."""
    return dict.fromkeys(keys[at] for at in (0, len(keys) // 2, -1)) if keys else []


def key_words(base, key):
    """The words that spell a key: the digits of a number, and two digits for each byte of another key."""
    return [key.decode()] if base.kind in ("recno", "queue") else ["--hex", key.hex()]


def gets(row, base):
    """The words of `get` for some keys of a database, each with the answer that it must have."""
    for key in some_keys(list(base.data)):
        found = Answer(0, lines_text(value.hex() for value in base.data[key]), "")
        yield ["get", *base.naming, *key_words(base, key)], found if row.verify.status == 0 else row.list


def ranges(row, base):
    """The words of `range` over the lesser half of a database's keys, and over the greater one but the last key, each with the answer that it must have."""
    keys = sorted(base.data)
    for first, last in (0, len(keys) // 2), (len(keys) // 2, -1):
        if keys:
            between = [item.hex() for pair in base.pairs if keys[first] <= pair[0] < keys[last] for item in pair]
            found = Answer(0, lines_text(between), "") if base.kind == "btree" else Answer(NOT_BTREE, "", "not a btree\n")
            yield ["range", *base.naming, "--hex", keys[first].hex(), keys[last].hex()], found if row.verify.status == 0 else row.list


def questions(row):
    """The words of each run on a file, with the answer that it must have."""
    yield ["verify"], row.verify
    yield ["list"], row.list
    for base in databases(row.file):
        yield from gets(row, base)
        yield from ranges(row, base)


def dump_lines(bases, form):
    """What is compared of a dump text: of each section the format, the words that name it, the kind, and the data lines."""
    return [(form, base.naming, base.kind, [spelling(item, form) for pair in base.pairs for item in pair]) for base in bases]


def shown_lines(text):
    """The same of a text that the program wrote."""
    return [
        (header["format"], ["--name", header["database"]] if "database" in header else [], header["type"], lines)
        for header, lines in sections(text)
    ]


def dumps(row):
    """The words of each `dump` on a file, the format, and the databases that it has to show."""
    bases = databases(row.file)
    for options, form in ([], "bytevalue"), (["--print"], "print"):
        yield ["dump", *options], form, bases
        for base in bases:
            if base.naming:
                yield ["dump", *options, *base.naming], form, [base]


def dump_mismatch(given, expected, form, bases):
    """What is wrong with the answer to a `dump`; none where nothing is."""
    if expected.status != 0:
        return None if given == expected else f"{shown(tuple(given))} and not {shown(tuple(expected))}"
    if (given.status, given.err) != (0, ""):
        return shown(tuple(given))
    lines, wanted = shown_lines(given.out), dump_lines(bases, form)
    return None if lines == wanted else f"{shown(lines)} and not {shown(wanted)}"


def counted(bases, kinds):
    """How often each pair stands in the databases of these kinds."""
    return collections.Counter(pair for base in bases if base.kind in kinds for pair in base.pairs)


def without_names(pairs, names):
    """The pairs without those of the list of names: each name has the number of a page, in four bytes."""
    for name in names:
        for pair in [pair for pair in pairs if pair[0] == name and len(pair[1]) == 4][:1]:
            pairs = pairs - collections.Counter([pair])
    return pairs


def salvage_mismatch(given, bases):
    """What is wrong with what is salvaged of a sound file; none where nothing is."""
    if (given.status, given.err) != (0, ""):
        return shown(tuple(given))
    texts = {header["database"]: database(header, lines) for header, lines in sections(given.out)}
    names = [spelled_bytes(base.naming[1], "print") for base in bases if base.naming]
    pairs = without_names(counted([texts["salvaged"]], ["btree"]), names)
    records = sorted(value for name in texts if name == "loose" for _, value in texts[name].pairs)
    wanted = sorted(value for base in bases if base.kind == "recno" for _, value in base.pairs)
    if pairs != counted(bases, ["btree", "hash"]):
        return f"{sum(pairs.values())} pairs that aren't those of the file"
    return None if records == wanted else f"{shown(records)} and not {shown(wanted)}"


def answer(program, words, path):
    """What the program answers to the words and the file on its standard input."""
    with path.open("rb") as image:
        try:
            run = subprocess.run([program, *words], stdin=image, capture_output=True, timeout=SECONDS_A_RUN)
        except subprocess.TimeoutExpired:
            return Answer(-1, "", f"no end within {SECONDS_A_RUN} seconds")
    return Answer(run.returncode, run.stdout.decode("latin-1"), run.stderr.decode("latin-1"))


def shown(value):
    """A value in one line, cut where it's long."""
    spelled = repr(value)
    return spelled if len(spelled) <= LONGEST_SHOWN else spelled[:LONGEST_SHOWN] + ".."


def mismatches(program, row):
    """A line for each answer about a file that isn't what it must be."""
    for words, expected in questions(row):
        given = answer(program, words, FILES / row.file)
        if given != expected:
            yield f"{row.file}: {shown(' '.join(words))}: {shown(tuple(given))} and not {shown(tuple(expected))}"
    for words, form, bases in dumps(row):
        wrong = dump_mismatch(answer(program, words, FILES / row.file), row.list, form, bases)
        if wrong:
            yield f"{row.file}: {shown(' '.join(words))}: {wrong}"
    if row.verify.status == 0:
        wrong = salvage_mismatch(answer(program, ["salvage"], FILES / row.file), databases(row.file))
        if wrong:
            yield f"{row.file}: salvage: {wrong}"


def holds(program, row):
    """Whether all answers about a file are right; prints those that aren't."""
    wrong = list(mismatches(program, row))
    print(lines_text(wrong), end="", flush=True)
    return not wrong


def main(program):
    if not pathlib.Path(program).is_file():
        sys.exit(f"{program} isn't there; ./bdbtool builds the program")
    rows = table()
    right = [row.file for row in rows if holds(program, row)]
    print(f"{len(right)} of {len(rows)} hold")
    return len(right) == len(rows)


if __name__ == "__main__":
    if len(sys.argv) > 2:
        sys.exit(__doc__)
    sys.exit(0 if main(sys.argv[1] if len(sys.argv) == 2 else TOP / "crates/bdbtool/out/bdbtool") else 1)
