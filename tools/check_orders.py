#!/usr/bin/env python3
"""Asks the built program, with `--any-order`, about files whose programs compare keys, or the data of a key, in a way of their own.

usage: check_orders.py [PROGRAM [FILE..]]

PROGRAM is the built program; without it, crates/bdbtool/out/bdbtool. The files are those of real/orders, with their dump texts, and each FILE, of which
`db5.3_dump -k` gives one. Of each file `verify` must tell faults of order alone, KeyOrder, Separator and DuplicateOrder, or for a FILE none; `get` must tell
the first of them; `verify --any-order` must find it sound, `list --any-order` give the databases of the text, `dump --any-order` its data lines, in both
spellings and by name, and `get --any-order` the data of some of its keys. Prints a line for each answer that differs, and then how many files have none; the exit
status is 1 where a file has one.
"""
import pathlib
import re
import subprocess
import sys

import check_real

TOP = check_real.TOP
ORDERS = TOP / "real/orders"
OF_ORDER = re.compile(r"fault: stage 8 page \d+ code (3 KeyOrder|4 Separator|5 DuplicateOrder)")
# How many keys of each database are asked for.
ASKED = 25
SOUND = re.compile(r"sound, \d+ pages\n")
FORMS = {"bytevalue": [], "print": ["--print"]}


def text_of(path):
    """The dump text of the original: the one beside a file, or what its tool gives."""
    beside = path.with_name(path.name + ".dump")
    if beside.exists():
        return beside.read_text()
    return subprocess.run(["db5.3_dump", "-k", str(path)], capture_output=True, text=True, check=True).stdout


def judged(program, path):
    """What is wrong with the answers without a text."""
    plain = check_real.answer(program, ["verify"], path)
    told = plain.err.splitlines()
    if any(not OF_ORDER.fullmatch(line) for line in told) or (path.parent == ORDERS and not told):
        yield f"verify: {check_real.shown(tuple(plain))}"
    first = check_real.Answer(plain.status, "", check_real.lines_text(told[:1]))
    if told and check_real.answer(program, ["get", "a"], path) != first:
        yield "get: another answer than the first line of verify"
    given = check_real.answer(program, ["verify", "--any-order"], path)
    if given.status or given.err or not SOUND.fullmatch(given.out):
        yield f"verify --any-order: {check_real.shown(tuple(given))}"


def listed(program, path, bases):
    """What is wrong with the list."""
    lines = [" ".join([base.kind, *base.naming[1:]]) for base in bases]
    given = check_real.answer(program, ["list", "--any-order"], path)
    if given != check_real.Answer(0, check_real.lines_text(lines), ""):
        yield f"list --any-order: {check_real.shown(tuple(given))}"


def dumped(program, path, bases):
    """What is wrong with the dumps, whole and by name."""
    choices = [([], bases)] + [(base.naming, [base]) for base in bases if base.naming]
    for naming, chosen in choices:
        for form, spelled in FORMS.items():
            words = ["dump", "--any-order", *naming, *spelled]
            given = check_real.answer(program, words, path)
            data = [line for line in given.out.splitlines() if line.startswith(" ")]
            wanted = [" " + check_real.spelling(item, form) for base in chosen for pair in base.pairs for item in pair]
            if given.status or data != wanted:
                yield f"{' '.join(words)}: status {given.status}, {len(data)} data lines and not these {len(wanted)}"


def found(program, path, bases):
    """What is wrong with the data of keys: of some, spread over each list, and of one that isn't there."""
    for base in bases:
        under = {}
        for key, value in base.pairs:
            under.setdefault(key, []).append(value)
        keys = list(under)
        for key in keys[:: max(1, len(keys) // ASKED)]:
            words = ["get", "--any-order", *base.naming, *check_real.key_words(base, key)]
            wanted = check_real.lines_text([check_real.spelling(value, "bytevalue") for value in under[key]])
            if check_real.answer(program, words, path) != check_real.Answer(0, wanted, ""):
                yield f"{' '.join(words)}: not the {len(under[key])} data of the text"


def holds(program, path):
    """Whether all answers about a file are right; prints those that aren't."""
    bases = [check_real.database(*section) for section in check_real.sections(text_of(path))]
    wrong = [*judged(program, path), *listed(program, path, bases), *dumped(program, path, bases), *found(program, path, bases)]
    for line in wrong:
        print(f"{path.name}: {line}", flush=True)
    return not wrong


def main(program, files):
    if not pathlib.Path(program).is_file():
        sys.exit(f"{program} isn't there; ./bdbtool builds the program")
    paths = sorted(ORDERS.glob("*.db")) + [pathlib.Path(file) for file in files]
    right = [path for path in paths if holds(program, path)]
    print(f"{len(right)} of {len(paths)} hold")
    return len(right) == len(paths)


if __name__ == "__main__":
    if any(word.startswith("-") for word in sys.argv[1:]):
        sys.exit(__doc__)
    sys.exit(0 if main(sys.argv[1] if len(sys.argv) > 1 else TOP / "crates/bdbtool/out/bdbtool", sys.argv[2:]) else 1)
