#!/usr/bin/env python3
"""Has the programs that own database files use what the built program loads: of each dump text of real/dumps, of texts made here, and of their own files.

usage: check_clients.py [PROGRAM [WORD..]]

PROGRAM is the built program bdbtool; without it, crates/bdbtool/out/bdbtool. With WORDs only those uses are made in whose names, as
`hash single 512 1234, bsddb3`, one of them stands. A use asks a file for every key that it has, and for some that it hasn't, and goes through all pairs;
deletes, replaces and adds; and asks and goes through them again. The users are

- the library itself, through python3-bsddb3 and Perl's DB_File, on the texts of real/dumps in both byte orders and on those of tools/clients/texts.py;
- the programs of tools/clients/programs.py, by their own commands, on files of their own layout: the program makes a file of 1500 entries, and the text
  that `db5.3_dump` gives of it is loaded, as it is and with pages of 512 bytes, in the other byte order where the program minds none.

Before and after, PROGRAM's `verify` and `db5.3_verify` judge the file; any line of the latter but that it succeeded is a failure, whatever its status. After
the library's changes PROGRAM's `dump` has to have what was put.

Where something fails, the same is done with the file that `db5.3_load` builds of the text, and told beside it. The library sorts a page of a hash when it
writes to it, by an order that contradicts itself where a key of the page begins one that stands in a chain; and it breaks such chains where it adds data to
their keys on a full page. So a use of a hash with keys in chains isn't counted that fails after changes alone, or before them no oftener than with that file,
where it fails with that file too, or `db5.3_load` can't build one; as long as in all these uses together ours fail no oftener.

Prints a line for each use that fails, with the first answers that were otherwise where it counts, and then the counts; the exit status is 1 where one of the
last four isn't 0. A user that isn't installed is skipped, and its package told.
"""
import collections
import functools
import pathlib
import re
import shutil
import subprocess
import sys
import tempfile
from collections.abc import Callable
from typing import NamedTuple

from clients import library, programs, texts

TOP = pathlib.Path(__file__).resolve().parent.parent
SECONDS_A_RUN = 120
TOOLS = ("db5.3_verify", "db5.3_dump", "db5.3_load")
REFUSED = 8
SHOWN = 3
SUCCEEDED = re.compile(rb"BDB5105 Verification of .* succeeded\.\n")
FAILURES = {"missed": "keys missed", "present": "found that were deleted", "twice": "standing twice", "refused": "verifier failures"}


class File(NamedTuple):
    """A file that is to be used: its name, the dump text that says what it has, and what builds it, or gives None where the text is refused."""

    name: str
    text: bytes
    build: Callable


def run(*words, given=b""):
    return subprocess.run(words, input=given, capture_output=True, timeout=SECONDS_A_RUN, check=False)


def loaded(program, text):
    """The file that `load` builds of a text."""
    ran = run(program, "load", given=text)
    if ran.returncode not in (0, REFUSED):
        sys.exit(f"load ended with {ran.returncode}: {ran.stderr.decode()}")
    return None if ran.returncode else ran.stdout


def loaded_files(program):
    """What `load` builds of the texts of real/dumps, in both orders, and of those that are made."""
    for path in sorted((TOP / "real/dumps").iterdir()):
        for order in texts.ORDERS:
            text = texts.with_lines(path.read_bytes(), b"db_lorder=" + order)
            yield File(f"{path.name} {order.decode()}", text, functools.partial(loaded, program, text))
    for name, text in texts.made_texts():
        yield File(name, text, functools.partial(loaded, program, text))


def own_files(program, user, path):
    """What `load` builds of the text of a program's own file, as it is and with these lines."""
    text = run("db5.3_dump", str(path)).stdout
    for name, lines in own_names(user).items():
        other = texts.with_lines(text, *lines)
        yield File(name, other, functools.partial(loaded, program, other))


def own_names(user):
    """The names of the texts of a program's own file, and the lines that they have otherwise."""
    return {"own text": (), f"own text 512 {user.other_order.decode()}": (b"db_pagesize=512", b"db_lorder=" + user.other_order)}


PRODUCERS = (loaded_files,)
OWN_PRODUCERS = (own_files,)


def originals(text, folder):
    """The file that the original's tool builds of a text; None where it can't."""
    file = folder / "original.db"
    file.unlink(missing_ok=True)
    return None if run("db5.3_load", str(file), given=text).returncode else file.read_bytes()


def told(counts):
    """What failed, in words."""
    return ", ".join(f"{what} {counts[name]}" for name, what in FAILURES.items() if counts[name]) or "nothing"


class Uses:
    """What was used, and what failed: what counts, and what fails with db5.3_load's files too, ours and theirs, before and after changes."""

    def __init__(self, program, words):
        self.program, self.words = program, words
        self.counts = collections.Counter()
        self.ours, self.theirs = [collections.Counter(), collections.Counter()], [collections.Counter(), collections.Counter()]
        self.files = self.alike = self.refused = 0

    def verdict(self, path, tell):
        """How many verifiers find something."""
        ours = run(self.program, "verify", given=path.read_bytes())
        theirs = run("db5.3_verify", str(path))
        lines = SUCCEEDED.sub(b"", theirs.stdout) + theirs.stderr
        for name, wrong, said in ("verify", ours.returncode, ours.stderr), ("db5.3_verify", lines or theirs.returncode, lines):
            if wrong:
                tell(f"{name}: {' '.join(said.decode(errors='replace').split())[:200]}")
        return collections.Counter(refused=(ours.returncode != 0) + bool(lines or theirs.returncode))

    def dump_wrong(self, path, bases, tell):
        """Whether the dump has other pairs than were put."""
        found = texts.bases_of(run(self.program, "dump", given=path.read_bytes()).stdout)
        if list(map(texts.by_key, found)) == sorted(map(texts.by_key, bases), key=lambda named: named[0] or b""):
            return collections.Counter()
        tell("dump: other pairs")
        return collections.Counter(missed=1)

    def used(self, user, path, image, held):
        """How many keys a use asks for, what fails before and after its changes, and the lines that tell it."""
        lines = []
        path.write_bytes(image)
        verdict = self.verdict(path, lines.append)
        (before, after), bases = user.use(path, held, lines.append)
        before.update(verdict)
        after.update(self.verdict(path, lines.append))
        if bases is not None:
            after.update(self.dump_wrong(path, bases, lines.append))
        asked = before.pop("asked", 0) + after.pop("asked", 0)
        return asked, +before, +after, lines

    def is_wanted(self, name, user):
        return not self.words or any(word in f"{name}, {user.name}" for word in self.words)

    def take(self, file, image, user, path, held):
        """Uses a file; where something fails, the original's too."""
        asked, before, after, lines = self.used(user, path, image, held)
        self.files += 1
        self.counts["asked"] += asked
        if not before and not after:
            return
        original = originals(file.text, path.parent)
        there = self.used(user, path, original, held)[1:3] if original else None
        print(f"{file.name}, {user.name}: {told(before + after)}; db5.3_load's file: {told(there[0] + there[1]) if there else 'none'}", flush=True)
        if texts.has_long_keys(file.text) and (before <= there[0] and any(there) if there else not before):
            self.count_alike((before, after), there)
        else:
            self.counts += before + after
            print(*(f"    {line}" for line in lines[:SHOWN]), sep="\n", flush=True)

    def count_alike(self, ours, theirs):
        """Counts a use that fails with db5.3_load's file too, or of a text of which it can't build one."""
        self.alike += 1
        for at in range(2) if theirs else ():
            self.ours[at] += ours[at]
            self.theirs[at] += theirs[at]

    def use_libraries(self, users, folder):
        """Has the library use each file."""
        for file in (file for producer in PRODUCERS for file in producer(self.program)):
            wanted = [user for user in users if self.is_wanted(file.name, user)]
            image = file.build() if wanted else None
            self.refused += image is None and bool(wanted)
            bases = [] if image is None else texts.bases_of(file.text)
            for user in wanted if bases else ():
                if user.takes(file.name, bases):
                    self.take(file, image, user, folder / "file.db", bases)

    def use_programs(self, users, folder):
        """Has each program use files of its own layout."""
        for user in (user for user in users if any(self.is_wanted(name, user) for name in own_names(user))):
            room = folder / user.name.replace(" ", "-")
            room.mkdir()
            entries = user.entries(0, programs.ENTRIES)
            path = user.write(room, entries)
            if not path.exists():
                sys.exit(f"{user.name} wrote no file")
            for file in [file for producer in OWN_PRODUCERS for file in producer(self.program, user, path) if self.is_wanted(file.name, user)]:
                image = file.build()
                self.refused += image is None
                if image is not None:
                    self.take(file, image, user, path, entries)

    def summary(self):
        """The last lines. What is failed oftener in the uses that fail with db5.3_load's files too counts."""
        yield f"{self.files} uses of files; {self.refused} texts not supported"
        if self.alike:
            yield f"{self.alike} uses aren't counted, which fail with db5.3_load's file too, or of which it builds none:"
            for when, ours, theirs in zip(("before", "after"), self.ours, self.theirs):
                yield f"    {when} changes: {told(ours)}; there: {told(theirs)}"
        self.counts["missed"] += max(0, sum(self.ours, collections.Counter()).total() - sum(self.theirs, collections.Counter()).total())
        yield f"keys asked: {self.counts['asked']}"
        for name, what in FAILURES.items():
            yield f"{what}: {self.counts[name]}"


def installed(users):
    """The users that are there; of the others a line is printed."""
    for user in users:
        if user.lacking():
            print(f"skipped: {user.name}, of {user.lacking()}", flush=True)
    return [user for user in users if not user.lacking()]


def main():
    program = sys.argv[1] if len(sys.argv) > 1 else str(TOP / "crates/bdbtool/out/bdbtool")
    lacking = [tool for tool in TOOLS if shutil.which(tool) is None]
    if lacking:
        print(f"skipped: {', '.join(lacking)} isn't there; apt-get install db5.3-util")
        return 0
    uses = Uses(program, sys.argv[2:])
    with tempfile.TemporaryDirectory() as room:
        folder = pathlib.Path(room)
        folder.chmod(0o755)
        uses.use_libraries(installed(library.users()), folder)
        uses.use_programs(installed(programs.PROGRAMS), folder)
    print(*uses.summary(), sep="\n")
    return int(any(uses.counts[name] for name in FAILURES))


if __name__ == "__main__":
    sys.exit(main())
