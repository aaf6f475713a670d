"""Users of database files through Berkeley DB's library alone: python3-bsddb3, Perl's DB_File, and db5.3_dump for names."""
import collections
import pathlib
import random
import shutil
import subprocess
import tempfile

from . import changes, texts

HERE = pathlib.Path(__file__).resolve().parent
SECONDS_A_RUN = 120
SHOWN = 80
PYTHONS = ("/usr/bin/python3", "python3")


def scan_wrong(base, step, answer):
    """What is wrong with the pairs that a scan gave: how many are missing, are there though they are gone, or stand twice."""
    pairs = [list(zip(words[::2], words[1::2])) for words in (step.expected, answer)]
    if step.line == "back":
        pairs[1].reverse()
    expected, found = map(collections.Counter, pairs)
    keys = {key for key, _ in expected}
    more = found - expected
    twice = sum(count for (key, _), count in more.items() if key in keys)
    wrong = collections.Counter(missed=(expected - found).total(), present=more.total() - twice, twice=twice)
    if base.kind == "hash":
        pairs = [sorted(some, key=lambda pair: pair[0]) for some in pairs]
    if not wrong.total() and pairs[0] != pairs[1]:
        wrong["missed"] += 1
    return wrong


def step_wrong(base, step, answer):
    """What is wrong with an answer: of a key that has to be there, or of one that is gone, or of a scan."""
    if step.use == "scanned" and answer[:1] != ["!"]:
        return scan_wrong(base, step, answer)
    if answer == step.expected:
        return collections.Counter()
    return collections.Counter({"present" if step.use == "gone" else "missed": 1})


def is_said(name):
    """Whether bsddb3 can say a name: it has no bytes but those of UTF-8."""
    return name is None or name.decode(errors="replace").encode() == name


class Named:
    """The original's db5.3_dump, which asks for each name, and for one that isn't there."""

    name, package = "db5.3_dump -s", "db5.3-util"

    def lacking(self):
        return None if shutil.which("db5.3_dump") else self.package

    def takes(self, _, bases):
        return bases[0].name is not None

    def use(self, path, bases, tell):
        """Gives what was wrong with the dumps of the names, and the databases, which are as before."""
        counts = collections.Counter(asked=len(bases) + 1)
        for base in bases:
            ran = subprocess.run(["db5.3_dump", "-k", "-s", base.name, str(path)], capture_output=True, timeout=SECONDS_A_RUN, check=False)
            if ran.returncode or texts.by_key(texts.bases_of(ran.stdout)[0]._replace(name=base.name)) != texts.by_key(base):
                tell(f"{base.name}: {ran.stderr.decode(errors='replace').strip() or 'other pairs'}")
                counts["missed"] += 1
        other = bases[-1].name + b"x"
        counts["present"] += subprocess.run(["db5.3_dump", "-s", other, str(path)], capture_output=True, timeout=SECONDS_A_RUN, check=False).returncode == 0
        return (counts, collections.Counter()), bases


class Library:
    """A helper that reads steps and answers them. `takes` says of a file, by its name and databases, whether it is used; `opening` gives the words
    that the helper has after its path, of its first database and an empty folder."""

    def __init__(self, name, package, words, takes=lambda name, bases: True, opening=lambda base, folder: []):
        self.name, self.package, self.words, self.takes, self.opening = name, package, words, takes, opening

    def lacking(self):
        return None if self.words else self.package

    def use(self, path, bases, tell):
        """Takes the steps of each database of a file; gives what was wrong before and after changes, and what the databases have to have after them."""
        states = [changes.state_of(base, random.Random(f"{base.name} {base.kind} {len(base.pairs)}")) for base in bases if is_said(base.name)]
        steps = [(state.base, step) for state in states for step in changes.steps_of(state)]
        with tempfile.TemporaryDirectory() as folder:
            answers = self.answers([str(path), *self.opening(bases[0], folder)], [step.line for _, step in steps], tell)
        counts = collections.Counter(), collections.Counter()
        for (base, step), answer in zip(steps, answers):
            wrong = step_wrong(base, step, answer)
            if wrong.total():
                tell(f"{step.line[:SHOWN]}: {' '.join(answer)[:SHOWN] or '-'}, not {' '.join(step.expected)[:SHOWN] or '-'}")
            counts[step.changed].update(wrong)
            counts[step.changed]["asked"] += step.use in ("asked", "gone")
        after = {state.base.name: state.base._replace(pairs=state.pairs()) for state in states}
        return counts, [after.get(base.name, base) for base in bases]

    def answers(self, words, lines, tell):
        """The helper's answers to lines, of words; a run that ends early answers the rest by none."""
        try:
            ran = subprocess.run([*self.words, *words], input="\n".join(lines) + "\n", capture_output=True, text=True, timeout=SECONDS_A_RUN, check=False)
            answers, end = [[] if line == "-" else line.split() for line in ran.stdout.splitlines()], (ran.returncode, ran.stderr.strip()[-SHOWN:])
        except subprocess.TimeoutExpired:
            answers, end = [], ("no end", "")
        if end != (0, ""):
            tell(f"ended with {end[0]}: {end[1]}")
            answers = answers[: len(lines) - 1]
        return answers + [["!", "no answer"]] * (len(lines) - len(answers))


def bsddb3_words():
    """The words that run by_bsddb3.py with a Python that has bsddb3; none where there is none."""
    for python in map(shutil.which, PYTHONS):
        if python and subprocess.run([python, "-c", "import bsddb3"], capture_output=True, check=False).returncode == 0:
            return [python, str(HERE / "by_bsddb3.py")]
    return []


def db_file_words():
    """The words that run by_db_file.pl; none where Perl hasn't DB_File."""
    perl = shutil.which("perl")
    if perl and subprocess.run([perl, "-MDB_File", "-e", "1"], capture_output=True, check=False).returncode == 0:
        return [perl, str(HERE / "by_db_file.pl")]
    return []


def is_plain(_, bases):
    """Whether DB_File is for it: its recno is a text file, its hashes have no duplicates, and it knows no names and no queues."""
    base = bases[0]
    return base.name is None and (base.kind == "btree" or (base.kind == "hash" and not base.duplicates))


def is_for_transactions(name, _):
    """Whether a file is used in an environment too: of each kind one of each byte order."""
    return name.endswith((" 512 4321", " 4096 1234"))


def users():
    return (
        Library("bsddb3", "python3-bsddb3", bsddb3_words()),
        Library("bsddb3 transactions", "python3-bsddb3", bsddb3_words(), is_for_transactions, lambda base, folder: [folder]),
        Library("DB_File", "perl", db_file_words(), is_plain, lambda base, folder: [base.kind, base.duplicates]),
        Named(),
    )
