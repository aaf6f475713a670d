#!/usr/bin/env python3
"""check_documents.py: the limits that the documents keep. The status is 1 where one is broken, and each is told on a line.

- README.md has at most 120 lines, docs/CRATES.md 150, docs/BENCH.md 250 and docs/DECISIONS.md 300.
- No line has more than 120 columns, but rows of tables and examples.
- No run of 14 words stands in two places, but in examples and in pages that tools write. The manual page is read too,
  without its synopsis.
"""

import collections
import pathlib
import re
import sys

TOP = pathlib.Path(__file__).resolve().parent.parent
LINES = {"README.md": 120, "docs/CRATES.md": 150, "docs/BENCH.md": 250, "docs/DECISIONS.md": 300}
COLUMNS = 120
WORDS = 14
# Pages that tools write of the code, of the definitions and of both tools on the same files.
WRITTEN = {"docs/CALLS.md", "docs/ORIGINAL.md", "docs/DEFINITIONS.md"}
# Macros whose words are text: those of .B and .I with spaces between, those of the others without.
FONTS = {"B", "I", "BR", "RB", "BI", "IB", "IR", "RI"}
ESCAPES = {r"\-": "-", r"\e": "\\", r"\(aq": "'", r"\(lq": '"', r"\(rq": '"'}


def documents():
    """The documents of the repository, but those of crates' samples."""
    found = [TOP / "README.md", TOP / "CONTRIBUTING.md", *sorted((TOP / "docs").glob("*.md"))]
    found += [TOP / "samples/README.md", TOP / "real/README.md", TOP / "man/bdbtool.1"]
    return found + sorted((TOP / "crates").glob("*/README.md"))


def unescaped(text):
    """A line of roff without its changes of font, and with the characters that its escapes stand for."""
    text = re.sub(r"\\f.", "", text)
    for escape, character in ESCAPES.items():
        text = text.replace(escape, character)
    return text


def pages(path):
    """The lines of a manual page outside its synopsis and its examples, without macros, with their numbers."""
    ends = ""
    for number, line in enumerate(path.read_text(encoding="utf-8").splitlines(), 1):
        macro, _, rest = line[1:].partition(" ") if line.startswith(".") else ("", "", line)
        if ends:
            ends = "" if line.startswith(ends) else ends
        elif macro == "EX" or line == ".SH SYNOPSIS":
            ends = ".EE" if macro == "EX" else ".SH"
        elif macro in FONTS:
            words = [quoted or word for quoted, word in re.findall(r'"([^"]*)"|(\S+)', rest)]
            yield number, unescaped((" " if len(macro) == 1 else "").join(words))
        elif not macro:
            yield number, unescaped(line)


def prose(path):
    """The lines outside examples, with their numbers."""
    if path.suffix == ".1":
        yield from pages(path)
        return
    fenced = False
    for number, line in enumerate(path.read_text(encoding="utf-8").splitlines(), 1):
        if line.lstrip().startswith("```"):
            fenced = not fenced
        elif not fenced and not line.startswith("    "):
            yield number, line


def runs(path):
    """Each run of words of the document's prose, with the line on which it begins."""
    words = [(word, number) for number, line in prose(path) for word in re.findall(r"[a-z0-9']+", line.lower())]
    for at in range(len(words) - WORDS + 1):
        yield " ".join(word for word, _ in words[at : at + WORDS]), words[at][1]


def main():
    told = []
    for name, most in LINES.items():
        lines = len((TOP / name).read_text(encoding="utf-8").splitlines())
        if lines > most:
            told.append(f"{name}: {lines} lines, more than {most}")
    seen = collections.defaultdict(list)
    for path in documents():
        name = path.relative_to(TOP).as_posix()
        for number, line in prose(path):
            if len(line) > COLUMNS and not line.startswith("|"):
                told.append(f"{name}:{number}: {len(line)} columns")
        for run, number in runs(path) if name not in WRITTEN else ():
            seen[run].append((name, number))
    last = {}
    for run, places in seen.items():
        if len(places) < 2:
            continue
        first, second = places[0], places[1]
        is_later = last.get(first[0]) in (first[1], first[1] - 1)
        last[first[0]] = first[1]
        if is_later:
            continue
        told.append(f"{first[0]}:{first[1]} and {second[0]}:{second[1]}: {run}")
    print("\n".join(told) if told else "the documents keep their limits")
    return bool(told)


sys.exit(main())
