#!/usr/bin/env python3
"""definitions.py [--check]: writes docs/DEFINITIONS.md, from its marker on: the definitions that the contracts of `run` rest on, with the comments above them.

They are found by their names, from the clauses of the calls of ROOTS on. With --check nothing is written; the status is 1 where the page isn't what the
comments give. The words above the marker are written by hand."""

import functools
import pathlib
import re
import sys
import textwrap

TOP = pathlib.Path(__file__).resolve().parent.parent
PAGE = TOP / "docs/DEFINITIONS.md"
# The columns of a line of text; a row of a table is one line.
WIDTH = 120
MARKER = "<!-- From here on the page is written by tools/definitions.py. -->\n"
# The calls whose clauses are the promise, and the file that they stand in.
ROOTS = TOP / "crates/bdb_tool/src/program.rt", ("run", "run_counted", "run_onto")
NAME = r"[^\W\d][\w'-]*"
DEFINITION = re.compile(r"(?:abbrev |unfoldable |opaque )?(?:pub )?(?:(?:record|data) (?P<type>[^\s({]+)|(?P<function>[^\s({=]+)(?= :))(?P<rest>.*)")
IMPORT = re.compile(r"^(?:ghost |pub )*use Rattle\.(\w+)\.specs\.((?:of_\w+\.)*)(\w+)\.\{([^}]*)\}", re.MULTILINE)
PASSED_ON = re.compile(r"^pub use Rattle\.(\w+)\.specs\.(\w+)$", re.MULTILINE)


def crates():
    for line in (TOP / "crates.txt").read_text(encoding="utf-8").splitlines():
        if ":" in line.split("#")[0]:
            yield line.split(":")[0].split()[0]


def cell(text):
    return text.replace("|", "\\|")


def code(text):
    return f"`{cell(text)}`"


def shape(lines, at):
    """Of a definition without a comment: its type, or the fields of its record."""
    rest = DEFINITION.match(lines[at])["rest"].strip()
    if re.match(r"(?:pub )?(?:record|data) ", lines[at]):
        fields = []
        for line in lines[at + 1 :]:
            if not line.startswith("  "):
                break
            fields += re.findall(r"^  (?:pub )?(\S+) :", line)
        return f"has {', '.join(map(code, fields))}" if fields else ""
    rest = rest.strip(" :") or (lines[at + 1].strip() if at + 1 < len(lines) else "")
    return f"of type {code(rest)}"


class Definition:
    """A definition: its words, and its text without comments."""

    def __init__(self, name, words):
        self.name, self.words, self.text = name, words, []


@functools.cache
def parsed(file):
    """What a file of definitions is about, its definitions in order, headings (without a name) among them, and what it imports, by its name there."""
    lines = file.read_text(encoding="utf-8").splitlines()
    found, comment, constructors = [], [], {}
    for at, line in enumerate(lines):
        begun = DEFINITION.match(line)
        if line.startswith("-- "):
            comment.append(line[3:].strip())
            continue
        if begun:
            found.append(Definition(begun["type"] or begun["function"], cell(" ".join(comment)) or shape(lines, at)))
        elif comment:
            found.append(Definition(None, cell(" ".join(comment))))
        comment = []
        if found and not line.startswith(("use ", "pub use ", "#")):
            found[-1].text.append(line)
            inner = re.match(rf"  (?:pub )?({NAME}) :", line)
            if inner and found[-1].name and inner[1][0].isupper():
                constructors[inner[1]] = found[-1].name
    says = found.pop(0).words if found and not found[0].name else ""
    return says, found, imports(file), constructors


def reached(crate, way):
    """The crate whose definitions an import names: the first one, or the last of those that it goes by, as `of_NAME`."""
    name = way.rstrip(".").rpartition(".")[2].removeprefix("of_")
    return next((it for it in (f"bdb_{name}", name) if name and (TOP / "crates" / it).exists()), crate)


def imports(file):
    found = {}
    for crate, way, module, names in IMPORT.findall(file.read_text(encoding="utf-8")):
        for name in filter(None, map(str.strip, names.split(","))):
            original, _, here = name.partition(" as ")
            found[(here or original).strip()] = (reached(crate, way), module, original.strip())
    return found


@functools.cache
def passed_on(crate):
    """The files of other crates that a crate passes on under its own name."""
    lib = TOP / "crates" / crate / "specs/Lib.antt"
    return {module: owner for owner, module in PASSED_ON.findall(lib.read_text(encoding="utf-8"))} if lib.exists() else {}


def resolve(crate, module, name):
    """The file and the name of the definition that an import brings in; nothing where it is the kit's."""
    file = TOP / "crates" / crate / "specs" / f"{module}.antt"
    if not file.exists():
        return resolve(passed_on(crate)[module], module, name) if module in passed_on(crate) else None
    _, definitions, brought, constructors = parsed(file)
    if any(it.name == name for it in definitions):
        return file, name
    if name in constructors:
        return file, constructors[name]
    return resolve(*brought[name]) if name in brought else None


def named_in(text, file):
    """The definitions that a text of a file names."""
    _, definitions, brought, constructors = parsed(file)
    own = {it.name for it in definitions}
    for word in set(re.findall(NAME, text)):
        if word in own:
            yield file, word
        elif word in constructors:
            yield file, constructors[word]
        elif word in brought and (found := resolve(*brought[word])):
            yield found


def clauses():
    """What the clauses of the calls of ROOTS name."""
    file, calls = ROOTS
    text = file.read_text(encoding="utf-8")
    brought = imports(file)
    for call in calls:
        contract = re.search(rf"pub fn {call}<.*?\n\{{\n", text, re.DOTALL)[0]
        for word in set(re.findall(NAME, contract)):
            if word in brought and (found := resolve(*brought[word])):
                yield found


def rested_on():
    """By its file, the names of the definitions that the clauses rest on; and the files, each after those that it rests on."""
    names, order, pending = {}, [], list(clauses())
    below = {}
    while pending:
        file, name = pending.pop()
        if name in names.setdefault(file, set()):
            continue
        names[file].add(name)
        for it in parsed(file)[1]:
            if it.name == name:
                for other, deeper in named_in("\n".join(it.text), file):
                    below.setdefault(file, set()).add(other)
                    pending.append((other, deeper))

    def place(file):
        if file in order or file in going:
            return
        going.add(file)
        for other in sorted(below.get(file, set()) - {file}):
            place(other)
        order.append(file)

    going, places = set(), {crate: at for at, crate in enumerate(crates())}
    for file in sorted(names, key=lambda it: (places[it.parent.parent.name], it.name)):
        place(file)
    return names, order


def table(file, names):
    """The rows of a file: its definitions that are rested on, and a heading where one of those that stand below it is."""
    says, definitions, _, _ = parsed(file)
    about = textwrap.wrap(says.rstrip(".") + ".", WIDTH, break_long_words=False, break_on_hyphens=False) if says else []
    lines = [f"### {file.parent.parent.name}: {file.name}", "", *about, *([""] if about else [])]
    lines += ["| Definition | What it says |", "|---|---|"]
    heading = None
    for it in definitions:
        if not it.name:
            heading = it.words
        elif it.name in names:
            lines += [f"| | *{heading}* |"] if heading else []
            lines.append(f"| {code(it.name)} | {it.words} |")
            heading = None
    return [*lines, ""]


def written():
    names, order = rested_on()
    count = sum(map(len, names.values()))
    lines = [f"{count:,} definitions in {len(order)} files.", ""]
    for file in order:
        lines += table(file, names[file])
    return "\n".join(lines)


def main():
    page = PAGE.read_text(encoding="utf-8")
    head, marker, _ = page.partition(MARKER)
    if not marker:
        sys.exit(f"definitions.py: {PAGE} has no marker {MARKER.strip()}")
    now = f"{head}{MARKER}\n{written()}"
    if "--check" in sys.argv[1:]:
        print("docs/DEFINITIONS.md is up to date" if now == page else "docs/DEFINITIONS.md isn't what the comments give: run tools/definitions.py")
        sys.exit(now != page)
    PAGE.write_text(now, encoding="utf-8")


main()
