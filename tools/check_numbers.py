#!/usr/bin/env python3
"""check_numbers.py: no number of a row, a page type or a flag stands in code outside its table.

It looks at the code of the crates that the program stands on, without comments and contracts. A row's numbers stand in
`bdb_format/src/rows.rt`, the bytes of page types in `pages.rt` there, flags in `flags.rt`. It prints each line that names
one elsewhere. Status 1 where there is any.
"""
import pathlib
import re
import sys

TOP = pathlib.Path(__file__).resolve().parent.parent
TABLES = {"bdb_format/src/pages.rt", "bdb_format/src/flags.rt", "bdb_format/src/rows.rt"}
NUMBER = r"(?:0x[0-9a-f]+|[0-9]+)\b"
SIGNS = {
    "a page type": [
        rf"\[25\] *(?:==|!=|<|>|=) *{NUMBER}",
        rf"\bpage_type(?:\([^()]*\))? *(?:==|!=|<|>) *{NUMBER}",
        rf"\bpage_type: *(?!0\b){NUMBER}",
        rf"\bheader\.page_type *(?:==|!=) *{NUMBER}",
    ],
    "a flag": [
        rf"\b\w*flags *(?:&|\||\+=|==|!=|<|>) *(?!0\b){NUMBER}",
        rf"\bhas_bit\((?:[^(),]|\([^()]*\))+, *{NUMBER}",
        rf"\bflag\([^,]+, *{NUMBER}",
    ],
    "a row": [
        rf"\b(?:stage|code): *{NUMBER}",
        rf"\b(?:stage|code)(?:\(\))? *(?:==|!=|<|>) *{NUMBER}",
    ],
}
MATCHED = re.compile(r"\bmatch [^{]*(?:\[25\]|\bpage_type\b|\bflags\b|\bstage\b|\bcode\b)[^{]*\{")


def product():
    """The crates that the program stands on."""
    needs = {}
    for line in (TOP / "crates.txt").read_text().splitlines():
        name, colon, rest = line.split("#")[0].partition(":")
        if colon:
            needs[name.strip()] = rest.split()
    found, open_ = set(), ["bdbtool"]
    while open_:
        name = open_.pop()
        if name in needs and name not in found:
            found.add(name)
            open_ += needs[name]
    return sorted(found)


def lines_of_code(text):
    """The numbers and texts of lines that run: no comment, contract or ghost."""
    clause = False
    for number, line in enumerate(text.splitlines(), 1):
        bare = line.split("//")[0].rstrip()
        if re.match(r" *(?:requires|ensures|invariant|ghost|#\[)", bare):
            clause = True
        elif clause and re.match(r" {8,}(?:→|\(|⊎|×|∷)", bare):
            continue
        else:
            clause = False
        if bare and not clause:
            yield number, bare


def main():
    bad = 0
    for name in product():
        for file in sorted((TOP / "crates" / name / "src").rglob("*.rt")):
            place = str(file.relative_to(TOP / "crates"))
            if place in TABLES:
                continue
            arms = 0
            for number, line in lines_of_code(file.read_text()):
                told = [what for what, signs in SIGNS.items() if any(re.search(it, line) for it in signs)]
                if MATCHED.search(line):
                    arms = len(line) - len(line.lstrip())
                    arms += 4
                elif arms and len(line) - len(line.lstrip()) < arms:
                    arms = 0
                elif arms and re.match(rf" {{{arms}}}{NUMBER}(?: *\| *{NUMBER})* *=>", line):
                    told.append("a number that is matched")
                for what in told:
                    bad += 1
                    print(f"{place}:{number}: {what}: {line.strip()}")
    return 1 if bad else 0


if __name__ == "__main__":
    sys.exit(main())
