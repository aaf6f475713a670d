#!/usr/bin/env python3
"""Turns a dump text into a constant of a test: its data lines, as they stand.

usage: dump_to_list.py FILE NAME

Prints `const NAME: &str`. The pairs of a hash are sorted by their keys, each key's data in their order. A long line goes on
behind a backslash.
"""
import pathlib
import sys

LONGEST_LINE = 96


def data_lines(text):
    """The lines between header and footer."""
    lines = text.splitlines()
    return lines[lines.index("HEADER=END") + 1 : lines.index("DATA=END")]


def sorted_by_key(lines):
    """The same pairs, in the order of their keys."""
    pairs = sorted(zip(lines[::2], lines[1::2]), key=lambda pair: bytes.fromhex(pair[0]))
    return [line for pair in pairs for line in pair]


def folded(line):
    """A line in parts that are short enough."""
    return "\\\n".join(line[at : at + LONGEST_LINE] for at in range(0, len(line), LONGEST_LINE))


def main(file, name):
    text = pathlib.Path(file).read_text()
    lines = data_lines(text)
    if "type=hash" in text.splitlines():
        lines = sorted_by_key(lines)
    folded_lines = "\n".join(folded(line) for line in lines)
    print(f'pub const {name}: &str = "{folded_lines}";')


if __name__ == "__main__":
    if len(sys.argv) != 3:
        sys.exit(__doc__)
    main(sys.argv[1], sys.argv[2])
