#!/usr/bin/env python3
"""Turns a binary image into a list of antt, for laws that compute.

usage: image_to_list.py FILE [NAME]

Prints the definition `abbrev pub NAME : List ℕ` and its equation. A run of 4 or more equal bytes is
`replicate LENGTH BYTE`, the bytes between runs are `a ∷ b ∷ .. ∷ []`. The file that takes it imports `List`,
`ℕ`, `[]`, `◌∷◌`, `◌++◌` and `replicate` from Rattle.std.specs.Prelude. Without NAME the name is that of the file.
"""
import itertools
import pathlib
import re
import sys

SHORTEST_RUN = 4
BYTES_A_PIECE = 16
BRACKETS_A_LINE = 120


def pieces(data):
    """The image as `replicate` runs and short lists of bytes, in order, as text."""
    loose = []

    def spelled():
        """The bytes between two runs, a few to a piece."""
        for at in range(0, len(loose), BYTES_A_PIECE):
            yield " ∷ ".join(loose[at : at + BYTES_A_PIECE]) + " ∷ []"
        loose.clear()

    for byte, group in itertools.groupby(data):
        length = len(list(group))
        if length < SHORTEST_RUN:
            loose.extend([str(byte)] * length)
            continue
        yield from spelled()
        yield f"replicate {length} {byte}"
    yield from spelled()


def expression(parts):
    """The pieces joined from the right, a line each: `a ++ (b ++ (c))`."""
    if not parts:
        return "[]"
    lines = [part if part.startswith("replicate") else f"({part})" for part in parts[:-1]]
    closing = ")" * len(lines)
    last = max(0, BRACKETS_A_LINE - len(parts[-1]))
    closed = [closing[:last]] + [closing[at : at + BRACKETS_A_LINE] for at in range(last, len(closing), BRACKETS_A_LINE)]
    return " ++ (\n    ".join(lines + [parts[-1]]) + "\n    ".join(closed)


def main():
    if len(sys.argv) not in (2, 3):
        sys.exit(__doc__)
    path = pathlib.Path(sys.argv[1])
    name = sys.argv[2] if len(sys.argv) == 3 else re.sub(r"\W+", "_", path.stem)
    print(f"abbrev pub {name} : List ℕ")
    print(f"{name} =\n    {expression(list(pieces(path.read_bytes())))}")


if __name__ == "__main__":
    main()
