#!/usr/bin/env python3
"""Turns a binary image into a constant of a test: its pieces that aren't zeros, each with its place.

usage: image_to_pieces.py FILE NAME

Prints `const NAME: Sample`. A piece ends before a run of 8 or more zeros.
"""
import pathlib
import sys

SHORTEST_GAP = 8
BYTES_A_LINE = 16


def pieces(data):
    """Places and bytes of what lies between long runs of zeros."""
    at = 0
    while at < len(data):
        if data[at] == 0:
            at += 1
            continue
        end = at
        while end < len(data) and any(data[end : end + SHORTEST_GAP]):
            end += 1
        yield at, data[at:end]
        at = end


def lines(piece):
    """The bytes of a piece, a few to a line."""
    for start in range(0, len(piece), BYTES_A_LINE):
        yield ", ".join(str(byte) for byte in piece[start : start + BYTES_A_LINE])


def main(file, opening, spelled):
    """Prints a constant that opens so, each piece spelled by its place and bytes."""
    data = pathlib.Path(file).read_bytes()
    print(opening)
    print(f"    size: {len(data)},")
    print("    pieces: &[")
    for at, piece in pieces(data):
        print(f"        {spelled(at, piece)},")
    print("    ],")
    print("};")


if __name__ == "__main__":
    if len(sys.argv) != 3:
        sys.exit(__doc__)
    main(
        sys.argv[1],
        f"const {sys.argv[2]}: Sample = Sample {{",
        lambda at, piece: f"Piece {{ at: {at}, bytes: &[{', '.join(lines(piece))}] }}",
    )
