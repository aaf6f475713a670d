#!/usr/bin/env python3
"""Turns a binary image into a constant of a test: hexadecimal texts of what isn't zeros, each with its place.

usage: image_to_hex.py FILE NAME

Prints `const NAME: Image`. A piece ends before a run of 8 or more zeros; its text goes on behind a backslash.
"""
import sys

from image_to_pieces import main

DIGITS_A_LINE = 80


def folded(digits, indent):
    """A text in parts that are short enough."""
    parts = [digits[at : at + DIGITS_A_LINE] for at in range(0, len(digits), DIGITS_A_LINE)]
    return f"\\\n{indent}".join(parts)


if __name__ == "__main__":
    if len(sys.argv) != 3:
        sys.exit(__doc__)
    main(
        sys.argv[1],
        f"pub const {sys.argv[2]}: Image = Image {{",
        lambda at, piece: f'({at}, "{folded(piece.hex(), " " * 13)}")',
    )
