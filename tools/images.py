#!/usr/bin/env python3
"""images.py [--check]: writes the images of crates/check_runs/data from its fields.txt, or with --check says which of them differ.

A part, `part NAME`, and a file, `file NAME LENGTH: PARTS..`, has lines of its own behind it: the number of a first byte, bytes as hexadecimal digits
(`62*400`: so often), and what they are. A file is zeros, its parts one after another, and its own lines over them, cut at its length.
"""

import sys
from pathlib import Path

DATA = Path(__file__).resolve().parent.parent / "crates/check_runs/data"


def bytes_of(spelled):
    digits, _, times = spelled.partition("*")
    return bytes.fromhex(digits) * int(times or 1)


def read(path):
    """The lines of each part, and each file with its length and its lines, those of its parts first."""
    parts, files, lines = {}, {}, []
    for number, line in enumerate(path.read_text().splitlines(), 1):
        words = line.split()
        if not words or words[0] == "#":
            continue
        if words[0] == "part":
            lines = parts[words[1]] = []
        elif words[0] == "file":
            lines = [field for name in words[3:] for field in parts[name]]
            files[words[1]] = (int(words[2].rstrip(":")), lines)
        elif line.startswith("  "):
            lines.append((int(words[0]), bytes_of(words[1])))
        else:
            sys.exit(f"{path}, line {number}: neither a part, a file nor a field")
    return files


def image_of(length, lines):
    end = max([length] + [at + len(piece) for at, piece in lines])
    image = bytearray(end)
    for at, piece in lines:
        image[at : at + len(piece)] = piece
    return bytes(image[:length])


def main():
    differ = 0
    for name, (length, lines) in read(DATA / "fields.txt").items():
        image, path = image_of(length, lines), DATA / name
        if sys.argv[1:] == ["--check"]:
            if not path.exists() or path.read_bytes() != image:
                print(f"{name} differs")
                differ += 1
        else:
            path.write_bytes(image)
    sys.exit(differ > 0)


main()
