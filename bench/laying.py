#!/usr/bin/env python3
"""Times the laying out of a value of 200 MB on pages beside copies of the same bytes.

usage: laying.py [PROGRAM [MEGABYTES]]

PROGRAM is the built program time_value; without it, crates/time_value/out/time_value. The value is made in a temporary folder, of bytes by
chance. Prints a Markdown table of user time, user and system time together, and peak memory, the least of five runs. `cat` hands the bytes
through, Python's `bytearray` copies them once in memory. What laying out takes is the difference of the program's two rows.
"""
import os
import pathlib
import sys
import tempfile

TOP = pathlib.Path(__file__).resolve().parent.parent
RUNS = 5

COPY = "import sys; value = sys.stdin.buffer.read(); copy = bytearray(value); print(len(copy))"
READ = "import sys; value = sys.stdin.buffer.read(); print(len(value))"


def once(words, text):
    """User seconds, user and system seconds, and peak memory in megabytes of one run on the text."""
    child = os.fork()
    if child == 0:
        os.dup2(os.open(text, os.O_RDONLY), 0)
        os.dup2(os.open(os.devnull, os.O_WRONLY), 1)
        os.execvp(words[0], words)
    _, status, usage = os.wait4(child, 0)
    if status != 0:
        sys.exit(f"{words[0]} ended with {status}")
    return usage.ru_utime, usage.ru_utime + usage.ru_stime, usage.ru_maxrss / 1024


def least(words, text):
    runs = [once(words, text) for _ in range(RUNS)]
    return [min(column) for column in zip(*runs)]


def main():
    program = sys.argv[1] if len(sys.argv) > 1 else str(TOP / "crates/time_value/out/time_value")
    megabytes = int(sys.argv[2]) if len(sys.argv) > 2 else 200
    if not pathlib.Path(program).is_file():
        sys.exit(f"{program} isn't there; `rt run` in crates/time_value builds it")
    rows = [
        ("`time_value`, reads and lays out", [program]),
        ("`time_value`, only reads", [program, "read"]),
        ("Python, reads and copies", [sys.executable, "-c", COPY]),
        ("Python, only reads", [sys.executable, "-c", READ]),
        ("`cat`", ["cat"]),
    ]
    with tempfile.TemporaryDirectory() as folder:
        text = os.path.join(folder, "value")
        with open(text, "wb") as value:
            for _ in range(megabytes):
                value.write(os.urandom(1000000))
        print("| | user s | user and system s | peak MB |\n|---|---:|---:|---:|")
        for name, words in rows:
            user, both, peak = least(words, text)
            print(f"| {name} | {user:.3f} | {both:.3f} | {peak:.0f} |")


if __name__ == "__main__":
    main()
