#!/usr/bin/env python3
"""Has the built program read each dump text of real/dumps and write it again, and compares the data lines.

usage: check_texts.py [PROGRAM]

PROGRAM is the built program check_dumps; without it, crates/check_dumps/out/check_dumps, which `rt run` builds in its crate. A text
with one of the header lines of REFUSED must be refused at that line, by its reason. Prints a line for each text that is answered
otherwise, and then how many hold and how many of these are refused; the exit status is 1 where one doesn't hold.
"""
import pathlib
import subprocess
import sys

TOP = pathlib.Path(__file__).resolve().parent.parent
SECONDS_A_RUN = 60
REFUSED = {b"chksum=1": 7, b"compressed=1": 3, b"extentsize=4": 7}


def refusal(text):
    """The line and the reason of the first header line that is refused, where there is one."""
    for number, line in enumerate(text.split(b"\n"), 1):
        if line in REFUSED:
            return f"line {number}: reason {REFUSED[line]}\n".encode()
    return None


def data_lines(text):
    return [line for line in text.split(b"\n") if line.startswith(b" ")]


def holds(program, text):
    run = subprocess.run([program], input=text, capture_output=True, timeout=SECONDS_A_RUN, check=False)
    refused = refusal(text)
    if refused is not None:
        return (run.returncode, run.stdout) == (8, refused)
    return run.returncode == 0 and data_lines(run.stdout) == data_lines(text)


def main():
    program = sys.argv[1] if len(sys.argv) > 1 else TOP / "crates/check_dumps/out/check_dumps"
    if not pathlib.Path(program).is_file():
        sys.exit(f"{program} isn't there; `rt run` in crates/check_dumps builds it")
    files = sorted((TOP / "real/dumps").iterdir())
    held = refused = 0
    for file in files:
        text = file.read_bytes()
        if holds(program, text):
            held += 1
            refused += refusal(text) is not None
        else:
            print(f"{file.name}: answered otherwise")
    print(f"{held} of {len(files)} hold, {refused} of these not supported")
    sys.exit(held != len(files))


if __name__ == "__main__":
    main()
