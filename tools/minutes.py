#!/usr/bin/env python3
"""minutes.py FILE COMMAND..: runs a command that proves crates, as `.ci/run` or `./bdbtool verify`, and writes to FILE what each crate took.

The processes that prove are looked at five times a second while the command runs, those alone that it started: each names its crate, and
lies in a folder of its own where it tries an edit. FILE gets a line for each crate with the processor minutes of its proof, of its tests'
proof and of its must-fail edits, by tabs, and a last line `all` with those of the whole command, everything that it started counted in, by
the clock, and the load of the machine when it began and ended. The status is that of the command.
"""

import os
import re
import resource
import subprocess
import sys
import threading
import time
from collections import defaultdict

TICKS = os.sysconf("SC_CLK_TCK")
SECONDS_BETWEEN = 0.2
PARTS = ("proof", "tests", "edits")


def read(path):
    try:
        with open(path, "rb") as file:
            return file.read()
    except OSError:
        return b""


def prover(pid):
    """The crate and the part that a process proves, or None where it is no prover."""
    words = read(f"/proc/{pid}/cmdline").split(b"\0")
    if not words[0].endswith(b"rattle") or b"--crate-name" not in words:
        return None
    crate = words[words.index(b"--crate-name") + 1].decode()
    try:
        folder = os.readlink(f"/proc/{pid}/cwd")
    except OSError:
        return None
    if "/rt-edit" in folder:
        return crate, "edits"
    is_test = any(word.endswith(b"_tests.o") or word == b"--test" for word in words)
    return crate, "tests" if is_test else "proof"


def seconds(pid):
    """What a process has taken of the processors so far, by itself."""
    stat = read(f"/proc/{pid}/stat").rpartition(b") ")[2].split()
    return (int(stat[11]) + int(stat[12])) / TICKS if stat else None


def beginning(pid):
    """When a process began, which tells it from a later one of its number."""
    stat = read(f"/proc/{pid}/stat").rpartition(b") ")[2].split()
    return stat[19] if stat else None


def parent(pid):
    stat = read(f"/proc/{pid}/stat").rpartition(b") ")[2].split()
    return stat[1].decode() if stat else None


def is_of(pid, top):
    """Whether a process was started by another, or by one that it started."""
    while pid not in (None, "0", "1"):
        if pid == top:
            return True
        pid = parent(pid)
    return False


def watch(top, ended, taken):
    """Keeps what each prover below a process has taken, by process, until the command has ended."""
    while not ended.wait(SECONDS_BETWEEN):
        for pid in filter(str.isdigit, os.listdir("/proc")):
            found, now, key = prover(pid), seconds(pid), (pid, beginning(pid))
            if found and now is not None and (key in taken or is_of(pid, top)):
                taken[key] = found, now


def sums(taken):
    """The processor seconds of each crate and part."""
    found = defaultdict(float)
    for part, now in taken.values():
        found[part] += now
    return found


def write(path, found, whole, clock, load):
    crates = sorted({crate for crate, _ in found})
    with open(path, "w", encoding="utf-8") as file:
        file.write("\t".join(("crate", *PARTS)) + "\n")
        for crate in crates:
            file.write("\t".join((crate, *(f"{found[crate, part] / 60:.1f}" for part in PARTS))) + "\n")
        told = [sum(found[crate, part] for crate in crates) / 60 for part in PARTS]
        file.write("\t".join(("all", *(f"{it:.1f}" for it in told))) + f"\t{whole / 60:.1f} processor minutes, {clock / 60:.1f} by the clock, load {load}\n")


def main():
    if len(sys.argv) < 3 or re.match("-", sys.argv[1]):
        sys.exit(__doc__)
    ended, taken = threading.Event(), {}
    watcher = threading.Thread(target=watch, args=(str(os.getpid()), ended, taken))
    start, before = time.time(), os.getloadavg()[0]
    watcher.start()
    status = subprocess.run(sys.argv[2:], check=False).returncode
    ended.set()
    watcher.join()
    used = resource.getrusage(resource.RUSAGE_CHILDREN)
    write(sys.argv[1], sums(taken), used.ru_utime + used.ru_stime, time.time() - start, f"{before:.1f} to {os.getloadavg()[0]:.1f}")
    sys.exit(status)


if __name__ == "__main__":
    main()
