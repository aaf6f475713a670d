#!/usr/bin/env python3
"""Proves the crates of the program and builds it, where a proof of the longest chain of crates has all processors that are idle.

Usage: build_program.py PROGRAM LOG. It writes a line to standard error for each crate that is proved: which of how many it is, the minutes
so far, and about how many are to come. What the prover says goes to LOG. Status 0 where PROGRAM is written, 1 where a proof fails,
3 where the kit isn't as expected, before anything is proved.

What is proved of a crate is kept in crates/NAME/out/rlib, with the checksum of all that it was made from, so that a later build proves
only what changed and the crates above it. This is a build and not the gate: `rt ci` proves each crate from nothing.
"""
import fcntl
import hashlib
import os
import pathlib
import shutil
import signal
import subprocess
import sys
import tempfile
import time

TOP = pathlib.Path(__file__).resolve().parent.parent
GOAL = "bdbtool"
PARTS = ("src", "specs", "proofs")
# Which seconds each crate took: a crate to a line, by a tab.
SECONDS = TOP / "tools/build_seconds.tsv"
# A chain counts as the longest where it has this part of its seconds.
NEAR = 0.9


class Kit:
    """Where the toolchain's parts stand: beside the command `rt`."""

    def __init__(self):
        found = shutil.which("rt")
        self.folder = pathlib.Path(found).resolve().parent.parent if found else pathlib.Path("/nowhere")
        self.rattle = self.folder / "bin/rattle"
        self.project = self.folder / "rattle/logic/antt-project.json"
        self.built = self.folder / "logic_built"

    def is_whole(self):
        return all(it.exists() for it in (self.rattle, self.project, self.built, self.folder / "rlibs/std.rlib", self.folder / "toolchain"))

    def identity(self):
        return b"".join(it.read_bytes() for it in sorted(self.folder.glob("KIT-ID")) + sorted(self.folder.glob("WHAT")))


class Crate:
    """A crate of crates.txt, with the libraries that it names."""

    def __init__(self, name, names, crates, measured):
        self.name = name
        self.folder = TOP / "crates" / name
        self.below = [crates[it] for it in names if it in crates]
        self.of_kit = ["std"] + [it for it in names if it not in crates]
        self.is_program = (self.folder / "src/main.rt").exists()
        self.rlib = self.folder / f"out/rlib/{name}.rlib"
        files = [it for part in PARTS for it in sorted((self.folder / part).rglob("*")) if it.is_file()]
        texts = {it: it.read_bytes() for it in files}
        self.texts = [(str(it.relative_to(self.folder)), text) for it, text in texts.items()]
        code = sum(text.count(b"\n") for it, text in texts.items() if it.suffix == ".rt")
        proofs = sum(text.count(b"\n") for it, text in texts.items() if it.suffix == ".antt")
        # Seconds and bytes that a check takes by one process: as measured, or else by its lines.
        self.seconds = measured.get(name, 12 + 0.17 * code + 0.003 * proofs)
        self.memory = 1_000_000_000 + 1_000_000 * code + 200_000 * proofs

    def all_below(self):
        found = {}
        for it in self.below:
            found.update(it.all_below())
            found[it.name] = it
        return found

    def key(self, kit, keys):
        """The checksum of all that the library is made from."""
        made = hashlib.sha256(repr((kit.identity(), self.name, self.texts, [keys[it.name] for it in self.below])).encode())
        return made.hexdigest()

    def is_kept(self, key):
        stamp = self.rlib.parent / "proved"
        return self.rlib.is_dir() and stamp.is_file() and stamp.read_text() == key

    def words(self, kit, jobs):
        """The words of `rattle build` or `rattle check` behind the command itself."""
        words = ["--crate-name", self.name, "src/main.rt" if self.is_program else "src/lib.rt"]
        for it in self.of_kit:
            words += ["--extern", f"{it}={kit.folder}/rlibs/{it}.rlib"]
        words += ["-L", f"dependency={kit.folder}/rlibs"]
        for it in self.below:
            words += ["--extern", f"{it.name}={it.rlib}"]
        for it in self.all_below().values():
            words += ["-L", f"dependency={it.rlib.parent}"]
        words += ["--antt-project", str(kit.project), "--logic-built", str(kit.built), "--links", f"{self.name}=", "--jobs", str(jobs)]
        return words


def listed():
    """The crates that the program stands on, each after those below it, and its own last."""
    names, crates = {}, {}
    rows = (line.split("\t") for line in SECONDS.read_text().splitlines())
    measured = {name: float(seconds) for name, seconds in rows}
    for line in (TOP / "crates.txt").read_text().splitlines():
        name, colon, rest = line.split("#")[0].partition(":")
        if colon:
            names[name.strip()] = rest.split()

    def visit(name):
        if name in names and name not in crates:
            for it in names[name]:
                visit(it)
            crates[name] = Crate(name, names[name], crates, measured)

    visit(GOAL)
    return crates


def behind(crates):
    """The seconds of the longest chain of crates that ends at the program and begins with each."""
    found = {it: 0.0 for it in crates}
    for crate in reversed(list(crates.values())):
        found[crate.name] += crate.seconds
        for it in crate.below:
            found[it.name] = max(found[it.name], found[crate.name])
    return found


class Proof:
    """A proof that runs."""

    def __init__(self, crate, kit, jobs, is_first, log):
        self.crate, self.jobs, self.begun = crate, jobs, time.monotonic()
        self.memory = crate.memory * (1 + 0.6 * (jobs - 1))
        self.room = pathlib.Path(tempfile.mkdtemp(prefix="bdbtool-build-"))
        self.made = self.room / (f"{crate.name}.o" if crate.is_program else f"{crate.name}.rlib")
        self.said = open(self.room / "said", "w+", errors="replace")
        own = ["--toolchain", f"{kit.folder}/toolchain"] if crate.is_program else ["--statements"]
        words = [str(kit.rattle), "build", *crate.words(kit, jobs), *own, "-o", str(self.made)]

        def begin():
            # A group of its own, so that the copies that the prover forks end with it. The longest chain goes first: the others take what it leaves.
            os.setpgrp()
            os.nice(0 if is_first else 10)

        self.process = subprocess.Popen(words, cwd=crate.folder, stdin=subprocess.DEVNULL, stdout=self.said, stderr=subprocess.STDOUT, preexec_fn=begin)
        self.log = log

    def end(self):
        """Whether it is proved; the log then has what the prover said."""
        self.said.seek(0)
        self.log.write(f"== {self.crate.name}\n{self.said.read()}")
        self.log.flush()
        self.said.close()
        return self.process.returncode == 0

    def keep(self, key):
        rlib = self.crate.rlib
        shutil.rmtree(rlib.parent, ignore_errors=True)
        rlib.parent.mkdir(parents=True)
        shutil.move(str(self.made), str(rlib))
        (rlib.parent / "proved").write_text(key)

    def drop(self):
        if self.process.poll() is None:
            os.killpg(self.process.pid, signal.SIGKILL)
            self.process.wait()
        shutil.rmtree(self.room, ignore_errors=True)


class Build:
    def __init__(self, crates, kit, log):
        self.crates, self.kit, self.log = crates, kit, log
        self.behind = behind(crates)
        self.processors = len(os.sched_getaffinity(0))
        self.memory = 0.85 * free_memory()
        self.begun = time.monotonic()
        self.keys, self.done, self.running = {}, set(), []
        self.expected = self.taken = 1.0
        for crate in crates.values():
            self.keys[crate.name] = crate.key(kit, self.keys)
            if not crate.is_program and crate.is_kept(self.keys[crate.name]):
                self.done.add(crate.name)

    def ready(self):
        """The crates whose proof can begin, those of the longest chain first."""
        busy = {it.crate.name for it in self.running} | self.done
        found = [it for it in self.crates.values() if it.name not in busy and all(dep.name in self.done for dep in it.below)]
        return sorted(found, key=lambda it: -self.behind[it.name])

    def left_behind(self, proof):
        """The seconds of the longest chain that begins with what is left of a proof."""
        spent = (time.monotonic() - proof.begun) * self.expected / self.taken
        return self.behind[proof.crate.name] - min(spent, proof.crate.seconds)

    def start(self):
        """Begins as many proofs as there are processors: that of the longest chain with a process for each of them."""
        for crate in self.ready():
            left = self.memory - sum(it.memory for it in self.running)
            if len(self.running) >= self.processors or (self.running and crate.memory > left):
                return
            is_first = self.behind[crate.name] >= NEAR * max([self.left_behind(it) for it in self.running], default=0.0)
            room = 1 + int((left / crate.memory - 1) / 0.6)
            jobs = max(1, min(self.processors, room)) if is_first else 1
            self.running.append(Proof(crate, self.kit, jobs, is_first, self.log))

    def finish(self):
        """Waits until a proof has ended, and returns it."""
        while True:
            for it in self.running:
                if it.process.poll() is not None:
                    self.running.remove(it)
                    return it
            time.sleep(0.2)

    def minutes_to_go(self):
        left = [it for it in self.crates.values() if it.name not in self.done]
        chain = max([self.behind[it.name] for it in left], default=0.0)
        work = sum(it.seconds for it in left) / self.processors
        return max(chain * 0.7, work) * self.taken / self.expected / 60

    def tell(self, crate):
        minutes = (time.monotonic() - self.begun) / 60
        say(f"crate {len(self.done)} of {len(self.crates)} is proved: {crate.name}; {minutes:.0f} minutes so far, about {self.minutes_to_go():.0f} to go")

    def run(self, program):
        """Whether all is proved and the program is written."""
        if self.done:
            say(f"{len(self.done)} of {len(self.crates)} crates were proved before, from the same text")
        try:
            while len(self.done) < len(self.crates):
                self.start()
                proof = self.finish()
                if not proof.end():
                    say(f"{proof.crate.name} isn't proved")
                    return False
                self.expected += proof.crate.seconds
                self.taken += (time.monotonic() - proof.begun) * (1 if proof.jobs == 1 else 1.4)
                if proof.crate.is_program:
                    if not self.link(proof.made, program):
                        return False
                else:
                    proof.keep(self.keys[proof.crate.name])
                self.done.add(proof.crate.name)
                proof.drop()
                self.tell(proof.crate)
            return True
        finally:
            for it in self.running:
                it.drop()

    def link(self, made, program):
        folder = self.kit.folder
        words = [str(folder / "bin/rattle-link"), "--target", "x86_64-unknown-linux-gnu", "--toolchain", str(folder / "toolchain"), "-o", program, str(made)]
        words += [str(folder / "c/libos_c.a"), str(folder / "c/liblibc_c.a")]
        return subprocess.run(words, stdin=subprocess.DEVNULL, stdout=self.log, stderr=subprocess.STDOUT).returncode == 0


def free_memory():
    for line in open("/proc/meminfo"):
        if line.startswith("MemAvailable:"):
            return 1024 * int(line.split()[1])
    return 4_000_000_000


def say(line):
    print(f"bdbtool: {line}", file=sys.stderr, flush=True)


def main(words):
    program, log = (os.path.abspath(it) for it in words)
    for it in (signal.SIGTERM, signal.SIGHUP):
        signal.signal(it, lambda *_: sys.exit(1))
    kit = Kit()
    pathlib.Path(log).parent.mkdir(parents=True, exist_ok=True)
    if not kit.is_whole():
        pathlib.Path(log).write_text(f"{kit.folder} has not all parts of a toolchain: bin/rattle, rlibs, logic_built, rattle/logic, toolchain\n")
        return 3
    git = TOP / ".git"
    lock = open(git / "rt-ci.lock" if git.is_dir() else tempfile.gettempdir() + "/bdbtool-build.lock", "w")
    with lock, open(log, "w", errors="replace") as said:
        # The gate holds this lock too, since both write to out/ of each crate.
        fcntl.flock(lock, fcntl.LOCK_EX)
        return 0 if Build(listed(), kit, said).run(program) else 1


if __name__ == "__main__":
    sys.exit(main(sys.argv[1:]))
