#!/usr/bin/env python3
"""Has each allocation of the built program fail in turn, for every command.

usage: check_memory.py [PROGRAM]

PROGRAM is the built program bdbtool; without it, crates/bdbtool/out/bdbtool. An allocator that refuses its call number K, alone or with every call after
it, is compiled with gcc and preloaded. Each command runs on inputs for which it ends with status 0, and `verify` and `list` also on files with several faults
or a case that is left out, for K from 1 up to the first run in which no call is refused. In each run before that the status is 7, the error output is
`out of memory` alone, and the output is a beginning of that of the whole run; or, where one call alone is refused, all is as in the whole run: room that
is taken beforehand is done without. Prints a line for each run that is otherwise, and then for each command how many calls were refused, and how many of
those alone were done without; the exit status is 1 where a run is otherwise. Without gcc nothing is asked.
"""
import pathlib
import shutil
import subprocess
import sys
import tempfile

TOP = pathlib.Path(__file__).resolve().parent.parent
SECONDS_A_RUN = 60
MEMORY = 7
NAMED, LONG = (TOP / "crates/check_salvage/data" / name for name in ("sub_one_512_le.db", "bt_dup_ovdata_1024_le.db"))
TEXTS = [TOP / "real/dumps" / f"{it.name}.dump" for it in (NAMED, LONG)]
# Files of which several things are told: a fault of ten leaves and pages, a case that is left out beside a fault, and faults of a master.
OUT_OF_ORDER = TOP / "crates/check_salvage/data/bt_owncmp_1024_be.db"
LEFT_OUT, NAMED_TWICE = (TOP / "crates/check_images/data" / f"{it}.db" for it in ("stage2-code15-many-1", "stage7-code04-many-0"))
# The words, the input, and the status of the whole run.
COMMANDS = [
    *[([command], file, 0) for command in ("verify", "list", "dump", "survey", "salvage") for file in (NAMED, LONG)],
    (["survey"], NAMED_TWICE, 0),
    *[([command, "--print"], LONG, 0) for command in ("dump", "salvage")],
    (["get", "--name", "only", "a"], NAMED, 0),
    (["range", "--name", "only", "a", "b"], NAMED, 0),
    (["range", "--print", "0", "z"], LONG, 0),
    (["repair"], NAMED, 0),
    (["repair", "--as", "btree", "--duplicates"], LONG, 0),
    (["repair", "--as", "hash"], LONG, 0),
    (["convert", "big"], NAMED, 0),
    (["convert", "little"], LONG, 0),
    *[(["stat"], file, 0) for file in (NAMED, LONG)],
    *[(["load"], text, 0) for text in TEXTS],
    *[(["load", "--onto", str(file)], text, 0) for file, text in zip((NAMED, LONG), TEXTS)],
    *[(["trial", kind, "1", "300"], None, 0) for kind in ("btree", "hash", "recno", "queue")],
    *[([command], file, 1) for command in ("verify", "list") for file in (OUT_OF_ORDER, NAMED_TWICE)],
    (["verify"], LEFT_OUT, 3),
]

# The C library's own calls stand behind these under other names, so nothing has to be looked up.
ALLOCATOR = r"""
#include <errno.h>
#include <fcntl.h>
#include <limits.h>
#include <stdlib.h>
#include <unistd.h>

extern void *__libc_malloc(size_t);
extern void *__libc_calloc(size_t, size_t);
extern void *__libc_realloc(void *, size_t);
extern void *__libc_memalign(size_t, size_t);

static long refused = -1, last = -1, calls = 0;

/* Whether this call is refused: number REFUSED, and with ALL every one after it. The file TOLD stands from then on. */
static int refuses(void) {
    if (refused < 0) {
        const char *number = getenv("REFUSED");
        refused = number ? atol(number) : 0;
        last = getenv("ALL") ? LONG_MAX : refused;
    }
    calls++;
    if (refused == 0 || calls < refused || calls > last) return 0;
    if (calls == refused && getenv("TOLD")) close(open(getenv("TOLD"), O_CREAT | O_WRONLY, 0600));
    errno = ENOMEM;
    return 1;
}

void *malloc(size_t size) { return refuses() ? 0 : __libc_malloc(size); }
void *calloc(size_t count, size_t size) { return refuses() ? 0 : __libc_calloc(count, size); }
void *realloc(void *old, size_t size) { return refuses() ? 0 : __libc_realloc(old, size); }
void *aligned_alloc(size_t alignment, size_t size) { return refuses() ? 0 : __libc_memalign(alignment, size); }

int posix_memalign(void **to, size_t alignment, size_t size) {
    if (refuses()) return ENOMEM;
    *to = __libc_memalign(alignment, size);
    return *to ? 0 : ENOMEM;
}
"""


def built(folder):
    """The allocator, compiled."""
    code, library = folder / "refusing.c", folder / "refusing.so"
    code.write_text(ALLOCATOR)
    subprocess.run(["gcc", "-O2", "-shared", "-fPIC", "-o", str(library), str(code)], check=True)
    return library


def run(program, words, file, settings):
    given = file.open("rb") if file else subprocess.DEVNULL
    try:
        return subprocess.run([program, *words], stdin=given, capture_output=True, timeout=SECONDS_A_RUN, env=settings, check=False)
    finally:
        if file:
            given.close()


def refused_calls(program, words, file, status, settings, told):
    """How many calls of a run can be refused, how many were done without, and what each run that is otherwise gave."""
    whole = run(program, words, file, {})
    without = 0
    wrong = [] if whole.returncode == status else [f"without a refusal: {whole.returncode} {whole.stderr!r}"]
    number = 1
    while True:
        told.unlink(missing_ok=True)
        ran = run(program, words, file, {**settings, "REFUSED": str(number), "TOLD": str(told)})
        if not told.exists():
            return number - 1, without, wrong
        if "ALL" not in settings and (ran.returncode, ran.stderr, ran.stdout) == (whole.returncode, whole.stderr, whole.stdout):
            without += 1
        elif (ran.returncode, ran.stderr) != (MEMORY, b"out of memory\n") or not whole.stdout.startswith(ran.stdout):
            wrong.append(f"call {number}: {ran.returncode} {ran.stderr!r}, {len(ran.stdout)} bytes")
        number += 1


def main(words):
    program = words[0] if words else str(TOP / "crates/bdbtool/out/bdbtool")
    if not shutil.which("gcc"):
        print("gcc isn't there, so nothing is asked")
        return 0
    otherwise = 0
    with tempfile.TemporaryDirectory() as folder:
        folder = pathlib.Path(folder)
        settings = {"LD_PRELOAD": str(built(folder))}
        for given, file, status in COMMANDS:
            counts, spared = [], 0
            for more in ({}, {"ALL": "1"}):
                count, without, wrong = refused_calls(program, given, file, status, {**settings, **more}, folder / "told")
                counts.append(count)
                spared += without
                otherwise += len(wrong)
                for line in wrong:
                    print(f"{' '.join(given)} < {file.name if file else '-'}: {line}")
            asked = f"{' '.join(given)} < {file.name if file else '-'}"
            print(f"{asked}: {counts[0]} calls refused alone, {spared} of them done without, {counts[1]} with all that follow")
    print(f"{otherwise} otherwise")
    return 1 if otherwise else 0


if __name__ == "__main__":
    sys.exit(main(sys.argv[1:]))
