#!/usr/bin/env python3
"""Tries ./bdbtool in an unbuilt copy of this checkout, and what tools/install.sh puts in place.

Usage: check_launcher.py [PROGRAM]

In the copy `rt` is a stub that leaves a mark, so that a build that shouldn't begin is seen. Words that are no command,
and words that are one, are those of crates/check_runs, whose answers are the defined ones, and those of the tables
below. Each line that is printed is a case that doesn't hold, or says what was skipped; the last is 'N of N hold'.
Without PROGRAM a stub is installed. With it the launcher's judgement is compared with the program's own too, over the
same words and some that are drawn by chance.
"""

import os
import random
import re
import shutil
import subprocess
import sys
import tempfile

TOP = os.path.dirname(os.path.dirname(os.path.abspath(__file__)))
STUB_RT = '#!/bin/sh\n: >"$MARK"\necho "rt: a build has begun" >&2\nexit 1\n'
# The stub of the program: words that begin with `no` are refused as the program does; else it tells its words, and the
# setting that it was started with.
STUB_PROGRAM = """#!/bin/sh
if [ "$1" = no ]; then echo 'the usage line' >&2; exit 2; fi
for word; do printf '%s\\0' "$word"; done
printf '%s' "$GLIBC_TUNABLES" >&2
exit 9
"""
TUNABLE = b"glibc.malloc.hugetlb=1"
COMMANDS = "verify list get range dump load survey salvage repair convert stat trial".split()
VALUES = {
    "--max-bytes": [b"1", b"1073741824", b"0000000512"],
    "--name": [b"a", b"", b"\\\\", b"\\00"],
    "--order": [b"big", b"little"],
    "--page-size": [b"512", b"32768"],
    "--as": [b"btree", b"hash", b"recno"],
    "--onto": [b"base"],
}
# What completion offers behind an option.
VALUES_OFFERED = {
    "--order": ["big", "little"],
    "--page-size": "512 1024 2048 4096 8192 16384 32768".split(),
    "--as": ["btree", "hash", "recno"],
}
FLAGS = ["--hex", "--print", "--any-order", "--duplicates", "--dupsort", "--apart", "--rest"]
# Words that no table of check_runs has: odd ones, and those that the shell could take for its own.
NO_COMMANDS = [
    [b"verify", b"foo.db"],
    [b"verify", b"--bogus"],
    [b"verify", b"--any-order", b"--help"],
    [b"verify", b"--any-order --max-bytes", b"1"],
    [b"verify", b"--any-order\n"],
    [b"verify", b"[--any-order"],
    [b"verify", b"--*"],
    [b"verify", b"--max-bytes", b"0"],
    [b"verify", b"--max-bytes", b"1 "],
    [b"verify", b"--max-bytes", b"1a"],
    [b"verify", b"--max-bytes", b"+1"],
    [b"verify", b"--max-bytes", b""],
    [b"verify", b"--max-bytes", b"\xff"],
    [b" verify"],
    [b"verify\n"],
    [b"*"],
    [b"\xff"],
    [b"help", b"help"],
    [b"help", b"verify", b"list"],
    [b"-h", b"verify"],
    [b"--help", b"verify"],
    [b"--version", b"verify"],
    [b"-v"],
    [b"get", b"k\xe4se"],
    [b"get", b"\xed\xa0\x80"],
    [b"get", b"\xf4\x90\x80\x80"],
    [b"get", b"\xc0\x80"],
    [b"get", b"--", b"\xe2\x82"],
    [b"get", b"--hex] [--print", b"61"],
    [b"get", b"\\"],
    [b"get", b"a\\0"],
    [b"get", b"--hex", b"616"],
    [b"get", b"--hex", b"6\xc3\xa4"],
    [b"get", b"a b", b"c"],
    [b"range", b"--help", b"x"],
    [b"load", b"--onto", b"k\xe4se"],
    [b"salvage", b"--apart", b"--rest"],
    [b"salvage", b"--rest", b"--print", b"--apart"],
    [b"salvage", b"--apart", b"--apart"],
    [b"repair", b"--apart", b"--as", b"btree"],
    [b"repair", b"--as", b"hash", b"--dupsort", b"--apart"],
    [b"repair", b"--rest"],
    [b"survey", b"--apart"],
    [b"survey", b"--order", b"big"],
    [b"survey", b"x"],
    [b"dump", b"--apart"],
    [b"convert", b"Big"],
    [b"trial", b"btree", b"2147483648", b"1"],
    [b"trial", b"btree", b"1", b"200001"],
]
RIGHT = [
    [b"get", b"-h"],
    [b"get", b"--", b"--help"],
    [b"get", b""],
    [b"get", b" "],
    [b"get", b"a b"],
    [b"get", b"a\nb"],
    [b"get", b"*"],
    [b"get", b"$(rt)"],
    [b"get", b"k\xc3\xa4se \xe2\x82\xac \xf0\x9f\x98\x80"],
    [b"get", b"a\\00\\\\\\5C\\fF"],
    [b"get", b"--hex", b""],
    [b"get", b"--name", b"", b"a"],
    [b"get", b"--name", b"--", b"--", b"--"],
    [b"dump", b"--name", b""],
    [b"dump", b"--name", b"--help"],
    [b"dump", b"--name", b"a b"],
    [b"range", b"-h", b"--help"],
    [b"load", b"--onto", b""],
    [b"load", b"--onto", b"a b\n"],
    [b"trial", b"queue", b"0000000000", b"0"],
]


class Checks:
    """Counts cases, and prints those that don't hold."""

    def __init__(self):
        self.total = self.held = 0

    def check(self, case, holds, found=""):
        self.total += 1
        self.held += bool(holds)
        if not holds:
            print(f"{case}: {found}"[:300])


def skip(what):
    print(f"skipped: {what}")


def ran(words, **others):
    """What a command gives that reads nothing: its status, its output and its error output."""
    done = subprocess.run(words, stdin=subprocess.DEVNULL, capture_output=True, timeout=120, check=False, **others)
    return done.returncode, done.stdout, done.stderr


def write(path, text):
    os.makedirs(os.path.dirname(path), exist_ok=True)
    with open(path, "w", encoding="utf-8") as file:
        file.write(text)
    os.chmod(path, 0o755)


def read(path):
    with open(path, encoding="utf-8") as file:
        return file.read()


def table_of_runs():
    """The words of each run of check_runs, and whether they are a command.

    The table has runs of `load --onto` without a base too, in whose place a command line always has one.
    """
    runs, lines = {}, read(f"{TOP}/crates/check_runs/stdout").splitlines()
    tried = {line for line in read(f"{TOP}/crates/check_runs/stdin").splitlines() if line}
    for place, line in enumerate(lines):
        if line not in tried or line.startswith(("#", "=")):
            continue
        words, files = re.fullmatch(r"(?:(.*) )?< (.*)", line).groups("")
        if "--onto" in words and "+" not in files.split():
            continue
        answer = []
        for told in lines[place + 1 :]:
            if told in tried:
                break
            answer.append(told)
        words = tuple(b"" if word == "''" else word.encode() for word in words.split(" ")) if words else ()
        runs[words] = "status 2" not in answer
    return runs


def usage_line():
    """The program's line, as check_runs has it."""
    return re.search(r"^! (usage: .*)$", read(f"{TOP}/crates/check_runs/stdout"), re.M).group(1).encode()


def shells():
    found = [["dash"], ["bash", "--posix"], ["busybox", "sh"], ["mksh"], ["yash"]]
    return [shell for shell in found if shutil.which(shell[0])] or [["sh"]]


def judged(rows, shell):
    """The launcher's judgement of each row of words, by its own function, in one run of a shell."""
    script = [b'. "$1"', b"judge() { is_command \"$@\"; echo $?; }"]
    for words in rows:
        script.append(b" ".join([b"judge", *(b"'" + word.replace(b"'", b"'\\''") + b"'" for word in words)]))
    with tempfile.NamedTemporaryFile() as file:
        file.write(b"\n".join(script) + b"\n")
        file.flush()
        status, out, err = ran([*shell, file.name, f"{TOP}/tools/launch.sh"])
    answers = [line == b"0" for line in out.splitlines()]
    return answers if status == 0 and err == b"" and len(answers) == len(rows) else [(status, err)] * len(rows)


def words_by_chance(chance):
    """Words that are near to a command, so that about half of them are one."""
    words, valued = [chance.choice(COMMANDS).encode()], list(VALUES)
    odd = [word for row in NO_COMMANDS + RIGHT for word in row if b"\0" not in word]
    for _ in range(chance.choice([0, 0, 1, 1, 2, 3])):
        option = chance.choice(valued + FLAGS)
        words.append(option.encode())
        if option in VALUES:
            words.append(chance.choice(VALUES[option] if chance.random() < 0.8 else odd))
    operands = {b"get": [b"61"], b"range": [b"61", b"62"], b"convert": [b"big"], b"trial": [b"btree", b"1", b"1"]}
    words += operands.get(words[0], [])
    if chance.random() < 0.3:
        words.insert(chance.randrange(1, len(words) + 1), chance.choice(odd))
    return words


def make_copy(folder):
    """This checkout as git has it, with the changes of tracked files, and nothing that was built."""
    subprocess.run(["git", "clone", "-q", "--no-hardlinks", TOP, folder], check=True)
    change = subprocess.run(["git", "-C", TOP, "diff", "--binary", "HEAD"], check=True, capture_output=True).stdout
    if change:
        subprocess.run(["git", "-C", folder, "apply"], input=change, check=True)


class Unbuilt:
    """./bdbtool in the copy, beside a stub of rt."""

    def __init__(self, room):
        self.mark = f"{room}/mark"
        self.top = f"{room}/copy"
        make_copy(self.top)
        write(f"{room}/kit/bin/rt", STUB_RT)
        self.env = dict(os.environ, MARK=self.mark, PATH=f"{room}/kit/bin:{os.environ['PATH']}", TMPDIR=room)

    def ran(self, words, shell=()):
        """Status, output, error output, and whether a build has begun."""
        if os.path.exists(self.mark):
            os.remove(self.mark)
        return *ran([*shell, "./bdbtool", *words], cwd=self.top, env=self.env), os.path.exists(self.mark)


def check_words(checks, runs, unbuilt):
    """What ./bdbtool answers without a build, and that it begins one for a command."""
    refusal = usage_line() + b"\n./bdbtool --help tells the commands and their options; the input comes by < FILE\n"
    for words in [list(words) for words, right in runs.items() if not right] + NO_COMMANDS + [[]]:
        answer = unbuilt.ran(words)
        checks.check(f"refused without a build: {words}", answer == (2, b"", refusal, False), answer)
    rows = [*runs.items(), *((words, False) for words in NO_COMMANDS), *((words, True) for words in RIGHT)]
    for shell in shells():
        for (words, right), found in zip(rows, judged([words for words, _ in rows], shell)):
            checks.check(f"{' '.join(shell)}: {'a' if right else 'no'} command: {list(words)}", found is right, found)
    for words in [[b"verify"], [b"get", b"-h"], [b"dump", b"--name", b"--help"]]:
        answer = unbuilt.ran(words)
        checks.check(f"a build begins: {words}", answer[0] == 126, answer)


def check_help(checks, unbuilt):
    """Help and version, without a build."""
    whole = unbuilt.ran(["--help"])
    names_all = all(f"\n  {command}".encode() in whole[1] for command in COMMANDS)
    checks.check("--help", whole[0] == 0 and whole[2:] == (b"", False) and names_all, whole)
    for word in ("-h", "help"):
        checks.check(f"{word} is --help", unbuilt.ran([word]) == whole)
    version = unbuilt.ran(["--version"])
    right = version[0] == 0 and re.fullmatch(rb"bdbtool \d{4}-\d\d-\d\d \(\S+\)\n", version[1])
    checks.check("--version", right and version[2:] == (b"", False), version)
    for command in COMMANDS:
        part = unbuilt.ran([command, "--help"])
        right = part[0] == 0 and part[1].startswith(f"usage: bdbtool {command} ".encode()) and part[2:] == (b"", False)
        checks.check(f"{command} --help", right, part)
        checks.check(f"help {command}", unbuilt.ran(["help", command]) == part)
        if command != "get":
            checks.check(f"{command} -h", unbuilt.ran([command, "-h"]) == part)
    for shell in shells():
        checks.check(f"{' '.join(shell)}: --help", unbuilt.ran(["--help"], shell) == whole)
    long = [line for line in whole[1].splitlines() if len(line) > 120 and b"/" not in line]
    checks.check("no line of help above 120 columns", not long, long)


def check_built(checks, unbuilt):
    """A program that is there gets all words but those for help, as they are, and its answer stays."""
    program = f"{unbuilt.top}/crates/bdbtool/out/bdbtool"
    write(program, STUB_PROGRAM)
    for words in RIGHT:
        answer = unbuilt.ran(words)
        checks.check(f"built: {words}", answer == (9, b"".join(word + b"\0" for word in words), TUNABLE, False), answer)
    hint = b"./bdbtool --help tells the commands and their options; the input comes by < FILE\n"
    answer = unbuilt.ran(["no", "command"])
    right = answer == (2, b"", b"the usage line\n" + hint, False)
    checks.check("built: the program refuses, and a line is added", right, answer)
    answer = unbuilt.ran(["verify", "x"])
    checks.check("built: the program has the last word", answer == (9, b"verify\0x\0", TUNABLE, False), answer)
    checks.check("built: help", unbuilt.ran(["verify", "--help"])[1].startswith(b"usage: bdbtool verify "))
    os.utime(program, (0, 0))
    answer = unbuilt.ran(["no", "command"])
    checks.check("outdated: refused without a build", answer == (2, b"", usage_line() + b"\n" + hint, False), answer)
    answer = unbuilt.ran(["verify"])
    checks.check("outdated: a build begins", answer[0] == 126, answer)


def recipes_of_page():
    """The scripts of docs/RECIPES.md, by the name that each tells."""
    scripts = re.findall(r"^```sh\n(#!/bin/sh\n# (\w+\.sh) .*?)^```$", read(f"{TOP}/docs/RECIPES.md"), re.M | re.S)
    return {name: text for text, name in scripts}


def check_installed(checks, room, unbuilt, program):
    """What install.sh puts under a prefix."""
    stub, prefix = f"{room}/stub/bdbtool", f"{room}/a prefix"
    write(stub, STUB_PROGRAM)
    put = ran([f"{TOP}/tools/install.sh", prefix, program or stub])
    places = {path.decode() for path in put[1].splitlines()}
    # The index that mandb writes isn't told.
    there = {f"{folder}/{name}" for folder, _, names in os.walk(prefix) for name in names}
    files = {path for path in there if os.path.basename(path) not in ("index.db", "CACHEDIR.TAG")}
    checks.check("install.sh tells each file", put[0] == 0 and put[2] == b"" and places == files, (put, there - places))
    env = dict(os.environ, PATH=f"{prefix}/bin:{os.environ['PATH']}")
    for words in (["--help"], ["-h"], ["help"], ["--version"], *([command, "--help"] for command in COMMANDS)):
        answer, here = ran(["bdbtool", *words], cwd="/", env=env), ran([f"{TOP}/bdbtool", *words])
        same = [re.sub(rb"(?s)(not one btree, hash or recno\n).*", rb"\1", text[1]) for text in (answer, here)]
        checks.check(f"installed: {words}", answer[0] == 0 and answer[2] == b"" and same[0] == same[1] != b"", answer)
    os.makedirs(f"{room}/links")
    os.symlink(f"{prefix}/bin/bdbtool", f"{room}/links/linked")
    for name, place in ((f"{room}/links/linked", "/"), ("./bdbtool", f"{prefix}/bin"), ("bin/bdbtool", prefix)):
        answer = ran([name, "get", "--help"], cwd=place)
        checks.check(f"installed: found as {name}", answer[1].startswith(b"usage: bdbtool get "), answer)
    hint = b"bdbtool --help tells the commands and their options; the input comes by < FILE\n"
    if program:
        answer = ran(["bdbtool", "verify", "x"], cwd="/", env=env)
        checks.check("installed: words that are no command", answer == (2, b"", usage_line() + b"\n" + hint), answer)
        with open(f"{TOP}/samples/one-pair-little.db", "rb") as file:
            done = subprocess.run(["bdbtool", "verify"], stdin=file, capture_output=True, env=env, check=False)
        checks.check("installed: verify", (done.returncode, done.stdout) == (0, b"sound, 2 pages\n"), done)
    else:
        answer = ran(["bdbtool", "no", "command"], cwd="/", env=env)
        checks.check("installed: words that are no command", answer == (2, b"", b"the usage line\n" + hint), answer)
        for words in RIGHT:
            answer = ran(["bdbtool", *words], cwd="/", env=dict(env, GLIBC_TUNABLES="a=b"))
            right = (9, b"".join(word + b"\0" for word in words), b"a=b:" + TUNABLE)
            checks.check(f"installed: {words}", answer == right, answer)
    destination = f"{room}/destination"
    whole = ran([f"{TOP}/tools/install.sh", "/usr", program or stub], env=dict(os.environ, DESTDIR=destination))
    staged = {path.decode().replace(f"{destination}/usr", prefix) for path in whole[1].splitlines()}
    checks.check("DESTDIR", whole[0] == 0 and staged == places, whole)
    checks.check("DESTDIR has no index", not os.path.exists(f"{destination}/usr/share/man/index.db"))
    for words in ([], [""], ["-x"], [prefix, stub, "more"]):
        checks.check(f"install.sh {words}", ran([f"{TOP}/tools/install.sh", *words])[0] == 2)
    checks.check("install.sh without a program", ran([f"{TOP}/tools/install.sh", prefix, f"{room}/none"])[0] == 1)
    check_recipes(checks, prefix, env, program)
    check_page(checks, prefix)
    check_bash(checks, prefix)
    check_zsh(checks, prefix)


def check_recipes(checks, prefix, env, program):
    folder = f"{prefix}/share/doc/bdbtool"
    recipes = recipes_of_page()
    found = sorted(os.listdir(folder))
    checks.check("each recipe is installed", found == sorted([*recipes, "FAULTS.md", "FORMAT.md", "RECIPES.md"]), found)
    for name, text in recipes.items():
        place = f"{folder}/{name}"
        checks.check(f"{name} is that of the page", os.access(place, os.X_OK) and read(place) == text)
    if program:
        answer = ran([f"{folder}/report.sh", f"{TOP}/samples"], env=env)
        line = f"sound       {TOP}/samples/one-pair-little.db: 2 pages"
        checks.check("report.sh runs", line.encode() in answer[1].splitlines(), answer)
    else:
        answer = ran([f"{folder}/lookup.sh", "a b"], env=env)
        checks.check("lookup.sh runs", answer[:2] == (9, b"get\0--print\0--\0a b\0get\0--print\0--\0a b\\00\0"), answer)


def check_page(checks, prefix):
    pages = f"{prefix}/share/man"
    if not shutil.which("man"):
        return skip("the manual page, since there is no man")
    found = ran(["man", "-M", pages, "-w", "bdbtool"])
    checks.check("man finds the page", found[1].decode().strip() == f"{pages}/man1/bdbtool.1", found)
    if not shutil.which("mandb"):
        return skip("whatis and apropos, since there is no mandb")
    for words in (["whatis", "-M", pages, "bdbtool"], ["apropos", "-M", pages, "salvage"]):
        checks.check(f"{words[0]} finds the page", ran(words)[1].startswith(b"bdbtool (1)"), ran(words))


def options_of(prefix, command):
    """The options of a command, by its help."""
    answer = ran([f"{prefix}/bin/bdbtool", command, "--help"])
    return sorted(set(re.findall(r"^  (--[a-z-]+)", answer[1].decode(), re.M)))


def check_bash(checks, prefix):
    if not shutil.which("bash"):
        return skip("completion in bash, since there is no bash")
    script = """
        source "$0" && complete -p bdbtool >/dev/null || exit
        COMP_WORDS=(bdbtool "$@") COMP_CWORD=$#
        _bdbtool
        printf '%s\\n' "${COMPREPLY[@]}"
    """
    completion = f"{prefix}/share/bash-completion/completions/bdbtool"

    def offered(*words):
        status, out, err = ran(["bash", "-c", script, completion, *words], cwd=prefix)
        return sorted(out.decode().split()) if status == 0 and err == b"" else (status, err)

    def check(words, right):
        checks.check(f"bash offers for {list(words)}", offered(*words) == sorted(right), offered(*words))

    check([""], [*COMMANDS, "help", "--help", "--version"])
    check(["s"], ["salvage", "stat", "survey"])
    check(["help", ""], COMMANDS)
    for command in COMMANDS:
        check([command, "--"], [*options_of(prefix, command), "--help"])
    for option, values in VALUES_OFFERED.items():
        command = "salvage" if option in ("--order", "--page-size") else "repair"
        check([command, option, ""], values)
    check(["convert", ""], ["big", "little"])
    check(["trial", ""], ["btree", "hash", "recno", "queue"])
    check(["get", "--hex", "--p"], ["--print"])
    check(["get", "--hex", "--h"], [])
    check(["get", "--", "--h"], [])
    check(["get", "--name", ""], [])
    for before in ("--onto", "<"):
        check(["load", before, "b"], ["bin"])


def check_zsh(checks, prefix):
    if not shutil.which("zsh"):
        return skip("completion in zsh, since there is no zsh")
    # What the completion hands to zsh's own functions.
    script = """
        fpath=($1 $fpath)
        autoload -U compinit && compinit -u -D && [[ $_comps[bdbtool] == _bdbtool ]] || exit
        _arguments() { print -rl -- "$@" }
        _describe() { print -rl -- ${(P)2} }
        compadd() { print -rl -- "$@" }
        shift
        words=(bdbtool "$@") CURRENT=$(($# + 1)) PREFIX=${@[-1]}
        _bdbtool
    """

    def offered(*words):
        status, out, err = ran(["zsh", "-f", "-c", script, "zsh", f"{prefix}/share/zsh/site-functions", *words])
        return out.decode() if status == 0 and err == b"" else f"{status} {err}"

    found = offered("")
    checks.check("zsh offers the commands", re.findall(r"^(\w+):", found, re.M) == [*COMMANDS, "help"], found)
    checks.check("zsh offers --help", "--help\n--version\n" in offered("-"))
    for command in COMMANDS:
        found = offered(command, "-")
        options = sorted(re.findall(r"(--[a-z-]+)\[", found))
        right = sorted([*options_of(prefix, command), "--help"])
        checks.check(f"zsh offers the options of {command}", options == right, found)
    for option, values in VALUES_OFFERED.items():
        found = offered("repair", option, "")
        row = rf"^{option}\[.*\({' '.join(values)}\)$"
        checks.check(f"zsh offers the values of {option}", re.search(row, found, re.M), found)


def check_program(checks, runs, program):
    """The launcher's judgement beside the program's, which is asked with no input."""
    chance = random.Random(1)
    drawn = [words_by_chance(chance) for _ in range(1000)]
    rows = [*runs, *NO_COMMANDS, *RIGHT, *drawn, []]
    for words, right in zip(rows, judged(rows, shells()[0])):
        status, _, err = ran([program, *words])
        checks.check(f"the program's judgement of {list(words)}", (status != 2) is right, (status, err))
        if status == 2:
            checks.check(f"the program's usage line for {list(words)}", err == usage_line() + b"\n", err)


def main():
    if len(sys.argv) > 2 or sys.argv[1:] == ["--help"]:
        sys.exit(__doc__)
    program = os.path.abspath(sys.argv[1]) if sys.argv[1:] else None
    checks, runs = Checks(), table_of_runs()
    with tempfile.TemporaryDirectory() as room:
        unbuilt = Unbuilt(room)
        check_words(checks, runs, unbuilt)
        check_help(checks, unbuilt)
        check_built(checks, unbuilt)
        check_installed(checks, room, unbuilt, program)
    if program:
        check_program(checks, runs, program)
    print(f"{checks.held} of {checks.total} hold")
    sys.exit(checks.held != checks.total)


main()
