#!/usr/bin/env python3
"""recipes.py [--check]: runs the recipes of tools/recipes with the built program and the original's tools, and writes docs/RECIPES.md of what came.

With --check nothing is written; the status is 1 where docs/RECIPES.md isn't what this run gives."""

import os
import shutil
import subprocess
import sys
import tempfile

TOP = os.path.dirname(os.path.dirname(os.path.abspath(__file__)))
FOLDER = f"{TOP}/tools/recipes"
PAGE = f"{TOP}/docs/RECIPES.md"
PROGRAM = f"{TOP}/crates/bdbtool/out/bdbtool"
NAMES = [
    "report", "lookup", "range", "move", "order", "pad", "edit", "onto",
    "recover", "rescue", "restore", "guess", "records", "mend", "status",
]
# What the recipes run, and the Debian package that has it.
NEEDED = {
    "db5.3_verify": "db5.3-util",
    "postmap": "postfix",
    "saslpasswd2": "sasl2-bin",
    "sasldblistusers2": "sasl2-bin",
    "makemap": "sendmail-bin",
    "editmap": "sendmail-bin",
    "dbscan": "389-ds-base",
    "squidGuard": "squidguard",
    "perl": "libberkeleydb-perl",
    "reprepro": "reprepro",
    "onak": "onak",
}
HEAD = """# Recipes

Scripts for administrators. Each recipe is a script of [tools/recipes](../tools/recipes) that was run; below it are the
commands and what they wrote. Then the original's tools (`db5.3_verify` and the others of Debian's package `db5.3-util`)
do the same on the same files, and a paragraph says what differs.

`bdbtool` is on the PATH, as after `tools/install.sh`, which puts these scripts into PREFIX/share/doc/bdbtool.
[files.sh](../tools/recipes/files.sh) makes the files. `maps.sh`, `orders.sh`, `owners.sh` and `killed.sh` beside it
make others with the programs that own them, of Debian's packages `postfix`, `sasl2-bin`, `sendmail-bin`, `389-ds-base`,
`squidguard`, `reprepro`, `onak` and `libberkeleydb-perl`. No server runs, and `-C /dev/null` takes the place of
sendmail's settings.

`NEW` must never be the file that is read (DESCRIPTION in the manual page says why). It takes the place of that one,
with its owner and mode, once the status was 0 and while the program that owns the file is stopped:

```sh
chown --reference=OLD NEW && chmod --reference=OLD NEW && mv NEW OLD
```

<!-- This page is written by tools/recipes.py, which runs all of it. -->
"""


def text_of(name):
    path = f"{FOLDER}/{name}"
    if not os.path.exists(path):
        return ""
    with open(path, encoding="utf-8") as file:
        return file.read()


def started(command, place, paths, **others):
    """A command that ran in a folder; postfix's programs read the settings that maps.sh makes there."""
    return subprocess.run(["sh", "-c", command], cwd=place, env=dict(os.environ, PATH=paths, LC_ALL="C", MAIL_CONFIG=f"{place}/etc"), **others)


def shown(commands, place, paths):
    """The commands of a text, each behind a dollar sign and with what it wrote."""
    lines = []
    for command in commands.splitlines():
        ran = started(command, place, paths, stdout=subprocess.PIPE, stderr=subprocess.STDOUT, check=False)
        lines += [f"$ {command}", *ran.stdout.decode(errors="replace").splitlines()]
    return "```text\n" + "\n".join(lines) + "\n```\n"


def recipe(name, paths):
    with tempfile.TemporaryDirectory() as place:
        for file in os.listdir(FOLDER):
            if file.endswith(".sh"):
                shutil.copy(f"{FOLDER}/{file}", place)
        for command in ("sh files.sh\n" + text_of(f"{name}.before")).splitlines():
            started(command, place, paths, check=True)
        return "\n".join(
            [
                text_of(f"{name}.md"),
                f"```sh\n{text_of(f'{name}.sh')}```\n",
                shown(text_of(f"{name}.try"), place, paths),
                "With the original's tools:\n",
                shown(text_of(f"{name}.original"), place, paths),
                text_of(f"{name}.differs"),
            ]
        )


def main():
    if not os.access(PROGRAM, os.X_OK):
        sys.exit("recipes.py: the program isn't built: run ./bdbtool verify < samples/one-pair-little.db first")
    paths = f"{os.path.dirname(PROGRAM)}:{os.environ['PATH']}:/usr/sbin:/sbin"
    missing = [f"{command} ({package})" for command, package in NEEDED.items() if not shutil.which(command, path=paths)]
    if missing:
        sys.exit(
            f"recipes.py: not on the PATH: {', '.join(missing)}. In brackets stands the Debian package.\n"
            "postfix and sendmail-bin exclude each other: install one, and take the programs of the other alone, as by\n"
            "  apt-get download sendmail-bin; dpkg -x sendmail-bin_*.deb /opt/sendmail; PATH=$PATH:/opt/sendmail/usr/sbin tools/recipes.py"
        )
    page = "\n".join([HEAD, *[recipe(name, paths) for name in NAMES]])
    if "--check" in sys.argv[1:]:
        with open(PAGE, encoding="utf-8") as file:
            is_same = file.read() == page
        print("docs/RECIPES.md is what the recipes give" if is_same else "docs/RECIPES.md differs from what the recipes give: run tools/recipes.py")
        sys.exit(not is_same)
    with open(PAGE, "w", encoding="utf-8") as file:
        file.write(page)


main()
