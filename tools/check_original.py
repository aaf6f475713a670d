#!/usr/bin/env python3
"""Holds what the built program loads and dumps against the original library's tools, on each dump text of real/dumps.

usage: check_original.py [PROGRAM [PAIRS]]

PROGRAM is the built program bdbtool; without it, crates/bdbtool/out/bdbtool. Each text is loaded in both byte orders, and

- the file passes `db5.3_verify`, which tells nothing but that it succeeded, and `db5.3_dump` of it has the names and pairs that PROGRAM's `dump` of it has;
- what `db5.3_load` builds of that dump, in either spelling, is sound for PROGRAM, and has the same names and pairs.

A text that is refused counts as such, and so does a dump that the original can't load as it is meant: one whose re_pad isn't a digit, or a
printed one of a recno or queue. Then the dump of each real file that is sound, and of a file of each kind of PAIRS pairs (a million, where
none are given; 0 leaves these out) that the original makes, is loaded and dumped by PROGRAM: it is the same text, in either spelling. Each
real file that is sound is put into the other byte order by PROGRAM's `convert`: the original's `db5.3_verify` tells of it what it tells of
the first file, `db5.3_dump` gives the same text but for `db_lorder`, and converted back it is the first file byte for byte. Of each real
file copies are damaged in the ways of DAMAGES, and each is repaired by PROGRAM's `repair`, without a shape and in each of SHAPES: the file
passes `db5.3_verify`, and `db5.3_dump` of it has the names and pairs of what `salvage` gives of the copy, or of a shape the pairs that it
keeps. Onto each real file that is sound, for the original too, PROGRAM loads a text, and `db5.3_dump` gives the pairs that it gives of a
copy into which `db5.3_load` loaded the text. Prints a line for each that is answered otherwise, and then how many hold; the exit status is
1 where one doesn't hold. Without the original's tools nothing is asked.
"""
import pathlib
import random
import re
import shutil
import subprocess
import sys
import tempfile

TOP = pathlib.Path(__file__).resolve().parent.parent
SECONDS_A_RUN = 120
TOOLS = ("db5.3_verify", "db5.3_dump", "db5.3_load")
UNSUPPORTED, REFUSED = 3, 8
# Of a queue in extents, which isn't supported, and of other queues and of masters.
NOT_ONE = (UNSUPPORTED, 14)
# The magic numbers of a queue and a btree, and the flag of a btree whose pairs name databases.
QUEUE_MAGIC, BTREE_MAGIC, NAMES = 0x042253, 0x053162, 0x20
# How copies are damaged: pages of other bytes, as many as this fraction of all and one at least; whether page 0 is among them; and how
# much of the file is left.
DAMAGES = ((0.01, False, 1), (0.25, False, 1), (0.1, True, 1), (0.05, False, 0.7))
# The words of `repair` for one database, its kind, and which data of a key stay.
SHAPES = (
    (("--as", "btree"), b"btree", "last"),
    (("--as", "btree", "--duplicates"), b"btree", "all"),
    (("--as", "btree", "--dupsort"), b"btree", "sorted"),
    (("--as", "hash"), b"hash", "last"),
    (("--as", "hash", "--duplicates"), b"hash", "all"),
    (("--as", "hash", "--dupsort"), b"hash", "sorted"),
    (("--as", "recno"), b"recno", "records"),
)
SUCCEEDED = re.compile(rb"BDB5105 Verification of .* succeeded\.\n")


def run(*words, given=b""):
    return subprocess.run(words, input=given, capture_output=True, timeout=SECONDS_A_RUN, check=False)


def printed(text):
    """The bytes that a printed spelling stands for."""
    return re.sub(rb"\\(\\|[0-9a-fA-F]{2})", lambda it: b"\\" if it[1] == b"\\" else bytes.fromhex(it[1].decode()), text)


def databases(text):
    """For each database of a dump text its name, or None, and its pairs; those of a hash in the order of their keys."""
    found = []
    for part in text.split(b"VERSION=3\n")[1:]:
        head, _, body = part.partition(b"HEADER=END\n")
        header = dict(line.partition(b"=")[::2] for line in head.split(b"\n") if line)
        read = printed if header.get(b"format") == b"print" else lambda it: bytes.fromhex(it.decode())
        data = [read(line[1:]) for line in body.split(b"\n") if line.startswith(b" ")]
        pairs = list(zip(data[::2], data[1::2]))
        if header.get(b"type") == b"hash":
            pairs.sort(key=lambda pair: pair[0])
        name = header.get(b"database")
        found.append((None if name is None else printed(name), pairs))
    return found


def in_order(text, order):
    """The text, with this byte order in its first header."""
    head, end, rest = text.partition(b"HEADER=END\n")
    kept = b"".join(line + b"\n" for line in head.split(b"\n") if line and not line.startswith(b"db_lorder="))
    return kept + b"db_lorder=" + order + b"\n" + end + rest


def unloadable(text):
    """Why the original can't load a dump text as it is meant, or None."""
    if re.search(rb"^re_pad=(?![0-9]$)", text, re.M):
        return "it reads re_pad as a character"
    if re.search(rb"^format=print$", text, re.M) and re.search(rb"^type=(recno|queue)$", text, re.M):
        return "it reads printed numbers of records as digits of bytes"
    return None


def verifier_told(file):
    """What db5.3_verify tells besides that it succeeded, or that it ended otherwise; it tells some errors and ends with 0."""
    ran = run("db5.3_verify", str(file))
    told = SUCCEEDED.sub(b"", ran.stdout) + ran.stderr
    return told.decode(errors="replace")[:200] or (f"status {ran.returncode}" if ran.returncode else None)


def loaded_wrong(program, folder, text):
    """What is wrong with the file of a text, and the file; a text that is refused has none."""
    ran = run(program, "load", given=text)
    if ran.returncode == REFUSED:
        return None, None
    if ran.returncode:
        return f"load ended with {ran.returncode}: {ran.stderr.decode()}", None
    file = folder / "built.db"
    file.write_bytes(ran.stdout)
    told = verifier_told(file)
    if told:
        return f"db5.3_verify: {told}", None
    original, ours = run("db5.3_dump", "-k", str(file)), run(program, "dump", given=ran.stdout)
    if databases(original.stdout) != databases(ours.stdout):
        return "db5.3_dump has other pairs", None
    return None, ran.stdout


def dumped_wrong(program, folder, image, spelling):
    """What is wrong with the original's file of our dump of an image; None too where it can't load it."""
    dump = run(program, "dump", *spelling, given=image).stdout
    if unloadable(dump):
        return None
    file = folder / "original.db"
    file.unlink(missing_ok=True)
    ran = run("db5.3_load", str(file), given=dump)
    if ran.returncode:
        return f"db5.3_load: {ran.stderr.decode()[:200]}"
    built = file.read_bytes()
    verdict = run(program, "verify", given=built)
    if verdict.returncode:
        return f"what db5.3_load builds isn't sound: {verdict.stderr.decode()[:200]}"
    if databases(run(program, "dump", given=built).stdout) != databases(dump):
        return "what db5.3_load builds has other pairs"
    return None


def dumped_again_wrong(program, image, spelling):
    """Whether the dump of an image, loaded and dumped, is another text; not where the image isn't sound, or has no database."""
    dump = run(program, "dump", *spelling, given=image)
    if dump.returncode or not dump.stdout:
        return False
    built = run(program, "load", given=dump.stdout)
    return built.returncode != 0 or run(program, "dump", *spelling, given=built.stdout).stdout != dump.stdout


def large_file(folder, kind, pairs):
    """A file of so many pairs, or records, that the original makes."""
    text, file = folder / "text", folder / f"{kind}.db"
    with text.open("w") as lines:
        length = "re_len=20\n" if kind == "queue" else ""
        lines.write(f"VERSION=3\nformat=print\ntype={kind}\n{length}db_pagesize=4096\nHEADER=END\n")
        for i in range(pairs):
            key = "" if kind in ("recno", "queue") else f" {i * 2654435761 % 2**32:08x}\n"
            lines.write(f"{key} {i:020d}\n")
        lines.write("DATA=END\n")
    with text.open("rb") as given:
        subprocess.run(["db5.3_load", str(file)], stdin=given, check=True)
    return file


def check_again(program, folder, pairs):
    """How many dumps were asked for, and how many are the same text once more."""
    files = sorted(TOP / "crates/check_salvage/data" / text.name.removesuffix(".dump") for text in (TOP / "real/dumps").iterdir())
    files += [large_file(folder, kind, pairs) for kind in ("btree", "hash", "recno", "queue") if pairs]
    asked = held = 0
    for file in files:
        for spelling in (), ("--print",):
            wrong = dumped_again_wrong(program, file.read_bytes(), spelling)
            asked += 1
            held += not wrong
            if wrong:
                print(f"{file.name}, dump {' '.join(spelling)}: loaded and dumped, it is another text")
    return asked, held


def order_words(image):
    """The byte order of an image, and the other one."""
    return ("big", "little") if image[12] == 0 else ("little", "big")


def text_without_order(file):
    """What db5.3_dump gives of a file but its byte order; None where it doesn't end, as of some files that only this program calls sound."""
    try:
        return re.sub(rb"(?m)^db_lorder=.*\n", b"", run("db5.3_dump", str(file)).stdout)
    except subprocess.TimeoutExpired:
        return None


def verifier_lines(file):
    """What db5.3_verify tells of a file, but for the file's name."""
    told = verifier_told(file)
    return told and told.replace(str(file), "the file")


def converted_wrong(program, folder, image):
    """What is wrong with a file in the other byte order; None where nothing is."""
    own, other = order_words(image)
    there = run(program, "convert", other, given=image)
    if there.returncode or there.stderr:
        return f"convert {other}: status {there.returncode}, {there.stderr.decode(errors='replace')}"
    first, file = folder / "first.db", folder / "there.db"
    first.write_bytes(image)
    file.write_bytes(there.stdout)
    if (told := verifier_lines(file)) != verifier_lines(first):
        return f"convert {other}: db5.3_verify tells {told}"
    if text_without_order(file) != text_without_order(first):
        return f"convert {other}: db5.3_dump gives another text"
    if run(program, "convert", own, given=there.stdout).stdout != image:
        return f"convert {other}, and back: it isn't the first file"
    if run(program, "convert", own, given=image).stdout != image:
        return f"convert {own}: it isn't the file itself"
    return None


def check_converted(program, folder):
    """How many real files are sound, and how many of them are converted as they should be."""
    asked = held = 0
    for file in sorted((TOP / "crates/check_salvage/data").iterdir()):
        image = file.read_bytes()
        if run(program, "verify", given=image).returncode:
            continue
        wrong = converted_wrong(program, folder, image)
        asked += 1
        held += wrong is None
        if wrong:
            print(f"{file.name}, {wrong}")
    return asked, held


def damaged(draw, image, part, first, left):
    """A copy of an image with so many of its pages overwritten by other bytes, page 0 among them or not, and the rest cut off."""
    size = int.from_bytes(image[20:24], order_words(image)[0])
    if size not in (512, 1024, 2048, 4096, 8192, 16384, 32768):
        return image
    copy = bytearray(image[: max(size, int(len(image) * left))])
    pages = range(1, len(copy) // size)
    for page in ([0] if first else []) + draw.sample(pages, min(len(pages), max(1, int(len(pages) * part)))):
        copy[page * size : (page + 1) * size] = draw.randbytes(size)
    return bytes(copy)


def kept(pairs, which):
    """The pairs of a list that a shape keeps, in the order of their keys."""
    data = {}
    for key, value in pairs:
        data.setdefault(key, []).append(value)
    chosen = {"last": lambda all_data: all_data[-1:], "all": lambda all_data: all_data, "sorted": lambda all_data: sorted(set(all_data))}[which]
    return [(key, value) for key in sorted(data) for value in chosen(data[key])]


def asked_of(text, kind, which):
    """The databases that a file of a salvaged text must have: by the names of the text, or of one shape without a name."""
    found = dict(databases(text))
    if kind is None:
        return sorted((name, kept(pairs, "all") if name == b"salvaged" else pairs) for name, pairs in found.items())
    return [(None, found.get(b"loose", []) if which == "records" else kept(found[b"salvaged"], which))]


def is_of_others(image):
    """Whether page 0 is that of a queue, or of a btree whose pairs name databases."""
    order = order_words(image)[0]
    magic, flags = (int.from_bytes(image[at : at + 4], order) for at in (12, 48))
    return magic == QUEUE_MAGIC or magic == BTREE_MAGIC and flags & NAMES != 0


def repaired_wrong(program, folder, image, guess, words, kind, which):
    """What is wrong with what `repair` builds of an image; None where nothing is."""
    text = run(program, "salvage", *guess, given=image)
    ran = run(program, "repair", *words, *guess, given=image)
    if words and not guess and is_of_others(image):
        return None if ran.returncode in NOT_ONE else f"repair of one database ended with {ran.returncode}"
    if words and not guess and ran.returncode == UNSUPPORTED and text.returncode == 0:
        return None if re.fullmatch(rb"unsupported: \w+, page 0\n", ran.stderr) else f"repair of one database tells {ran.stderr!r}"
    if (ran.returncode, ran.stderr) != (text.returncode, text.stderr):
        return f"repair ended with {ran.returncode}, salvage with {text.returncode}: {ran.stderr.decode(errors='replace')}"
    if ran.returncode:
        return None
    file = folder / "repaired.db"
    file.write_bytes(ran.stdout)
    told = verifier_told(file)
    if told:
        return f"db5.3_verify: {told}"
    original = run("db5.3_dump", "-k", str(file)).stdout
    if sorted(databases(original)) != asked_of(text.stdout, kind, which):
        return "db5.3_dump has other pairs than were salvaged"
    return None


def check_repaired(program, folder):
    """How many damaged copies of real files were repaired, and how many of the new files are as they should be."""
    asked = held = 0
    for file in sorted((TOP / "crates/check_salvage/data").iterdir()):
        image = file.read_bytes()
        guess = ("--order", order_words(image)[0], "--page-size", str(int.from_bytes(image[20:24], order_words(image)[0])))
        for part, first, left in DAMAGES:
            copy = damaged(random.Random(f"{file.name} {part}"), image, part, first, left)
            for words, kind, which in (((), None, "all"), *SHAPES):
                wrong = repaired_wrong(program, folder, copy, guess if first else (), words, kind, which)
                asked += 1
                held += wrong is None
                if wrong:
                    print(f"{file.name}, {part} of its pages, repair {' '.join(words)}: {wrong}")
    return asked, held


def text_onto(dump):
    """A text with the sections of a dump, each with a pair whose key is there, where there is one, and two with other keys; and without what
    neither rule has."""
    sections = []
    for part in dump.split(b"VERSION=3\n")[1:]:
        head, _, body = part.partition(b"\nHEADER=END\n")
        lines = [line for line in body.split(b"\n") if line.startswith(b" ")]
        length = re.search(rb"(?m)^re_len=(\d+)$", head)
        value = b" " + (b"6f6e746f"[: 2 * int(length[1])] if length else b"6f6e746f")
        if re.search(rb"(?m)^type=(recno|queue)$", head):
            last = int(bytes.fromhex(lines[-2][1:].decode())) if lines else 0
            keys = [b"1", b"%d" % (last + 1), b"%d" % (last + 3)]
            more = [b" " + key.hex().encode() + b"\n" + value for key in keys]
        else:
            keys = lines[:1] + [b" 00ff6f6e746f", b" ff6f6e746f"]
            more = [key + b"\n" + value for key in keys]
        sections.append(b"VERSION=3\n" + head + b"\nHEADER=END\n" + b"".join(line + b"\n" for line in more) + b"DATA=END\n")
    return b"".join(sections)


def dump_within(file):
    """What db5.3_dump gives of a file that db5.3_load added to; None where it doesn't end."""
    try:
        return run("db5.3_dump", "-k", str(file)).stdout
    except subprocess.TimeoutExpired:
        print(f"db5.3_dump doesn't end after db5.3_load added to a copy, {file.stat().st_size} bytes")
        return None


def onto_wrong(program, folder, image):
    """What is wrong with a file that is built of a text and this one, beside the original's of the same text and a copy; None where nothing is."""
    text = text_onto(run(program, "dump", given=image).stdout)
    base, built, copy = folder / "base.db", folder / "onto.db", folder / "copy.db"
    base.write_bytes(image)
    copy.write_bytes(image)
    ran = run(program, "load", "--onto", str(base), given=text)
    if ran.returncode:
        return f"load --onto: status {ran.returncode}, {ran.stderr.decode(errors='replace')}"
    if base.read_bytes() != image:
        return "load --onto: the base is another file"
    built.write_bytes(ran.stdout)
    if told := verifier_told(built):
        return f"load --onto: db5.3_verify tells {told}"
    run("db5.3_load", str(copy), given=text)
    theirs = dump_within(copy)
    if theirs is not None and databases(run("db5.3_dump", "-k", str(built)).stdout) != databases(theirs):
        return "load --onto: db5.3_dump has other pairs than of what db5.3_load makes of a copy"
    return None


def check_onto(program, folder):
    """How many real files are sound, for the original too, and have a database; and onto how many of them a text is loaded as the original does."""
    asked = held = 0
    for file in sorted((TOP / "crates/check_salvage/data").iterdir()):
        image = file.read_bytes()
        if run(program, "verify", given=image).returncode or not run(program, "list", given=image).stdout or verifier_told(file):
            continue
        wrong = onto_wrong(program, folder, image)
        asked += 1
        held += wrong is None
        if wrong:
            print(f"{file.name}, {wrong}")
    return asked, held


def main():
    program = sys.argv[1] if len(sys.argv) > 1 else str(TOP / "crates/bdbtool/out/bdbtool")
    pairs = int(sys.argv[2]) if len(sys.argv) > 2 else 1_000_000
    lacking = [tool for tool in TOOLS if shutil.which(tool) is None]
    if lacking:
        print(f"skipped: {', '.join(lacking)} isn't there; apt-get install db5.3-util")
        return
    files = sorted((TOP / "real/dumps").iterdir())
    asked = held = refused = passed_over = 0
    with tempfile.TemporaryDirectory() as room:
        folder = pathlib.Path(room)
        for file in files:
            for order in (b"1234", b"4321"):
                wrong, image = loaded_wrong(program, folder, in_order(file.read_bytes(), order))
                refused += wrong is None and image is None
                asked += 1
                held += wrong is None
                if wrong:
                    print(f"{file.name}, {order.decode()}: {wrong}")
                for spelling in ((), ("--print",)) if image is not None else ():
                    passed_over += unloadable(run(program, "dump", *spelling, given=image).stdout) is not None
                    wrong = dumped_wrong(program, folder, image, spelling)
                    asked += 1
                    held += wrong is None
                    if wrong:
                        print(f"{file.name}, {order.decode()}, dump {' '.join(spelling)}: {wrong}")
        again, same = check_again(program, folder, pairs)
        converted, turned = check_converted(program, folder)
        based, joined = check_onto(program, folder)
        repaired, mended = check_repaired(program, folder)
    print(f"{held} of {asked} hold; {refused} texts not supported, {passed_over} dumps that the original can't load")
    print(f"{same} of {again} dumps are the same text, loaded and dumped")
    print(f"{turned} of {converted} files are the same in the other byte order")
    print(f"{joined} of {based} files with a text loaded onto them have the pairs that the original gives a copy")
    print(f"{mended} of {repaired} repaired files have what was salvaged of damaged ones")
    sys.exit(held != asked or same != again or turned != converted or joined != based or mended != repaired)


if __name__ == "__main__":
    main()
