"""Dump texts: the databases that they have, and the texts that are made here."""
import random
import re
from typing import NamedTuple

SIZES = (512, 1024, 2048, 4096, 8192, 16384, 32768)
ORDERS = (b"1234", b"4321")
SHORT = 40
PAIRS = 400
MANY = 5000
LONG_KEYS = 14
RECORD = 20
NAMES = (b"", b"a", b"ab", b"ab ", b"b" * 300, "\u00e9".encode(), b"k", b"k\\0", b"key", b"key0", b"z")


class Base(NamedTuple):
    """A database of a dump text, or what is to be one. `duplicates` is empty, `unsorted` or `sorted`; the keys of records are numbers; `length` is that of
    fixed records."""

    name: bytes | None
    kind: str
    duplicates: str
    renumber: bool
    length: int
    pairs: list

    @property
    def numbered(self):
        return self.kind in ("recno", "queue")


def printed(text):
    """The bytes that a printed spelling stands for."""
    return re.sub(rb"\\(\\|[0-9a-fA-F]{2})", lambda it: b"\\" if it[1] == b"\\" else bytes.fromhex(it[1].decode()), text)


def print_spelling(data):
    """Bytes as they are printed."""
    return "".join("\\\\" if byte == 0x5C else chr(byte) if 0x20 <= byte <= 0x7E else f"\\{byte:02x}" for byte in data).encode()


def base_of(header, lines):
    """The database of a section."""
    read = printed if header[b"format"] == b"print" else lambda line: bytes.fromhex(line.decode())
    items, kind = [read(line[1:]) for line in lines], header[b"type"].decode()
    numbered = kind in ("recno", "queue")
    if numbered and header.get(b"keys") != b"1":
        pairs = list(enumerate(items, 1))
    else:
        pairs = list(zip((int(key) for key in items[::2]) if numbered else items[::2], items[1::2], strict=True))
    duplicates = "sorted" if b"dupsort" in header else "unsorted" if b"duplicates" in header else ""
    name = printed(header[b"database"]) if b"database" in header else None
    return Base(name, kind, duplicates, b"renumber" in header, int(header.get(b"re_len", 0)), pairs)


def bases_of(text):
    """The databases of a dump text."""
    found = []
    for part in text.split(b"VERSION=3\n")[1:]:
        head, _, body = part.partition(b"\nHEADER=END\n")
        header = dict(line.partition(b"=")[::2] for line in head.splitlines() if line)
        found.append(base_of(header, [line for line in body.splitlines() if line.startswith(b" ")]))
    return found


def by_key(base):
    """The name and the pairs of a database: those of a hash in the order of their keys, sorted data in theirs, and records as long as they are stored."""
    if base.numbered:
        return base.name, [(number, datum.ljust(base.length, b" ")) for number, datum in base.pairs]
    return base.name, sorted(base.pairs, key=(lambda pair: pair) if base.duplicates == "sorted" else (lambda pair: pair[0]))


def has_long_keys(text):
    """Whether a hash of a text has a key that stands in a chain: one that is longer than a fourth of a page."""
    size = int(re.search(rb"^db_pagesize=(\d+)$", text, re.M)[1])
    return any(base.kind == "hash" and any(len(key) > size // 4 for key, _ in base.pairs) for base in bases_of(text))


def with_lines(text, *lines):
    """The text, with these lines in its first header in the place of those of the same words."""
    head, end, rest = text.partition(b"\nHEADER=END\n")
    words = tuple(line.partition(b"=")[0] + b"=" for line in lines)
    kept = [line for line in head.splitlines() if line and not line.startswith(words)]
    return b"\n".join((*kept, *lines)) + end + rest


def section(base, size, order, *more):
    """The section of a dump text that has the database."""
    lines = [b"VERSION=3", b"format=bytevalue", *more]
    lines += [] if base.name is None else [b"database=" + print_spelling(base.name)]
    lines += [b"type=" + base.kind.encode(), b"db_pagesize=%d" % size, b"db_lorder=" + order, b"keys=1"]
    lines += [b"duplicates=1"] if base.duplicates else []
    lines += [b"dupsort=1"] if base.duplicates == "sorted" else []
    lines += [b"renumber=1"] if base.renumber else []
    lines += [b"re_len=%d" % base.length] if base.length else []
    items = (b"%d" % item if isinstance(item, int) else item for pair in base.pairs for item in pair)
    return b"".join(line + b"\n" for line in (*lines, b"HEADER=END", *(b" " + item.hex().encode() for item in items), b"DATA=END"))


def begun_keys(draw, count):
    """Keys of which many begin others, or end in NUL, and one has no bytes."""
    keys = {b"": None, b"\0": None}
    while len(keys) < count:
        stem = draw.choice((b"", b"a", b"key", b"key0", b"user.name@"))
        keys[stem + bytes(draw.choice(b"\0a0z\xff") for _ in range(draw.randrange(8)))] = None
    return list(keys)


def long_keys(draw, size):
    """Keys that are longer than half a page or a page, of which some begin others."""
    lengths = (size // 2, size - 26, size, size + 1, 2 * size)
    return list({b"k" * draw.choice(lengths) + (b"", b"\0", b"k", b"\xff", b"%d" % number)[number % 5]: None for number in range(LONG_KEYS)})


def datum(draw, size):
    """No bytes, some, or seldom more than a page has."""
    length = draw.choices((0, draw.randrange(SHORT), draw.randrange(size // 4), size + draw.randrange(2 * size)), (5, 85, 8, 2))[0]
    return draw.randbytes(length)


def data(draw, size, duplicates):
    """The data of a key: one, or several, seldom more than a page has. No two are the same."""
    count = draw.choices((1, draw.randrange(2, 6), draw.randrange(30, 90)), (60, 37, 3))[0] if duplicates else 1
    found = {datum(draw, size): None}
    while len(found) < count:
        found[draw.choice((b"", b"d", b"data")) + bytes(draw.choice(b"\0d0\xff") for _ in range(draw.randrange(6)))] = None
    return draw.sample(list(found), len(found))


def keyed(kind, duplicates, keys):
    """What makes a btree or hash, whose pairs stand in no order."""

    def make(draw, size):
        pairs = [(key, value) for key in keys(draw, size) for value in data(draw, size, duplicates)]
        return Base(None, kind, duplicates, False, 0, draw.sample(pairs, len(pairs)))

    return make


def records(kind, gaps=False, renumber=False, length=0):
    """What makes a recno or queue."""

    def make(draw, size):
        numbers, last = [], 0
        for _ in range(PAIRS):
            last += draw.choice((1, 1, 1, 2, 9)) if gaps else 1
            numbers.append(last)
        pairs = [(number, draw.randbytes(draw.randrange(length + 1)) if length else datum(draw, size)) for number in numbers]
        return Base(None, kind, "", renumber, length, pairs)

    return make


def few(draw, _):
    return begun_keys(draw, PAIRS)


def many(draw, _):
    return begun_keys(draw, MANY)


def chained(draw, size):
    """Long keys, and short ones of which none begins a long one."""
    return long_keys(draw, size) + [key for key in begun_keys(draw, PAIRS // 4) if key and not key.startswith(b"k")]


def begun_by_short(draw, size):
    """Long keys, and short ones that begin them."""
    return long_keys(draw, size) + [b"k" * length for length in (0, 1, 2, size // 8)] + begun_keys(draw, PAIRS // 4)[1:]


KEYED = [(f"{kind} {duplicates or 'single'}", kind, duplicates) for kind in ("btree", "hash") for duplicates in ("", "unsorted", "sorted")]
MAKERS = (
    {name: keyed(kind, duplicates, few) for name, kind, duplicates in KEYED}
    | {f"{name} long keys": keyed(kind, duplicates, chained) for name, kind, duplicates in KEYED}
    | {f"{name} begun keys": keyed(kind, duplicates, begun_by_short) for name, kind, duplicates in KEYED}
    | {
        "recno": records("recno"),
        "recno gaps": records("recno", gaps=True),
        "recno renumber": records("recno", renumber=True),
        "recno fixed": records("recno", length=RECORD),
        "recno fixed gaps": records("recno", gaps=True, length=RECORD),
        "recno fixed renumber": records("recno", renumber=True, length=RECORD),
        "queue": records("queue", length=RECORD),
        "queue gaps": records("queue", gaps=True, length=RECORD),
    }
)
NAMED = [keyed(kind, duplicates, few) for _, kind, duplicates in KEYED] + [
    keyed("hash", "", chained),
    records("recno"),
    records("recno", gaps=True),
    records("recno", renumber=True),
    records("recno", length=RECORD),
]


def named_text(draw, size, order):
    """A text with a database of each kind that can have a name."""
    made = zip(NAMES, draw.sample(NAMED, len(NAMED)), strict=True)
    return b"".join(section(make(draw, size)._replace(name=name), size, order) for name, make in made)


def made_texts():
    """The texts that are made, each with a name."""
    for size in SIZES:
        for order in ORDERS:
            end = f"{size} {order.decode()}"
            for name, make in MAKERS.items():
                name = f"{name} {end}"
                yield name, section(make(random.Random(name), size), size, order)
            counted = f"btree counted {end}"
            yield counted, section(keyed("btree", "", few)(random.Random(counted), size), size, order, b"recnum=1")
            yield f"named {end}", named_text(random.Random(f"named {end}"), size, order)
    for size in (512, 4096):
        for kind in ("btree", "hash"):
            name = f"{kind} many {size}"
            yield name, section(keyed(kind, "", many)(random.Random(name), size), size, ORDERS[0])
