"""Database files of hostile input, for hostile.py. Each function at the end makes one of a count, always with the same bytes, and gives its pages.

Layouts and rules are those of docs/FORMAT.md. Files are little-endian, and their pages have SIZE bytes where nothing else is said. An Image is filled from
page 1 on, so that pages can name those before them; page 0 comes last. No function says which fault its file has: hostile.py tells, and looks whether it is so.
"""
import itertools
import math
import struct

SIZE = 512
HEADER = 26
ROOM = SIZE - HEADER
FREE, HASH, INTERNAL, RECORD_INTERNAL, LEAF, RECORD_LEAF, OVERFLOW, HASH_META, BTREE_META, QUEUE_META, QUEUE, SORTED_LEAF = 0, *range(2, 13)
DUPLICATES, RECNO, COUNTS, MASTER, SORTED = 0x01, 0x02, 0x04, 0x20, 0x40
HASH_DUPLICATES, HASH_NAMED = 0x01, 0x02
DELETED = 0x80
HASH_OF_FIXED_TEXT = 0x5E688DD1
MOST_REFERENCES = 65_535
LAST_RECORD = 2**32 - 2


# Items.


def padded(item):
    """An item up to a multiple of four bytes."""
    return item.ljust(-len(item) // 4 * -4, b"\0")


def inline(value, deleted=0):
    return padded(struct.pack("<HB", len(value), 1 | deleted) + value)


def long_item(chain):
    return struct.pack("<HBBII", 0, 3, 0, *chain)


def set_item(root):
    return struct.pack("<HBBII", 0, 2, 0, root, 0)


def child_item(key, child, count=0):
    return padded(struct.pack("<HBBII", len(key), 1, 0, child, count) + key)


def child_of_long_key(chain, child):
    return struct.pack("<HBBII", 12, 3, 0, child, 0) + long_item(chain)


def record_child(child, count):
    return struct.pack("<II", child, count)


def hash_inline(value):
    return b"\1" + value


def hash_long(chain):
    return struct.pack("<BxxxII", 3, *chain)


def hash_set_item(root):
    return struct.pack("<BxxxI", 4, root)


def key_of(number):
    return b"%08x" % number


# Pages.


def page_of(number, kind, items=(), index=None, level=0, links=(0, 0), size=SIZE):
    """A page of these items, the first of which stands last on it. The index says of each entry which item it is: without one, each is an entry in turn."""
    offsets = [size - end for end in itertools.accumulate(map(len, items))]
    entries = offsets if index is None else [offsets[at] for at in index]
    above = struct.pack("<IIIIIHHBB", 0, 1, number, *links, len(entries), min(offsets, default=size), level, kind)
    above += struct.pack(f"<{len(entries)}H", *entries)
    below = b"".join(reversed(items))
    if len(above) + len(below) > size:
        raise ValueError(f"page {number} is too small for its items")
    return above + bytes(size - len(above) - len(below)) + below


def overflow_page(number, data, links, references=1):
    return (struct.pack("<IIIIIHHBB", 0, 1, number, *links, references, len(data), 0, OVERFLOW) + data).ljust(SIZE, b"\0")


def metadata(number, kind, flags, last, free, size):
    """What metadata pages of all kinds begin with."""
    magic, version = {HASH_META: (0x61561, 9), BTREE_META: (0x53162, 9), QUEUE_META: (0x42253, 4)}[kind]
    return struct.pack("<IIIIIIBBBBIIIIII", 0, 1, number, magic, version, size, 0, kind, 0, 0, free, last, 0, 0, 0, flags) + bytes(range(20))


def btree_metadata(number, root, flags=0, last=0, free=0, size=SIZE):
    return (metadata(number, BTREE_META, flags, last, free, size) + struct.pack("<IIIII", 0, 2, 0, 0x20, root)).ljust(size, b"\0")


def hash_metadata(number, buckets, spares, flags=0, last=0):
    """Metadata of so many buckets, a power of two; spares that aren't given are those of the last one."""
    spares = (*spares, *[spares[-1]] * (32 - len(spares)))
    fields = struct.pack("<IIIIII", buckets - 1, buckets - 1, (buckets - 1) // 2, 0, 0, HASH_OF_FIXED_TEXT)
    return (metadata(number, HASH_META, flags, last, 0, SIZE) + fields + struct.pack("<32I", *spares)).ljust(SIZE, b"\0")


def in_turn(items, taken):
    """Rows of these items, each as long as has room in what a page has behind its header."""
    rows, left = [], 0
    for item in items:
        if taken(item) > left:
            rows.append([])
            left = ROOM
        rows[-1].append(item)
        left -= taken(item)
    return rows


class Image:
    """The pages of a file that is made."""

    def __init__(self, size=SIZE):
        self.size, self.pages = size, [b""]

    @property
    def next(self):
        """The number of the page that comes next."""
        return len(self.pages)

    def add(self, page):
        """Adds a page that knows its number, and gives that."""
        self.pages.append(page)
        return len(self.pages) - 1

    def put(self, kind, items=(), index=None, level=0, links=(0, 0)):
        """Adds a page."""
        return self.add(page_of(self.next, kind, items, index, level, links, self.size))

    def linked(self, kind, rows, level=0):
        """Adds a page for each row of items, or of items and an index, which name each other in turn. Gives their numbers."""
        rows, first = list(rows), self.next
        numbers = range(first, first + len(rows))
        for number, row in zip(numbers, rows):
            items, index = row if isinstance(row, tuple) else (row, None)
            links = (number - 1 if number > first else 0, number + 1 if number < numbers[-1] else 0)
            self.put(kind, items, index, level, links)
        return numbers

    def chain(self, data, references=MOST_REFERENCES):
        """Adds overflow pages of these data. Gives the number of the first and how long they are together."""
        first, last = self.next, self.next + len(data) - 1
        for number, piece in enumerate(data, first):
            links = (number - 1 if number > first else 0, number + 1 if number < last else 0)
            self.add(overflow_page(number, piece, links, references if number == first else 1))
        return first, sum(map(len, data))

    def tree(self, pairs):
        """Adds the leaves of pairs and the pages above them. A pair is two items, and the key of the first begins the page above. Gives the root."""
        rows = in_turn(pairs, lambda pair: 4 + len(pair[0]) + len(pair[1]))
        numbers = self.linked(LEAF, [[item for pair in row for item in pair] for row in rows], level=1)
        return self.above([child_item(first_key(row), number) for row, number in zip(rows, numbers)])[0]

    def above(self, children, kind=INTERNAL, level=2):
        """Adds the levels above pages, of each of which the item that names it is given, up to a single one. Gives that and its level."""
        while len(children) > 1:
            rows = in_turn(children, lambda item: 2 + len(item))
            children, level = [self.named_by_first(kind, row, level, len(rows) == 1) for row in rows], level + 1
        return child_of(children[0], kind), level - 1

    def named_by_first(self, kind, row, level, is_root):
        """Adds an internal page. Gives an item that names it, with the key of its first item and all that its items count, which stands on a root too."""
        count = sum(count_of(item, kind) for item in row)
        number = self.put(kind, row, level=level, links=(count if is_root else 0, 0))
        return record_child(number, count) if kind == RECORD_INTERNAL else row[0][:4] + record_child(number, count) + row[0][12:]

    def alone(self, root, levels, kind=INTERNAL, level=2, count=0):
        """Adds so many internal pages of one child each over a page. Gives the last."""
        for at in range(level, level + levels):
            item = record_child(root, count) if kind == RECORD_INTERNAL else child_item(b"", root, count)
            root = self.put(kind, [item], level=at, links=(count if at == level + levels - 1 else 0, 0))
        return root

    def bucket(self, pairs):
        """Adds the pages of a bucket with these pairs of items. Gives the first."""
        rows = in_turn(pairs, lambda pair: 4 + len(pair[0]) + len(pair[1]))
        return self.linked(HASH, [[item for pair in row for item in pair] for row in rows] or [[]])[0]

    def btree(self, root, flags=0, free=0):
        """The pages of the file, where page 0 is btree metadata."""
        self.pages[0] = btree_metadata(0, root, flags, len(self.pages) - 1, free, self.size)
        return self.pages

    def hash(self, spares, buckets=1, flags=0):
        """The pages of the file, where page 0 is hash metadata."""
        self.pages[0] = hash_metadata(0, buckets, spares, flags, len(self.pages) - 1)
        return self.pages

    def master(self, pairs):
        """The pages of the file, where page 0 is a master. A pair is two items."""
        return self.btree(self.tree(pairs), MASTER)


def child_of(item, kind):
    return struct.unpack_from("<I", item, 0 if kind == RECORD_INTERNAL else 4)[0]


def count_of(item, kind):
    return struct.unpack_from("<I", item, 4 if kind == RECORD_INTERNAL else 8)[0]


def first_key(row):
    """The key of the first pair of a row; no bytes for one in a chain."""
    length, kind = struct.unpack_from("<HB", row[0][0])
    return row[0][0][3 : 3 + length] if kind == 1 else b""


def target(number):
    """The data by which a master names a page."""
    return struct.pack(">I", number)


def named(names, numbers):
    """The pairs of a master."""
    return [(inline(name), inline(target(number))) for name, number in zip(names, numbers)]


def btree_of(image, numbers, flags=0):
    """The pages of a btree with these leaves, whose least key begins the page above."""
    items = [child_item(key_of(at), number) for at, number in enumerate(numbers)]
    return image.btree(image.above(items)[0], flags)


# Chains.


def full(count):
    """Data of full pages, a fortieth as many as what shares them."""
    return [b"x" * ROOM] * max(1, count // 40)


def blank(count, end=b"x"):
    """Data of so many pages, all of which the last has."""
    return [b""] * (count - 1) + [end]


def counted(count):
    """The count, where so many may share a chain."""
    if count > MOST_REFERENCES:
        raise ValueError(f"a chain counts at most {MOST_REFERENCES} references")
    return count


# Metadata that name the same buckets.


def metadata_of_same_buckets(image, count):
    """Adds hash metadata whose buckets begin behind them, as many as these are up to a power of two."""
    first = image.next
    buckets = 1 << (count.bit_length() - 1)
    for number in range(first, first + count):
        image.add(hash_metadata(number, buckets, [first + count]))
    return range(first, first + count)


def shared_buckets(count):
    image = Image()
    numbers = metadata_of_same_buckets(image, count)
    for _ in range(count):
        image.put(HASH)
    return image.master(named(map(key_of, range(count)), numbers))


def shared_zero_buckets(count):
    image = Image()
    numbers = metadata_of_same_buckets(image, count)
    image.pages += [bytes(SIZE)] * count
    return image.master(named(map(key_of, range(count)), numbers))


def buckets_that_overlap(count):
    """Each names the buckets from one page further on."""
    image = Image()
    first, buckets = image.next, 1 << (count.bit_length() - 1)
    for at in range(count):
        image.add(hash_metadata(first + at, buckets, [first + count + at]))
    for _ in range(2 * count):
        image.put(HASH)
    return image.master(named(map(key_of, range(count)), range(first, first + count)))


def buckets_of_wrong_kind(count):
    """All but the last page that they name are buckets."""
    image = Image()
    first, buckets = image.next, 1 << (count.bit_length() - 1)
    for number in range(first, first + count):
        image.add(hash_metadata(number, buckets, [first + count]))
    for _ in range(buckets - 1):
        image.put(HASH)
    image.put(LEAF, level=1)
    return image.master(named(map(key_of, range(count)), range(first, first + count)))


def groups_on_one_page(count):
    """A hash of as many buckets as the count has up to a power of two, whose groups all begin at the page in the middle."""
    buckets = 1 << (count.bit_length() - 1)
    first = buckets // 2 + 1
    begins = [0] + [1 << group for group in range(buckets.bit_length() - 1)]
    image = Image()
    image.pages += [bytes(SIZE)] * (first - 1)
    image.pages += [page_of(number, HASH) for number in range(first, buckets + 1)]
    return image.hash([first - begin for begin in begins], buckets)


def bucket_down(count):
    image = Image()
    for number in range(1, count + 1):
        pair = [hash_inline(b"a"), hash_inline(b"b")] if number == 1 else []
        image.put(HASH, pair, links=(number + 1 if number < count else 0, number - 1))
    return image.hash([count])


def ring(image, count, put):
    """Adds a ring of pages, each by its number and links."""
    first, last = image.next, image.next + count - 1
    for number in range(first, last + 1):
        put(number, (number - 1 if number > first else last, number + 1 if number < last else first))


def bucket_ring(count):
    image = Image()
    bucket = image.bucket([])
    ring(image, count, lambda _, links: image.put(HASH, links=links))
    return image.hash([bucket])


# Items that share a chain.


def btree_of_data(data):
    """What makes a btree whose data share a chain."""

    def make(count):
        image = Image()
        datum = long_item(image.chain(data(counted(count))))
        return image.btree(image.tree((inline(key_of(at)), datum) for at in range(count)))

    return make


def rows_of_one(item, count, kind=RECORD_LEAF):
    """Rows of a leaf, in which so many entries are one item."""
    most = (ROOM - len(item)) // 2
    return [([item], [0] * min(most, count - at)) for at in range(0, count, most)], kind


def set_of(image, rows, kind):
    """Adds a set off the page, of leaves with these rows. Gives its root."""
    numbers = image.linked(kind, rows, level=1)
    if kind == RECORD_LEAF:
        return image.above([record_child(number, len(row[1])) for number, row in zip(numbers, rows)], RECORD_INTERNAL)[0]
    return image.above([child_item(b"x", number) for number in numbers])[0]


def set_of_data(data, kind, flags):
    """What makes a btree of one key, whose data are a set and share a chain."""

    def make(count):
        image = Image()
        rows, _ = rows_of_one(long_item(image.chain(data(counted(count)))), count)
        return image.btree(image.tree([(inline(b"key"), set_item(set_of(image, rows, kind)))]), flags)

    return make


def hash_of_data(data):
    """What makes a hash of one bucket, whose data share a chain."""

    def make(count):
        image = Image()
        datum = hash_long(image.chain(data(counted(count))))
        return image.hash([image.bucket((hash_inline(key_of(at)), datum) for at in range(count))])

    return make


def megabyte(count):
    """Data of full pages, a megabyte of them, however many share them."""
    return [b"x" * ROOM] * (2**20 // ROOM)


def megabyte_chain_btree(count):
    """The chain counts as many references as one may, however many there are."""
    image = Image()
    datum = long_item(image.chain(megabyte(count), min(count, MOST_REFERENCES)))
    return image.btree(image.tree((inline(key_of(at)), datum) for at in range(count)))


full_chain_btree, chain_btree = map(btree_of_data, (full, blank))
full_chain_hash, chain_hash, megabyte_chain_hash = map(hash_of_data, (full, blank, megabyte))
full_chain_set, chain_set = (set_of_data(data, RECORD_LEAF, DUPLICATES) for data in (full, blank))
chain_sorted_set = set_of_data(blank, SORTED_LEAF, SORTED)


def chain_duplicates(count):
    """The pairs of a leaf share its key, and their data are one item."""
    image = Image()
    datum = long_item(image.chain(blank(counted(count))))
    most = (ROOM - len(inline(key_of(0))) - len(datum)) // 4
    shares = [min(most, count - at) for at in range(0, count, most)]
    numbers = image.linked(LEAF, [([inline(key_of(at)), datum], [0, 1] * share) for at, share in enumerate(shares)], level=1)
    return btree_of(image, numbers, SORTED)


def alternating(image, count, item, chains):
    """Adds blank chains of two values. Gives so many items of them, by turns; of one, where only one is wanted."""
    items = [item(image.chain(blank(counted(count), end))) for end in (b"x", b"z")[:chains]]
    return [items[at % chains] for at in range(count)]


def btree_of_keys(chains):
    """What makes a btree whose keys are in so many chains."""

    def make(count):
        image = Image()
        return image.btree(image.tree((key, inline(b"b")) for key in alternating(image, count, long_item, chains)))

    return make


def spares_of_two(image, pairs):
    """Adds two buckets, the first of which has these pairs. Gives the spares that name them."""
    first = image.bucket(pairs)
    return [first, image.bucket([]) - 1]


def hash_of_keys(chains):
    """What makes a hash of two buckets whose keys are in so many chains, and in the first bucket by their hash."""

    def make(count):
        image = Image()
        return image.hash(spares_of_two(image, [(key, hash_inline(b"b")) for key in alternating(image, count, hash_long, chains)]), 2)

    return make


def master_of_names(chains):
    """What makes a master of one database, whose names are in so many chains."""

    def make(count):
        image = Image()
        image.add(btree_metadata(1, 2))
        image.put(LEAF, level=1)
        return image.master([(name, inline(target(1))) for name in alternating(image, count, long_item, chains)])

    return make


chain_keys, chain_keys_two = map(btree_of_keys, (1, 2))
chain_keys_hash, chain_keys_hash_two = map(hash_of_keys, (1, 2))
chain_names, chain_names_two = map(master_of_names, (1, 2))


def long_chain(image, count, end):
    """Adds a chain of full pages, a fourth as many as the count, which may be shared so often. Its hash is even where its last byte is."""
    return image.chain([b"x" * ROOM] * (count // 4 - 1) + [b"x" * (ROOM - 1) + end], counted(count))


def full_chains_order(count):
    """Each key has the two chains as its data, in order."""
    image = Image()
    first, second = (long_item(long_chain(image, count, end)) for end in (b"x", b"z"))
    most = (ROOM - 24) // (8 + len(inline(key_of(0))))
    rows = [range(at, min(count, at + most)) for at in range(0, count, most)]
    leaves = [([first, second, *(inline(key_of(at)) for at in row)], [place for at in range(len(row)) for place in (at + 2, 0, at + 2, 1)]) for row in rows]
    numbers = image.linked(LEAF, leaves, level=1)
    return image.btree(image.above([child_item(key_of(row[0]), number) for row, number in zip(rows, numbers)])[0], SORTED)


def full_chains_grid(count):
    """Each key has two of many chains as its data, in order, and each two of them are those of one key. They are as long as they are many."""
    image = Image()
    chains = math.isqrt(2 * count)
    items = [long_item(image.chain([b"x" * ROOM] * (chains - 1) + [struct.pack(">I", at)], chains)) for at in range(chains)]
    rows = in_turn(enumerate(itertools.combinations(items, 2)), lambda _: ROOM // 8)
    leaves = [[part for at, pair in row for part in (inline(key_of(at)), *pair)] for row in rows]
    numbers = image.linked(LEAF, [(its, [3 * (at // 4) + (0, 1, 0, 2)[at % 4] for at in range(4 * len(its) // 3)]) for its in leaves], level=1)
    return image.btree(image.above([child_item(key_of(row[0][0]), number) for row, number in zip(rows, numbers)])[0], SORTED)


def full_chains_keys(count):
    """Two chains alternate as keys of a btree."""
    image = Image()
    keys = [long_item(long_chain(image, count, end)) for end in (b"x", b"z")]
    return image.btree(image.tree([(keys[at % 2], inline(b"b")) for at in range(count)]))


def full_chain_hashes(count):
    """Hashes of two buckets under a master, each of which has the chain as its one key."""
    image = Image()
    pairs = [(hash_long(long_chain(image, count, b"x")), hash_inline(b"b"))]
    spares = [spares_of_two(image, pairs) for _ in range(count)]
    numbers = [image.add(hash_metadata(image.next, 2, its, HASH_NAMED)) for its in spares]
    return image.master(named(map(key_of, range(count)), numbers))


def databases_of_datum(data):
    """A maker of btrees under a master, each of which has one pair, whose datum is the chain."""

    def make(count):
        image = Image()
        datum = long_item(image.chain(data(count), counted(count)))
        return image.master(named(map(key_of, range(count)), databases(image, count, datum)))

    return make


megabyte_chain_databases, full_chain_databases = map(databases_of_datum, (megabyte, full))


def chain_name_data(count):
    image = Image()
    image.add(btree_metadata(1, 2))
    image.put(LEAF, level=1)
    datum = long_item(image.chain(blank(counted(count), target(1))))
    return image.master([(inline(key_of(at)), datum) for at in range(count)])


def chain_first_keys(count):
    """Each leaf stands below an internal page of its own."""
    image = Image()
    chain = image.chain(blank(counted(count)))
    leaves = image.linked(LEAF, [[inline(key_of(at)), inline(b"b")] for at in range(count)], level=1)
    rows = [image.put(INTERNAL, [child_of_long_key(chain, leaf)], level=2) for leaf in leaves]
    return image.btree(image.above([child_item(key_of(at), row) for at, row in enumerate(rows)], level=3)[0])


def below_separator(data):
    """What makes a btree with a separator in a chain. The leaves below the first child have keys that are less, and those below the second greater ones."""

    def make(count):
        image = Image()
        chain = image.chain(data(count), references=1)
        keys = [b"m%c%07x" % (side, at) for side in b"az" for at in range(count // 2)]
        leaves = image.linked(LEAF, [[inline(key), inline(b"b")] for key in [b"a", *keys[1:]]], level=1)
        items = [child_item(key, leaf) for key, leaf in zip(keys, leaves)]
        (left, level), (right, _) = (image.above(half) for half in (items[: count // 2], items[count // 2 :]))
        return image.btree(image.put(INTERNAL, [child_item(b"", left), child_of_long_key(chain, right)], level=level + 1))

    return make


chain_separator = below_separator(lambda count: blank(count, b"mm"))
chain_gap = below_separator(lambda count: [b"m", *blank(count - 1, b"m")])


def databases(image, count, datum=inline(b"data")):
    """Adds so many btrees of a pair each. Gives the numbers of their metadata."""
    for _ in range(count):
        image.add(btree_metadata(image.next, image.next + 1, MASTER))
        image.put(LEAF, [inline(b"key"), datum], level=1)
    return range(image.next - 2 * count, image.next, 2)


def names_and_last(count):
    return [*map(key_of, range(count - 1)), b"zzzz"]


def chain_name(count):
    image = Image()
    chain = image.chain(blank(count, b"m"), references=1)
    pairs = named(names_and_last(count), databases(image, count))
    pairs[-2] = (long_item(chain), pairs[-2][1])
    return image.master(pairs)


def chain_key_hash(count):
    """A key and the same behind a NUL have one hash."""
    image = Image()
    chain = image.chain(blank(count, b"\0\0a"), references=1)
    keys = [hash_inline(b"a"), *(hash_inline(key_of(at)) for at in range(count)), hash_long(chain), hash_inline(b"\0a")]
    return image.hash([image.bucket((key, hash_inline(b"b")) for key in keys)])


def chain_pivot(count):
    image = Image()
    chain = image.chain(blank(count, b"a-key-of-m"), references=1)
    keys = [hash_inline(b"a-key-of-" + key_of(at)) for at in range(count)]
    keys[count // 2] = hash_long(chain)
    return image.hash([image.bucket((key, hash_inline(b"b")) for key in keys)])


def chain_down(count):
    image = Image()
    for number in range(1, count + 1):
        image.add(overflow_page(number, b"x" * ROOM, (number + 1 if number < count else 0, number - 1)))
    return image.btree(image.tree([(inline(b"key"), long_item((count, count * ROOM)))]))


def chain_ring(count):
    image = Image()
    root = image.tree([(inline(b"a"), inline(b"b"))])
    ring(image, count, lambda number, links: image.add(overflow_page(number, b"", links)))
    return image.btree(root)


def chain_join(count):
    """All heads name the page behind the last of them, which names the first."""
    image = Image()
    for number in range(1, count + 1):
        image.add(overflow_page(number, b"x", (0, count + 1)))
    image.add(overflow_page(count + 1, b"x", (1, 0)))
    return image.btree(image.tree((inline(key_of(at)), long_item((at + 1, 2))) for at in range(count)))


def chain_length(count):
    image = Image()
    head, length = image.chain(blank(counted(count)))
    return image.btree(image.tree((inline(key_of(at)), long_item((head, length + 1))) for at in range(count)))


# Sets off the page.


def own_sets(count):
    image = Image()
    roots = [image.put(RECORD_LEAF, [inline(b"a"), inline(b"b")], level=1) for _ in range(count)]
    return image.btree(image.tree((inline(key_of(at)), set_item(root)) for at, root in enumerate(roots)), DUPLICATES)


def set_of_long_key(count):
    """The chain of the key takes about as many bytes as its data with their pages."""
    image = Image()
    key = long_item(image.chain([b"k" * ROOM] * max(1, count // 10), 1))
    items = in_turn((inline(b"%04x" % (at * 7919 % 65536)) for at in range(count)), lambda item: 2 + len(item))
    return image.btree(image.tree([(key, set_item(set_of(image, [(row, range(len(row))) for row in items], RECORD_LEAF)))]), DUPLICATES)


def keys_of_one_set(image, root, count):
    """The pages of a btree whose keys share a set."""
    return image.btree(image.tree((inline(key_of(at)), set_item(root)) for at in range(count)), DUPLICATES)


def shared_set(count):
    image = Image()
    rows, kind = rows_of_one(inline(b"datum"), max(1, count // 40))
    return keys_of_one_set(image, set_of(image, rows, kind), count)


def long_set(image, count):
    """A set of a quarter as many data as there are keys."""
    rows, kind = rows_of_one(inline(b"datum"), max(1, count // 4))
    return set_of(image, rows, kind)


def shared_long_set(count):
    image = Image()
    return keys_of_one_set(image, long_set(image, count), count)


def shared_long_set_hash(count):
    image = Image()
    item = hash_set_item(long_set(image, count))
    return image.hash([image.bucket((hash_inline(key_of(at)), item) for at in range(count))], flags=HASH_DUPLICATES)


def blank_set(image, count):
    return set_of(image, [([], [])] * count, RECORD_LEAF)


def shared_blank_set(count):
    image = Image()
    return keys_of_one_set(image, blank_set(image, count), count)


def shared_sparse_set(count):
    """The last leaf has the set's one datum."""
    image = Image()
    root = set_of(image, [([], [])] * (count - 1) + [([inline(b"a")], [0])], RECORD_LEAF)
    return keys_of_one_set(image, root, count)


def joined_sets(count):
    """Each set has a root of its own, over the first of leaves without entries."""
    image = Image()
    leaves = image.linked(RECORD_LEAF, [[]] * count, level=1)
    roots = [image.put(RECORD_INTERNAL, [record_child(leaves[0], 0)], level=2) for _ in range(count)]
    return image.btree(image.tree((inline(key_of(at)), set_item(root)) for at, root in enumerate(roots)), DUPLICATES)


def shared_blank_set_hash(count):
    image = Image()
    item = hash_set_item(blank_set(image, count))
    return image.hash([image.bucket((hash_inline(key_of(at)), item) for at in range(count))], flags=HASH_DUPLICATES)


def shared_deleted_set(count):
    image = Image()
    rows, kind = rows_of_one(inline(b"", DELETED), 240 * count)
    return keys_of_one_set(image, set_of(image, rows, kind), count)


def shared_deep_set(count):
    """All items of a page name the one below it. There is a row for each fourth key, up to 250."""
    image = Image()
    root = image.put(RECORD_LEAF, [inline(b"a")], level=1)
    for level in range(2, 2 + min(250, count // 4)):
        root = image.put(RECORD_INTERNAL, [record_child(root, 1)] * (ROOM // 10), level=level)
    return keys_of_one_set(image, root, count)


# Free pages.


def free_pages(count, following):
    """A btree of one pair on page 1 and so many free pages from page 2 on, each of which names the page that follows it. Page 0 names the last."""
    image = Image()
    root = image.tree([(inline(b"a"), inline(b"b"))])
    for number in range(2, count + 2):
        image.put(FREE, links=(0, following(number)))
    return image, root


def free_down(count):
    image, root = free_pages(count, lambda number: number - 1 if number > 2 else 0)
    return image.btree(root, free=count + 1)


def free_ring(count):
    image, root = free_pages(count, lambda number: number + 1 if number < count + 1 else 2)
    return image.btree(root)


def free_join(count):
    image, root = free_pages(count, lambda number: 2 if number > 2 else 0)
    return image.btree(root, free=count + 1)


# Trees.


def leaves_of(image, count, pairs=1):
    """Adds so many leaves of ascending keys. Gives the items that name them, which count their pairs."""
    rows = ((at * pairs, range(at * pairs, (at + 1) * pairs)) for at in range(count))
    numbers = image.linked(LEAF, [[item for at in row for item in (inline(key_of(at)), inline(b"b"))] for _, row in rows], level=1)
    return [child_item(key_of(at * pairs), number, pairs) for at, number in enumerate(numbers)]


def tall(image, items, height, kind=INTERNAL):
    """Adds the levels above leaves up to a single page, and pages of one child each up to a height. Gives the root."""
    root, level = image.above(items, kind)
    return image.alone(root, max(0, height - level), kind, level + 1, sum(count_of(item, kind) for item in items))


def deep_trees(count):
    image = Image()
    roots = [image.alone(image.put(LEAF, [inline(b"a"), inline(b"b")], level=1), 253) for _ in range(count)]
    numbers = [image.add(btree_metadata(image.next, root, MASTER)) for root in roots]
    return image.master(named(map(key_of, range(count)), numbers))


def deep_rows(count):
    image = Image()
    leaves = image.linked(LEAF, [[inline(key_of(at)), inline(b"b")] for at in range(count)], level=1)
    rows = [image.alone(leaf, 249) for leaf in leaves]
    return image.btree(image.above([child_item(key_of(at), row) for at, row in enumerate(rows)], level=251)[0])


# As many as fit above a leaf: its level is 1, and none is above 254.
HEIGHT = 250


def deep_wide(count):
    image = Image()
    return image.btree(tall(image, leaves_of(image, count), HEIGHT))


def deep_disorder(count):
    """The keys of each leaf begin with the greatest."""
    image = Image()
    rows = [[*range(20 * at + 1, 20 * at + 20), 20 * at] for at in range(count)]
    numbers = image.linked(LEAF, [[item for at in row for item in (inline(key_of(at)), inline(b"b"))] for row in rows], level=1)
    items = [child_item(key_of(20 * at), number) for at, number in enumerate(numbers)]
    return image.btree(tall(image, items, HEIGHT))


def deep_counts(count):
    image = Image()
    return image.btree(tall(image, leaves_of(image, count, 4), HEIGHT), COUNTS)


def deep_recno(count):
    image = Image()
    numbers = image.linked(RECORD_LEAF, [[inline(b"a")]] * count, level=1)
    return image.btree(tall(image, [record_child(number, 1) for number in numbers], HEIGHT, RECORD_INTERNAL), RECNO)


# Leaves full of entries that are one item.

LARGE = 32_768


def full_leaves(size, count, items, entries):
    """An image of large pages, so many of which are leaves. A leaf is full of entries of these items of its number, again and again."""
    image = Image(size)
    kind, items_of = items
    rows = []
    for at in range(count):
        row = items_of(at)
        most = (size - HEADER - sum(map(len, row))) // (2 * len(entries))
        rows.append((row, entries * most))
    return image, image.linked(kind, rows, level=1), [len(index) for _, index in rows]


def recno_of(image, numbers, counts):
    items = [record_child(number, count) for number, count in zip(numbers, counts)]
    return image.btree(image.above(items, RECORD_INTERNAL)[0], RECNO)


def full_chain_recno(count):
    image = Image()
    rows, kind = rows_of_one(long_item(image.chain(full(counted(count)))), count)
    return recno_of(image, image.linked(kind, rows, level=1), [len(index) for _, index in rows])


def long_entries(count):
    """The entries of a leaf are one item of half a page."""
    return recno_of(*full_leaves(LARGE, count, (RECORD_LEAF, lambda at: [inline(key_of(at) * 2_000)]), [0]))


def long_items(at, room):
    """An item of half a page, and before it the beginnings of as many others of its length as have room with so many bytes of an index each. They overlap."""
    item = inline(key_of(at) * 2_000)
    return [item] + [item[:4]] * ((LARGE - HEADER - len(item) - 16) // (4 + room))


def overlapping_entries(count):
    image = Image(LARGE)
    rows = [(items, range(len(items))) for items in (long_items(at, 2) for at in range(count))]
    return recno_of(image, image.linked(RECORD_LEAF, rows, level=1), [len(index) for _, index in rows])


def overlapping_data(count):
    """They are the data of the leaf's key."""
    image, rows = Image(LARGE), []
    for at in range(count):
        items = long_items(at, 4)
        rows.append(([inline(key_of(at)), *items], [entry for n in range(len(items)) for entry in (0, n + 1)]))
    return btree_of(image, image.linked(LEAF, rows, level=1), DUPLICATES)


def empty_entries(count):
    return recno_of(*full_leaves(LARGE, count, (RECORD_LEAF, lambda _: [inline(b"")]), [0]))


def shared_empty(flags):
    """What makes a btree of data without bytes that share the key of their leaf."""

    def make(count):
        image, numbers, _ = full_leaves(LARGE, count, (LEAF, lambda at: [inline(key_of(at)), inline(b"")]), [0, 1])
        return btree_of(image, numbers, flags)

    return make


empty_duplicates, empty_sorted_duplicates = shared_empty(DUPLICATES), shared_empty(SORTED)


def empty_keys(count):
    """A key stands twice, and its two items by turns, so that none is shared with the pair before."""
    image, numbers, _ = full_leaves(LARGE, count, (LEAF, lambda _: [inline(b""), inline(b"")]), [0, 1, 1, 0])
    return btree_of(image, numbers)


# Files of zeros.


def zeros(count):
    piece = bytes(1 << 20)
    return (piece[: count - at] for at in range(0, count, len(piece)))


def zero_pages_hash(count):
    image = Image()
    bucket = image.bucket([])
    image.pages += [bytes(SIZE)] * count
    return image.hash([bucket])


def zero_pages_btree(count):
    image = Image()
    root = image.tree([(inline(b"a"), inline(b"b"))])
    image.pages += [bytes(SIZE)] * count
    return image.btree(root)


def zero_pages_tail(count):
    image = Image()
    pages = image.btree(image.tree([(inline(b"a"), inline(b"b"))]))
    return itertools.chain(pages, itertools.repeat(bytes(SIZE), count))


# Names.


def many_names(count):
    image = Image()
    return image.master(named(names_and_last(count), databases(image, count)))


def metadata_without_names(count):
    image = Image()
    databases(image, count)
    return image.btree(image.tree([(inline(b"a"), inline(b"b"))]))


def full_chain_names(count):
    """The names are one chain of full pages, of which there are a quarter as many as databases."""
    image = Image()
    name = long_item(image.chain([b"x" * ROOM] * (count // 4), counted(count)))
    return image.master([(name, inline(target(page))) for page in databases(image, count)])


def names_of_one_page(count):
    image = Image()
    databases(image, 1)
    return image.master(named(map(key_of, range(count)), itertools.repeat(1)))


# Queues of all numbers, with records of three bytes.

SLOT, SLOTS = 4, (SIZE - 28) // 4


def queue_page(number):
    return struct.pack("<IIIIIIBBH", 0, 1, number, 0, 0, 0, 0, QUEUE, 0) + b"\3abc" * SLOTS


def queue_metadata():
    fields = struct.pack("<IIIIII", 1, LAST_RECORD + 1, 3, 0x20, SLOTS, 0)
    return (metadata(0, QUEUE_META, 0, 0, 0, SIZE) + fields).ljust(SIZE, b"\0")


def queue_range(count):
    return [queue_metadata(), *map(queue_page, range(1, count + 1))]


def queue_range_zero(count):
    return itertools.chain([queue_metadata()], itertools.repeat(bytes(SIZE), count - 1), [queue_page(count)])
