"""What is asked of a database and changed in it, and what each answer has to be: the steps for by_bsddb3.py and by_db_file.pl."""
import bisect
from typing import NamedTuple

from . import texts

ROUNDS = 2
FRESH = 100


class Step(NamedTuple):
    """A line for a helper, what it is for, the words that have to answer it, and whether the database was changed before."""

    line: str
    use: str
    expected: list
    changed: bool = False


def word(value):
    """A number, or bytes, as a word."""
    return str(value) if isinstance(value, int) else value.hex() or "."


def step(use, expected, verb, *values):
    """A step whose line has these values, and whose answer those."""
    return Step(" ".join((verb, *map(word, values))), use, [word(value) for value in expected])


class Keyed:
    """The pairs that a btree or hash has to have, and the keys that it hasn't any more, or never had."""

    def __init__(self, base, draw):
        self.base, self.draw = base, draw
        self.data, self.gone, self.fresh = {}, set(), 0
        for key, datum in base.pairs:
            self.put(key, datum)
        for key in list(self.data):
            self.gone.update(near for near in (key + b"\0", key + b"0", key[:-1]) if near and near not in self.data)

    def put(self, key, datum):
        held = self.data.setdefault(key, [])
        if not self.base.duplicates:
            held.clear()
        if self.base.duplicates == "sorted":
            bisect.insort(held, datum)
        else:
            held.append(datum)
        self.gone.discard(key)

    def remove(self, key, datum):
        self.data[key].remove(datum)
        if not self.data[key]:
            del self.data[key]
            self.gone.add(key)

    def pairs(self):
        """All pairs, by their keys."""
        return [(key, datum) for key in sorted(self.data) for datum in self.data[key]]

    def asked(self):
        """Each key is asked for, and each that is gone; of several data each; and of a btree the first key from another on."""
        for key, held in self.data.items():
            yield step("asked", held, "get", key)
            for datum in held if self.base.duplicates else ():
                yield step("asked", [datum], "has", key, datum)
        for key in sorted(self.gone):
            yield step("gone", [], "get", key)
        if self.base.kind == "btree":
            yield from self.ranges()

    def ranges(self):
        keys = sorted(self.data)
        for key in sorted(self.gone):
            at = bisect.bisect_left(keys, key)
            yield step("asked", (keys[at], self.data[keys[at]][0]) if at < len(keys) else (), "from", key)

    def datum(self, key):
        """A datum that the key hasn't."""
        return next(it for it in iter(lambda: texts.datum(self.draw, 512), None) if it not in self.data.get(key, ()))

    def changed(self):
        """Of the keys about a fourth is deleted, and of another fourth a datum replaced; others are added, beside these and new ones."""
        keys, first = list(self.data), self.fresh
        self.fresh += FRESH
        added = self.draw.sample(sorted(self.gone), min(len(self.gone), len(keys) // 3 + 5)) + [b"new%d" % number for number in range(first, self.fresh)]
        for key in self.draw.sample(keys + added, len(keys) + len(added)):
            draw = 0 if key not in self.data else self.draw.randrange(1, 5)
            yield from (self.put_step(key),) if draw == 0 else self.deleted(key) if draw == 1 else self.replaced(key) if draw == 2 else ()

    def put_step(self, key):
        datum = self.datum(key)
        self.put(key, datum)
        return step("changed", [1], "put", key, datum)

    def deleted(self, key):
        if self.draw.randrange(2):
            yield step("changed", [1], "del", key)
            self.gone.add(key)
            del self.data[key]
            return
        datum = self.draw.choice(self.data[key])
        yield step("changed", [1], "drop", key, datum)
        self.remove(key, datum)

    def replaced(self, key):
        datum = self.draw.choice(self.data[key])
        if self.base.duplicates != "sorted" and self.draw.randrange(2):
            other = self.datum(key)
            yield step("changed", [1], "over", key, datum, other)
            self.data[key][self.data[key].index(datum)] = other
            return
        if self.base.duplicates:
            yield step("changed", [1], "drop", key, datum)
            self.remove(key, datum)
        yield self.put_step(key)


class Records:
    """The records that a recno or queue has to have, and the number of the last that it ever had."""

    def __init__(self, base, draw):
        self.base, self.draw = base, draw
        self.data = {number: self.filled(datum) for number, datum in base.pairs}
        self.last = max(self.data, default=0)
        self.gone = set()
        self.mark_gaps()

    def filled(self, datum):
        """A record as long as those of a fixed length are."""
        return datum.ljust(self.base.length, b" ")

    def mark_gaps(self):
        self.gone = {number for number in range(1, self.last + 3) if number not in self.data}

    def pairs(self):
        return sorted(self.data.items())

    def asked(self):
        for number, datum in self.data.items():
            yield step("asked", [datum], "get", number)
        for number in sorted(self.gone):
            yield step("gone", [], "get", number)

    def datum(self):
        length = self.base.length
        return self.draw.randbytes(self.draw.randrange(length + 1)) if length else texts.datum(self.draw, 512)

    def put_step(self, number):
        datum = self.datum()
        self.data[number] = self.filled(datum)
        self.last = max(self.last, number)
        return step("changed", [1], "put", number, datum)

    def changed(self):
        """Of the records about a fourth is deleted, and another fourth replaced; gaps are filled, records appended, and the first of a queue taken. What
        doesn't renumber gets one past its end too."""
        numbers = [number for number in range(1, self.last + 1) if number in self.data or not self.base.renumber]
        for number in self.draw.sample(numbers, len(numbers)):
            draw = self.draw.randrange(4)
            if draw == 0 and number in self.data:
                yield step("changed", [1], "del", number)
                self.delete(number)
            elif draw == 1 and (number in self.data or self.base.kind == "recno" and not self.base.renumber):
                yield self.put_step(number)
        if not self.base.renumber:
            yield self.put_step(self.last + 3)
        for _ in range(len(numbers) // 4 + 3):
            yield self.added()
        for _ in range(5 if self.base.kind == "queue" else 0):
            if self.data:
                number = min(self.data)
                yield step("changed", (number, self.data.pop(number)), "take")
        self.mark_gaps()

    def delete(self, number):
        del self.data[number]
        if self.base.renumber:
            self.data = {other - (other > number): datum for other, datum in self.data.items()}
            self.last -= 1

    def added(self):
        datum = self.datum()
        self.last += 1
        self.data[self.last] = self.filled(datum)
        return step("changed", [self.last], "add", datum)


def state_of(base, draw):
    """What a database of a text has to have."""
    return (Records if base.numbered else Keyed)(base, draw)


def scanned(state):
    """All pairs are gone through, forward and back."""
    flat = [item for pair in state.pairs() for item in pair]
    yield step("scanned", flat, "all")
    yield step("scanned", flat, "back")


def steps_of(state):
    """Asks, scans, changes, and asks and scans again."""
    yield Step("use -", "changed", ["1"]) if state.base.name is None else step("changed", [1], "use", state.base.name)
    yield from state.asked()
    yield from scanned(state)
    for _ in range(ROUNDS):
        for changes in state.changed(), state.asked(), scanned(state):
            for it in changes:
                yield it._replace(changed=True)
