#!/usr/bin/env python3
"""Does to the databases of a file, through Berkeley DB's library, what each line of standard input says, and answers each with a line.

usage: by_bsddb3.py FILE [FOLDER]

With FOLDER, which is empty, the file is used in an environment there: each change is a transaction, and each that stores something is first made in one that
is aborted. Keys, data and names are words of two digits a byte, `.` for no bytes; keys of records are numbers. An answer is the words that were found, `-` for
nothing, or `!` and why the library refused.

    use NAME        opens the database of the name, `-` for the one without
    get KEY         the data of the key, in order
    has KEY DATUM   whether the pair is there: its datum
    from KEY        the first pair whose key isn't less
    put KEY DATUM   stores a pair
    over KEY DATUM OTHER   puts another datum in the place of one, by a cursor
    del KEY         deletes the key
    drop KEY DATUM  deletes the pair, by a cursor
    add DATUM       appends a record: its number
    take            takes the first record of a queue: its number and datum
    all             all pairs, by a cursor from the first on
    back            all pairs, from the last on
"""
import sys

from bsddb3 import db

PARTS = db.DB_INIT_TXN | db.DB_INIT_LOG | db.DB_INIT_LOCK | db.DB_INIT_MPOOL


def word(value):
    """A number, or bytes, as a word."""
    return str(value) if isinstance(value, int) else value.hex() or "."


def bytes_of(text):
    """The bytes that a word spells."""
    return b"" if text == "." else bytes.fromhex(text)


class Asked:
    """A database of a file, and what can be asked of it."""

    def __init__(self, path, name, environment):
        self.environment = environment
        self.base = db.DB(environment)
        self.base.open(path, None if name == "-" else bytes_of(name).decode(), db.DB_UNKNOWN, db.DB_AUTO_COMMIT if environment else 0)
        self.numbered = self.base.get_type() in (db.DB_RECNO, db.DB_QUEUE)

    def key_of(self, text):
        return int(text) if self.numbered else bytes_of(text)

    def get(self, key):
        cursor, found = self.base.cursor(), []
        pair = cursor.set(self.key_of(key))
        while pair:
            found.append(pair[1])
            pair = cursor.next_dup()
        cursor.close()
        if self.base.get(self.key_of(key)) != (found[0] if found else None):
            return [b"!", b"get and a cursor differ"]
        return found

    def has(self, key, datum):
        found = self.base.get_both(self.key_of(key), bytes_of(datum))
        return [] if found is None else [found]

    def put(self, key, datum):
        if self.environment:
            transaction = self.environment.txn_begin()
            self.base.put(self.key_of(key), bytes_of(datum), txn=transaction)
            transaction.abort()
        self.base.put(self.key_of(key), bytes_of(datum))
        return [1]

    def delete(self, key):
        try:
            self.base.delete(self.key_of(key))
        except (db.DBNotFoundError, db.DBKeyEmptyError):
            return []
        return [1]

    def at(self, key, datum, change):
        """Changes the pair by a cursor that stands on it."""
        transaction = self.environment.txn_begin() if self.environment else None
        cursor = self.base.cursor(transaction)
        found = cursor.get_both(self.key_of(key), bytes_of(datum))
        if found:
            change(cursor)
        cursor.close()
        if transaction:
            transaction.commit()
        return [1] if found else []

    def over(self, key, datum, other):
        return self.at(key, datum, lambda cursor: cursor.put(self.key_of(key), bytes_of(other), db.DB_CURRENT))

    def drop(self, key, datum):
        return self.at(key, datum, lambda cursor: cursor.delete())

    def add(self, datum):
        return [self.base.append(bytes_of(datum))]

    def take(self):
        taken = self.base.consume()
        return [int.from_bytes(taken[0], sys.byteorder), taken[1]] if taken else []

    def start(self, key):
        cursor = self.base.cursor()
        pair = cursor.set_range(self.key_of(key))
        cursor.close()
        return list(pair or ())

    def pairs(self, first, following):
        cursor, found = self.base.cursor(), []
        pair = getattr(cursor, first)()
        while pair:
            found += pair
            pair = getattr(cursor, following)()
        cursor.close()
        return found

    def answer(self, verb, *words):
        """The words that answer a line."""
        verbs = {"get": self.get, "has": self.has, "from": self.start, "put": self.put, "over": self.over, "del": self.delete, "drop": self.drop,
                 "add": self.add, "take": self.take}
        if verb in verbs:
            return verbs[verb](*words)
        return self.pairs("first", "next") if verb == "all" else self.pairs("last", "prev")


def environment_in(folder):
    """An environment with transactions, which aren't waited for."""
    environment = db.DBEnv()
    environment.set_flags(db.DB_TXN_NOSYNC, 1)
    environment.open(folder, db.DB_CREATE | db.DB_PRIVATE | PARTS)
    return environment


def main():
    asked, environment = None, environment_in(sys.argv[2]) if len(sys.argv) > 2 else None
    for line in sys.stdin:
        verb, *words = line.split()
        try:
            if verb == "use":
                if asked:
                    asked.base.close()
                asked = None
                asked = Asked(sys.argv[1], words[0], environment)
                found = [1]
            else:
                found = asked.answer(verb, *words) if asked else [b"no database"]
            print(" ".join(map(word, found)) or "-")
        except (db.DBError, UnicodeDecodeError) as fault:
            print("!", " ".join(str(fault).split()))
    if asked:
        asked.base.close()
    if environment:
        environment.txn_checkpoint(0, 0, 0)
        environment.close()


if __name__ == "__main__":
    main()
