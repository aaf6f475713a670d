"""Programs that own database files, each by its own commands. What they hold are entries: keys, each with a value."""
import base64
import collections
import ctypes.util
import os
import shutil
import subprocess
import sys

ENTRIES = 1500
GONE = 50
SECONDS_A_RUN = 120
OLD, BETWEEN, NEW = "20100101", "20150101", "20200101"
EXIM_KEY = "1h/per_mail/"
EXIM_CONFIGURATION = """spool_directory = {spool}
log_file_path = {spool}/%slog
keep_environment =
primary_hostname = mail.example.org
smtp_accept_max_nonmail = 100000
smtp_accept_max_per_connection = 0
acl_smtp_rcpt = rcpt
begin acl
rcpt:
  warn ratelimit = 5 / 1h / strict / $sender_address
  accept
"""
PERDITION = """import ctypes, sys
server = ctypes.CDLL("libperditiondb_bdb.so.0")
for key in sys.stdin.read().splitlines():
    found, length = ctypes.c_void_p(), ctypes.c_size_t()
    refused = server.dbserver_get(key.encode(), sys.argv[1].encode(), ctypes.byref(found), ctypes.byref(length))
    print(key, "" if refused else ctypes.string_at(found, length.value).decode(), sep="\\t")
"""


def run(*words, given="", more=None):
    """Runs a command."""
    environment = os.environ | {"LC_ALL": "C"} | (more or {})
    return subprocess.run(words, input=given, capture_output=True, text=True, errors="replace", timeout=SECONDS_A_RUN, check=False, env=environment)


def failures(runs):
    """How many of the runs failed."""
    return sum(ran.returncode != 0 for ran in runs)


def lines(words):
    """Each word on a line."""
    return "".join(word + "\n" for word in words)


def joined(entries, mark="\t"):
    """A line for each entry, with a mark before its value."""
    return "".join(f"{key}{mark}{value}\n" for key, value in entries.items())


def parted(text, mark="\t"):
    """The entries of the lines that have a mark before a value."""
    return [tuple(line.split(mark, 1)) for line in text.splitlines() if mark in line and not line.endswith(mark)]


def listing_wrong(held, listed, tell):
    """What is wrong with a list of entries, or of keys alone."""
    counts = collections.Counter(key for key, *_ in listed)
    lost = [key for key in held if key not in counts] + [key for key, *value in listed if key in held and value not in ([], [held[key]])]
    there, twice = [key for key in counts if key not in held], [key for key in counts if counts[key] > 1]
    for keys, why in (lost, "not listed as it is"), (there, "listed"), (twice, "listed twice"):
        for key in keys:
            tell(f"{key}: {why}")
    return collections.Counter(missed=len(lost), present=len(there), twice=len(twice))


class Program:
    """A program. Where it can't list or change a file, it has no `listing` or `delete`. Those that change a file tell how many of their runs failed."""

    name = package = ""
    commands = ()
    listing = delete = None
    other_order = b"4321"

    def lacking(self):
        """The package that isn't there; none where all is."""
        return None if all(map(shutil.which, self.commands)) else self.package

    def entries(self, first, count):
        """Entries of which many keys begin others."""
        return {f"user{number}": f"value {number}" for number in range(first, first + count)}

    def other(self, value):
        """What is put in the place of a value."""
        return "other " + value

    def looked(self, path, held, gone, tell):
        """Asks for each key that is there and each that is gone, and lists all."""
        found = self.ask(path, gone | held)
        wrong = [key for key in held if found.get(key) != held[key]]
        there = [key for key in gone if found.get(key) is not None]
        for key in wrong + there:
            tell(f"{key}: {found.get(key, 'not found')}, not {held.get(key, 'gone')}")
        counts = collections.Counter(asked=len(held) + len(gone), missed=len(wrong), present=len(there))
        return counts + listing_wrong(held, self.listing(path), tell) if self.listing else counts

    def use(self, path, entries, tell):
        """Asks; and where the program changes files, deletes a third, replaces a third, adds a third, and asks again. Gives what was wrong before and after."""
        held = dict(entries)
        before, after = self.looked(path, held, {key + "x": "none" for key in list(held)[:GONE]}, tell), collections.Counter()
        if self.delete:
            keys = list(held)
            new = {key: self.other(held[key]) for key in keys[1::3]} | self.entries(len(keys), len(keys) // 3)
            after["missed"] += self.delete(path, keys[::3]) + self.put(path, new, held)
            gone = {key: held.pop(key) for key in keys[::3]}
            after += self.looked(path, held | new, gone, tell)
        return (before, after), None


class Postmap(Program):
    package, commands = "postfix", ("postmap",)

    def __init__(self, kind):
        self.name, self.kind = f"postmap {kind}", kind

    def map(self, path, *words, given=""):
        return run("postmap", "-c", str(path.parent), *words, f"{self.kind}:{path.with_suffix('')}", given=given)

    def write(self, folder, entries):
        path = folder / "map.db"
        (folder / "main.cf").touch()
        path.with_suffix("").write_text(joined(entries))
        self.map(path)
        path.with_suffix("").unlink()
        return path

    def ask(self, path, entries):
        return dict(parted(self.map(path, "-q", "-", given=lines(entries)).stdout))

    def listing(self, path):
        return parted(self.map(path, "-s").stdout)

    def delete(self, path, keys):
        return failures([self.map(path, "-d", "-", given=lines(keys))])

    def put(self, path, entries, _):
        return failures([self.map(path, "-i", "-r", given=joined(entries))])


class Sendmail(Program):
    package, commands = "sendmail-bin", ("makemap", "editmap")

    def __init__(self, kind, *more):
        self.name, self.kind, self.more = " ".join(("sendmail", kind, *more)), kind, more

    def map(self, command, path, flag, *words, given=""):
        return run(command, "-C", "/dev/null", *self.more, flag, self.kind, str(path.with_suffix("")), *words, given=given)

    def write(self, folder, entries):
        self.map("makemap", folder / "map.db", "-v", given=joined(entries))
        return folder / "map.db"

    def ask(self, path, entries):
        runs = ((key, self.map("editmap", path, "-q", key)) for key in entries)
        return {key: ran.stdout.rstrip("\n") for key, ran in runs if ran.returncode == 0}

    def listing(self, path):
        return parted(self.map("makemap", path, "-u").stdout)

    def delete(self, path, keys):
        return failures(self.map("editmap", path, "-x", key) for key in keys)

    def put(self, path, entries, _):
        return failures(self.map("editmap", path, "-u", key, value) for key, value in entries.items())


class Sasl(Program):
    name, package, commands = "sasldb", "sasl2-bin, libsasl2-modules", ("saslpasswd2", "sasldblistusers2", "sasl-sample-server")

    def user(self, path, *words, given=""):
        return run("saslpasswd2", "-f", str(path), "-u", "example.org", *words, given=given)

    def write(self, folder, entries):
        path = folder / "sasldb2"
        (folder / "sample.conf").write_text(f"sasldb_path: {path}\npwcheck_method: auxprop\nauxprop_plugin: sasldb\nmech_list: PLAIN\n")
        self.put(path, entries, {})
        return path

    def found(self, path, key, value):
        """What the sample server, on its standard input and output, says of a user who gives the value as password."""
        said = base64.b64encode(f"PLAIN\0\0{key}\0{value}".encode()).decode()
        words = ("-m", "PLAIN", "-s", "sample", "-d", "example.org", "-u", "example.org")
        ran = run("sasl-sample-server", *words, given=f"C: {said}\n", more={"SASL_CONF_PATH": str(path.parent)})
        return value if "Negotiation complete" in ran.stdout else None if "user not found" in ran.stderr else "another"

    def ask(self, path, entries):
        return {key: self.found(path, key, value) for key, value in entries.items()}

    def listing(self, path):
        return [(key.removesuffix("@example.org"),) for key, _ in parted(run("sasldblistusers2", "-f", str(path)).stdout, ": ")]

    def delete(self, path, keys):
        return failures(self.user(path, "-d", key) for key in keys)

    def put(self, path, entries, _):
        return failures(self.user(path, "-p", "-c", key, given=value) for key, value in entries.items())


class Bogofilter(Program):
    """Values are counts, in the byte order of the file. Those of every third word are old, and these are deleted by their age."""

    name, package, commands = "bogoutil", "bogofilter-bdb", ("bogoutil",)
    other_order = b"1234"

    def entries(self, first, count):
        return {f"user{number}": f"{number} {number + 1}" for number in range(first, first + count)}

    def other(self, value):
        return " ".join(str(int(count) + 7) for count in value.split())

    def write(self, folder, entries):
        dated = {key: f"{value} {NEW if at % 3 else OLD}" for at, (key, value) in enumerate(entries.items())}
        run("bogoutil", "-C", "-l", str(folder / "wordlist.db"), given=joined(dated, " "))
        return folder / "wordlist.db"

    def ask(self, path, entries):
        told = run("bogoutil", "-C", "-w", str(path), given=lines(entries)).stdout.splitlines()[1:]
        return {line.split()[0]: " ".join(line.split()[1:]) for line in told}

    def listing(self, path):
        told = map(str.split, run("bogoutil", "-C", "-d", str(path)).stdout.splitlines())
        return [(key, " ".join(counts)) for key, *counts, _ in told if not key.startswith(".")]

    def delete(self, path, _):
        return failures([run("bogoutil", "-C", "-a", BETWEEN, "-m", str(path))])

    def put(self, path, entries, held):
        """It adds to the counts that there are."""
        more = {}
        for key, value in entries.items():
            before = held.get(key, "0 0").split()
            more[key] = " ".join(str(int(new) - int(old)) for new, old in zip(value.split(), before)) + f" {NEW}"
        return failures([run("bogoutil", "-C", "-l", str(path), given=joined(more, " "))])


def exim_lacking(program):
    """The package that isn't there, or what it needs."""
    if Program.lacking(program):
        return program.package
    return None if run("exim4", "-C", "/dev/null", "-bV").returncode == 0 else "exim4-base, which makes a user Debian-exim"


class Exim(Program):
    """Its hints on the rates of senders. Rates are written by a session on its standard input and output, and changed by exim_fixdb."""

    name, package, commands = "exim ratelimit", "exim4-base, exim4-daemon-light", ("exim4", "exim_dumpdb", "exim_fixdb")

    def entries(self, first, count):
        return {f"user{number}@example.org": "1.000" for number in range(first, first + count)}

    lacking = exim_lacking

    def other(self, _):
        return "7.500"

    def session(self, folder, keys):
        mails = [f"MAIL FROM:<{key}>\r\nRCPT TO:<all@example.org>\r\nRSET\r\n" for key in keys]
        return run("exim4", "-C", str(folder / "exim.conf"), "-bs", given="".join(["EHLO example.org\r\n", *mails, "QUIT\r\n"]))

    def fix(self, path, typed):
        """The answer of exim_fixdb to each line."""
        return run("exim_fixdb", str(path.parent.parent), path.name, given=lines(typed)).stdout.split("> ")[1:]

    def write(self, folder, entries):
        (folder / "exim.conf").write_text(EXIM_CONFIGURATION.format(spool=folder))
        folder.chmod(0o777)
        self.session(folder, entries)
        return folder / "db" / "ratelimit"

    def ask(self, path, entries):
        answers = self.fix(path, [EXIM_KEY + key for key in entries])
        return {key: answer.split()[-1] for key, answer in zip(entries, answers) if "not found" not in answer}

    def listing(self, path):
        told = map(str.split, run("exim_dumpdb", str(path.parent.parent), path.name).stdout.splitlines())
        return [(words[-1].removeprefix(EXIM_KEY), words[3]) for words in told]

    def delete(self, path, keys):
        answers = self.fix(path, [line for key in keys for line in (EXIM_KEY + key, "d")])
        return len(keys) - sum("deleted" in answer for answer in answers)

    def put(self, path, entries, held):
        self.session(path.parent.parent, [key for key in entries if key not in held])
        self.fix(path, [line for key in entries if key in held for line in (EXIM_KEY + key, f"2 {entries[key]}")])
        return 0


class EximLookup(Program):
    """A lookup of exim in a file of exim_dbmbuild, which nothing changes."""

    name, package, commands = "exim lookup", "exim4-base, exim4-daemon-light", ("exim4", "exim_dbmbuild")
    lacking = exim_lacking

    def write(self, folder, entries):
        (folder / "exim.conf").touch()
        (folder / "source").write_text(joined(entries, ": "))
        run("exim_dbmbuild", str(folder / "source"), str(folder / "lookup.db"))
        return folder / "lookup.db"

    def ask(self, path, entries):
        asked = "".join(f"${{lookup{{{key}}}dbm{{{path}}}{{$value}}{{}}}}\n" for key in entries)
        answers = run("exim4", "-C", str(path.parent / "exim.conf"), "-be", given=asked).stdout.splitlines()
        return {key: answer.removeprefix("> ") for key, answer in zip(entries, answers) if answer.strip("> ")}


class Perdition(Program):
    """A map of users. What a running server asks is asked here of its library; makebdb only makes files anew."""

    name, package, commands = "perdition", "perdition", ("makebdb",)

    def entries(self, first, count):
        return {f"user{number}": f"host{number}" for number in range(first, first + count)}

    def lacking(self):
        return super().lacking() or (None if ctypes.util.find_library("perditiondb_bdb") else "perdition")

    def write(self, folder, entries):
        run("makebdb", str(folder / "map.bdb"), given=joined(entries, ":"))
        return folder / "map.bdb"

    def ask(self, path, entries):
        return dict(parted(run(sys.executable, "-c", PERDITION, str(path), given=lines(entries)).stdout))

    def listing(self, path):
        return parted(run("makebdb", "-u", str(path)).stdout, ":")


class Htdbm(Program):
    name, package, commands = "htdbm", "apache2-utils", ("htdbm",)

    def user(self, flags, path, *words):
        return run("htdbm", flags, "-TDB", str(path), *words)

    def write(self, folder, entries):
        (key, value), *_ = entries.items()
        self.user("-cbs", folder / "users", key, value)
        self.put(folder / "users", entries, {})
        return folder / "users"

    def found(self, path, key, value):
        """What is said of a user who gives the value as password."""
        said = self.user("-vb", path, key, value).stderr
        return value if "validated" in said else "another" if "mismatch" in said else None

    def ask(self, path, entries):
        return {key: self.found(path, key, value) for key, value in entries.items()}

    def listing(self, path):
        return [(line.split()[0],) for line in self.user("-l", path).stderr.splitlines()[2:-1]]

    def delete(self, path, keys):
        return failures(self.user("-x", path, key) for key in keys)

    def put(self, path, entries, _):
        return failures(self.user("-bs", path, key, value) for key, value in entries.items())


class Webalizer(Program):
    """Its cache of the names of addresses."""

    name, package, commands = "webalizer", "webalizer", ("wcmgr",)

    def entries(self, first, count):
        return {f"10.0.{number // 256}.{number % 256}": f"host{number}.example.org" for number in range(first, first + count)}

    def other(self, value):
        return "other." + value

    def write(self, folder, entries):
        run("wcmgr", "-c", str(folder / "cache.db"))
        self.put(folder / "cache.db", entries, {})
        return folder / "cache.db"

    def ask(self, path, entries):
        runs = ((key, run("wcmgr", "-f", key, str(path)).stdout.split()) for key in entries)
        return {key: words[-1] for key, words in runs if words and words[-1] != "found!"}

    def listing(self, path):
        return [(line.split()[0], line.split()[-1]) for line in run("wcmgr", "-l", str(path)).stdout.splitlines()]

    def delete(self, path, keys):
        return failures(run("wcmgr", "-d", key, str(path)) for key in keys)

    def put(self, path, entries, held):
        """It adds no address that is there."""
        replaced = self.delete(path, [key for key in entries if key in held])
        return replaced + failures(run("wcmgr", "-a", key, "-n", value, str(path)) for key, value in entries.items())


PROGRAMS = (
    *map(Postmap, ("hash", "btree")),
    *map(Sendmail, ("hash", "btree")),
    Sendmail("hash", "-N"),
    Sasl(),
    Bogofilter(),
    Exim(),
    EximLookup(),
    Perdition(),
    Htdbm(),
    Webalizer(),
)
