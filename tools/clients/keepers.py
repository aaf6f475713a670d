"""Programs that keep records in files of several databases, in an environment, or behind a format of their own. What they hold are entries as in programs.py.

Their files are rescued (check_rescues.py), and not changed by the program afterwards. `count` is how many entries such a file has; `opened` does what the
program's keeper does before the program runs with a new file."""
import atexit
import os
import pathlib
import re
import shutil

from clients.programs import Program, joined, parted, run

PHP = "$d = dba_open($argv[1], $argv[2], 'db4'); "
PHP_WRITE = PHP + "foreach (file('php://stdin') as $l) { [$k, $v] = explode(\"\\t\", rtrim($l, \"\\n\")); dba_insert($k, $v, $d); } dba_close($d);"
PHP_LIST = PHP + "for ($k = dba_firstkey($d); $k !== false; $k = dba_nextkey($d)) { echo $k, \"\\t\", dba_fetch($k, $d), \"\\n\"; }"
PHP_ASK = PHP + "foreach (file('php://stdin') as $l) { $k = rtrim($l, \"\\n\"); $v = dba_fetch($k, $d); if ($v !== false) { echo $k, \"\\t\", $v, \"\\n\"; } }"
ONAK = """[main]
backend=db
backends_dir=/usr/lib/x86_64-linux-gnu/onak/backends
logfile={folder}/log
[backend:db]
type=db4
location={folder}/keys
"""
GPG_KEY = "%no-protection\nKey-Type: eddsa\nKey-Curve: ed25519\nName-Real: {name}\nName-Email: {name}@example.org\nExpire-Date: 0\n%commit\n"
INSTANCE = """[general]
config_version = 2
full_machine_name = localhost.localdomain
start = False
strict_host_checking = False
systemd = False
[slapd]
instance_name = {name}
root_password = of-no-use-here
self_sign_cert = False
"""
BACKEND = """dn: cn=userRoot,cn=ldbm database,cn=plugins,cn=config
objectClass: top
objectClass: extensibleObject
objectClass: nsBackendInstance
cn: userRoot
nsslapd-suffix: dc=example,dc=org
nsslapd-directory: {folder}

dn: cn=dc\\3Dexample\\2Cdc\\3Dorg,cn=mapping tree,cn=config
objectClass: top
objectClass: extensibleObject
objectClass: nsMappingTree
cn: dc=example,dc=org
nsslapd-state: backend
nsslapd-backend: userRoot
"""


class Keeper(Program):
    count = 600

    def opened(self, path):
        """Nothing is to be done."""


class Php(Keeper):
    """A file of PHP's functions dba_..."""

    name, package, commands = "PHP dba", "php-cli, php-dba", ("php",)

    def lacking(self):
        return super().lacking() or (None if "db4" in run("php", "-r", "echo join(' ', dba_handlers());").stdout else self.package)

    def write(self, folder, entries):
        run("php", "-r", PHP_WRITE, str(folder / "all.db"), "n", given=joined(entries))
        return folder / "all.db"

    def ask(self, path, entries):
        return dict(parted(run("php", "-r", PHP_ASK, str(path), "r", given=joined(entries, "\n")).stdout))

    def listing(self, path):
        return parted(run("php", "-r", PHP_LIST, str(path), "r").stdout)


class Jigdo(Keeper):
    """A cache of checksums of files, a database with a name. It is asked about files whose bytes have changed since, and neither length nor time: what it
    tells of one that its cache has isn't the checksum of these bytes."""

    name, package, commands = "jigdo", "jigdo-file", ("jigdo-file",)
    MADE = 1_600_000_000

    def filled(self, folder, entries, byte):
        for name in entries:
            (folder / "files" / name).write_text(byte * 2000)
            os.utime(folder / "files" / name, (self.MADE, self.MADE))

    def sums(self, folder, entries, *more):
        told = run("jigdo-file", "md5", "--report=quiet", "--min-length=1024", *more, *(str(folder / "files" / name) for name in entries)).stdout
        return {pathlib.Path(line.split()[1]).name: line.split()[0] for line in told.splitlines() if len(line.split()) == 2}

    def write(self, folder, entries):
        (folder / "files").mkdir()
        self.filled(folder, entries, "a")
        self.sums(folder, entries, f"--cache={folder}/cache.db")
        return folder / "cache.db"

    def ask(self, path, entries):
        self.filled(path.parent, entries, "b")
        new, told = self.sums(path.parent, entries), self.sums(path.parent, entries, f"--cache={path}")
        return {name: entries[name] for name in entries if told.get(name, new[name]) != new[name]}


class SpamAssassin(Keeper):
    """Its tokens, each with its numbers of spam and of other mails. The file has its version and ten numbers more under keys of their own."""

    name, package, commands = "spamassassin", "spamassassin", ("sa-learn",)
    HEAD = "v\t3\tdb_version # this must be the first line!!!\nv\t1\tnum_spam\nv\t1\tnum_nonspam\n"

    def entries(self, first, count):
        return {f"{number:010x}": f"{number % 7 + 1} {number % 5}" for number in range(first, first + count)}

    def learn(self, path, *words, given=""):
        return run("sa-learn", "--dbpath", str(path.parent / "bayes"), "--prefspath=/dev/null", *words, given=given)

    def write(self, folder, entries):
        tokens = "".join("\t".join(("t", *value.split(), "1700000000", key)) + "\n" for key, value in entries.items())
        (folder / "backup").write_text(self.HEAD + tokens)
        self.learn(folder / "bayes_toks", "--restore", str(folder / "backup"))
        return folder / "bayes_toks"

    def listing(self, path):
        told = [line.split() for line in self.learn(path, "--dump", "data").stdout.splitlines()]
        return [(words[4], f"{words[1]} {words[2]}") for words in told if len(words) == 5]

    def ask(self, path, entries):
        return {key: value for key, value in self.listing(path) if key in entries}


class Environment(Keeper):
    """A program whose file stands in an environment. What its log has is written into the files before one is damaged. A new file gets an id of its own:
    else the environment may have pages in its cache of another new one."""

    def opened(self, path):
        run("db5.3_load", "-r", "fileid", str(path))

    def settled(self, path):
        run("db5.3_checkpoint", "-1", "-h", str(path.parent))
        return path


class Onak(Environment):
    """A server of keys of OpenPGP."""

    name, package, commands = "onak", "onak, gnupg", ("onak", "gpg")
    count = 120

    def gpg(self, folder, *words, given=""):
        return run("gpg", "--homedir", str(folder / "gpg"), "--batch", *words, given=given)

    def onak(self, folder, *words, given=""):
        return run("onak", "-c", str(folder / "onak.ini"), *words, given=given)

    def write(self, folder, entries):
        (folder / "gpg").mkdir(mode=0o700)
        (folder / "keys").mkdir()
        (folder / "keys" / "num_keydb").write_text("1")
        (folder / "onak.ini").write_text(ONAK.format(folder=folder))
        self.gpg(folder, "--gen-key", given="".join(GPG_KEY.format(name=key) for key in entries))
        shown = self.gpg(folder, "--list-keys", "--with-colons").stdout
        self.ids = {name: mark for mark, name in re.findall(r"^fpr:+(\w+):.*?^uid:[^\n]*?:(user\d+) <", shown, re.M | re.S)}
        self.onak(folder, "add", given=self.gpg(folder, "--armor", "--export").stdout)
        self.held = {name: self.key(folder, name) for name in entries}
        return self.settled(folder / "keys" / "keydb.0.db")

    def key(self, folder, name):
        return self.onak(folder, "get", "0x" + self.ids[name]).stdout

    def ask(self, path, entries):
        found = {name: self.key(path.parent.parent, name) for name in entries}
        return {name: entries[name] if told == self.held[name] else "another" for name, told in found.items() if "BEGIN PGP" in told}


class Subversion(Environment):
    """The contents of the files of a repository of Subversion."""

    name, package, commands = "svn fs_base", "subversion", ("svn", "svnadmin", "svnlook")

    def lacking(self):
        return super().lacking() or (None if "fs_base" in run("svnadmin", "--version").stdout else "subversion with fs_base")

    def write(self, folder, entries):
        (folder / "made").mkdir()
        for name, value in entries.items():
            (folder / "made" / name).write_text(value)
        run("svnadmin", "create", "--fs-type", "bdb", str(folder / "repository"))
        run("svn", "import", "-q", "-m", "all", str(folder / "made"), f"file://{folder}/repository")
        return self.settled(folder / "repository" / "db" / "strings")

    def ask(self, path, entries):
        runs = ((name, run("svnlook", "cat", str(path.parent.parent), name)) for name in entries)
        return {name: ran.stdout for name, ran in runs if ran.returncode == 0}


class Wallet(Keeper):
    """A btree with the name main in a file with names, made and asked by Perl as wallets make theirs."""

    name, package, commands = "wallet by BerkeleyDB.pm", "libberkeleydb-perl", ("perl",)
    PERL = "use BerkeleyDB; my $d = BerkeleyDB::Btree->new(-Filename => $ARGV[0], -Subname => 'main', -Flags => $ARGV[1] ? DB_CREATE : 0) or exit 1; "
    WRITE = PERL + "while (<STDIN>) { chomp; my ($k, $v) = split /\\t/; $d->db_put($k, $v); }"
    ASK = PERL + "while (<STDIN>) { chomp; my $v; print \"$_\\t$v\\n\" if $d->db_get($_, $v) == 0; }"
    LIST = PERL + "my ($k, $v) = ('', ''); my $c = $d->db_cursor; print \"$k\\t$v\\n\" while $c->c_get($k, $v, DB_NEXT) == 0;"

    def lacking(self):
        return super().lacking() or (None if run("perl", "-MBerkeleyDB", "-e", "1").returncode == 0 else self.package)

    def write(self, folder, entries):
        run("perl", "-e", self.WRITE, str(folder / "wallet.dat"), "1", given=joined(entries))
        return folder / "wallet.dat"

    def ask(self, path, entries):
        return dict(parted(run("perl", "-e", self.ASK, str(path), given=joined(entries, "\n")).stdout))

    def listing(self, path):
        return parted(run("perl", "-e", self.LIST, str(path)).stdout)


class Reprepro(Keeper):
    """The list of packages of an archive, whose database has the name of its part."""

    name, package, commands = "reprepro", "reprepro", ("reprepro", "dpkg-deb")
    count = 120
    CONTROL = "Package: {name}\nVersion: {version}\nArchitecture: all\nMaintainer: Nobody <nobody@example.org>\nSection: misc\nPriority: optional\nDescription: {name}\n"

    def entries(self, first, count):
        return {f"user{number}": f"1.{number}" for number in range(first, first + count)}

    def write(self, folder, entries):
        (folder / "conf").mkdir()
        (folder / "conf" / "distributions").write_text("Codename: stable\nArchitectures: amd64 arm64\nComponents: main\n")
        for name, version in entries.items():
            (folder / "made" / name / "DEBIAN").mkdir(parents=True)
            (folder / "made" / name / "DEBIAN" / "control").write_text(self.CONTROL.format(name=name, version=version))
            run("dpkg-deb", "--root-owner-group", "-b", str(folder / "made" / name), str(folder / "made" / f"{name}.deb"))
        run("reprepro", "-s", "-b", str(folder), "includedeb", "stable", *(str(folder / "made" / f"{name}.deb") for name in entries))
        return folder / "db" / "packages.db"

    def listing(self, path):
        told = run("reprepro", "-b", str(path.parent.parent), "-A", "amd64", "list", "stable").stdout
        return [tuple(line.split(": ", 1)[1].split(" ", 1)) for line in told.splitlines() if ": " in line]

    def ask(self, path, entries):
        return {key: value for key, value in self.listing(path) if key in entries}


class Directory(Keeper):
    """The entries of a server of 389. What is left of them is read by its own dbscan, and imported anew, as for an index that was lost."""

    name, package, commands = "389-ds id2entry", "389-ds-base", ("ns-slapd", "dscreate", "dsctl", "dbscan")
    INSTANCE = "bdbtool-rescue"
    CONFIGURATION = pathlib.Path(f"/etc/dirsrv/slapd-{INSTANCE}")
    DATABASES = pathlib.Path(f"/var/lib/dirsrv/slapd-{INSTANCE}/db")
    DOMAIN = "dn: dc=example,dc=org\nobjectClass: top\nobjectClass: domain\ndc: example\n\n"
    ENTRY = "dn: uid={name},dc=example,dc=org\nobjectClass: top\nobjectClass: account\nuid: {name}\ndescription: {value}\n\n"

    def lacking(self):
        return super().lacking() or (None if os.geteuid() == 0 else "389-ds-base, for the superuser")

    def imported(self, text):
        """The file of entries that the server makes of a text."""
        file = self.DATABASES.parent / "ldif" / "all.ldif"
        file.write_text(text)
        shutil.chown(file, "dirsrv")
        run("ns-slapd", "ldif2db", "-D", str(self.CONFIGURATION), "-n", "userRoot", "-i", str(file))
        return self.DATABASES / "userRoot" / "id2entry.db"

    def write(self, folder, entries):
        (folder / "instance").write_text(INSTANCE.format(name=self.INSTANCE))
        run("dscreate", "from-file", str(folder / "instance"))
        atexit.register(run, "dsctl", self.INSTANCE, "remove", "--do-it")
        (self.DATABASES / "userRoot").mkdir()
        shutil.chown(self.DATABASES / "userRoot", "dirsrv")
        with open(self.CONFIGURATION / "dse.ldif", "a", encoding="utf-8") as file:
            file.write(BACKEND.format(folder=self.DATABASES / "userRoot"))
        for path in (self.CONFIGURATION, *self.CONFIGURATION.iterdir()):
            shutil.chown(path, "dirsrv")
        return self.imported(self.DOMAIN + "".join(self.ENTRY.format(name=name, value=value) for name, value in entries.items()))

    def text(self, path):
        """The entries that dbscan tells, as a text to import; a domain that was lost is put before them."""
        told = run("dbscan", "-f", str(path)).stdout
        parts = (part.split("\tnsUniqueId:")[0] for part in re.split(r"^id \d+\n", told, flags=re.M)[1:])
        entries = [re.sub(r"^\t", "", part, flags=re.M) for part in parts]
        entries = [re.sub(r"^rdn: (.*)\n", r"dn: \1,dc=example,dc=org\n", entry) for entry in entries if not entry.startswith("rdn: dc=")]
        return self.DOMAIN + "\n".join(entries)

    def ask(self, path, entries):
        if path.exists():
            self.imported(self.text(path))
        told = self.DATABASES.parent / "ldif" / "told.ldif"
        run("ns-slapd", "db2ldif", "-D", str(self.CONFIGURATION), "-n", "userRoot", "-a", str(told))
        return dict(re.findall(r"^uid: (.*)\ndescription: (.*)$", told.read_text(), re.M))


KEEPERS = (Php(), Jigdo(), SpamAssassin(), Onak(), Subversion(), Wallet(), Reprepro(), Directory())
