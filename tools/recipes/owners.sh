#!/bin/sh
# Makes files with named databases on which restore is tried, and overwrites a page of each: those of an archive of
# reprepro, a wallet with the database `main` and the script that reads it, and a keyring of onak.
mkdir -p lib archive/conf keys
# An archive of 60 packages, in two architectures.
printf 'Codename: stable\nArchitectures: amd64 arm64\nComponents: main\n' >archive/conf/distributions
for number in $(seq 1 60); do
    mkdir -p "made/p$number/DEBIAN"
    printf 'Package: package%d\nVersion: 1.%d\nArchitecture: all\nMaintainer: Nobody <nobody@example.org>\nSection: misc\nPriority: optional\nDescription: package %d\n' \
        "$number" "$number" "$number" >"made/p$number/DEBIAN/control"
    dpkg-deb --root-owner-group -b "made/p$number" "made/p$number.deb" >/dev/null
done
reprepro -s -b archive includedeb stable made/*.deb
# A wallet: a btree with the name main, keys that begin with a length and a word.
{
    printf 'VERSION=3\nformat=print\ndatabase=main\ntype=btree\ndb_pagesize=4096\nHEADER=END\n'
    seq 1 900 | sed 's/.*/ \\04name&\n label &/'
    seq 1 900 | sed 's/.*/ \\03key&\n \\d6&secret&/'
    printf ' \\07version\n \\60\\ea\\00\\00\nDATA=END\n'
} | db5.3_load lib/wallet.dat
# What a program does that has a wallet: it counts the entries from the first on, and asks for one by its key.
cat >wallet.pl <<'END'
use BerkeleyDB;
my $wallet = BerkeleyDB::Btree->new(-Filename => 'lib/wallet.dat', -Subname => 'main') or die "$BerkeleyDB::Error\n";
my ($key, $value, $count, $end, $cursor) = ('', '', 0, 0, $wallet->db_cursor);
$count++ while ($end = $cursor->c_get($key, $value, DB_NEXT)) == 0;
print "$count entries, then $end\n";
print $wallet->db_get("\x04$ARGV[0]", $value) == 0 ? "$value\n" : "no $ARGV[0]\n";
END
# A keyring of onak, in an environment: 120 made-up keys of RSA, each with a user and no signature, and their numbers.
cat >onak.ini <<END
[main]
backend=db
backends_dir=$(dirname "$(dpkg -L onak | grep libkeydb_db4)")
logfile=onak.log
[backend:db]
type=db4
location=keys
END
perl -e '
    sub packet { my ($tag, $body) = @_; pack("Cn", 0x81 | $tag << 2, length $body) . $body }
    for my $n (1 .. 120) {
        my $modulus = pack "N*", map { ($n * 2654435761 + $_ * 40503) % 2**32 | 0x80000001 } 1 .. 32;
        print packet(6, pack("CNCn", 4, 1.6e9 + $n, 1, 1024) . $modulus . pack("nC3", 17, 1, 0, 1)), packet(13, "user$n");
    }' >keys.gpg
echo 1 >keys/num_keydb
onak -b -c onak.ini add <keys.gpg
for number in $(seq 1 120); do
    onak -c onak.ini index "user$number" | grep -o '0x[0-9A-F]*'
done >keys.ids
db5.3_checkpoint -1 -h keys && rm keys/__db.*
# overwrite FILE SIZE PAGE: a page of zeros.
overwrite() {
    dd if=/dev/zero of="$1" bs="$2" count=1 seek="$3" conv=notrunc 2>/dev/null
}
overwrite lib/wallet.dat 4096 6
overwrite archive/db/packages.db 4096 7
overwrite archive/db/checksums.db 4096 5
yes damage | head -c 4096 | dd of=keys/keydb.0.db bs=4096 seek=4 conv=notrunc 2>/dev/null
