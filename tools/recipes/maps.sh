#!/bin/sh
# Makes the maps on which restore, guess and records are tried, each by its program, and damages them: postfix's virtual
# (a hash) and relocated (a btree), the users of Cyrus SASL, sendmail's access (a hash), an index of names (a btree with
# sorted data), and lines, records of 12 bytes. postfix reads its settings in `etc`, where MAIL_CONFIG says so.
mkdir -p etc
echo 'compatibility_level = 3.6' >etc/main.cf
seq 1 2000 | sed 's/.*/user&@example.org\tuser&/' >lib/virtual
seq 1 2000 | sed 's/.*/old&@example.org\tnew&@example.org/' >lib/relocated
seq 1 600 | sed 's/.*/host&.example.org\tREJECT/' >lib/access
postmap hash:lib/virtual btree:lib/relocated
makemap -C /dev/null hash lib/access <lib/access
for number in $(seq 1 200); do
    echo "secret$number" | saslpasswd2 -p -c -f lib/sasldb2 -u example.org "user$number"
done
seq 1 500 | sed 's/.*/record &/' | db5.3_load -T -t recno -c re_len=12 -c db_pagesize=512 lib/lines.db
# The entries of each name, by their numbers in four bytes, the high one first.
{
    printf 'VERSION=3\nformat=print\ntype=btree\ndb_pagesize=4096\nduplicates=1\ndupsort=1\nHEADER=END\n'
    seq 1 1500 | while read -r number; do
        for entry in "$number" "$((number + 4000))"; do
            printf ' =user%d\\00\n \\00\\00\\%02x\\%02x\n' "$number" "$((entry / 256))" "$((entry % 256))"
        done
    done
    printf 'DATA=END\n'
} | db5.3_load lib/cn.bdb
# The addresses that are asked for.
cut -f 1 lib/virtual >virtual.keys
cut -f 1 lib/relocated >relocated.keys
chmod 640 lib/*.db lib/sasldb2
chown nobody lib/virtual.db 2>/dev/null
stat -c '%u %g %a' lib/virtual.db >virtual.owner
# overwrite FILE SIZE PAGE: a page of other bytes.
overwrite() {
    head -c "$2" /dev/zero | tr '\0' '\377' | dd of="$1" bs="$2" seek="$3" conv=notrunc 2>/dev/null
}
overwrite lib/virtual.db 4096 5
overwrite lib/relocated.db 4096 0
cp lib/lines.db lib/lines.good
overwrite lib/lines.db 512 9
overwrite lib/cn.bdb 4096 3
truncate -s 18000 lib/sasldb2
dd if=/dev/zero of=lib/access.db bs=4096 count=1 conv=notrunc 2>/dev/null
