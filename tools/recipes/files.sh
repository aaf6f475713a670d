#!/bin/sh
# Makes the files on which the recipes are tried, in the folder where it runs: postfix's aliases (a hash, its keys and
# data end in a NUL byte), users (a btree in pages of 512 bytes), a queue, two that are damaged and one that is no
# database.
mkdir -p lib
{
    printf 'VERSION=3\nformat=print\ntype=hash\nHEADER=END\n'
    printf ' postmaster\\00\n root\\00\n root\\00\n anna\\00\n abuse\\00\n root\\00\n'
    printf 'DATA=END\n'
} | bdbtool load > lib/aliases.db
{
    printf 'VERSION=3\nformat=print\ntype=btree\ndb_pagesize=512\nHEADER=END\n'
    seq 1 200 | sed 's/.*/ user&\n \/home\/user&/'
    printf 'DATA=END\n'
} | bdbtool load > lib/users.db
{
    printf 'VERSION=3\nformat=print\ntype=queue\nre_len=8\nre_pad=32\nkeys=1\nHEADER=END\n'
    seq 1 50 | sed 's/.*/ &\n job &/'
    printf 'DATA=END\n'
} | bdbtool load > lib/jobs.db
bdbtool dump < lib/users.db > users.good
{ head -c 4096 lib/users.db; head -c 512 /dev/zero | tr '\0' '\377'; tail -c +4609 lib/users.db; } > lib/overwritten.db
head -c 6000 lib/users.db > lib/cut.db
printf 'no database, but a text that is long enough to be read as one, %s\n' 1 2 3 4 5 6 7 8 9 10 > lib/README
