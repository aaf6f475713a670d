#!/bin/sh
# under.sh BEGINNING < FILE: the pairs of a btree whose key has this beginning, the key and the datum each on a line.
from=$(printf %s "$1" | od -An -v -tx1 | tr -d ' \n')
to=$from
while [ "$to" != "${to%ff}" ]; do to=${to%ff}; done
[ "$to" ] || { echo "no key follows all with this beginning" >&2; exit 2; }
before=${to%??}
bdbtool range --print --hex "$from" "$before$(printf %02x $((0x${to#"$before"} + 1)))"
