#!/bin/sh
# order.sh ORDER FILE: puts in the place of a sound database file the same one in byte order big or little, with its
# owner and mode. The file as it was stays beside it as FILE.old.
new=$(mktemp "$2.XXXXXX") || exit
trap 'rm -f "$new"' EXIT
bdbtool convert "$1" <"$2" >"$new" || exit
cp -p "$2" "$2.old" && cat "$new" >"$2"
