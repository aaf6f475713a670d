#!/bin/sh
# lookup.sh KEY < FILE: the data of a key, be it stored with a NUL byte at its end or without. The status is that of
# bdbtool.
file=$(mktemp)
trap 'rm -f "$file"' EXIT
cat >"$file"
bdbtool get --print -- "$1" <"$file" 2>/dev/null || bdbtool get --print -- "$1\\00" <"$file"
