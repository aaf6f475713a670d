#!/bin/sh
# add.sh FILE < TEXT: puts in the place of a file one with the pairs of a text added, with its owner and mode. Where
# anything fails the file stays as it is.
file=$(realpath -- "$1") || exit
umask 077
new=$(mktemp "$file.XXXXXX") || exit
trap 'rm -f "$new"' EXIT
bdbtool load --onto "$file" >"$new" || exit
chown --reference="$file" "$new" && chmod --reference="$file" "$new" && mv -f "$new" "$file"
