#!/bin/sh
# rescue.sh GOOD < DAMAGED > NEW: a new file with the databases of a damaged one and what they still have, and on
# standard error what it lacks and has beside the last good dump. Each pair of a dump text on a line, behind the name of
# its database.
pairs() {
    awk '/^VERSION=/ { name = "" } /^database=/ { name = $0 } /^ / { if (key == "") key = $0; else { print name "\t" key "\t" $0; key = "" } }' "$1" | LC_ALL=C sort
}
folder=$(mktemp -d)
trap 'rm -rf "$folder"' EXIT
cat >"$folder/file"
bdbtool salvage --apart <"$folder/file" >"$folder/text" || exit
pairs "$folder/text" >"$folder/have"
pairs "$1" >"$folder/want"
echo "lost $(comm -13 "$folder/have" "$folder/want" | wc -l), kept $(comm -12 "$folder/have" "$folder/want" | wc -l)," \
    "new or changed $(comm -23 "$folder/have" "$folder/want" | wc -l) pairs;" \
    "$(($(bdbtool salvage --rest <"$folder/file" | grep -c '^ ') / 2)) of no database" >&2
comm -13 "$folder/have" "$folder/want" | head -n 3 >&2
bdbtool load <"$folder/text"
