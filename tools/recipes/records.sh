#!/bin/sh
# records.sh LENGTH FILE [OPTION..]: puts in the place of a damaged recno a sound one with the records that it still
# has, of this fixed length (0: of any), with its owner and mode. The damaged one stays beside it as FILE.damaged. The
# options are those of salvage.
length=$1
file=$(realpath -- "$2") || exit
shift 2
umask 077
new=$(mktemp -d "$file.XXXXXX") || exit
trap 'rm -rf "$new"' EXIT
bdbtool salvage "$@" <"$file" >"$new/salvaged" || exit
# The section behind the first one, without its name.
sed "1,/^DATA=END\$/d; /^database=/d; s/^HEADER=END\$/re_len=$length\n&/" "$new/salvaged" >"$new/text" || exit
lines=$(grep -c '^ ' "$new/text")
[ "$lines" -gt 0 ] || { echo "no records, nothing is replaced" >&2; exit 1; }
bdbtool load <"$new/text" >"$new/file" || exit
bdbtool verify <"$new/file" || exit
chown --reference="$file" "$new/file" && chmod --reference="$file" "$new/file" || exit
ln "$file" "$file.damaged" && mv -f "$new/file" "$file" && echo "put back: $((lines / 2)) records"
