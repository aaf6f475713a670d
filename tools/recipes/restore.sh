#!/bin/sh
# restore.sh FILE [OPTION..]: puts in the place of a damaged file a sound one with its databases and what they still
# have, with its owner and mode. The damaged one stays beside it as FILE.damaged. The options are those of repair;
# without --as each database keeps its name, its kind and its flags.
file=$(realpath -- "$1") || exit
shift
if bdbtool verify --any-order <"$file" >/dev/null 2>&1; then
    echo "$file is sound, at least in an order of its program's own: nothing is replaced" >&2
    exit 1
fi
case " $*" in *" --as"*) how= ;; *) how=--apart ;; esac
umask 077
new=$(mktemp "$file.XXXXXX") || exit
trap 'rm -f "$new"' EXIT
bdbtool repair $how "$@" <"$file" >"$new" || exit
[ "$(bdbtool dump <"$new" | grep -c '^ ')" -gt 0 ] || { echo "no pairs, nothing is replaced" >&2; exit 1; }
chown --reference="$file" "$new" && chmod --reference="$file" "$new" || exit
ln "$file" "$file.damaged" && mv -f "$new" "$file" || exit
bdbtool list <"$file" | while read -r kind name; do
    lines=$(bdbtool dump ${name:+--name "$name"} <"$file" | grep -c '^ ')
    echo "put back: $kind${name:+ $name}, $((lines / 2)) pairs or records"
done
[ -z "$how" ] || bdbtool survey "$@" <"$file.damaged" | while read -r word one two three name; do
    case $word:$one in
    zero:0) ;;
    zero:*) echo "pages of zeros: $one" ;;
    refused:*) echo "can't be read: page $two" ;;
    number:*) echo "page $one says that it is page $two" ;;
    database:*) [ "$three" -eq 0 ] || echo "lost on pages that are there: $three of $one${name:+ $name}" ;;
    rest:*) echo "of no database: $((one + two))" ;;
    esac
done
