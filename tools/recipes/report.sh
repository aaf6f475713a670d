#!/bin/sh
# report.sh FOLDER..: a line for each database file below the folders. The status is 1 where one is damaged or can't be
# read.

# How many pairs a damaged file still has in each database, and how many are broken, for the end of its line.
left() {
    bdbtool survey <"$1" 2>/dev/null |
        sed -n 's/^database \([a-z]*\) \([0-9]*\) \([0-9]*\)\(.*\)/; \1\4: \2 whole, \3 broken/p' | tr -d '\n'
}
damaged=0
report=$(mktemp)
trap 'rm -f "$report"' EXIT
find "$@" -type f >"$report"
while IFS= read -r file; do
    [ -r "$file" ] || { echo "unread      $file"; damaged=1; continue; }
    said=$(bdbtool verify <"$file" 2>&1)
    status=$?
    first=$(echo "$said" | head -n 1)
    # Where a log lies beside it, the file's last data may stand in that alone.
    folder=$(dirname "$file")
    beside=$(find "$folder" -maxdepth 1 \( -name 'log.[0-9]*' -o -name '__db.*' \) | head -n 1)
    case $status:$first in
    0:*) echo "sound       $file: ${first#sound, }${beside:+, in an environment}" ;;
    1:*' Short' | 1:*' Magic') ;; # no database
    1:*' KeyOrder' | 1:*' Separator' | 1:*' DuplicateOrder')
        if bdbtool verify --any-order <"$file" >/dev/null 2>&1; then
            echo "own order   $file: sound but for the order of its keys"
        else
            echo "DAMAGED     $file: $first$(left "$file")"; damaged=1
        fi ;;
    1:*) echo "DAMAGED     $file: $first, and $(echo "$said" | tail -n +2 | wc -l) more${beside:+, in an environment}$(left "$file")"; damaged=1 ;;
    3:*) echo "unsupported $file: $first" ;;
    *) echo "unread      $file: $first"; damaged=1 ;;
    esac
done <"$report"
exit $damaged
