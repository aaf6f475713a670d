#!/bin/sh
# move.sh ORDER SIZE < OLD > NEW: the same databases in byte order 1234 (low byte first) or 4321, in pages of SIZE
# bytes.
text=$(mktemp)
trap 'rm -f "$text"' EXIT
bdbtool dump >"$text" || exit
sed -e "s/^db_lorder=.*/db_lorder=$1/" -e "s/^db_pagesize=.*/db_pagesize=$2/" "$text" | bdbtool load
