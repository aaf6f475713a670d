#!/bin/sh
# edit.sh SCRIPT < OLD > NEW: edits the printed text of a file by a script of sed.
text=$(mktemp)
trap 'rm -f "$text"' EXIT
bdbtool dump --print >"$text" || exit
sed "$1" "$text" | bdbtool load
