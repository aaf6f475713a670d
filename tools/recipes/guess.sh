#!/bin/sh
# guess.sh < DAMAGED: the options by which salvage gives most pairs and records; on standard error what each guess
# gives.
folder=$(mktemp -d) || exit
trap 'rm -rf "$folder"' EXIT
cat >"$folder/file" || exit
most=0
for order in little big; do
    for size in 512 1024 2048 4096 8192 16384 32768; do
        bdbtool salvage --order "$order" --page-size "$size" <"$folder/file" >"$folder/text" || exit
        lines=$(grep -c '^ ' "$folder/text")
        [ "$lines" -eq 0 ] || echo "--order $order --page-size $size: $((lines / 2)) pairs" >&2
        [ "$lines" -le "$most" ] || { most=$lines; best="--order $order --page-size $size"; }
    done
done
[ "$most" -gt 0 ] || { echo "no pairs by any guess" >&2; exit 1; }
echo "$best"
