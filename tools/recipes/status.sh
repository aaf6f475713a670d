#!/bin/sh
# status.sh FILE: what a script makes of the statuses.
[ -r "$1" ] || { echo "can't read $1"; exit 4; }
bdbtool verify <"$1" >/dev/null 2>said
case $? in
0) echo "sound, go on" ;;
1)
    if bdbtool verify --any-order <"$1" >/dev/null 2>&1; then
        echo "sound, in an order of its program's own"
    else
        echo "damaged, restore it: $(head -n 1 said)"
    fi ;;
3) echo "use the original's tools: $(head -n 1 said)" ;;
6) echo "too large" ;;
4 | 5 | 7) echo "try again: $(cat said)" ;;
*) echo "the script is wrong: $(cat said)" ;;
esac
