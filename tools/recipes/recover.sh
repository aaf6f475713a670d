#!/bin/sh
# recover.sh FOLDER COPY: copies the folder of an environment, and recovers the copy. FOLDER stays as it is.
[ -e "$2" ] && { echo "$2 is there already" >&2; exit 1; }
cp -a -- "$1" "$2" && db5.3_recover -h "$2" && bdbtool list <"$(find "$2" -name '*.db' | head -n 1)"
