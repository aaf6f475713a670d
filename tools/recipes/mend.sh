#!/bin/sh
# mend.sh < TEXT > NEW: a text of db_dump -R without what stands before its header, without keys that have no datum, and
# with its end.
awk '
    /^VERSION=/ { begun = 1; ended = 0 }
    !begun { next }
    /^ / { if (has_key) { print key; print; has_key = 0 } else { key = $0; has_key = 1 } next }
    { has_key = 0; ended = /^DATA=END$/; print }
    END { if (begun && !ended) print "DATA=END" }
'
