#!/bin/sh
# pad.sh < TEXT > NEW: the text with re_pad as the original's db_load reads it, where records are filled up with spaces.
sed '/^HEADER=END$/,$b; s/^re_pad=32$/re_pad= /'
