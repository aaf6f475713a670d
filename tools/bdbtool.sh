#!/bin/sh
# The installed launcher, PREFIX/bin/bdbtool: answers words that ask for help or the version, and starts the program
# with all others. What it reads stands in PREFIX/libexec/bdbtool, which it finds by its own place.

top=.
case $0 in */*) top=${0%/*} ;; esac
if [ -L "$0" ]; then
    top=$(dirname "$(readlink -f "$0")")
fi
top=$top/..
parts=$top/libexec/bdbtool

show_version() {
    cat "$parts/version"
}

show_more() {
    documents=$(cd "$top" && pwd)/share/doc/bdbtool
    printf '\nThe manual page: man bdbtool; recipes, and what each fault means: %s\n' "$documents"
}

# shellcheck disable=SC2034
called=bdbtool
# shellcheck source=tools/launch.sh
. "$parts/launch.sh"
answer_help "$@"
start "$parts/bdbtool" "$@"
