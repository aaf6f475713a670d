#!/bin/sh
# install.sh PREFIX [PROGRAM]: puts the built program, or this one, under PREFIX, with its launcher, manual page,
# documents, recipes and completions, and tells each file. DESTDIR, where it is set, stands before each place.

usage() {
    echo "usage: tools/install.sh PREFIX [PROGRAM]" >&2
    exit 2
}

[ $# -eq 1 ] || [ $# -eq 2 ] || usage
case $1 in
'' | -*) usage ;;
esac
top=$(dirname "$(dirname "$(readlink -f "$0")")")
program=${2:-$top/crates/bdbtool/out/bdbtool}
if ! { [ -f "$program" ] && [ -x "$program" ]; }; then
    echo "install.sh: the program isn't built: run './bdbtool verify < samples/one-pair-little.db' in $top first" >&2
    exit 1
fi
prefix=${DESTDIR-}$1
parts=$prefix/libexec/bdbtool
documents=$prefix/share/doc/bdbtool

# Puts a file of this mode into its place, whole: one that runs meanwhile keeps what it has.
put() {
    mkdir -p "${3%/*}" && cp "$2" "$3.new" && chmod "$1" "$3.new" && mv -f "$3.new" "$3" && printf '%s\n' "$3" || exit
}

version=$(mktemp) || exit
trap 'rm -f "$version"' EXIT
"$top/bdbtool" --version >"$version" || exit

put 755 "$program" "$parts/bdbtool"
put 644 "$top/tools/launch.sh" "$parts/launch.sh"
put 644 "$version" "$parts/version"
put 755 "$top/tools/bdbtool.sh" "$prefix/bin/bdbtool"
put 644 "$top/man/bdbtool.1" "$prefix/share/man/man1/bdbtool.1"
put 644 "$top/docs/FAULTS.md" "$documents/FAULTS.md"
put 644 "$top/docs/RECIPES.md" "$documents/RECIPES.md"
put 644 "$top/docs/FORMAT.md" "$documents/FORMAT.md"
# A recipe has the name that its second line tells; the others only make the files on which recipes are tried.
for recipe in "$top"/tools/recipes/*.sh; do
    name=$(sed -n '2s/^# \([a-z]*\.sh\) .*/\1/p' "$recipe")
    [ -z "$name" ] || put 755 "$recipe" "$documents/$name"
done
put 644 "$top/tools/completions/bdbtool" "$prefix/share/bash-completion/completions/bdbtool"
put 644 "$top/tools/completions/_bdbtool" "$prefix/share/zsh/site-functions/_bdbtool"

# whatis and apropos read an index. That of a package is made where the package is put in place.
if [ -z "${DESTDIR-}" ] && command -v mandb >/dev/null 2>&1; then
    mandb --quiet "$prefix/share/man" >/dev/null 2>&1
fi
exit 0
