# shellcheck shell=sh
# What ./bdbtool and the installed launcher share: the help, whether words are a command, and the start of the program.
# Both read this file by `.`, having set `called`, the launcher's name, and have two functions: `show_version`, and
# `show_more`, which ends the help. The rules of words stand in man/bdbtool.1, and their definition in
# crates/bdb_tool_words/specs/Commands.antt; tools/check_launcher.py compares.

# The program's own line for words that are no command.
usage='usage: bdbtool verify, list, get, dump, load, salvage, trial, range, convert, stat, repair or survey'

commands='verify list get range dump load survey salvage repair convert stat trial'

# The row of a command: how many operands it has, its words but --max-bytes, and what it gives. An option that stands in
# brackets by itself has no value, every other one takes the next word. Another word has no row.
look_up() {
    case $1 in
    verify) set -- 0 'verify [--any-order]' 'says that a Berkeley DB file is sound, or names its faults' ;;
    list) set -- 0 'list [--any-order]' 'the databases of a sound file' ;;
    get) set -- 1 'get [--name NAME] [--hex] [--print] [--any-order] KEY' 'the data of a key' ;;
    range)
        set -- 2 'range [--name NAME] [--hex] [--print] FROM TO' 'the pairs of a btree from one key to before another'
        ;;
    dump) set -- 0 'dump [--name NAME] [--print] [--any-order]' 'the dump text of the databases, or of one' ;;
    load) set -- 0 'load [--onto BASE]' 'a file of a dump text, or of BASE with its pairs added' ;;
    survey) set -- 0 'survey [--order ORDER --page-size SIZE]' 'what a damaged file still has, and what is lost' ;;
    salvage)
        set -- 0 'salvage [--print] [--apart] [--rest] [--order ORDER --page-size SIZE]' \
            'the text of what a damaged file still has'
        ;;
    repair)
        set -- 0 'repair [--apart] [--as KIND [--duplicates] [--dupsort]] [--order ORDER --page-size SIZE]' \
            'a new file of what a damaged one still has'
        ;;
    convert) set -- 1 'convert ORDER' 'the same file in a byte order' ;;
    stat) set -- 0 'stat' 'what the pages are, and how much of them holds nothing' ;;
    trial) set -- 3 'trial KIND SEED COUNT' 'builds and verifies a file of generated pairs; reads nothing' ;;
    *) return 1 ;;
    esac
    operands=$1 synopsis=$2 gives=$3
}

# Help.

show_help() {
    printf 'usage: bdbtool COMMAND [OPTION..] [OPERAND..] < FILE\n\n'
    for command in $commands; do
        look_up "$command"
        if [ ${#synopsis} -le 50 ]; then
            printf '  %-50s  %s\n' "$synopsis" "$gives"
        else
            printf '  %s\n%54s%s\n' "$synopsis" '' "$gives"
        fi
    done
    cat <<'HELP'

Each command takes --max-bytes N, the longest input and file. Options stand before the operands; -- ends them.
`bdbtool COMMAND --help` tells what they say. The input comes by `< FILE`: no command takes its name.

status: 0 done, 1 fault, 2 usage, 3 not supported, 4 read fault, 5 write fault, 6 too long, 7 out of memory,
8 fault of a text, 9 not found, 10 no metadata page, 12 not a btree, 13 items overlap,
14 not one btree, hash or recno
HELP
    show_more
}

# An option as it stands in the synopsis, and what it says, where the command has it.
show_option() {
    case $synopsis in *"[$1"* | *" $1]"*) printf '  %-18s %s\n' "$1" "$2" ;; esac
}

show_operand() {
    printf '  %-18s %s\n' "$1" "$2"
}

show_command() {
    look_up "$1"
    case $1 in
    trial) redirected= ;;
    load) redirected=' < TEXT > NEW' ;;
    convert | repair) redirected=' < FILE > NEW' ;;
    dump | salvage) redirected=' < FILE > TEXT' ;;
    *) redirected=' < FILE' ;;
    esac
    unnamed='the one without a name'
    [ "$1" != dump ] || unnamed=all
    printf 'usage: bdbtool %s [--max-bytes N]%s%s\n\n' "$1" "${synopsis#"$1"}" "$redirected"
    printf '%s: %s\n\n' "$1" "$gives"
    show_option '--any-order' 'for a file whose program orders keys, or the data of a key, in a way of its own'
    show_option '--name NAME' "the name of the database, in the print spelling; without it $unnamed"
    show_option '--hex' 'the operands are spelled by hexadecimal digits, two for each byte'
    show_option '--print' 'keys and data are written in the print spelling; without it by hexadecimal digits'
    show_option '--onto BASE' 'the sound file whose databases the pairs are added to: it is read, and stays as it is'
    show_option '--apart' 'each database that is found, with its name, kind and settings; not with --rest or --as'
    show_option '--rest' 'what belongs to no database that is found'
    show_option '--as KIND' 'the new file has one database without a name: btree, hash or recno'
    show_option '--duplicates' 'a key of it has all its data, as they come; not with recno'
    show_option '--dupsort' 'a key of it has all its data, sorted, each once; not with recno'
    show_option '--order ORDER' 'big or little: the byte order of a damaged file whose page 0 is lost; with --page-size'
    show_option '--page-size SIZE' 'its page size: 512, 1024, 2048, 4096, 8192, 16384 or 32768; with --order'
    show_operand '--max-bytes N' 'a longer input or new file is refused: 1 to 1073741824 bytes, by default the latter'
    show_operand '--' 'ends the options'
    case $1 in
    get) show_operand KEY 'the key, in the print spelling; of a recno and a queue the number of a record' ;;
    range)
        show_operand FROM 'the first key, in the print spelling'
        show_operand TO 'the key before which the range ends'
        ;;
    convert) show_operand ORDER 'big or little' ;;
    trial)
        show_operand KIND 'btree, hash, recno or queue'
        show_operand SEED 'a number up to 2147483647'
        show_operand COUNT 'the number of pairs, up to 200000'
        ;;
    esac
    case $1 in
    get | range | dump)
        printf '\nIn the print spelling a backslash stands before another one, '
        printf 'or before the two hexadecimal digits of a byte.\n'
        ;;
    esac
}

# Answers words that ask for help or the version, and ends. The program answers such words by its usage line, but for
# `get -h`: that asks for the key -h, and is taken for help only where no file can follow, at a terminal.
answer_help() {
    asked=
    case $#:$1 in
    1:--help | 1:-h | 1:help)
        show_help
        exit
        ;;
    1:--version)
        show_version
        exit
        ;;
    2:help) asked=$2 ;;
    2:*)
        case $2 in
        --help) asked=$1 ;;
        -h) if [ "$1" != get ] || [ -t 0 ]; then asked=$1; fi ;;
        esac
        ;;
    esac
    look_up "$asked" || return
    show_command "$asked"
    exit
}

# Words.

# Whether a word is UTF-8: by the digits of its bytes, where it has others than those of ASCII.
is_utf8() {
    case $1 in
    *[!\ -~]*) ;;
    *) return 0 ;;
    esac
    rest='[89ab].'
    two="(c[2-9a-f]|d.)$rest"
    three="(e0[ab].|ed[89].|e[1-9a-cef]$rest)$rest"
    four="(f0[9ab].|f48.|f[1-3]$rest)$rest$rest"
    {
        printf %s "$1" | od -An -v -tx1 | tr -d ' \n'
        echo
    } | LC_ALL=C grep -Eqx "([0-7].|$two|$three|$four)*"
}

# Whether a word is a number of one to ten decimal digits that lies within bounds.
is_number() {
    case $3 in
    '' | *[!0123456789]* | ???????????*) return 1 ;;
    esac
    [ "$3" -ge "$1" ] && [ "$3" -le "$2" ]
}

is_hex() {
    case $1 in
    *[!0123456789abcdefABCDEF]*) return 1 ;;
    esac
    [ $((${#1} % 2)) -eq 0 ]
}

# Whether each backslash of a word stands before another one or before two digits.
is_printed() {
    left=$1
    while :; do
        case $left in
        *\\*) left=${left#*\\} ;;
        *) return 0 ;;
        esac
        case $left in
        \\*) left=${left#?} ;;
        [0123456789abcdefABCDEF][0123456789abcdefABCDEF]*) left=${left#??} ;;
        *) return 1 ;;
        esac
    done
}

# Whether an option may have a value.
is_value() {
    case $1=$2 in
    --onto=*) ;;
    --max-bytes=*) is_number 1 1073741824 "$2" ;;
    --name=*) is_printed "$2" ;;
    --order=big | --order=little) ;;
    --page-size=512 | --page-size=1024 | --page-size=2048 | --page-size=4096) ;;
    --page-size=8192 | --page-size=16384 | --page-size=32768) ;;
    --as=btree | --as=hash | --as=recno) ;;
    *) return 1 ;;
    esac
}

# Whether the options that were given go together.
go_together() {
    case $given in
    *' --order'*' --page-size'* | *' --page-size'*' --order'*) ;;
    *' --order'* | *' --page-size'*) return 1 ;;
    esac
    case $given in
    *' --as=recno'*' --dup'* | *' --dup'*' --as=recno'*) return 1 ;;
    *' --as='*) ;;
    *' --dup'*) return 1 ;;
    esac
    case "$given " in
    *' --apart'*' --rest '* | *' --rest'*' --apart '*) return 1 ;;
    *' --apart'*' --as='* | *' --as='*' --apart '*) return 1 ;;
    esac
}

# Whether a command may have these operands, of which there are as many as it has.
are_operands() {
    case $command in
    get | range)
        spelled=is_printed
        case $given in *' --hex'*) spelled=is_hex ;; esac
        for operand; do
            "$spelled" "$operand" || return
        done
        ;;
    convert) case $1 in big | little) ;; *) return 1 ;; esac ;;
    trial)
        case $1 in btree | hash | recno | queue) ;; *) return 1 ;; esac
        is_number 0 2147483647 "$2" && is_number 0 200000 "$3"
        ;;
    esac
}

# Whether words are a command of the program, which answers others by its usage line.
is_command() {
    for word; do
        is_utf8 "$word" || return
    done
    look_up "$1" || return
    command=$1
    shift
    # The options so far, a space before each; --as with its value, which is one of three words then.
    given=
    while :; do
        case $1 in
        --)
            shift
            break
            ;;
        --*[!abcdefghijklmnopqrstuvwxyz-]*) return 1 ;;
        --*) ;;
        *) break ;;
        esac
        case "$given " in *" $1 "* | *" $1="*) return 1 ;; esac
        case "$synopsis [--max-bytes N]" in
        *"[$1]"*) given="$given $1" ;;
        *"[$1 "* | *" $1 "*)
            [ $# -ge 2 ] && is_value "$1" "$2" || return
            case $1 in --as) given="$given $1=$2" ;; *) given="$given $1" ;; esac
            shift
            ;;
        *) return 1 ;;
        esac
        shift
    done
    [ $# -eq "$operands" ] && go_together && are_operands "$@"
}

# The line behind the program's own where words are no command.
point_to_help() {
    # shellcheck disable=SC2154
    printf '%s --help tells the commands and their options; the input comes by < FILE\n' "$called" >&2
}

# Answers words that are no command as the program does, and ends.
refuse_words() {
    printf '%s\n' "$usage" >&2
    point_to_help
    exit 2
}

# Starts a program with words, and ends with its status. It has the last word on whether they are a command.
# Large pages of memory, where the system has them: the program reads a file into one room and goes over it in the order
# of its trees, so that much of what it waits for is where a small page lies.
start() {
    program=$1
    shift
    GLIBC_TUNABLES=${GLIBC_TUNABLES:+$GLIBC_TUNABLES:}glibc.malloc.hugetlb=1
    export GLIBC_TUNABLES
    is_command "$@" && exec "$program" "$@"
    "$program" "$@"
    status=$?
    [ $status -ne 2 ] || point_to_help
    exit $status
}
