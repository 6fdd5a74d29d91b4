# shellcheck shell=sh
# What ./leancop and the installed leancop answer beside the program, and whether they are typed at a prompt. Sourced by both.

# tell_of_itself USAGE VERSION WORD..: answers words that ask about leancop itself, from two files, and exits: none (with 5, as the
# program does), help and --help, alone or with a command, and --version; help of what is no command is a bad word, too. Returns where
# the words are others.
tell_of_itself() {
    usage=$1 version=$2
    shift 2
    case "$#:${1-}:${2-}" in
    0:*) tell_usage '' >&2 && exit 5 ;;
    *:--version:* | *:-V:*) printf 'leancop %s\n' "$(cat -- "$version")" ;;
    *:-h:* | *:--help:*) tell_usage '' ;;
    *:help:*)
        if [ -n "${2-}" ] && ! grep -q "^leancop $2 " "$usage"; then
            echo "leancop: there is no command $2" >&2 && tell_usage '' >&2
            exit 5
        fi
        tell_usage "${2-}"
        ;;
    2:*:-h | 2:*:--help) tell_usage "$1" ;;
    *) return ;;
    esac
    exit 0
}

# tell_usage COMMAND: the paragraph of this command; the first one is that of all commands
tell_usage() {
    awk -v RS= -v command="$1" '{ split($0, word, /[ \n]/) } NR == 1 || command == word[2] { told = $0 } END { print told }' "$usage"
}

# Whether standard error is a terminal and this process leads its group, as what is typed at a prompt does.
is_typed() {
    [ -t 2 ] || return
    stat=$(cat "/proc/$$/stat" 2>/dev/null) || return
    # shellcheck disable=SC2086 # fields
    set -- ${stat##*) }
    [ "$3" = "$$" ]
}
