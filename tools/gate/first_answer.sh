#!/bin/sh
# The answer of a run without proof of `first_answer`, the program that is compiled in less time: what ./hrthood falls back on, and says so, where
# there is neither a proved binary nor node with a page of the current sources. It takes a minute or more, and needs `rt`.
# usage: first_answer.sh VERB FILES..
set -u

top=$(CDPATH='' cd -- "$(dirname -- "$0")/../.." && pwd) || exit 125

# A standard error that can't be written changes no answer.
say() {
    printf 'hrthood: %s\n' "$1" >&2 2>/dev/null || :
}

# Sets `whole` to the name by which the run without proof, which has a folder of its own, finds the file of the word of this number.
name_whole() {
    case $1 in
        # no name of a file
        '' | -*)
            whole=$1
            return
            ;;
        /*) whole=$1 ;;
        *) whole=$PWD/$1 ;;
    esac
    # A pipe or a device is read here, up to a byte more than any file may have; /dev/stdin can be a file too.
    case $whole in
        /dev/* | /proc/*) copied=true ;;
        *) [ -e "$whole" ] && [ ! -f "$whole" ] && copied=true || copied=false ;;
    esac
    if $copied; then
        whole=$scratch/word$2
        [ -e "$whole" ] || head -c 16777217 -- "$1" >"$whole" 2>/dev/null || rm -f "$whole"
    fi
}

# Sets `whole` to what the run without proof is given for the word of this number. Which words of which verb name files is not known here.
# A word of digits alone may be a count: it stays as it is, and a file of that name is laid where the run finds it. Any other word is no
# count, with a folder before it or without.
give_word() {
    name_whole "$1" "$2"
    case $1 in
        '' | *[!0-9]*) return ;;
    esac
    [ ! -f "$whole" ] || head -c 16777217 -- "$whole" >"$beside/$1" 2>/dev/null || rm -f "$beside/$1"
    whole=$1
}

# Copies what a run without proof reads into a folder of its own: the sources, and of crates.txt the crates that code names. So the
# crates that hold laws or definitions alone are not read, which spares some two seconds.
copy_sources() {
    mkdir "$1" && cp "$top/HANDLES" "$1" || return 1
    while read -r name below; do
        case $name in
            '' | '#'* | *[!:]) continue ;;
        esac
        source=$top/crates/${name%:}/src
        mkdir -p "$1/crates/${name%:}" && cp -R "$source" "$1/crates/${name%:}" || return 1
        named=" $(grep -rhoE '[a-z0-9_]+::' "$source" | sort -u | tr -d ':' | tr '\n' ' ')"
        for library in $below; do
            case $named in
                *" $library "*) name="$name $library" ;;
            esac
        done
        echo "$name" >>"$1/crates.txt" || return 1
    done <"$top/crates.txt"
}

# Writes the answer of a run without proof to these words, and sets its status, or says why there is none.
answer() {
    if ! copy_sources "$scratch/sources"; then
        say "the sources can't be copied to $scratch"
        return
    fi
    beside=$scratch/sources/crates/first_answer
    number=0
    for word in "$@"; do
        number=$((number + 1))
        [ "$number" -gt 1 ] || set --
        whole=$word
        [ "$number" -eq 1 ] || give_word "$word" "$number"
        set -- "$@" "$whole"
    done
    (cd -- "$beside" && rt try --seconds 600 -- "$@") </dev/null >"$scratch/out" 2>"$scratch/err"
    ended=$?
    last=$(tail -n 1 "$scratch/err")
    case $last in
        'run=ended status='*' proved=no') ;;
        *)
            # Status 6 is that of a text or a time that is too long, which leaves the end of the text there.
            [ "$ended" -eq 6 ] || tail -n 30 "$scratch/err" >&2
            say 'the run without proof has no answer to this; it has none of more than 1 MiB'
            return
            ;;
    esac
    status=${last#run=ended status=}
    status=${status%% *}
    if [ -s "$scratch/out" ] && ! cat "$scratch/out" 2>/dev/null; then
        echo 'fault writing' >&2
        status=4
    fi
    sed '/^checked: ended status=[0-9]*$/,$d' "$scratch/err" >"$scratch/told"
}

# Says what the program told of these words, with the names of files as they were given.
tell() {
    told=$(cat "$scratch/told")
    number=0
    for word in "$@"; do
        number=$((number + 1))
        name_whole "$word" "$number"
        if [ "$told" = "fault reading $whole" ]; then
            told="fault reading $word"
            break
        fi
    done
    [ -n "$told" ] || return
    printf '%s\n' "$told" >&2
    # In words too, where ./hrthood found that they are wanted.
    if [ "${HRTHOOD_WORDS-}" = always ]; then
        printf '%s\n' "$told" >"$scratch/told"
        node "$top/tools/report/told_at.mjs" --words "$scratch/told" "$@" >&2
    fi
}

scratch=$(mktemp -d) || exit 125
trap 'rm -rf "$scratch"' EXIT
trap 'exit 129' HUP
trap 'exit 130' INT
trap 'exit 143' TERM
# A reader of standard error that has gone ends no answer.
trap : PIPE
status=125
: >"$scratch/told"
answer "$@"
tell "$@"
exit "$status"
