#!/usr/bin/env bash
# Runs the program on each case of examples/*.cases, and looks at its status and at all that it writes. The names of tables as words, as
# `tools/gate/test_examples.sh verbs`, run those alone. With a path in PROGRAM that program is run, else ./hrthood. .ci/run runs it.
#
# A case is a line `status | words | standard output | standard error`. The words are those of the command line, `''` for the empty one, and
# files are found from examples/. Of a stream the line is told that is written to it, nothing where it stays empty, or `<` and the file that
# holds all of it. Other lines are empty, or begin with `#`.
#
# Lines of standard error that begin with `hrthood: ` are those of ./hrthood, which tell of a build that is not proved.
set -euo pipefail

top=$(CDPATH='' cd -- "$(dirname -- "${BASH_SOURCE[0]}")/../.." && pwd)
program=$(realpath -- "${PROGRAM:-$top/hrthood}")
cd "$top/examples"
room=$(mktemp -d)
trap 'rm -rf "$room"' EXIT

# Writes what a stream should get.
wanted() {
    case $1 in
        '') ;;
        '<'*) cat -- "${1#<}" || echo "no file ${1#<}" ;;
        *) printf '%s\n' "$1" ;;
    esac
}

# Runs the program on these words, and leaves what it says, and how it ends, in the room.
run() {
    local status=0
    "$program" "$@" </dev/null >"$room/out" 2>"$room/all_err" || status=$?
    echo "$status" >"$room/status"
    sed '/^hrthood: /d' "$room/all_err" >"$room/err"
}

# Whether a case goes as wanted: its status, its words as one text, and what the two streams get. Says where it does not.
is_as_wanted() {
    local part same=true
    local -a words
    read -ra words <<<"$2"
    words=("${words[@]/#\'\'/}")
    run "${words[@]}"
    echo "$1" >"$room/wanted_status"
    wanted "$3" >"$room/wanted_out"
    wanted "$4" >"$room/wanted_err"
    for part in status out err; do
        if ! diff -u --label wanted --label found "$room/wanted_$part" "$room/$part" >"$room/diff"; then
            same=false
            printf '%s: another %s than wanted\n' "$2" "$part"
            sed -n '3,40p' "$room/diff"
        fi
    done
    $same
}

# Whether verbs.cases has a case of each verb of the usage line. Says which are missing.
has_each_verb() {
    local verb all=true
    for verb in $(sed 's/^usage: hrthood//' wanted/usage | tr '|' '\n' | awk '{ print $1 }'); do
        if ! grep -q "^0 | $verb " verbs.cases; then
            all=false
            echo "verbs.cases has no case of $verb"
        fi
    done
    $all
}

tables=("${@/%/.cases}")
[ $# -gt 0 ] || tables=(*.cases)
count=0
good=0
for table in "${tables[@]}"; do
    while IFS='|' read -r status words out err <&3; do
        case $status in '' | '#'*) continue ;; esac
        read -r status <<<"$status"
        read -r words <<<"$words"
        read -r out <<<"$out"
        read -r err <<<"$err"
        count=$((count + 1))
        ! is_as_wanted "$status" "$words" "$out" "$err" || good=$((good + 1))
    done 3<"$table"
done
missing=0
has_each_verb || missing=1
echo "$good of $count cases as wanted"
[ "$count" -gt 0 ] && [ "$good" -eq "$count" ] && [ "$missing" -eq 0 ]
