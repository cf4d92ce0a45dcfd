#!/bin/sh
# Proves and builds the program, and then runs it on the example of crates/hrthood. Nothing but a call of this script starts it. A line on standard
# output tells of each library that is proved, and out/proof.log has what `rt` says, at the end the verdict. Where the binary is of the current
# sources, as behind .ci/run, the script only says so. One proof runs in a clone at a time; a second call ends at once with status 75.
# usage: prove_program.sh [--stop]      --stop ends the proof that runs in this clone
set -u

top=$(CDPATH='' cd -- "$(dirname -- "$0")/../.." && pwd) || exit 125
crate=$top/crates/hrthood
binary=$crate/out/hrthood
log=$top/out/proof.log
lock=$top/out/proof.lock
begun=$top/out/proof.begun

# Tells of each library of this list when it is proved, and then of the program, until it is ended.
show_progress() {
    count=0
    for name in $1; do
        count=$((count + 1))
        until [ -e "$top/crates/$name/out/rlib/stamp" ]; do sleep 1; done
        echo "proved $count of $2: $name"
    done
    echo 'proving the program itself'
}

# Whether a proof runs in this clone: this script and `rt` hold the lock until they end.
is_proving() {
    [ -e "$lock" ] && ! flock -n "$lock" true
}

# Ends the processes of the proof, and waits until all have ended.
stop_proof() {
    if ! is_proving; then
        echo 'no proof runs in this clone'
        return 0
    fi
    for signal in TERM KILL; do
        for _ in 1 2 3 4 5 6 7 8 9 10; do
            # As the lock is held, the number in the file is that of the proof that runs.
            group=$(cat -- "$top/out/proof.group" 2>/dev/null) && [ "$group" -gt 1 ] && kill -s "$signal" -- "-$group" 2>/dev/null
            sleep 0.5
            if ! is_proving; then
                echo 'stopped'
                return 0
            fi
        done
    done
    echo "the proof did not end: processes of group ${group:-unknown}" >&2
    return 1
}

# Proves, builds and tries the program, with the lock held.
prove() {
    : >"$begun" && : >"$log" && rm -f "$top/out/proof.group" && cd "$crate" || return 125
    echo "proving and building the program, from $(date)" >>"$log"
    # What is left of a library that is to be proved is of other sources, and `rt` removes it before its proof.
    libraries=$("$top/tools/gate/libraries_to_prove.py" hrthood)
    for name in $libraries; do rm -f "$top/crates/$name/out/rlib/stamp"; done
    # shellcheck disable=SC2086  # one word for each library
    set -- $libraries
    echo "libraries to prove: $#"
    # In a group of its own, which --stop and a signal to this script can end.
    setsid rt run -- sample 1 </dev/null >"$top/out/proof.example" 2>>"$log" &
    group=$!
    echo "$group" >"$top/out/proof.group"
    trap 'kill -s TERM -- "-$group" 2>/dev/null' HUP INT TERM
    show_progress "$*" "$#" 9>&- &
    progress=$!
    wait "$group"
    status=$?
    kill "$progress" 2>/dev/null
    rm -f "$top/out/proof.group"
    if [ "$status" -gt 128 ]; then
        echo "stopped, at $(date)" >>"$log"
        return 1
    fi
    # The example ends with status 0 and this text, and `rt` with another status where it proves or builds nothing.
    if [ "$status" -ne 0 ] || ! cmp -s "$top/out/proof.example" stdout || ! is_program; then
        echo "neither proved nor built: status $status, at $(date)" >>"$log"
        return 1
    fi
    # So that without a mark too a source that changed meanwhile counts as newer.
    touch -r "$begun" "$binary"
    if ! write_mark "$binary.made" "$begun" "$binary"; then
        echo "proved and built, but a source has changed meanwhile: prove it again; at $(date)" >>"$log"
        return 1
    fi
    echo "proved and built, at $(date)" >>"$log"
}

# Whether the binary can be run: without words it ends with status 2.
is_program() {
    "$binary" </dev/null >/dev/null 2>&1
    [ $? -eq 2 ]
}

case $#${1-} in
    0) ;;
    1--stop)
        stop_proof
        exit
        ;;
    *)
        echo 'usage: prove_program.sh [--stop]' >&2
        exit 2
        ;;
esac

. "$top/tools/gate/current.sh" || exit 125
# Nothing but a proof leaves a binary there, so one of these sources is proved.
if is_current "$binary"; then
    echo 'proved and built already'
    exit 0
fi
mkdir -p "$top/out" && exec 9>>"$lock" || exit 125
if ! flock -n 9; then
    echo 'another proof runs in this clone' >&2
    exit 75
fi
echo "what rt says: $log"
if prove; then
    echo 'proved and built'
else
    status=$?
    tail -n 3 -- "$log" >&2
    exit "$status"
fi
