#!/usr/bin/env bash
# How long it takes to verify a design, to sum up samples and to read arrivals, at four sizes each, and the exponent by which the time
# grows with the size: `verify` of the mine pump up to horizons, which also writes its text; `sample` of so many threads; and a replay of
# 1 tick under so many requests from outside, or durations of work. At most 1 is wanted; a run of few milliseconds tells little. Names of
# forms as words, as `verify_times.sh requests`, measure those alone.
source "$(dirname -- "${BASH_SOURCE[0]}")/measure.sh"

# Each form sets the words of the run.
horizons() {
    echo "UNTIL $1;" >"$room/arrivals"
    words=(verify "$top/examples/mine_pump.design" "$room/arrivals")
}

threads() {
    words=(sample "$1")
}

requests() {
    awk -v count="$1" 'BEGIN { print "UNTIL 1;"; for (k = 1; k <= count; k++) print "AT " 20 * k " s 5;" }' >"$room/arrivals"
    words=(replay "$top/examples/requested_task.ada" "$room/arrivals")
}

durations() {
    awk -v count="$1" 'BEGIN { print "UNTIL 1;"; print "WORK a 1"; for (k = 2; k <= count; k++) print ", " k % 3 + 1; print ";" }' \
        >"$room/arrivals"
    words=(replay "$top/examples/requested_task.ada" "$room/arrivals")
}

# Measures a form at these sizes, and tells the exponent.
forms() {
    local form=$1 size
    shift
    : >"$room/times"
    for size in "$@"; do
        "$form" "$size"
        run "${words[@]}"
        echo "$size $best" >>"$room/times"
        printf '%s, size %s: %s s, %s KiB, said last: %s\n' "$form" "$size" "$best" "$(memory "${words[@]}")" "$(said)"
    done
    printf '%s: exponent %s\n' "$form" "$(exponent "$room/times")"
}

[ $# -gt 0 ] || set -- horizons threads requests durations
for form in "$@"; do
    case $form in
        horizons) forms "$form" 1000000 2000000 4000000 8000000 ;;
        threads) forms "$form" 4 8 16 30 ;;
        *) forms "$form" 7500 15000 30000 60000 ;;
    esac
done
