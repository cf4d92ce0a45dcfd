#!/usr/bin/env bash
# How much processor time it takes to analyse designs, and the most memory: 30 threads that each call the first of up to 469 protected
# objects, of which each calls the next one, and the same with passive objects, with the exponent by which the time grows with the
# objects; then threads whose response times take many rounds to find, with the count of rounds: two threads, of which the first leaves
# the second one tick of each period; and threads that each come half as often as the one before, so that the last finds little left.
# The rounds are those that change a number; they are counted by asking for a deadline one tick short of the response, which is refused
# in the last of them.
source "$(dirname -- "${BASH_SOURCE[0]}")/measure.sh"

# Two threads, the last of which has this deadline; the first leaves it one tick of each period of this many.
one_tick_left() {
    awk -v period="$1" -v deadline="$2" -v costs="$costs" 'BEGIN {
        print "DESIGN d IS " costs "\nOBJECT r IS ACTIVE\nOBJECTS"
        print "OBJECT a IS CYCLIC ATTRIBUTES PERIOD = " period "; DEADLINE = " period "; THREAD_BUDGET = 1000000000;"
        print "THREAD work (" period - 2 "); END THREAD; END a;"
        print "OBJECT last IS CYCLIC ATTRIBUTES PERIOD = 1000000000; DEADLINE = " deadline "; THREAD_BUDGET = 1000000000;"
        print "THREAD work (" int(1000000000 / period) - 2 "); END THREAD; END last;"
        print "END r;\nEND d;"
    }'
}

# So many threads of 2 ticks each, at periods of 4, 8, 16 and so on, and a last one of 4 ticks with this deadline.
halves() {
    awk -v count="$1" -v deadline="$2" -v costs="$costs" 'BEGIN {
        print "DESIGN d IS " costs "\nOBJECT r IS ACTIVE\nOBJECTS"
        for (k = 1; k <= count; k++) {
            period = 2 * 2 ^ k
            print "OBJECT t" k " IS CYCLIC ATTRIBUTES PERIOD = " period "; DEADLINE = " period "; THREAD_BUDGET = 2;"
            print "THREAD null; END THREAD; END t" k ";"
        }
        print "OBJECT last IS CYCLIC ATTRIBUTES PERIOD = 1000000000; DEADLINE = " deadline "; THREAD_BUDGET = 4;"
        print "THREAD work (3); END THREAD; END last;"
        print "END r;\nEND d;"
    }'
}

# Tells the time and the memory of an analysis of chains of objects of this kind, at four lengths, and how they grow.
chains() {
    : >"$room/times"
    for count in 59 118 235 469; do
        chain_of_objects "$1" "$2" "$count" >"$room/design"
        run analyse "$room/design"
        echo "$count $best" >>"$room/times"
        printf '30 threads, %s %s objects: %s s, %s KiB, said last: %s\n' "$count" "$1" "$best" \
            "$(memory analyse "$room/design")" "$(said)"
    done
    printf '%s objects: exponent %s\n' "$1" "$(exponent "$room/times")"
}

# Tells the time of an analysis of designs of this form, of these sizes, with the count of its rounds, and how it grows with them.
rounds() {
    local form=$1 size response round
    shift
    : >"$room/times"
    for size in "$@"; do
        "$form" "$size" 1000000000 >"$room/design"
        run analyse "$room/design"
        response=$(awk '$2 == "last" { print $NF }' "$room/out")
        "$form" "$size" $((response - 1)) >"$room/short"
        round=$("$program" analyse "$room/short" 2>&1 | awk '$3 == "last" { print $NF }') || true
        echo "$round $best" >>"$room/times"
        printf '%s %s: response %s, %s rounds, %s s, %s ns a round\n' "$form" "$size" "$response" "$round" "$best" \
            "$(awk -v seconds="$best" -v rounds="$round" 'BEGIN { printf "%.0f", seconds * 1e9 / (rounds > 0 ? rounds : 1) }')"
    done
    printf '%s: exponent %s of the rounds\n' "$form" "$(exponent "$room/times")"
}

chains PROTECTED ' PAER'
chains PASSIVE ''
rounds one_tick_left 1000 10000 100000 1000000
rounds halves 16 18 20 22
