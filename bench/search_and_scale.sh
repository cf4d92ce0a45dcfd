#!/usr/bin/env bash
# How much processor time `search`, `arrange`, `scale` and `explain` take, beside `analyse` of the same design, at four sizes, with exponents: 30
# threads that each call the first of up to 469 protected objects, of which each calls the next one; the same with jitters for which the order by
# deadlines fails, so that an order has to be looked for; and one thread with a long block of `work`, up to nearly 1 MiB.
source "$(dirname -- "${BASH_SOURCE[0]}")/measure.sh"

# 30 threads, the first with this jitter of arrival, and so many protected objects in a chain.
jittered() {
    awk -v jitter="$1" -v count="$2" -v costs="$costs" 'BEGIN {
        print "DESIGN d IS " costs "\nOBJECT r IS ACTIVE\nOBJECTS"
        print "OBJECT t1 IS SPORADIC ATTRIBUTES SEPARATION = 1000000; DEADLINE = 1000000; THREAD_BUDGET = 1000000; ARRIVAL_JITTER = " jitter ";"
        print "PROVIDES start ASER; REQUIRES p1.f; THREAD p1.f; END THREAD; END t1;"
        for (k = 2; k <= 30; k++) {
            print "OBJECT t" k " IS CYCLIC ATTRIBUTES PERIOD = 1000000; DEADLINE = " 1000000 - k "; THREAD_BUDGET = 1000000;"
            print "REQUIRES p1.f; THREAD p1.f; END THREAD; END t" k ";"
        }
        for (k = 1; k <= count; k++) {
            print "OBJECT p" k " IS PROTECTED PROVIDES f PAER;" (k < count ? " REQUIRES p" k + 1 ".f;" : "")
            print "OPERATION f IS BEGIN " (k < count ? "p" k + 1 ".f" : "null") "; END f; END p" k ";"
        }
        print "END r;\nEND d;"
    }'
}

# One thread with so many statements `work`, and a deadline that leaves it a half more.
long_work() {
    awk -v count="$1" -v costs="$costs" 'BEGIN {
        print "DESIGN d IS " costs "\nOBJECT a IS CYCLIC ATTRIBUTES PERIOD = 1000000000; DEADLINE = " 10 * count "; THREAD_BUDGET = 1000000000;\nTHREAD"
        for (k = 1; k <= count; k++) print "work (7);"
        print "END THREAD;\nEND a;\nEND d;"
    }'
}

# Tells the times of a verb and of `analyse` on a form of designs at four sizes, and the exponent of the verb.
beside() {
    local verb=$1 name=$2 size analysed
    shift 2
    : >"$room/times"
    for size in "$@"; do
        "$name" "$size" >"$room/design"
        run analyse "$room/design"
        analysed=$best
        run "$verb" "$room/design"
        echo "$size $best" >>"$room/times"
        printf '%s, %s, size %s, %s bytes: %s s (analyse %s s), %s KiB, said last: %s\n' "$verb" "$name" "$size" \
            "$(wc -c <"$room/design")" "$best" "$analysed" "$(memory "$verb" "$room/design")" "$(said)"
    done
    printf '%s, %s: exponent %s\n' "$verb" "$name" "$(exponent "$room/times")"
}

by_deadlines() { jittered 0 "$1"; }
# With this jitter the first thread keeps its limits in the upper half of the order alone.
by_jitter() { jittered $((1000000 - 45 * $1)) "$1"; }

beside search by_deadlines 59 118 235 469
beside search by_jitter 59 118 235 469
beside arrange by_deadlines 59 118 235 469
beside arrange by_jitter 59 118 235 469
beside arrange long_work 13000 26000 52000 104000
beside scale by_deadlines 59 118 235 469
beside scale long_work 13000 26000 52000 104000
beside explain by_deadlines 59 118 235 469
beside explain by_jitter 59 118 235 469
