#!/usr/bin/env bash
# How much processor time `background` takes at four sizes, with the exponent, beside `generate` of the same design without its clients: 15 hard
# threads and 15 clients that each call the first of up to 469 protected objects, of which each calls the next one, and servers in such a chain
# that the clients call.
source "$(dirname -- "${BASH_SOURCE[0]}")/measure.sh"

# So many objects of this kind in a chain, and 15 hard threads that call the first where it is protected, with as many clients of it or none.
beside_clients() {
    awk -v kind="$1" -v clients="$2" -v count="$3" -v costs="$costs" 'BEGIN {
        print "DESIGN d IS " costs "\nOBJECT r IS ACTIVE\nOBJECTS"
        for (k = 1; k <= 15; k++) {
            print "OBJECT t" k " IS CYCLIC ATTRIBUTES PERIOD = 1000000; DEADLINE = " 1000000 - k "; THREAD_BUDGET = 1000000;"
            if (kind == "PROTECTED") print "REQUIRES p1.f; THREAD p1.f; END THREAD; END t" k ";"
            else print "THREAD null; END THREAD; END t" k ";"
        }
        for (k = 1; k <= clients; k++) print "OBJECT c" k " IS ACTIVE REQUIRES p1.f; THREAD p1.f; END THREAD; END c" k ";"
        constraint = kind == "PROTECTED" ? "PAER" : "HSER"
        for (k = 1; k <= count; k++) {
            print "OBJECT p" k " IS " kind " PROVIDES f " constraint ";" (k < count ? " REQUIRES p" k + 1 ".f;" : "")
            print "OPERATION f IS BEGIN " (k < count ? "p" k + 1 ".f" : "null") "; END f; END p" k ";"
        }
        print "END r;\nEND d;"
    }'
}

: >"$room/times"
for count in 59 118 235 469; do
    beside_clients PROTECTED 0 "$count" >"$room/design"
    run generate "$room/design"
    generated=$best
    beside_clients PROTECTED 15 "$count" >"$room/design"
    run background "$room/design"
    echo "$count $best" >>"$room/times"
    printf 'background, %s protected objects: %s s (generate without clients %s s), %s KiB, said last: %s\n' "$count" "$best" "$generated" \
        "$(memory background "$room/design")" "$(said)"
done
printf 'background, protected objects: exponent %s\n' "$(exponent "$room/times")"

: >"$room/times"
for count in 59 118 235 469; do
    beside_clients ACTIVE 15 "$count" >"$room/design"
    run background "$room/design"
    echo "$count $best" >>"$room/times"
    printf 'background, %s servers: %s s, %s KiB, said last: %s\n' "$count" "$best" "$(memory background "$room/design")" "$(said)"
done
printf 'background, servers: exponent %s\n' "$(exponent "$room/times")"
