#!/usr/bin/env bash
# How long it takes to check and to analyse designs of nearly 1/8, 1/4, 1/2 and 1 MiB with one chain of calls as long as the bytes allow, the
# most memory, and the exponent by which the time grows with the bytes. Costs are worked out callees first, and where that order is lost all
# goes depth by depth, with the same answers: here it shows, since the exponent is 2 then. At most 1.5 is wanted.
source "$(dirname -- "${BASH_SOURCE[0]}")/measure.sh"

# A thread that calls the first of so many passive operations that the text has about this many bytes. Each calls the next one: of the next
# of 100 objects, and behind the last of the first object again.
links() {
    awk -v size="$1" -v costs="$costs" -v attributes="$attributes" 'BEGIN {
        objects = 100
        ops = int(size / objects / 58)
        print "DESIGN d IS " costs "\nOBJECT r IS ACTIVE\nOBJECTS"
        print "OBJECT a IS CYCLIC " attributes "\nREQUIRES p1.f1;\nTHREAD p1.f1; END THREAD;\nEND a;"
        for (k = 1; k <= objects; k++) {
            print "OBJECT p" k " IS PASSIVE PROVIDES"
            for (i = 1; i <= ops; i++) {
                print "f" i ";"
                if (k < objects) called[i] = "p" k + 1 ".f" i
                else called[i] = i < ops ? "p1.f" i + 1 : ""
            }
            print "REQUIRES"
            for (i = 1; i <= ops; i++) if (called[i] != "") print called[i] ";"
            for (i = 1; i <= ops; i++) print "OPERATION f" i " IS BEGIN " (called[i] != "" ? called[i] : "null") "; END f" i ";"
            print "END p" k ";"
        }
        print "END r;\nEND d;"
    }'
}

for verb in check analyse; do
    grow "$verb" links 122880 253952 516096 1040384
done
