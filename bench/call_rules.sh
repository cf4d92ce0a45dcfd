#!/usr/bin/env bash
# How long the rules on calls, starts, costs and sizes take over designs of nearly 1/8, 1/4, 1/2 and 1 MiB with thousands of objects,
# operations or requests, the most memory, and the exponent by which the time grows with the bytes. Most of these designs are refused at
# the end, since a design has at most 500 objects and 30 threads; that must not cost more than the text is long. At most 1.15 is wanted.
source "$(dirname -- "${BASH_SOURCE[0]}")/measure.sh"

sporadic='ATTRIBUTES SEPARATION = 1000000000; DEADLINE = 1000000000; THREAD_BUDGET = 1000000000; PROVIDES go ASER;'

# What all forms begin with; `lines` is what is said of one number, which takes so many bytes.
design() {
    awk -v size="$1" -v each="$2" -v form="$3" -v costs="$costs" -v cyclic="$attributes" -v sporadic="$sporadic" '
        function thread(name, kind, calls) {
            print "OBJECT " name " IS " kind " " (calls != "" ? "REQUIRES " calls : "")
            print "THREAD " (calls != "" ? calls : "null;") " END THREAD; END " name ";"
        }
        function guarded(name, calls, block) {
            print "OBJECT " name " IS PROTECTED PROVIDES f PSER; " (calls != "" ? "REQUIRES " calls : "")
            print "DATA v : word := 0; OPERATION f IS BEGIN " (block != "" ? block : "null;") " END f; END " name ";"
        }
        BEGIN {
            count = int(size / each)
            print "DESIGN d IS " costs "\nOBJECT r IS ACTIVE\nOBJECTS"
            # protected objects in a chain, each of which requests a thread of its own, in both branches or once
            if (form == "requests" || form == "branches") {
                thread("a", "CYCLIC " cyclic, "p1.f;")
                for (k = 1; k <= count; k++) {
                    next_one = k < count ? "p" k + 1 ".f; " : ""
                    own = "s" k ".go;"
                    guarded("p" k, next_one own, next_one (form == "requests" ? own : "if v = 1 then " own " else " own " end if;"))
                    thread("s" k, "SPORADIC " sporadic, "")
                }
            }
            # threads, each of which requests the next
            if (form == "starts") {
                thread("a", "CYCLIC " cyclic, "s1.go;")
                for (k = 1; k <= count; k++) thread("s" k, "SPORADIC " sporadic, k < count ? "s" k + 1 ".go;" : "")
            }
            # a thread that requests all others
            if (form == "fan") {
                for (k = 1; k <= count; k++) all = all "s" k ".go; "
                thread("a", "CYCLIC " cyclic, all)
                for (k = 1; k <= count; k++) thread("s" k, "SPORADIC " sporadic, "")
            }
            # threads, all of which call the first of a chain of protected objects, which leads nowhere, or whose last requests a thread; or
            # threads that are requested from outside call it
            if (form == "shared" || form == "asked" || form == "outside") {
                kind = form == "outside" ? "SPORADIC " sporadic : "CYCLIC " cyclic
                if (form == "outside") sub(/PROVIDES/, "ARRIVAL_JITTER = 0; PROVIDES", kind)
                for (k = 1; k <= count; k++) thread("a" k, kind, "p1.f;")
                for (k = 1; k <= count; k++) {
                    next_one = k < count ? "p" k + 1 ".f;" : form == "asked" ? "s.go;" : ""
                    guarded("p" k, next_one, next_one)
                }
                if (form == "asked") thread("s", "SPORADIC " sporadic, "")
            }
            # one protected object with operations that a thread calls one after another
            if (form == "operations") {
                for (k = 1; k <= count; k++) all = all "p.f" k "; "
                thread("a", "CYCLIC " cyclic, all)
                print "OBJECT p IS PROTECTED PROVIDES"
                for (k = 1; k <= count; k++) print "f" k " PSER;"
                for (k = 1; k <= count; k++) print "OPERATION f" k " IS BEGIN null; END f" k ";"
                print "END p;"
            }
            print "END r;\nEND d;"
        }'
}

requests() { design "$1" 317 requests; }
branches() { design "$1" 352 branches; }
starts() { design "$1" 205 starts; }
fan() { design "$1" 200 fan; }
shared() { design "$1" 287 shared; }
asked() { design "$1" 287 asked; }
outside() { design "$1" 332 outside; }
operations() { design "$1" 75 operations; }

for form in requests starts fan operations branches shared asked outside; do
    grow check "$form" 122880 253952 516096 1040384
done
