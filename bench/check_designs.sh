#!/usr/bin/env bash
# How long it takes to check designs of nearly 1/8, 1/4, 1/2 and 1 MiB, to print them, to analyse them and to write their Ada texts, the
# most memory, and the exponent by which the time grows with the bytes: one thread with a long block; statements of all kinds with nested
# expressions, in one object and in 100; one object with many data, each of which its thread assigns; a thread that requires and calls many
# operations of one object; 499 passive objects, each with operations that call the next one's; objects that each call every operation of the
# others that call nothing; and 499 objects that each call as many of the next ones as the bytes allow, one in each branch of an `if`. Each is
# taken. Names of forms as words measure those alone.
source "$(dirname -- "${BASH_SOURCE[0]}")/measure.sh"

# One thread with a long block.
block() { thread_block "$1"; }

# Statements of all kinds in one object.
mixed() { mixed_in 1 "$1"; }

# Statements of all kinds in 100 objects.
units() { mixed_in 100 "$1"; }

# One object with so many data, each assigned once by its thread, that the text has about this many bytes.
data() {
    awk -v size="$1" -v costs="$costs" -v attributes="$attributes" 'BEGIN {
        count = int(size / 33)
        print "DESIGN d IS " costs "\nOBJECT a IS CYCLIC " attributes "\nDATA"
        for (k = 10001; k <= 10000 + count; k++) print "x" k " : word := 0;"
        print "THREAD"
        for (k = 10001; k <= 10000 + count; k++) print "x" k " := 0;"
        print "END THREAD;\nEND a;\nEND d;"
    }'
}

# A thread that requires and calls so many operations of one object.
needs() {
    awk -v size="$1" -v costs="$costs" -v attributes="$attributes" 'BEGIN {
        count = int(size / 73)
        print "DESIGN d IS " costs "\nOBJECT r IS ACTIVE\nOBJECTS\nOBJECT a IS CYCLIC " attributes "\nREQUIRES"
        for (k = 10001; k <= 10000 + count; k++) print "p.f" k ";"
        print "THREAD"
        for (k = 10001; k <= 10000 + count; k++) print "p.f" k ";"
        print "END THREAD;\nEND a;\nOBJECT p IS PASSIVE PROVIDES"
        for (k = 10001; k <= 10000 + count; k++) print "f" k ";"
        for (k = 10001; k <= 10000 + count; k++) print "OPERATION f" k " IS BEGIN null; END f" k ";"
        print "END p;\nEND r;\nEND d;"
    }'
}

# 499 objects in a chain, each with so many operations that the text has about this many bytes.
chain() {
    awk -v size="$1" -v costs="$costs" 'BEGIN {
        ops = int(size / 499 / 58); if (ops < 1) ops = 1
        print "DESIGN d IS " costs "\nOBJECT r IS PASSIVE\nOBJECTS"
        for (k = 1; k < 500; k++) {
            print "OBJECT p" k " IS PASSIVE PROVIDES"
            for (i = 1; i <= ops; i++) print "f" i ";"
            if (k < 499) { print "REQUIRES"; for (i = 1; i <= ops; i++) print "p" k + 1 ".f" i ";" }
            for (i = 1; i <= ops; i++) print "OPERATION f" i " IS BEGIN " (k < 499 ? "p" k + 1 ".f" i : "null") "; END f" i ";"
            print "END p" k ";"
        }
        print "END r;\nEND d;"
    }'
}

# Objects of one operation, of which each of the first half calls every one of the second half.
wide() {
    awk -v size="$1" -v costs="$costs" 'BEGIN {
        half = int(sqrt(size / 16)); if (half > 249) half = 249
        print "DESIGN d IS " costs "\nOBJECT r IS PASSIVE\nOBJECTS"
        for (k = 1; k <= half; k++) {
            print "OBJECT p" k " IS PASSIVE PROVIDES f; REQUIRES"
            for (j = 1; j <= half; j++) print "q" j ".f;"
            print "OPERATION f IS BEGIN"
            for (j = 1; j <= half; j++) print "q" j ".f;"
            print "END f; END p" k ";"
        }
        for (j = 1; j <= half; j++) print "OBJECT q" j " IS PASSIVE PROVIDES f; OPERATION f IS BEGIN null; END f; END q" j ";"
        print "END r;\nEND d;"
    }'
}

# 499 objects of one operation, of which each calls so many of the next ones, where there are as many, one in each branch of an `if`.
each() {
    awk -v size="$1" -v costs="$costs" 'BEGIN {
        calls = int((size / 499 - 80) / 38); if (calls < 1) calls = 1
        print "DESIGN d IS " costs "\nOBJECT r IS PASSIVE\nOBJECTS"
        for (k = 1; k < 500; k++) {
            last = k + calls < 499 ? k + calls : 499
            print "OBJECT p" k " IS PASSIVE PROVIDES f (v : in word);"
            if (k < 499) print "REQUIRES"
            for (j = k + 1; j <= last; j++) print "p" j ".f;"
            print "OPERATION f IS BEGIN"
            for (j = k + 1; j <= last; j++) print (j == k + 1 ? "if" : "elsif") " v = " j " then p" j ".f (v);"
            print (k < 499 ? "end if; " : "null; ") "END f; END p" k ";"
        }
        print "END r;\nEND d;"
    }'
}

[ $# -gt 0 ] || set -- block mixed units data needs chain wide each
for form in "$@"; do
    for verb in check format analyse generate; do
        grow "$verb" "$form" 122880 253952 516096 1040384
    done
done
