#!/usr/bin/env bash
# How long it takes to read and judge Ada texts, at four sizes each, and the exponent by which the time grows with the bytes: near 1 where
# no rule and no name is searched for. Each text is replayed for 20 ticks. Each form is described at its function; a text that breaks a
# rule ends with the refusal that is printed. Names of forms as words, as `read_ada_texts.sh ring_chain`, measure those alone.
source "$(dirname -- "${BASH_SOURCE[0]}")/measure.sh"

# One task with a block of nearly this many bytes, which has this line again and again.
lines() {
    awk -v size="$1" -v line="$2" '
        /work \(3\);/ { for (n = 4096; n < size; n += length(line) + 1) print line; next }
        { print }' "$base"
}

# Two statements a line, behind spaces.
block() { lines "$1" '            null; work (1);'; }

# Nothing but statements: most memory a byte goes to such texts.
nulls() { lines "$1" 'null;'; }

# The text of one task with a passive unit `p`: the lines of its specification and of its body stand in the room.
with_unit() {
    awk -v heads="$room/heads" -v bodies="$room/bodies" '
        function copy(file, line) { while ((getline line <file) > 0) print line; close(file) }
        { print }
        /^package d is/ { print "   package p is"; copy(heads); print "   end p;" }
        /^package body d is/ { print "   package body p is"; copy(bodies); print "   end p;" }' "$base"
}

# Operations that nothing calls, in a text of nearly this many bytes.
operations() {
    awk -v size="$1" -v heads="$room/heads" -v bodies="$room/bodies" '
        function head(n) { return "      procedure f" n " (v : in word; w : out word)" }
        BEGIN {
            body = "         x : word := 1;\n      begin\n         x := (v + 1) * 2;\n         if x = 4 then\n            w := x;\n"
            body = body "         else\n            w := 1;\n         end if;\n      end f"
            for (n = 0; used < size - 4096; n++) {
                print head(n) ";" >heads
                print head(n) " is\n" body n ";" >bodies
                used += 2 * length(head(n)) + length(body) + length(n) + 10
            }
        }'
    with_unit
}

# So many operations, of which the k-th calls the one that a rule in awk gives, or none where it gives 0.
calling() {
    awk -v count="$1" -v heads="$room/heads" -v bodies="$room/bodies" "BEGIN {
        for (k = 1; k <= count; k++) {
            t = $2
            print \"procedure f\" k \";\" >heads
            print \"procedure f\" k \" is begin \" (t ? \"p.f\" t : \"null\") \"; end f\" k \";\" >bodies
        }
    }"
    with_unit
}

# A chain of so many operations, of which the last calls itself: refused as a ring.
ring_chain() { calling "$1" 'k < count ? k + 1 : count'; }

# A ring through so many operations: refused.
whole_ring() { calling "$1" 'k < count ? k + 1 : 1'; }

# So many operations that call the last one: taken.
calls_of_the_last() { calling "$1" 'k < count ? count : 0'; }

# One operation with so many locals, of which each but the first is assigned once from the one before: taken.
variables() {
    echo 'procedure f;' >"$room/heads"
    awk -v count="$1" 'BEGIN {
        print "procedure f is"
        for (k = 1; k <= count; k++) print "v" k " : word := 1;"
        print "begin"
        for (k = 2; k <= count; k++) print "v" k " := v" k - 1 ";"
        print "end f;"
    }' >"$room/bodies"
    with_unit
}

# An operation with so many `out` parameters, and one that calls it with as many locals: refused, since 8 parameters are the most.
outs() {
    awk -v count="$1" -v heads="$room/heads" -v bodies="$room/bodies" 'BEGIN {
        line = "procedure f ("
        for (k = 1; k <= count; k++) { print line "v" k " : out word" (k < count ? ";" : ");") >heads; line = "" }
        print "procedure g;" >heads
        line = "procedure f ("
        for (k = 1; k <= count; k++) { print line "v" k " : out word" (k < count ? ";" : ") is begin null; end f;") >bodies; line = "" }
        print "procedure g is" >bodies
        for (k = 1; k <= count; k++) print "x" k " : word := 1;" >bodies
        line = "begin p.f ("
        for (k = 1; k <= count; k++) { print line "x" k (k < count ? "," : "); end g;") >bodies; line = "" }
    }'
    with_unit
}

[ $# -gt 0 ] || set -- block nulls operations ring_chain whole_ring calls_of_the_last variables outs
for form in "$@"; do
    case $form in
        block | nulls | operations) grow replay "$form" 2097152 4194304 8388608 16777216 ;;
        variables) grow replay "$form" 40000 80000 160000 320000 ;;
        *) grow replay "$form" 4000 8000 16000 32000 ;;
    esac
done
