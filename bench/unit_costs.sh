#!/usr/bin/env bash
# What one token, name, byte of white space, statement and object costs, in nanoseconds of processor time: each form at four sizes, and the
# exponent by which the time grows with the number of its units, near 1 where each costs as much as the last. The time of the same text with
# one unit is taken off first. What a round of the response equations costs is told by `respond_rounds.sh`. Each form is described at its
# function: it writes its text, and sets the words of the run and the number of units. Names of forms as words, as `unit_costs.sh tokens`,
# measure those alone.
source "$(dirname -- "${BASH_SOURCE[0]}")/measure.sh"

# The text of one task that does these statements in each activation, before which `x` is declared.
task() {
    awk -v variable='      x : word := 0;' '
        /task body hrt_thread is/ { print variable }
        /work \(3\);/ { while ((getline line <"-") > 0) print line; next }
        { print }' "$base" >"$room/text" <"$room/statements"
}

# Reading and judging so many tokens, in a text without long names: 13 of them in each line.
tokens() {
    units=$1
    awk -v lines="$(($1 / 13))" 'BEGIN { for (k = 0; k <= lines; k++) print "null; work (1); x := x + 1;" }' >"$room/statements"
    task
    words=(replay "$room/text" "$arrivals")
}

# Reading and judging so many names, in statements of four tokens of which two are names: the unit is a name.
names() {
    units=$1
    awk -v lines="$(($1 / 2))" 'BEGIN { for (k = 0; k <= lines; k++) print "x := x;" }' >"$room/statements"
    task
    words=(replay "$room/text" "$arrivals")
}

# Reading so many bytes of white space.
spaces() {
    units=$1
    { printf "%$1s" ''; echo 'null;'; } >"$room/statements"
    task
    words=(replay "$room/text" "$arrivals")
}

# The number of tokens of the text in the room.
count_tokens() {
    awk '{
        while (match($0, /[A-Za-z][A-Za-z0-9_]*|[0-9][0-9_]*|:=|\/=|<=|>=|\.\.|[^ ]/)) {
            count++
            $0 = substr($0, RSTART + RLENGTH)
        }
    } END { print count }' "$room/text"
}

# Reading a design of about so many bytes, in one long block of `null` and `work`, and judging it: the unit is a token.
design_tokens() {
    thread_block "$1" >"$room/text"
    units=$(count_tokens)
    words=(check "$room/text")
}

# The same of statements of all kinds with nested expressions, in one operation of a passive object.
mixed_tokens() {
    mixed_in 1 "$1" >"$room/text"
    units=$(count_tokens)
    words=(check "$room/text")
}

# The same printed.
printed_tokens() {
    mixed_tokens "$1"
    words=(format "$room/text")
}

# Reading and judging so many names, in statements of four tokens of which two are names, of a design: the unit is a name.
design_names() {
    units=$1
    awk -v lines="$(($1 / 2))" -v costs="$costs" -v attributes="$attributes" 'BEGIN {
        print "DESIGN d IS " costs "\nOBJECT a IS CYCLIC " attributes "\nDATA\nx : word := 0;\nTHREAD"
        for (k = 0; k <= lines; k++) print "x := x;"
        print "END THREAD;\nEND a;\nEND d;"
    }' >"$room/text"
    words=(check "$room/text")
}

# Running so many statements of one tick: the turns of a loop and its assignments, each as often as the other.
statements() {
    units=$1
    echo 'for i in word range 1 .. 4294967295 loop x := x + i; end loop;' >"$room/statements"
    task
    echo "UNTIL $1;" >"$room/horizon"
    words=(replay "$room/text" "$room/horizon")
}

# The same with an `if` in each turn: turns, tests and assignments.
branches() {
    units=$1
    echo 'for i in word range 1 .. 4294967295 loop if x > i then x := 0; else x := (x + i) * 2; end if; end loop;' >"$room/statements"
    task
    echo "UNTIL $1;" >"$room/horizon"
    words=(replay "$room/text" "$room/horizon")
}

# The same with a call of a passive operation in each turn: turns, calls and the assignments of the operation.
calls() {
    units=$1
    awk '
        /call_cost/ { sub(/2;/, "1;") }
        /for i in word range 1 .. 3 loop/ { print "for i in word range 1 .. 4294967295 loop filter.smooth (i, level, level); end loop;"; skip = 1 }
        !skip { print }
        /end loop;/ { skip = 0 }' "$top/examples/passive_operation.ada" >"$room/text"
    echo "UNTIL $1;" >"$room/horizon"
    words=(replay "$room/text" "$room/horizon")
}

# 30 threads that call the first of so many protected objects in a chain: the unit is an object of one operation, under this verb.
objects() {
    units=$2
    chain_of_objects PROTECTED ' PAER' "$2" >"$room/text"
    words=("$1" "$room/text")
}

checked_objects() { objects check "$1"; }

analysed_objects() { objects analyse "$1"; }

generated_objects() { objects generate "$1"; }

formatted_objects() { objects format "$1"; }

# Runs a form at these sizes, and tells what a unit costs at each.
unit_costs() {
    local form=$1 size least
    shift
    "$form" 1
    run "${words[@]}"
    least=$best
    : >"$room/times"
    for size in "$@"; do
        "$form" "$size"
        run "${words[@]}"
        awk -v units="$units" -v all="$best" -v least="$least" 'BEGIN { print units, all - least }' >>"$room/times"
        printf '%s, %s units: %s ns a unit, of %s s, said last: %s\n' "$form" "$units" \
            "$(tail -n 1 "$room/times" | awk '{ printf "%.1f", $2 * 1e9 / $1 }')" "$best" "$(said)"
    done
    printf '%s: exponent %s\n' "$form" "$(exponent "$room/times")"
}

[ $# -gt 0 ] || set -- tokens names spaces design_tokens mixed_tokens printed_tokens design_names statements branches calls \
    checked_objects analysed_objects generated_objects formatted_objects
for form in "$@"; do
    case $form in
        tokens) unit_costs "$form" 500000 1000000 2000000 4000000 ;;
        names) unit_costs "$form" 250000 500000 1000000 2000000 ;;
        spaces) unit_costs "$form" 2000000 4000000 8000000 16000000 ;;
        design_tokens | mixed_tokens | printed_tokens) unit_costs "$form" 122880 253952 516096 1040384 ;;
        design_names) unit_costs "$form" 30000 60000 120000 240000 ;;
        statements | branches | calls) unit_costs "$form" 500000 1000000 2000000 4000000 ;;
        *) unit_costs "$form" 59 118 235 469 ;;
    esac
done
