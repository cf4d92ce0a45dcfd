#!/usr/bin/env bash
# How much processor time it takes to run programs on the modelled processor, each form at four sizes, and the exponent by which the time
# grows with the size (the slope of the line that fits the logarithms of the four sizes best). The time of reading, which is that of a
# replay of one tick, is taken off. Where the size is a horizon, 1 is wanted. Elsewhere all sizes run as many statements, so that 0 is
# wanted: a processor that searches its tasks, its frames, its variables or its operations, or moves its variables, has 1. Each form is
# described at its function.
# Names of forms as words, as `replay_times.sh last_variable`, measure those alone.
source "$(dirname -- "${BASH_SOURCE[0]}")/measure.sh"

forever='for i in word range 1 .. 4294967295 loop'

# The text of a program of the units whose specifications and bodies stand in the room.
text() {
    sed -n '/^pragma task/,/^use hrt/p' "$base"
    echo 'package d is'
    cat "$room/specs"
    printf 'end d;\npackage body d is\n'
    cat "$room/bodies"
    printf 'end d;\n'
    sed -n '/^with d/,$p' "$base"
}

# Adds a cyclic task `a` of priority 1 and this period, with this statement after these variables.
cyclic() {
    echo 'package a is task hrt_thread is pragma priority (1); end hrt_thread; end a;' >>"$room/specs"
    printf 'package body a is %s task body hrt_thread is hrt_next : hrt.moment := hrt.after (hrt.epoch, 0); begin loop %s %s %s %s\n' \
        "$3" 'delay until hrt_next;' "hrt_next := hrt.after (hrt_next, $1);" "$2" \
        'activation_end; end loop; end hrt_thread; end a;' >>"$room/bodies"
}

# So many tasks, of which every second one is requested by the one before it; each notes a value in one object. Half as many tasks come
# twice as often, so that the load is the same.
tasks() {
    awk -v count="$1" -v specs="$room/specs" -v bodies="$room/bodies" '
        function task(k) { return "task hrt_thread is pragma priority (" k "); end hrt_thread;" }
        BEGIN {
            print "package board is protected hrt_object is pragma priority (" count ");" >specs
            print "procedure note (v : in word); private last : word := 0; end hrt_object;" >specs
            print "procedure note (v : in word) renames hrt_object.note; end board;" >specs
            print "package body board is protected body hrt_object is procedure note (v : in word) is begin" >bodies
            print "last := v; end note; end hrt_object; end board;" >bodies
            for (k = 1; k < count; k += 2) {
                c = "c" k; s = "s" k + 1
                print "package " c " is " task(k) " end " c ";" >specs
                print "package " s " is protected hrt_obcs is pragma priority (" k + 1 "); procedure start (v : in word);" >specs
                print "entry hrt_wait (hrt_request : out word); private hrt_value : word := 0;" >specs
                print "hrt_open : boolean := false; end hrt_obcs; procedure start (v : in word) renames hrt_obcs.start;" >specs
                print task(k + 1) " hrt_separation : constant := 1; hrt_jitter : constant := 0;" >specs
                print "hrt_external : constant boolean := false; end " s ";" >specs
                print "package body " c " is n : word := 0; task body hrt_thread is" >bodies
                print "hrt_next : hrt.moment := hrt.after (hrt.epoch, " k "); begin loop delay until hrt_next;" >bodies
                print "hrt_next := hrt.after (hrt_next, " 7 * count "); n := n + 1; board.note (n); " s ".start (n);" >bodies
                print "activation_end; end loop; end hrt_thread; end " c ";" >bodies
                print "package body " s " is protected body hrt_obcs is procedure start (v : in word) is begin" >bodies
                print "hrt_value := v; hrt_open := true; end start; entry hrt_wait (hrt_request : out word)" >bodies
                print "when hrt_open is begin hrt_request := hrt_value; hrt_open := false; end hrt_wait; end hrt_obcs;" >bodies
                print "task body hrt_thread is v : word := 0; begin loop hrt_obcs.hrt_wait (v); board.note (v);" >bodies
                print "activation_end; end loop; end hrt_thread; end " s ";" >bodies
            }
        }'
    text
}

# 30 such tasks, up to horizons of the size.
horizons() { tasks 30; }

# A chain of so many units, each of whose operation calls that of the next one; the last has this statement and this local.
chain() {
    awk -v count="$1" -v kind="$2" -v statement="$3" -v specs="$room/specs" -v bodies="$room/bodies" 'BEGIN {
        for (k = 1; k <= count; k++) {
            p = "p" k
            inner = k < count ? "begin p" k + 1 ".f;" : statement
            if (kind == "passive") {
                print "package " p " is procedure f; end " p ";" >specs
                print "package body " p " is procedure f is " inner " end f; end " p ";" >bodies
            } else {
                print "package " p " is protected hrt_object is pragma priority (1); procedure f; private" >specs
                print "end hrt_object; procedure f renames hrt_object.f; end " p ";" >specs
                print "package body " p " is protected body hrt_object is procedure f is " inner " end f; end hrt_object;" >bodies
                print "end " p ";" >bodies
            }
        }
    }'
}

# A task that goes down a chain of so many passive operations and up again, all the time.
descents() {
    chain "$1" passive 'begin null;'
    cyclic 1 'p1.f;' ''
    text
}

# The same with protected objects, of which each is held while the next one is.
sections() {
    chain "$1" protected 'begin null;'
    cyclic 1 'p1.f;' ''
    text
}

# A task in a loop at the lower end of such a chain of passive operations.
loop_below() {
    chain "$1" passive "x : word := 0; begin $forever x := x + i; end loop;"
    cyclic 1 'p1.f;' ''
    text
}

# A task that assigns the last of so many variables, in a loop.
last_variable() {
    : >"$room/specs"
    : >"$room/bodies"
    cyclic 1 "$forever v$1 := v$1 + i; end loop;" "$(awk -v count="$1" 'BEGIN { for (k = 1; k <= count; k++) print "v" k " : word := 0;" }')"
    text
}

# A task with so many variables that calls a passive operation without parameters, in a loop.
calls_beside_variables() {
    echo 'package p is procedure f; end p;' >"$room/specs"
    echo 'package body p is procedure f is begin null; end f; end p;' >"$room/bodies"
    cyclic 1 "$forever p.f; end loop;" "$(awk -v count="$1" 'BEGIN { for (k = 1; k <= count; k++) print "v" k " : word := 0;" }')"
    text
}

# A task that calls the last of so many passive operations, in a loop.
last_operation() {
    awk -v count="$1" -v specs="$room/specs" -v bodies="$room/bodies" 'BEGIN {
        print "package p is" >specs
        print "package body p is" >bodies
        for (k = 1; k <= count; k++) {
            print "procedure f" k ";" >specs
            print "procedure f" k " is begin null; end f" k ";" >bodies
        }
        print "end p;" >specs
        print "end p;" >bodies
    }'
    cyclic 1 "$forever p.f$1; end loop;" ''
    text
}

# A task that enters an object by the last of so many operations, in a loop.
last_entry() {
    awk -v count="$1" -v specs="$room/specs" -v bodies="$room/bodies" 'BEGIN {
        print "package p is protected hrt_object is pragma priority (1);" >specs
        print "package body p is protected body hrt_object is" >bodies
        for (k = 1; k <= count; k++) {
            print "procedure f" k ";" >specs
            print "procedure f" k " is begin null; end f" k ";" >bodies
        }
        print "private end hrt_object;" >specs
        for (k = 1; k <= count; k++) print "procedure f" k " renames hrt_object.f" k ";" >specs
        print "end p;" >specs
        print "end hrt_object; end p;" >bodies
    }'
    cyclic 1 "$forever p.f$1; end loop;" ''
    text
}

# Replays the text in the room up to this horizon.
replay() {
    echo "UNTIL $1;" >"$room/arrivals"
    run replay "$room/text" "$room/arrivals"
}

# Measures a form at four sizes, and tells the exponent.
forms() {
    local form=$1 size until reading seconds
    shift
    : >"$room/times"
    for size in "$@"; do
        "$form" "$size" >"$room/text"
        case $form in
            horizons) until=$size ;;
            last_* | calls_beside_variables) until=200000 ;;
            *) until=1000000 ;;
        esac
        replay 1
        reading=$best
        replay "$until"
        seconds=$(awk -v whole="$best" -v reading="$reading" 'BEGIN { printf "%.3f", whole - reading }')
        echo "$size $seconds" >>"$room/times"
        printf '%s, size %s: %s s for %s ticks and %s lines, %s s for reading, %s KiB, said last: %s\n' "$form" "$size" "$seconds" \
            "$until" "$(wc -l <"$room/out")" "$reading" \
            "$(memory replay "$room/text" "$room/arrivals")" "$(said)"
    done
    printf '%s: exponent %s\n' "$form" "$(exponent "$room/times")"
}

[ $# -gt 0 ] || set -- horizons tasks descents sections loop_below last_variable calls_beside_variables last_operation last_entry
for form in "$@"; do
    case $form in
        horizons) forms "$form" 125000 250000 500000 1000000 ;;
        tasks) forms "$form" 4 8 16 30 ;;
        last_* | calls_beside_variables) forms "$form" 500 1000 2000 4000 ;;
        *) forms "$form" 50 100 200 400 ;;
    esac
done
