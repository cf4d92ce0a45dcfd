#!/usr/bin/env bash
# How much processor time `accepts` takes on traces of the mine pump of four lengths, up to 16 MiB, with the exponent, beside the `replay` that
# writes the trace; on the same traces with a fault in the last line but one; on one trace of a thread that enters an object, beside four numbers
# of operations that it doesn't call; and on a trace of one activation that prints, whose lines are the shortest.
source "$(dirname -- "${BASH_SOURCE[0]}")/measure.sh"

design=$top/examples/mine_pump.design
"$program" generate "$design" >"$room/ada"
: >"$room/times"
for horizon in 62500 125000 250000 500000; do
    echo "UNTIL $horizon;" >"$room/arrivals"
    run replay "$room/ada" "$room/arrivals"
    replayed=$best
    cp "$room/out" "$room/trace"
    run accepts "$design" "$room/arrivals" "$room/trace"
    bytes=$(wc -c <"$room/trace")
    echo "$bytes $best" >>"$room/times"
    printf 'accepts, up to %s, %s bytes: %s s (replay %s s), %s KiB, said last: %s\n' "$horizon" "$bytes" "$best" "$replayed" \
        "$(memory accepts "$design" "$room/arrivals" "$room/trace")" "$(said)"
    sed -i '$d' "$room/trace"
    echo "$((horizon - 1)) horizon" >>"$room/trace"
    run accepts "$design" "$room/arrivals" "$room/trace"
    printf 'accepts, another horizon: %s s, said last: %s\n' "$best" "$(said)"
done
printf 'accepts: exponent %s\n' "$(exponent "$room/times")"

# A thread that enters an object each 20 ticks, beside a passive object of so many operations, which nothing calls.
beside_operations() {
    awk -v count="$1" -v costs="$costs" 'BEGIN {
        print "DESIGN d IS " costs "\nOBJECT r IS ACTIVE\nOBJECTS"
        print "OBJECT t IS CYCLIC ATTRIBUTES PERIOD = 20; DEADLINE = 20; THREAD_BUDGET = 20;"
        print "REQUIRES p.f; THREAD p.f; END THREAD; END t;"
        print "OBJECT p IS PROTECTED PROVIDES f PSER; OPERATION f IS BEGIN null; END f; END p;"
        print "OBJECT q IS PASSIVE PROVIDES"
        for (k = 1; k <= count; k++) print "g" k ";"
        for (k = 1; k <= count; k++) print "OPERATION g" k " IS BEGIN null; END g" k ";"
        print "END q;\nEND r;\nEND d;"
    }'
}

# A thread that prints so often in one activation.
printing() {
    echo "DESIGN d IS $costs
OBJECT r IS CYCLIC $attributes THREAD for k in word range 1 .. $1 loop put (1); end loop; END THREAD; END r;
END d;"
}

# How long a trace of the last design is judged that it replays up to the horizon of the arrivals.
judge() {
    "$program" generate "$room/design" >"$room/ada"
    "$program" replay "$room/ada" "$room/arrivals" >"$room/trace"
    run accepts "$room/design" "$room/arrivals" "$room/trace"
}

echo 'UNTIL 100000;' >"$room/arrivals"
: >"$room/times"
for count in 500 1000 2000 4000; do
    beside_operations "$count" >"$room/design"
    judge
    echo "$count $best" >>"$room/times"
    printf 'accepts, beside %s operations, %s bytes: %s s, said last: %s\n' "$count" "$(wc -c <"$room/trace")" "$best" "$(said)"
done
printf 'accepts, beside operations: exponent %s\n' "$(exponent "$room/times")"

echo 'UNTIL 2000000;' >"$room/arrivals"
printing 900000 >"$room/design"
judge
printf 'accepts, one activation, %s bytes: %s s, %s KiB, said last: %s\n' "$(wc -c <"$room/trace")" "$best" \
    "$(memory accepts "$room/design" "$room/arrivals" "$room/trace")" "$(said)"
