#!/usr/bin/env bash
# How many statements of one task are run in a second: 10,000,000 of them, in replays of 1,000,000 ticks.
# Each statement takes one tick: the turns of a loop and its assignments, then the same with calls of a passive operation.
# Prints the statements a second, and the number of cores. Needs awk. No part of the gate.
set -euo pipefail

top=$(CDPATH='' cd -- "$(dirname -- "${BASH_SOURCE[0]}")/.." && pwd)
scratch=$(mktemp -d)
trap 'rm -rf "$scratch"' EXIT
printf 'UNTIL 1000000;\n' >"$scratch/longest.arrivals"

# The example with a passive operation, with a call of one tick and this block in place of its loop.
text() {
    awk -v block="$1" '
        /call_cost/ { sub(/2;/, "1;") }
        /for i in word range 1 .. 3 loop/ { print block; skip = 1 }
        !skip { print }
        /end loop;/ { skip = 0 }' "$top/examples/passive_operation.ada"
}

text 'for i in word range 1 .. 4294967295 loop level := level + i; end loop;' >"$scratch/assignments.ada"
text 'for i in word range 1 .. 4294967295 loop filter.smooth (i, level, level); end loop;' >"$scratch/calls.ada"

# Proves and builds the program before the clock starts.
"$top/tools/gate/prove_program.sh" >/dev/null

for form in assignments calls; do
    begun=$EPOCHREALTIME
    for _ in 1 2 3 4 5 6 7 8 9 10; do
        "$top/crates/hrthood/out/hrthood" replay "$scratch/$form.ada" "$scratch/longest.arrivals" >"$scratch/trace"
    done
    ended=$EPOCHREALTIME
    awk -v form="$form" -v begun="$begun" -v ended="$ended" -v cores="$(nproc)" 'BEGIN {
        seconds = ended - begun
        printf "%s: 10000000 statements in %.2f s: %.0f statements/s, %d cores\n", form, seconds, 10000000 / seconds, cores
    }'
done
