#!/usr/bin/env bash
# How fast a text is replayed up to the longest horizon of 1,000,000,000 ticks: a cyclic task that is released each 2,000 ticks, which
# writes 1,000,002 lines, and one that is released twice in all, so that the processor idles.
# Prints the seconds, the lines of trace a second, and the most memory. Needs awk and /usr/bin/time. No part of the gate.
set -euo pipefail

top=$(CDPATH='' cd -- "$(dirname -- "${BASH_SOURCE[0]}")/.." && pwd)
scratch=$(mktemp -d)
trap 'rm -rf "$scratch"' EXIT
printf 'UNTIL 1000000000;\n' >"$scratch/longest.arrivals"

# Proves and builds the program before the clock starts.
"$top/tools/gate/prove_program.sh" >/dev/null

for period in 2000 1000000000; do
    sed -e '/^-- /d' -e "s/hrt.after (hrt_next, 10)/hrt.after (hrt_next, $period)/" \
        "$top/examples/one_cyclic_task.ada" >"$scratch/task.ada"
    /usr/bin/time -f '%e %M' -o "$scratch/time" \
        "$top/crates/hrthood/out/hrthood" replay "$scratch/task.ada" "$scratch/longest.arrivals" >"$scratch/trace"
    read -r seconds memory <"$scratch/time"
    awk -v period="$period" -v lines="$(wc -l <"$scratch/trace")" -v seconds="$seconds" -v memory="$memory" 'BEGIN {
        printf "period %d: %d lines in %.2f s and %d KiB", period, lines, seconds, memory
        if (seconds > 0) printf ", %.0f lines/s", lines / seconds
        printf "\n"
    }'
done
