#!/usr/bin/env bash
# Runs each verb on a design of 1,048,576 bytes with 500 objects, 30 threads and 14,000 operations under a limit of 400,000 KB of address space, as
# batch systems set one: what the program reserves is in proportion to the text, whether it is written to or not. It runs the proved program, or
# the one that PROGRAM names, and LIMIT sets another limit in KB. Each run must end with status 0 and say nothing on standard error; where one does
# not, the script ends with status 1. So that no limit of the code's own passes for want of memory, there are 400 operations of one object,
# `accepts` judges a trace of over 100,000 bytes and one of nearly 16,777,216, and a program of 5,000 units is refused by its rule.
# It needs Linux and Python 3.
set -uo pipefail

top=$(CDPATH='' cd -- "$(dirname -- "${BASH_SOURCE[0]}")/../.." && pwd) || exit 1
program=$(realpath -- "${PROGRAM:-$top/crates/hrthood/out/hrthood}") || exit 1
[ -x "$program" ] || { echo "no program $program" >&2; exit 1; }
limit=${LIMIT:-400000}
room=$(mktemp -d) || exit 1
trap 'rm -rf "$room"' EXIT
cd "$room" || exit 1
python3 "$top/tools/gate/large_design.py" . || exit 1
differences=0

# Runs words under the limit. Its standard output stays in the file out.
runs() {
    local status=0
    (ulimit -v "$limit" && exec timeout 120 "$program" "$@") </dev/null >out 2>err || status=$?
    if [ "$status" -eq 0 ] && [ ! -s err ] && [ -s out ]; then
        echo "hrthood $*: as wanted, $(wc -c <out) bytes"
    else
        echo "hrthood $*: status $status under $limit KB, $(wc -c <out) bytes, standard error '$(head -c 200 err)'" >&2
        differences=$((differences + 1))
    fi
}

runs check large.design
runs analyse large.design
runs format large.design
runs search large.design
runs scale large.design
runs sample 30
runs background large.design
runs generate large.design
mv out large.ada
runs replay large.ada large.arrivals
runs verify large.design large.arrivals
sed '1,/^-- trace$/d' out >large.trace
if [ "$(wc -c <large.trace)" -le 100000 ]; then
    echo "verify large.design: its trace has $(wc -c <large.trace) bytes, too few for accepts" >&2
    differences=$((differences + 1))
fi
runs accepts large.design large.arrivals large.trace

# The trace of a mine pump over this time is the longest that a file of a trace may be, but for some lines.
cp "$top/examples/mine_pump.design" .
sed 's/UNTIL.*/UNTIL 2723900;/' "$top/examples/one_water_alarm.arrivals" >long.arrivals
runs verify mine_pump.design long.arrivals
sed '1,/^-- trace$/d' out >long.trace
bytes=$(wc -c <long.trace)
if [ "$bytes" -le 16770000 ] || [ "$bytes" -gt 16777216 ]; then
    echo "verify mine_pump.design: its trace has $bytes bytes, so it is none of the longest" >&2
    differences=$((differences + 1))
fi
runs accepts mine_pump.design long.arrivals long.trace

# More units than a program may have are refused by the rule, and are no want of memory.
status=0
(ulimit -v "$limit" && exec timeout 120 "$program" replay units.ada "$top/examples/until_20.arrivals") </dev/null >out 2>err || status=$?
if [ "$status" -ne 1 ] || [ "$(cat err)" != 'refused G5' ]; then
    echo "hrthood replay units.ada: status $status, standard error '$(head -c 200 err)'" >&2
    differences=$((differences + 1))
fi
[ "$differences" -eq 0 ]
