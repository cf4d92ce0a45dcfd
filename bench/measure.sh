# shellcheck shell=bash
# What the measures of this folder share; each reads it in with `source`, and by itself it measures nothing.
#
# With the path of a program in PROGRAM that one is measured, else this repository's, which is proved and built before the clock starts.
# Seconds are processor time, the least of three runs. The exponent is that by which the seconds grow with a size: the slope of the line
# that fits the logarithms best. It needs awk and /usr/bin/time. No part of the gate.
set -euo pipefail

top=$(CDPATH='' cd -- "$(dirname -- "${BASH_SOURCE[0]}")/.." && pwd)
room=$(mktemp -d)
trap 'rm -rf "$room"' EXIT
program=${PROGRAM:-$top/crates/hrthood/out/hrthood}
[ -n "${PROGRAM:-}" ] || "$top/tools/gate/prove_program.sh" >/dev/null

# shellcheck disable=SC2034  # scripts that read this use it
base=$top/examples/one_cyclic_task.ada
arrivals=$top/examples/until_20.arrivals
costs='COSTS ASSIGN = 1; TEST = 1; TURN = 1; CALL = 2; NULL = 1; PUT = 1; FINISH = 1; END COSTS;'
attributes='ATTRIBUTES PERIOD = 1000000000; DEADLINE = 1000000000; THREAD_BUDGET = 1000000000;'

# A design of 30 threads that call the first of so many objects of this kind, with this constraint on their operations, in a chain.
chain_of_objects() {
    awk -v kind="$1" -v constraint="$2" -v count="$3" -v costs="$costs" 'BEGIN {
        print "DESIGN d IS " costs "\nOBJECT r IS ACTIVE\nOBJECTS"
        for (k = 1; k <= 30; k++) {
            print "OBJECT t" k " IS CYCLIC ATTRIBUTES PERIOD = 1000000; DEADLINE = " 1000000 - k "; THREAD_BUDGET = 1000000;"
            print "REQUIRES p1.f; THREAD p1.f; END THREAD; END t" k ";"
        }
        for (k = 1; k <= count; k++) {
            print "OBJECT p" k " IS " kind " PROVIDES f" constraint ";" (k < count ? " REQUIRES p" k + 1 ".f;" : "")
            print "OPERATION f IS BEGIN " (k < count ? "p" k + 1 ".f" : "null") "; END f; END p" k ";"
        }
        print "END r;\nEND d;"
    }'
}

# A design of one thread with a block, in a text of about this many bytes.
thread_block() {
    awk -v size="$1" -v costs="$costs" -v attributes="$attributes" 'BEGIN {
        print "DESIGN d IS " costs "\nOBJECT a IS CYCLIC " attributes "\nTHREAD"
        line = "null; work (1); null; work (2);"
        for (n = 200; n < size; n += length(line) + 1) print line
        print "END THREAD;\nEND a;\nEND d;"
    }'
}

# A design of so many passive objects, whose operations have statements of all kinds and call the last one's, in a text of about this many bytes.
mixed_in() {
    awk -v count="$1" -v size="$2" -v costs="$costs" -v attributes="$attributes" 'BEGIN {
        line = "count := count + limit * scale;\nif count > limit and limit /= 7 then\ntotal := count;\nelse\nwork (3);\nend if;\n"
        line = line "for i in word range 1 .. 4 loop\ncount := (count + i) * 2;\nend loop;\nput (count);\nnull;\n"
        print "DESIGN d IS " costs "\nOBJECT r IS ACTIVE\nOBJECTS"
        for (k = 1; k <= count; k++) {
            called = k < count ? "unit_" count ".step" : ""
            print "OBJECT unit_" k " IS PASSIVE PROVIDES step (limit : in word; total : out word);" (called ? " REQUIRES " called ";" : "")
            print "OPERATION step IS count : word := 0; scale : word := 3; BEGIN"
            more = line (called ? called " (count, scale);\n" : "")
            for (n = 250 + length(more); n < size / count; n += length(more)) printf "%s", more
            print "total := scale;\nEND step;\nEND unit_" k ";"
        }
        print "OBJECT a IS CYCLIC " attributes "\nTHREAD work (1);\nEND THREAD;\nEND a;\nEND r;\nEND d;"
    }'
}

# Runs the program with these words, and sets the least of three processor times. What it says stands in the room.
run() {
    local TIMEFORMAT='%U %S'
    best=9999
    for _ in 1 2 3; do
        { time "$program" "$@" >"$room/out" 2>"$room/err" || true; } 2>"$room/time"
        best=$(awk -v best="$best" '{ print $1 + $2 < best ? $1 + $2 : best }' "$room/time")
    done
}

# The most memory of a run with these words, in KiB.
memory() {
    /usr/bin/time -f '%M' -o "$room/memory" "$program" "$@" >/dev/null 2>&1 || true
    tail -n 1 "$room/memory"
}

# The last line of what the last run said.
said() {
    cat <(tail -n 1 "$room/out") "$room/err" | tail -n 1
}

# The exponent of the first number of a line by which the second grows.
exponent() {
    awk '{ x = log($1); y = log($2 > 0 ? $2 : 0.0005); n++; sx += x; sy += y; xx += x * x; xy += x * y }
        END { printf "%.2f", (n * xy - sx * sy) / (n * xx - sx * sx) }' "$1"
}

# Runs a verb on the texts that a form gives at these sizes, and tells the times, the memory and the exponent of the bytes.
grow() {
    local verb=$1 form=$2 size bytes
    local -a words=("$verb" "$room/text")
    shift 2
    case $verb in replay | verify) words+=("$arrivals") ;; esac
    : >"$room/times"
    for size in "$@"; do
        "$form" "$size" >"$room/text"
        bytes=$(wc -c <"$room/text")
        run "${words[@]}"
        echo "$bytes $best" >>"$room/times"
        printf '%s, %s, size %s, %s bytes: %s s, %s KiB, said last: %s\n' "$verb" "$form" "$size" "$bytes" "$best" \
            "$(memory "${words[@]}")" "$(said)"
    done
    printf '%s, %s: exponent %s\n' "$verb" "$form" "$(exponent "$room/times")"
}

echo "$(nproc) cores, of which each run uses one"
