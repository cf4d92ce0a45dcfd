#!/usr/bin/env bash
# Tests the proved program by node, tools/hrthood.mjs, over lafomizana.html: all cases of examples/*.cases, byte for byte, and what they don't have:
# words that are no command, files that can't be read or are longer than they may be, texts of 16 MiB, pipes and devices, and ./hrthood where there
# is no binary. With a path in PROGRAM each such run is compared with that program too, status and both streams. NODE names another node than that
# of the path. The last line tells how many runs were as wanted; status 1 where one wasn't. It needs Linux. .ci/run runs it where there is a node;
# where there is none it says so, and claims nothing.
# shellcheck disable=SC2016  # the shell that `same` starts expands its line
set -uo pipefail

top=$(CDPATH='' cd -- "$(dirname -- "${BASH_SOURCE[0]}")/../.." && pwd) || exit 1
if ! engine=$(command -v "${NODE:-node}"); then
    echo 'test_node: there is no node, so nothing is tested'
    exit 0
fi
program=${PROGRAM:-}
[ -z "$program" ] || program=$(realpath -- "$program") || exit 1
room=$(mktemp -d) || exit 1
trap 'rm -rf "$room"' EXIT
printf '#!/bin/sh\nexec %q %q "$@"\n' "$engine" "$top/tools/hrthood.mjs" >"$room/by_node"
chmod +x "$room/by_node"
node=$room/by_node
count=0
good=0

# Counts a run, with what was wrong with it, if anything.
report() {
    count=$((count + 1))
    if [ -z "$2" ]; then
        good=$((good + 1))
    else
        printf '%s: %s\n' "$1" "$2" >&2
    fi
}

if PROGRAM=$node "$top/tools/gate/test_examples.sh" >"$room/cases"; then wrong=; else wrong=$(cat "$room/cases"); fi
report 'examples/*.cases' "$wrong"
tail -n 1 "$room/cases"

cd "$room" || exit 1
cp "$top"/examples/*.* .
cp -R "$top/examples/faults" .
: >empty
cp mine_pump.design design
cp mine_pump.design 'a name with spaces'
mkdir folder
printf 'OBJECT \377\376;' >no_text
head -c 1048576 /dev/zero | tr '\0' ' ' >spaces_1m
{ cat spaces_1m; printf ' '; } >spaces_1m_and_one
# The longest texts of a design, of an Ada text and of a trace, and a byte more of each.
{ cat mine_pump.design; head -c $((1048576 - $(wc -c <mine_pump.design))) spaces_1m; } >design_1m
{ cat one_cyclic_task.ada; yes ' ' | head -c $((16777216 - $(wc -c <one_cyclic_task.ada))); } >ada_16m
{ cat ada_16m; echo; } >ada_16m_and_one
sed 's/UNTIL.*/UNTIL 2700000;/' one_water_alarm.arrivals >long.arrivals

# Runs a line of shell with $run as the program by node, and compares status and both streams with those of the program, if there is one, and
# the status and standard error with these, if they are given.
# usage: same NAME LINE [STATUS [ERR]]
same() {
    local wrong='' part
    run=$node bash -c "$2" >node.out 2>node.err </dev/null
    echo $? >node.status
    if [ -n "$program" ]; then
        run=$program bash -c "$2" >program.out 2>program.err </dev/null
        echo $? >program.status
        for part in status out err; do
            cmp -s "program.$part" "node.$part" || wrong="$wrong $part differs: $(head -c 200 "program.$part") / $(head -c 200 "node.$part");"
        done
    fi
    [ -z "${3:-}" ] || [ "$(cat node.status)" = "$3" ] || wrong="$wrong status $(cat node.status) and not $3"
    [ -z "${4:-}" ] || [ "$(cat node.err)" = "$4" ] || wrong="$wrong standard error has $(head -c 200 node.err)"
    report "$1" "$wrong"
}

usage=$(cat "$top/examples/wanted/usage")
# Words that are no command.
for words in '' check "''" "check ''" "check '' mine_pump.design" "check mine_pump.design ''" 'check -x' '-- check mine_pump.design' \
    'check mine_pump.design tank.design' 'verify mine_pump.design' 'accepts mine_pump.design long.arrivals' 'check a b c d e f' 'sample' \
    'sample 0' 'sample 31' 'sample 007' 'sample x' "sample ''" 'help' '--help' '--version' 'Check mine_pump.design' "check \$'a\\377b'" \
    "\$'ch\\377' mine_pump.design" "'check ' mine_pump.design" 'constructor a' '__proto__ a'; do
    same "words: $words" "\"\$run\" $words" 2 "$usage"
done
# Names of files, and files that can't be read. The names of the module's own texts are design, program, arrivals and trace.
same 'a file design' '"$run" check design' 0
same 'an absent file arrivals' '"$run" verify design arrivals' 3 'fault reading arrivals'
same 'a name with spaces' '"$run" check "a name with spaces"' 0
same 'a name of the whole path' '"$run" check "$PWD/design"' 0
same 'an absent file' '"$run" check absent' 3 'fault reading absent'
same 'an absent file of another alphabet' '"$run" check größe' 3 'fault reading größe'
same 'an absent file with U+FFFD' '"$run" check $'"'"'\357\277\275'"'" 3
same 'an absent second file' '"$run" verify design absent' 3 'fault reading absent'
same 'an absent third file' '"$run" accepts design one_water_alarm.arrivals absent' 3 'fault reading absent'
same 'two absent files' '"$run" replay absent absent_too' 3 'fault reading absent'
same 'a refused design before an absent file' '"$run" verify empty absent' 3 'fault reading absent'
same 'a folder' '"$run" check folder' 3 'fault reading folder'
same 'a file as a folder' '"$run" check design/x' 3 'fault reading design/x'
same 'a long name' '"$run" check $(head -c 5000 /dev/zero | tr "\0" a)' 3
same 'an empty file' '"$run" check empty' 1
same 'bytes that are no text' '"$run" check no_text' 1
same 'a device' '"$run" check /dev/null' 1
same '/dev/zero' '"$run" check /dev/zero' 1 'refused S3 design'
# Lengths.
same 'a design of 1 MiB' '"$run" format design_1m' 0
same 'spaces of 1 MiB' '"$run" check spaces_1m' 1
same 'a byte more' '"$run" check spaces_1m_and_one' 1 'refused S3 design'
same 'a byte more, before an absent file' '"$run" verify spaces_1m_and_one absent' 1 'refused S3 design'
same 'a byte more, behind an absent file' '"$run" verify absent spaces_1m_and_one' 3 'fault reading absent'
same 'arrivals of a byte more' '"$run" verify design spaces_1m_and_one' 1 'refused S3 arrivals'
same 'an Ada text of 16 MiB' '"$run" replay ada_16m until_20.arrivals' 0
same 'an Ada text of a byte more' '"$run" replay ada_16m_and_one until_20.arrivals' 1 'refused S3 ada'
same 'an answer of some 16 MiB' '"$run" verify mine_pump.design long.arrivals' 0
cp node.out long_verified
sed '1,/^-- trace$/d' long_verified | head -c 16777217 >long.trace
echo "a trace of $(wc -c <long.trace) bytes, behind a text of $(sed '/^-- trace$/q' long_verified | wc -c)"
same 'that trace judged' '"$run" accepts mine_pump.design long.arrivals long.trace'
{ cat long.trace long.trace; } | head -c 16777216 >trace_16m
{ cat trace_16m; printf x; } >trace_16m_and_one
same 'a trace of 16 MiB' '"$run" accepts mine_pump.design long.arrivals trace_16m' 1
same 'a trace of a byte more' '"$run" accepts mine_pump.design long.arrivals trace_16m_and_one' 1 'refused S3 trace'
# Pipes and devices.
same '/dev/stdin, a file' '"$run" check /dev/stdin <design' 0
same '/dev/stdin, a pipe' 'cat design | "$run" check /dev/stdin' 0
same '/dev/stdin, a slow pipe' '{ head -c 100 design; sleep 0.3; tail -c +101 design; } | "$run" check /dev/stdin' 0
same '/dev/stdin twice, a file' '"$run" verify /dev/stdin /dev/stdin <design' 1
same '/dev/stdin twice, a pipe' 'cat design | "$run" verify /dev/stdin /dev/stdin' 1
same 'a pipe of a command' '"$run" verify <(cat design) <(cat one_water_alarm.arrivals)' 0
same 'a pipe without an end' 'yes | "$run" check /dev/stdin' 1 'refused S3 design'
same 'a pipe that stays open behind a byte too many' \
    'mkfifo fifo; { cat spaces_1m_and_one; sleep 4; } >fifo & timeout 3 "$run" check fifo; s=$?; rm fifo; exit $s' 1
same 'a reader that left' '{ "$run" verify mine_pump.design long.arrivals; echo $? >left; } | head -c 1; cat left' 0 'fault writing'
same 'a reader that leaves soon' \
    '{ "$run" verify mine_pump.design long.arrivals; echo $? >left; } | head -c 3000000 | sha256sum; cat left' 0 'fault writing'
same 'a slow reader' '"$run" verify mine_pump.design long.arrivals | { sleep 1; sha256sum; }' 0
same 'a full device' '"$run" check design >/dev/full' 4 'fault writing'
same 'a full device, a long answer' '"$run" verify mine_pump.design long.arrivals >/dev/full' 4 'fault writing'
same 'a full device, nothing to write' '"$run" check empty >/dev/full' 1
same 'a full standard error' '"$run" check absent 2>/dev/full' 3
same 'a closed standard error' '"$run" check absent 2>&-' 3
same 'a file that may have 1,024 bytes' "trap '' XFSZ; ulimit -f 1; \"\$run\" generate design >part; s=\$?; sha256sum part; exit \$s" 4

# Runs the script in a folder of its own, where there is no answer, and wants this text in its line.
# usage: none NAME TEXT
none() {
    local status=0 wrong=
    "$engine" alone/hrthood.mjs check design >none.out 2>none.err || status=$?
    [ "$status" -eq 125 ] || wrong="status $status and not 125"
    [ ! -s none.out ] || wrong="$wrong standard output has something"
    grep -qF "hrthood: no answer by node: $2" none.err || wrong="$wrong standard error has $(head -c 200 none.err)"
    report "$1" "$wrong"
}

mkdir alone
cp "$top/tools/hrthood.mjs" alone
none 'no page' 'there is no lafomizana.html'
echo '<title>Lafomizana</title>' >alone/lafomizana.html
none 'a page without a module' 'lafomizana.html has no'
report 'what the page is made of' "$("$engine" "$top/tools/hrthood.mjs" --made | grep -vE '^version [^ ]+ sources [0-9a-f]{64} kit [^ ]+')"

# ./hrthood in a clone without a binary, with this node first on the path.
mkdir bare bare/path
(cd "$top" && cp -R --parents hrthood VERSION lafomizana.html crates.txt crates/*/src crates/*/specs crates/*/proofs tools examples/wanted/usage \
    "$room/bare")
ln -s "$engine" bare/path/node
printf '#!/bin/sh\nPATH=%q:$PATH exec %q "$@"\n' "$room/bare/path" "$room/bare/hrthood" >wrapped
chmod +x wrapped
node=$room/wrapped
same './hrthood' '"$run" check design' 0
same './hrthood, absent file' '"$run" check absent' 3 'fault reading absent'
same './hrthood, closed standard output' '"$run" check design >&-' 4 'fault writing'
same './hrthood, /dev/stdin closed' '"$run" check /dev/stdin <&-' 3 'fault reading /dev/stdin'

echo "$good of $count runs as wanted, by node $("$engine" --version)"
[ "$good" -eq "$count" ]
