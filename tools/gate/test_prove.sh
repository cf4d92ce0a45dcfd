#!/usr/bin/env bash
# Tests tools/gate/prove_program.sh in a small clone with a stand-in for `rt`, so that neither a kit nor a proof is needed: what it says of each
# library, its verdicts, that one proof runs at a time, and that --stop and a signal end all of its processes. The last line tells how many were
# as wanted; status 1 where one wasn't.
# shellcheck disable=SC2016  # the stand-ins expand what they hold
set -uo pipefail

top=$(CDPATH='' cd -- "$(dirname -- "${BASH_SOURCE[0]}")/../.." && pwd) || exit 1
room=$(mktemp -d) || exit 1
[ -n "${KEEP:-}" ] || trap 'rm -rf "$room"' EXIT
cd "$room" || exit 1
count=0
good=0

# Counts a comparison of what was found with what is wanted.
compare() {
    count=$((count + 1))
    if [ "$2" = "$3" ]; then
        good=$((good + 1))
    else
        printf '%s: found\n%s\nand not\n%s\n' "$1" "$2" "$3" >&2
    fi
}

# A clone with a program over two libraries, and a kit whose `rt` does as the variable HOW tells.
mkdir -p clone/tools kit
cp -R "$top/tools/gate" clone/tools
for crate in hrthood low high; do
    mkdir -p clone/crates/$crate/src clone/crates/$crate/specs clone/crates/$crate/proofs
    echo "// $crate" >clone/crates/$crate/src/lib.rt
done
printf 'low:\nhigh: low\nhrthood: high low\n' >clone/crates.txt
echo 'the example' >clone/crates/hrthood/stdout
cat >kit/rt <<'END'
#!/usr/bin/env bash
[ "$1" = version ] && echo 'kit-1' && exit
echo "rt: $HOW" >&2
case $HOW in
    refuse) exit 1 ;;
    wait) sleep 1000 & echo $! >"$ROOM/sleeper"; sleep 1000; exit 1 ;;
    stubborn) trap '' TERM; sleep 1000 & echo $! >"$ROOM/sleeper"; while :; do sleep 1000; done ;;
esac
for library in low high; do
    mkdir -p ../$library/out/rlib && echo new >../$library/out/rlib/stamp
    sleep 1.2
done
[ "$HOW" != edit ] || echo '// an edit' >>src/lib.rt
mkdir -p out && printf '#!/bin/sh\nexit 2\n' >out/hrthood && chmod +x out/hrthood
cat stdout
END
chmod +x kit/rt
# The kit's own module, as far as the script asks it.
cat >kit/rtlib.py <<'END'
class Crate:
    def __init__(self, name, libraries=()):
        self.name, self.libraries = name, libraries

    def stamp(self):
        return 'new'

    def below(self):
        return self.libraries

    def is_built(self):
        try:
            return open(f'crates/{self.name}/out/rlib/stamp').read() == 'new\n'
        except OSError:
            return False


def crates_below(top):
    low, high = Crate('low'), Crate('high')
    return [low, high, Crate('hrthood', [low, high])]
END
PATH=$room/kit:$PATH
ROOM=$room
export PATH ROOM
prove=clone/tools/gate/prove_program.sh

# Runs the script with the stand-in doing so, and sets status and out, which has both streams.
run() {
    HOW=$1 $prove "${@:2}" </dev/null >said 2>&1
    status=$?
    out=$(grep -v '^what rt says: ' said)
}

# Starts it beside this script, and waits until the stand-in runs.
start() {
    rm -f sleeper
    HOW=$1 $prove </dev/null >started 2>&1 &
    started=$!
    until [ -s sleeper ]; do sleep 0.05; done
}

# Tells whether the process that the stand-in started is left. One that has ended, but that no parent has waited for, is not.
is_left() {
    ps -o stat= -p "$(cat sleeper)" | grep -v '^Z'
}

run prove --start
compare 'an unknown word: status' "$status" 2
compare 'an unknown word' "$out" 'usage: prove_program.sh [--stop]'
run prove --stop now
compare 'two words: status' "$status" 2
run prove --stop
compare '--stop without a proof: status' "$status" 0
compare '--stop without a proof' "$out" 'no proof runs in this clone'
compare 'nothing is begun by that' "$(ls -d clone/out 2>/dev/null)" ''

run refuse
compare 'a refusal: status' "$status" 1
compare 'a refusal' "$(sed 's/, at .*//; s/, from .*//' <<<"$out")" \
    "$(printf '%s\n' 'libraries to prove: 2' 'proving and building the program' 'rt: refuse' 'neither proved nor built: status 1')"

for how in wait stubborn; do
    start $how
    run $how
    compare "$how: a second proof: status" "$status" 75
    compare "$how: a second proof" "$out" 'another proof runs in this clone'
    run $how --stop
    compare "$how: --stop: status" "$status" 0
    compare "$how: --stop" "$out" 'stopped'
    wait "$started"
    compare "$how: the stopped proof: status" $? 1
    compare "$how: its log" "$(tail -n 1 clone/out/proof.log | sed 's/, at .*//')" 'stopped'
    compare "$how: no process is left" "$(is_left)" ''
done
start wait
kill -s TERM "$started"
wait "$started"
compare 'a signal: status' $? 1
sleep 0.2
compare 'a signal: no process is left' "$(is_left)" ''

run edit
compare 'an edit meanwhile: status' "$status" 1
compare 'an edit meanwhile' "$(tail -n 1 <<<"$out" | sed 's/; at .*//')" 'proved and built, but a source has changed meanwhile: prove it again'
rm -r clone/crates/*/out
run prove
compare 'a proof: status' "$status" 0
compare 'a proof' "$out" \
    "$(printf '%s\n' 'libraries to prove: 2' 'proved 1 of 2: low' 'proved 2 of 2: high' 'proving the program itself' 'proved and built')"
run refuse
compare 'a proved program' "$out" 'proved and built already'
touch -d '1 hour' clone/crates/hrthood/src/lib.rt
run refuse
compare 'a source of another time' "$out" 'proved and built already'
echo '// an edit' >>clone/crates/hrthood/src/lib.rt
run refuse
compare 'a source that was changed: status' "$status" 1
compare 'a source that was changed' "$(head -n 1 <<<"$out")" 'libraries to prove: 0'

echo "$good of $count as wanted"
[ "$good" -eq "$count" ]
