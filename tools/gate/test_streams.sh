#!/usr/bin/env bash
# What the program does at the system's own streams, of which the gate sees standard output and the status of two runs: the line on standard
# error and the exit status of each kind of end, a standard output that is full, that is closed, that takes a part of what it is given, and
# whose reader leaves or is slow. It runs the proved program, or the one that PROGRAM names, and says of each run whether all was as wanted.
# Where something was not, it ends with status 1. It needs Linux and Python 3.
set -uo pipefail

top=$(CDPATH='' cd -- "$(dirname -- "${BASH_SOURCE[0]}")/../.." && pwd) || exit 1
program=$(realpath -- "${PROGRAM:-$top/crates/hrthood/out/hrthood}") || exit 1
[ -x "$program" ] || { echo "no program $program: tools/gate/prove_program.sh proves and builds it" >&2; exit 1; }
room=$(mktemp -d) || exit 1
trap 'rm -rf "$room"' EXIT
cd "$room" || exit 1
differences=0

# The files that the runs below read: those of examples/, an arrivals file with a long trace, and a design whose text is longer than a pipe.
cp "$top"/examples/*.* .
: >empty.design
echo 'UNTIL 400000;' >long.arrivals
{
    sed '/work (3);/,$d' one_cyclic_object.design | sed 's/= 10;/= 1000000;/; s/= 1000;/= 1000000;/'
    for _ in $(seq 12000); do echo '         null; work (1);'; done
    sed -n '/END THREAD;/,$p' one_cyclic_object.design
} >long.design

# Says how a run went: its name, and what was other than wanted, if anything.
report() {
    if [ -z "$2" ]; then
        echo "$1: as wanted"
    else
        echo "$1: $2" >&2
        differences=$((differences + 1))
    fi
}

# Compares a run with what is wanted of it: its name, its status and the wanted one, and the wanted text of standard error, whose own text
# is in the file err.
judge() {
    local wrong=
    [ "$2" = "$3" ] || wrong="status $2 and not $3"
    [ "$(cat err)" = "$4" ] || wrong="$wrong${wrong:+, }standard error has '$(cat err)' and not '$4'"
    report "$1" "$wrong"
}

# Runs words, with nothing wanted on standard output: the status, the line that is wanted on standard error, and the words.
tells() {
    local status=0
    "$program" "${@:3}" </dev/null >out 2>err || status=$?
    judge "hrthood ${*:3}" "$status" "$1" "$2"
    [ ! -s out ] || report "hrthood ${*:3}" "standard output has: $(head -c 200 out)"
}

usage='usage: hrthood check D | analyse D | format D | generate D | replay A R | verify D R | sample N | background D | accepts D R T'
usage+=' | search D | scale D | explain D | arrange D'
tells 2 "$usage"
tells 2 "$usage" check
tells 2 "$usage" check one_cyclic_object.design two
tells 2 "$usage" sample 0
tells 2 "$usage" help
tells 3 'fault reading absent' check absent
tells 3 'fault reading absent' verify one_cyclic_object.design absent
tells 3 'fault reading .' check .
tells 1 'refused S1 design line 1 column 1' check empty.design

# Each verb into a standard output that is full, and into one that is closed.
for words in 'check mine_pump.design' 'analyse mine_pump.design' 'format mine_pump.design' 'generate mine_pump.design' \
    'replay one_cyclic_task.ada until_20.arrivals' 'verify mine_pump.design one_water_alarm.arrivals' 'sample 3'; do
    status=0
    read -ra given <<<"$words"
    "$program" "${given[@]}" </dev/null >/dev/full 2>err || status=$?
    judge "$words, into a full device" "$status" 4 'fault writing'
    status=0
    "$program" "${given[@]}" </dev/null 2>err >&- || status=$?
    judge "$words, with standard output closed" "$status" 4 'fault writing'
done

# A standard error that takes nothing changes neither the status nor standard output.
status=0
"$program" check absent </dev/null >out 2>/dev/full || status=$?
: >err
judge 'check absent, with standard error full' "$status" 3 ''
[ ! -s out ] || report 'check absent, with standard error full' 'standard output has something'

# A file that may have 1,024 bytes takes a part of a longer piece, and then nothing.
"$program" generate one_cyclic_object.design </dev/null >whole 2>err
status=0
(
    trap '' XFSZ
    ulimit -f 1
    exec "$program" generate one_cyclic_object.design </dev/null >part 2>err
) || status=$?
judge 'generate, into a file of 1,024 bytes' "$status" 4 'fault writing'
cmp -s part <(head -c 1024 whole) || report 'generate, into a file of 1,024 bytes' 'the file is no front of that length'

# A reader that leaves early.
replay=(replay one_cyclic_task.ada long.arrivals)
"$program" "${replay[@]}" </dev/null >whole 2>err
[ "$(wc -c <whole)" -gt 1048576 ] || report "${replay[*]}" 'its trace is too short for this'
{ "$program" "${replay[@]}" </dev/null 2>err; echo $? >status; } | head -c 1 >out
judge "${replay[*]} | head -c 1" "$(cat status)" 4 'fault writing'
cmp -s out <(head -c 1 whole) || report "${replay[*]} | head -c 1" 'other bytes came'

# A slow reader behind a pipe of 4,096 bytes, and a writer that is stopped and continued while it waits for room there: the system then takes
# a part of what is written, and tells how much. What Python's own write of one piece answers shows that it does.
cat >slow.py <<'PYTHON'
import fcntl, os, signal, struct, subprocess, sys, termios, time

stops, words = int(sys.argv[1]), sys.argv[2:]
reader, writer = os.pipe()
fcntl.fcntl(writer, 1031, 4096)  # F_SETPIPE_SZ, which Python has a name for from 3.10 on
process = subprocess.Popen(words, stdin=subprocess.DEVNULL, stdout=writer, stderr=subprocess.PIPE)
os.close(writer)


def state():
    with open(f"/proc/{process.pid}/stat") as stat:
        return stat.read().rsplit(")", 1)[1].split()[0]


def held():
    return struct.unpack("i", fcntl.ioctl(reader, termios.FIONREAD, bytes(4)))[0]


def is_waiting():
    before = held()
    time.sleep(0.01)
    return before > 0 and held() == before and state() == "S"


found = b""
for _ in range(stops):
    while state() != "Z" and not is_waiting():
        pass
    os.kill(process.pid, signal.SIGSTOP)
    while state() not in "TZ":
        time.sleep(0.001)
    os.kill(process.pid, signal.SIGCONT)
    time.sleep(0.01)
    found += os.read(reader, 4096)
while True:
    piece = os.read(reader, 65536)
    if not piece:
        break
    found += piece
told = process.stderr.read()
sys.stdout.buffer.write(found)
sys.stderr.buffer.write(told)
sys.exit(process.wait())
PYTHON
status=0
piece='import os, sys; print(os.write(1, bytes(300000)) < 300000, file=sys.stderr)'
timeout 60 python3 slow.py 1 python3 -c "$piece" >out 2>err || status=$?
judge 'a piece of Python, stopped and continued, is taken in part' "$status" 0 True
for words in 'format long.design' 'generate long.design' "${replay[*]}"; do
    read -ra given <<<"$words"
    "$program" "${given[@]}" </dev/null >whole 2>err
    [ "$(wc -c <whole)" -gt 131072 ] || report "$words" 'what it writes is too short for this'
    status=0
    timeout 60 python3 slow.py 20 "$program" "${given[@]}" >out 2>err || status=$?
    judge "$words, stopped and continued" "$status" 0 ''
    cmp -s out whole || report "$words, stopped and continued" 'other bytes came'
done

[ "$differences" -eq 0 ]
