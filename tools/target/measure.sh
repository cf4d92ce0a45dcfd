#!/bin/sh
# measure.sh [CPU]
# Tells what calls, requests and waking up cost on this host, in microseconds: it builds and runs measure.adb on one processor, 0 if none is told.
# Status 2: wrong words, 3: GNAT is missing, 4: no right to real-time priorities.
set -u
[ $# -le 1 ] || {
    sed -n '2,4s/^# \{0,1\}//p' "$0" >&2
    exit 2
}
here=$(CDPATH='' cd -- "$(dirname -- "$0")" && pwd) || exit 2
cpu=${1:-0}
. "$here/needs.sh" || exit 2
need_gnat ''
need_priorities "$cpu"
room=$(mktemp -d) || exit 2
trap 'rm -rf "$room"' EXIT
trap 'exit 130' HUP INT TERM
cp "$here/measure.adb" "$room" && cd "$room" && gnatmake -q -O1 measure || exit 3
taskset -c "$cpu" ./measure
