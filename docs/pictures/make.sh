#!/usr/bin/env bash
# Makes the pictures of the docs, each by the words that are listed here.
#
#     docs/pictures/make.sh               makes them
#     docs/pictures/make.sh --compare     ends with status 1 where one of them is another one than that which would be made, or is shown nowhere
#
# With a path in PROGRAM that program is run, else ./hrthood. It wants node. page.png is a picture of lafomizana.html, or of the page in PAGE, and is made
# where there is a Chromium; it has the fonts of the machine, so it is not compared. gate.svg is drawn of docs/gate/*.csv, and compared by
# tools/gate/gate_table.py.
set -euo pipefail

here=$(CDPATH='' cd -- "$(dirname -- "${BASH_SOURCE[0]}")" && pwd)
top=$(dirname -- "$(dirname -- "$here")")
program=$(realpath -- "${PROGRAM:-$top/hrthood}")
page=$(realpath -- "${PAGE:-$top/lafomizana.html}")
cd "$top"
room=$(mktemp -d)
trap 'rm -rf "$room"' EXIT

"$program" verify examples/mine_pump.design examples/blocked_sensor.arrivals |
    tools/report/chart.mjs --from 470 --to 545 --width 900 >"$room/mine_pump.svg"
"$program" explain examples/mine_pump.design >"$room/mine_pump.bounds"
tools/report/diagram.mjs --bounds "$room/mine_pump.bounds" --legend examples/mine_pump.design >"$room/mine_pump_diagram.svg"
tools/report/diagram.mjs --bounds "$room/mine_pump.bounds" --of pump_controller examples/mine_pump.design >"$room/pump_controller_diagram.svg"
"$program" explain examples/late_control.design | tools/report/bars.mjs --width 900 >"$room/late_control_bars.svg"
if [ "${1:-}" != --compare ]; then
    tools/gate/gate_table.py --write
    web/tools/page_picture.mjs "$page" examples/mine_pump.design examples/blocked_sensor.arrivals 396 546 "$here/page.png" || [ $? -eq 2 ]
fi

status=0
for picture in "$room"/*.svg; do
    name=$(basename -- "$picture")
    if [ "${1:-}" != --compare ]; then
        cp -- "$picture" "$here/$name"
    elif ! cmp -s -- "$picture" "$here/$name"; then
        echo "make: docs/pictures/$name is not the picture of these sources: docs/pictures/make.sh makes it" >&2
        status=1
    fi
done
for picture in "$here"/*.svg "$here"/*.png; do
    name=$(basename -- "$picture")
    if [ ! -e "$room/$name" ] && [ "$name" != gate.svg ] && [ "$name" != page.png ]; then
        echo "make: docs/pictures/$name is made by nothing here" >&2
        status=1
    elif ! grep -q "pictures/$name" README.md docs/*.md; then
        echo "make: docs/pictures/$name is shown in no page" >&2
        status=1
    fi
done
exit "$status"
