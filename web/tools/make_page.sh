#!/usr/bin/env bash
# Makes the page out/page/lafomizana.html: the proved crate `page` for WebAssembly, with web/ and examples of examples/, in one file.
# usage: web/tools/make_page.sh [--keep]
#
# With --keep it is copied to lafomizana.html at the top, the page that the repository keeps. Inside, the page says of which version, sources and
# kit it is made.
#
# The crate is proved by the kit's own `rt lib`, over libraries that `rt lib` or `rt check` built in this clone, or that the gate proved: .ci/run
# leaves their stamps (tools/gate/stamp_libraries.py). Where there are none, as behind `rt ci` alone, it proves and builds them first, which takes about as
# long as the gate. No step is left out where something was made before: all of it takes some two minutes.
set -euo pipefail

top=$(CDPATH='' cd -- "$(dirname -- "${BASH_SOURCE[0]}")/../.." && pwd)
cd "$top"
case $#${1-} in
    0 | 1--keep) ;;
    *)
        echo 'usage: make_page.sh [--keep]' >&2
        exit 2
        ;;
esac
# shellcheck source=tools/gate/current.sh
. tools/gate/current.sh
kit=$(dirname -- "$(rt doc | head -n 1)")
out=out/page
mkdir -p "$out"
rm -f "$out/page.bc" "$out/page.wasm" "$out/lafomizana.html"
# What the page is made of, as ./hrthood compares it with what is there.
made() {
    echo "version $(cat VERSION) sources $(sum_of_sources) kit $(rt version)"
}
made=$(made)
last_line=$(web/tools/page_module.sh crates/page "$top/$out/page.bc")
# Whether this check began with records of an earlier one depends on the clone, and the page must not: the gate proves the crate from nothing.
last_line=${last_line% incremental=trusted}
case $last_line in
    'logic=proved '*) echo "$last_line" ;;
    *)
        echo "make_page: the crate page is not proved: $last_line" >&2
        exit 1
        ;;
esac
python3 web/tools/retarget.py "$kit" "$out/page.bc" "$out/page.wasm"
if [ "$(made)" != "$made" ]; then
    echo 'make_page: a source has changed meanwhile: make the page again' >&2
    exit 1
fi
python3 web/tools/build_page.py "$out/page.wasm" "$last_line" "$made" "$out/making.html"
mv "$out/making.html" "$out/lafomizana.html"
echo "made $out/lafomizana.html, $(stat -c %s "$out/lafomizana.html") bytes"
if [ $# -eq 1 ]; then
    cp "$out/lafomizana.html" lafomizana.html
    echo 'kept as lafomizana.html'
fi
