#!/usr/bin/env bash
# Makes the page of the proved crate, and tests it: that the kept page is this one, its heap, and all of it in a browser beside
# the program. With a path in PROGRAM that program is run, else ./hrthood. Where no node or no Chromium is found it says so, and
# claims nothing then.
set -euo pipefail

top=$(CDPATH='' cd -- "$(dirname -- "${BASH_SOURCE[0]}")/../.." && pwd)
PROGRAM=$(realpath -- "${PROGRAM:-$top/hrthood}")
export PROGRAM
cd "$top"
web/tools/make_page.sh
failed=0
if ! cmp out/page/lafomizana.html lafomizana.html; then
    echo 'test_page: lafomizana.html is not the page of these sources, which cp out/page/lafomizana.html lafomizana.html keeps' >&2
    failed=1
fi
if ! command -v node >/dev/null; then
    echo 'test_page: there is no node, so nothing else of the page is tested'
    exit "$failed"
fi
web/tools/test_lifted.mjs >out/page/lifted.txt || { cat out/page/lifted.txt; failed=1; }
node web/tools/test_heap.mjs web/library_host.js || failed=1
status=0
web/tools/test_browser.mjs || status=$?
# 2 tells that there is no browser.
[ "$status" -eq 0 ] || [ "$status" -eq 2 ] || failed=1
exit "$failed"
