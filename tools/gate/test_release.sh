#!/usr/bin/env bash
# Tests tools/gate/make_release.sh: two runs give equal bytes, also at another time and with another umask; its checksums hold; and its program
# runs, by itself and by node. Without a proved binary and a page of the current sources it says so, and claims nothing. The last line tells how
# many were as wanted; status 1 where one wasn't.
set -uo pipefail

top=$(CDPATH='' cd -- "$(dirname -- "${BASH_SOURCE[0]}")/../.." && pwd) || exit 1
room=$(mktemp -d) || exit 1
export LC_ALL=C
trap 'rm -rf "$room"' EXIT
version=$(cat "$top/VERSION")
name=lafomizana-$version
count=0
good=0

# Counts a comparison of what was found with what is wanted.
compare() {
    count=$((count + 1))
    if [ "$2" = "$3" ]; then
        good=$((good + 1))
    else
        printf '%s: found\n%s\nand not\n%s\n' "$1" "$2" "$3" >&2
    fi
}

# shellcheck source=tools/gate/current.sh
. "$top/tools/gate/current.sh"
if ! is_current "$top/crates/hrthood/out/hrthood" || ! is_page_current "$top/lafomizana.html"; then
    echo 'test_release: there is no proved binary, or no page, of these sources: nothing is tested'
    exit 0
fi

make=$top/tools/gate/make_release.sh
"$make" --uncommitted "$room/first" >"$room/said" || exit 1
archive=$room/first/$name.tar.gz
compare 'the checksum that it prints' "$(cat "$room/said")" "$(sha256sum <"$archive" | cut -c 1-64)  $archive"
sleep 1.1
(umask 077 && "$make" --uncommitted "$room/second") >/dev/null
compare 'two runs give equal bytes' "$(sha256sum <"$room/second/$name.tar.gz")" "$(sha256sum <"$archive")"
"$make" one two 2>"$room/err"
compare 'two words' "$? $(cat "$room/err")" '2 usage: make_release.sh [--uncommitted] [FOLDER]'
"$make" --any 2>"$room/err"
compare 'an unknown word' "$? $(cat "$room/err")" '2 usage: make_release.sh [--uncommitted] [FOLDER]'

mkdir "$room/unpacked"
tar -xzf "$archive" -C "$room/unpacked"
cd "$room/unpacked/$name" || exit 1
compare 'one folder' "$(ls "$room/unpacked")" "$name"
compare 'its files' "$(printf '%s\n' *)" \
    "$(printf '%s\n' CHANGELOG.md CHECK.md SHA256SUMS VERSION bin completion examples hrthood.mjs lafomizana.html man)"
compare 'its checksums' "$(sha256sum -c SHA256SUMS 2>&1 | grep -cv ': OK$')" 0
compare 'each file has one' "$(find . -type f ! -name SHA256SUMS | sort)" "$(cut -c 67- SHA256SUMS | sort)"
compare 'owners and times' "$(tar --numeric-owner --full-time -tvzf "$archive" | awk '{ print $2, $4, $5 }' | sort -u | wc -l)" 1
compare 'its examples' "$(cd examples && find . -type f | sort)" "$(cd "$top/examples" && git ls-files | sed 's,^,./,' | sort)"
compare 'it names the sources' "$(grep -c "$(sum_of_sources)" CHECK.md)" 1
compare 'the manual page has the version' "$(head -n 1 man/hrthood.1)" ".TH HRTHOOD 1 \"\" \"Lafomizana $version\""
compare 'its changes begin with the version' "$(grep -m 1 '^## ' CHANGELOG.md)" "## $version"
wanted=$("$top/crates/hrthood/out/hrthood" check examples/tank.design)
compare 'its program' "$(env -i bin/hrthood check examples/tank.design)" "$wanted"
if command -v node >/dev/null; then
    compare 'its program by node' "$(node hrthood.mjs check examples/tank.design)" "$wanted"
    compare 'its program by node says of what it is' "$(node hrthood.mjs --made)" "$(made_of_page "$top/lafomizana.html")"
fi

echo "$good of $count as wanted"
[ "$good" -eq "$count" ]
