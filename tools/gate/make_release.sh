#!/bin/sh
# Writes lafomizana-VERSION.tar.gz, the archive of a release: the proved binary for Linux on x86-64, the page, the program by node, the manual
# page, the completion for bash, the examples, the changes, checksums, and how to check that the archive is what the sources give (CHECK.md).
# usage: make_release.sh [--uncommitted] [FOLDER]      FOLDER is out/release where it isn't named
#
# It refuses a binary or a page that is not of the current sources (tools/gate/current.sh), and without --uncommitted files that are not committed.
# Over equal files two runs give equal bytes: the files are in order, with the time of the commit and owner 0.
set -eu

top=$(CDPATH='' cd -- "$(dirname -- "$0")/../.." && pwd)
is_committed=true
if [ "${1-}" = --uncommitted ]; then
    is_committed=false
    shift
fi
case $#${1-} in
    0) set -- "$top/out/release" ;;
    1-* | [!1]*)
        echo 'usage: make_release.sh [--uncommitted] [FOLDER]' >&2
        exit 2
        ;;
esac
mkdir -p "$1"
folder=$(CDPATH='' cd -- "$1" && pwd)
cd "$top"
. tools/gate/current.sh

refuse() {
    echo "make_release: $1" >&2
    exit 1
}

binary=crates/hrthood/out/hrthood
is_current "$top/$binary" || refuse 'there is no proved binary of these sources: tools/gate/prove_program.sh proves and builds it'
is_page_current "$top/lafomizana.html" || refuse 'lafomizana.html is not of these sources: web/tools/make_page.sh --keep makes it'
commit=$(git rev-parse HEAD)
if [ -n "$(git status --porcelain)" ]; then
    ! $is_committed || refuse 'there are files that are not committed: git status tells them'
    commit="$commit, with changes that are not committed"
fi
version=$(cat VERSION)
made=$(made_of_page lafomizana.html)
[ "${made%% sources *}" = "version $version" ] || refuse "lafomizana.html is of $made, and not of version $version"
name=lafomizana-$version
room=$(mktemp -d)
trap 'rm -rf "$room"' EXIT
release=$room/$name

mkdir -p "$release/bin" "$release/man" "$release/completion"
cp "$binary" "$release/bin/hrthood"
cp lafomizana.html VERSION CHANGELOG.md tools/hrthood.mjs "$release"
cp man/hrthood.1 "$release/man"
cp completion/hrthood.bash "$release/completion"
git ls-files -z examples | xargs -0 cp --parents -t "$release"

cat >"$release/CHECK.md" <<END
# Lafomizana $version

| What | How it is used |
|---|---|
| \`bin/hrthood\` | the proved program, for Linux on x86-64; it needs no other file |
| \`lafomizana.html\` | a WebAssembly build of the proved program, in a page: open it in a browser |
| \`hrthood.mjs\` | the same build by node, 20 or later: \`node hrthood.mjs check examples/tank.design\`; it needs \`lafomizana.html\` beside it |
| \`man/hrthood.1\`, \`completion/hrthood.bash\` | the manual page: \`man -l man/hrthood.1\`; words for bash: \`. completion/hrthood.bash\` |
| \`examples/\` | designs, arrivals and traces, and what the program answers (\`examples/README.md\`) |

Made from commit \`$commit\` with the kit \`$(rt version)\`.
Checksum of the sources: \`$(sum_of_sources)\`.

## To check it

Whether the files are whole:

    sha256sum -c SHA256SUMS

Whether they are what the sources give, in a clone of the repository, with the kit on the path. All is proved from nothing, in about an hour:

    git checkout $commit
    .ci/run
    tools/gate/make_release.sh
    cmp out/release/$name.tar.gz .../$name.tar.gz

Where only the binary or the page differs, \`sha256sum -c SHA256SUMS\` in both says which.
END
(cd "$release" && find . -type f ! -name SHA256SUMS -print0 | LC_ALL=C sort -z | xargs -0 sha256sum >"$room/sums" && mv "$room/sums" SHA256SUMS)
chmod -R u=rwX,go=rX "$release"
archive=$folder/$name.tar.gz
tar -C "$room" --sort=name --mtime="@$(git log -1 --format=%ct)" --owner=0 --group=0 --numeric-owner --format=ustar -cf "$room/archive" "$name"
gzip -9 -n "$room/archive"
mv "$room/archive.gz" "$archive"
echo "$(sha256sum <"$archive" | cut -c 1-64)  $archive"
