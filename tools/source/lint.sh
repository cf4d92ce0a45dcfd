#!/usr/bin/env bash
# Lints the scripts and the page: a list of linters, each with its files, which ends with status 1 where one of them finds something. Of a
# linter that isn't installed it says what was not looked at.
#
#    tools/source/lint.sh
#
# Debian: apt-get install shellcheck flake8 mypy node-typescript
set -u
cd "$(dirname -- "${BASH_SOURCE[0]}")/../.." || exit 2
status=0

# Runs a linter with its words over files of one kind, if it is installed: `lint KIND LINTER WORD .. -- FILE ..`.
lint() {
    local kind=$1 linter=$2 said
    local -a words=()
    shift 2
    while [ "$1" != -- ]; do
        words+=("$1")
        shift
    done
    shift
    if ! command -v "$linter" >/dev/null; then
        echo "lint: $linter is not installed: $# files of $kind are not looked at"
    elif said=$("$linter" ${words[@]+"${words[@]}"} "$@" 2>&1); then
        echo "lint: $linter: $# files of $kind"
    else
        printf '%s\n' "$said"
        echo "lint: $linter finds something in $# files of $kind"
        status=1
    fi
}

# The files that git tracks here and that fit a pattern: what lands, and nothing that lies beside it.
files() {
    git ls-files | grep -E "$1" | sort -u
}

mapfile -t shell < <(files '\.sh$|^hrthood$|^\.ci/run$|\.bash$')
mapfile -t python < <(files '\.py$')
mapfile -t modules < <(files '\.mjs$')
page=(web/{texts,runs,trace_places,bounds,timeline,explained,diagram_tab,verbs,page}.js)
told=(web/{design_text,places,refusals,markup,clock}.js)
drawn=(web/{arrivals,traces,chart,sheet,outline,layout,diagram,explanation,bars,tables,lifted,report,changes}.js)
host=(web/library_{host,worker}.js)
types=(--noEmit --allowJs --checkJs --target es2022 --module es2022 --moduleResolution node)

lint 'shell' shellcheck -x -P SCRIPTDIR -- "${shell[@]}"
lint 'Python' flake8 --max-line-length 150 -- "${python[@]}"
MYPYPATH=tools/report lint 'Python' mypy --cache-dir out/mypy --strict --ignore-missing-imports -- "${python[@]}"
lint 'the page' tsc "${types[@]}" --lib es2022,dom,dom.iterable -- web/globals.d.ts "${page[@]}"
lint 'words and places' tsc "${types[@]}" --strict --lib es2022,dom -- "${told[@]}"
lint 'pictures' tsc "${types[@]}" --lib es2022 -- "${drawn[@]}"
lint 'the worker' tsc "${types[@]}" --lib es2022,webworker -- "${host[@]}"
lint 'node' tsc "${types[@]}" --lib es2022,dom,dom.iterable -- tools/source/node.d.ts "${modules[@]}"
exit "$status"
