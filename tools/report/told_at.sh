#!/bin/sh
# Runs the program, and writes a refusal in words as compilers write errors, so that editors and continuous integration jump to it:
#
#     told_at.sh VERB FILE [FILE [FILE]]
#     FILE:LINE:COLUMN: error: S1: A semicolon is missing before this. [refused S1 design line 31 column 30]
#     FILE:LINE:COLUMN: note: Here can stand: `;`.
#
# Standard output and the exit status are the program's. PROGRAM is the path of the program, and that of this repository where it isn't set.
# It is tools/report/told_at.mjs, which needs node 20 or later.
set -u

top=$(CDPATH='' cd -- "$(dirname -- "$0")/../.." && pwd) || exit 125
if ! command -v node >/dev/null; then
    echo 'told_at.sh: there is no node' >&2
    exit 125
fi
exec node "$top/tools/report/told_at.mjs" "$@"
