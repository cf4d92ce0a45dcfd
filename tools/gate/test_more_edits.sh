#!/usr/bin/env bash
# Tries the wrong bodies of crates/NAME/more-edits, of all crates that have some or of those named: the check must refuse each. The
# gate tries those of must-fail/ alone, since each costs it a check. The last line is that of rt must-fail. No part of the gate.
set -euo pipefail

top=$(CDPATH='' cd -- "$(dirname -- "${BASH_SOURCE[0]}")/../.." && pwd)
scratch=$(mktemp -d)
trap 'rm -rf "$scratch"' EXIT

names=("$@")
if [ ${#names[@]} -eq 0 ]; then
    for folder in "$top"/crates/*/more-edits; do
        names+=("$(basename "$(dirname "$folder")")")
    done
fi

# A copy of the crates, with these edits in the place of the gate's.
cp "$top/crates.txt" "$top/HANDLES" "$scratch/"
mkdir "$scratch/crates"
tar -C "$top/crates" --exclude=out -cf - . | tar -C "$scratch/crates" -xf -
for name in "${names[@]}"; do
    rm -rf "$scratch/crates/$name/must-fail"
    mv "$scratch/crates/$name/more-edits" "$scratch/crates/$name/must-fail"
done

cd "$scratch" && rt must-fail "${names[@]}"
