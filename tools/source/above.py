#!/usr/bin/env python3
"""What is proved again when crates change, and for how long.

    above.py CRATE ..

Prints the crates that depend on these, directly or through others, each with the processor seconds that docs/gate/crates.csv has for its
proof, its tests and its edits, and their sum. An edit of a body alone proves the crates above again too. A crate without a row there is
printed with a question mark.
"""
from __future__ import annotations

import csv
import os
import sys

TOP = os.path.dirname(os.path.dirname(os.path.dirname(os.path.abspath(__file__))))


def read_below(path: str) -> dict[str, list[str]]:
    """Return for each crate of crates.txt the crates on which it depends directly."""
    below = {}
    with open(path, encoding='utf-8') as text:
        for line in text:
            name, colon, libraries = line.partition('#')[0].partition(':')
            if colon:
                below[name.split()[0]] = libraries.split()
    return below


def read_seconds(path: str) -> dict[str, int]:
    """Return for each crate with a row in the CSV file its processor seconds: proof, tests and edits."""
    with open(path, encoding='utf-8', newline='') as text:
        return {row['crate']: sum(int(row[part] or 0) for part in ('proof', 'tests', 'edits')) for row in csv.DictReader(text)}


def all_above(changed: list[str], below: dict[str, list[str]]) -> set[str]:
    """Return these crates and all that depend on them."""
    again = set(changed)
    while True:
        more = {name for name, libraries in below.items() if again & set(libraries)} - again
        if not more:
            return again
        again |= more


def main() -> None:
    """Print the crates above those of the arguments, with their seconds."""
    below = read_below(os.path.join(TOP, 'crates.txt'))
    seconds = read_seconds(os.path.join(TOP, 'docs', 'gate', 'crates.csv'))
    changed = sys.argv[1:]
    if not changed:
        sys.exit(__doc__)
    for name in changed:
        if name not in below:
            sys.exit(f'above.py: {name} is no crate of crates.txt')
    again = all_above(changed, below)
    for name in sorted(again, key=lambda name: (-seconds.get(name, 0), name)):
        print(f'{seconds[name]:5} {name}' if name in seconds else f'    ? {name}')
    whole = sum(seconds.get(name, 0) for name in again)
    print(f'{len(again)} of {len(below)} crates, {whole} processor seconds, {(whole + 59) // 60} minutes')


if __name__ == '__main__':
    main()
