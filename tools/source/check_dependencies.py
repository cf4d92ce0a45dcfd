#!/usr/bin/env python3
"""List the entries of crates.txt that no file of their crate names.

    check_dependencies.py           print CRATE: UNUSED .. for each such crate; fail if there is one
    check_dependencies.py --write   remove these entries from crates.txt

A crate must list the crates that its own .rt and .antt files name, and not those below them. Libraries of the kit are not looked at. A shorter
line proves its crate again.
"""
from __future__ import annotations

import os
import re
import sys

TOP = os.environ.get('DEPENDENCIES_TOP') or os.path.dirname(os.path.dirname(os.path.dirname(os.path.abspath(__file__))))
LIST = os.path.join(TOP, 'crates.txt')
LINE = re.compile(r'(\w+)( staticlib)?:\s*(.*)')
NAMED = re.compile(r'\bRattle\.(\w+)\.|\b(\w+)::')


def read_lines() -> list[str]:
    """Return the lines of crates.txt."""
    with open(LIST, encoding='utf-8') as text:
        return text.read().splitlines()


def named_in(crate: str) -> set[str]:
    """Return every name that a file of a crate uses as that of a library, and some that it uses otherwise."""
    found: set[str] = set()
    for folder, folders, files in os.walk(os.path.join(TOP, 'crates', crate)):
        folders[:] = [name for name in folders if name != 'out']
        for file in files:
            if file.endswith(('.rt', '.antt')):
                with open(os.path.join(folder, file), encoding='utf-8') as text:
                    found.update(name for pair in NAMED.findall(text.read()) for name in pair if name)
    return found


def main() -> int:
    """Print or remove the entries; return the exit status."""
    lines = read_lines()
    crates = {found.group(1) for found in map(LINE.fullmatch, lines) if found}
    status = 0
    for place, line in enumerate(lines):
        found = LINE.fullmatch(line)
        if not found:
            continue
        crate, kind, listed = found.group(1), found.group(2) or '', found.group(3).split()
        named = named_in(crate)
        unused = [name for name in listed if name in crates and name not in named]
        if unused:
            status = 1
            print(f'{crate}: {" ".join(unused)}')
            lines[place] = f'{crate}{kind}: {" ".join(name for name in listed if name not in unused)}'.rstrip()
    if '--write' in sys.argv[1:]:
        with open(LIST, 'w', encoding='utf-8') as text:
            text.write('\n'.join(lines) + '\n')
        return 0
    return status


if __name__ == '__main__':
    sys.exit(main())
