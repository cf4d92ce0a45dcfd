#!/usr/bin/env python3
"""List which modules of a crate's proofs/ and specs/ other crates cite.

    doors.py [CRATE ..]
    doors.py --closed

For each crate, or those named: how many of its modules of specs/ are cited from other crates, and each module of proofs/ that is, with the
number of crates that cite it. A module that is not listed can be changed without a look outside. With --closed: each citation from another
crate of a module of proofs/ that is not in proofs/Shared/, and each module there that its crate's head in lib.rt does not name; the exit
status is 1 if there is one. It only reads texts.
"""
from __future__ import annotations

import collections
import os
import re
import sys

TOP = os.path.dirname(os.path.dirname(os.path.dirname(os.path.abspath(__file__))))
CRATES = os.environ.get('CRATES_OF_DOORS') or os.path.join(TOP, 'crates')
CITED = re.compile(r'Rattle\.(\w+)\.(specs|proofs)\.((?:Shared\.)?\w+)|\b(\w+)::(specs|proofs)::((?:Shared::)?\w+)')
SHARED = 'Shared.'


def citations(names: list[str]) -> dict[tuple[str, str, str], set[str]]:
    """Return for each module of specs/ or proofs/ the other crates that name it."""
    cited: dict[tuple[str, str, str], set[str]] = collections.defaultdict(set)
    for crate in names:
        for part in ('src', 'specs', 'proofs', 'must-fail', 'more-edits'):
            for folder, _, files in os.walk(os.path.join(CRATES, crate, part)):
                for file in files:
                    with open(os.path.join(folder, file), errors='replace') as text:
                        for found in CITED.finditer(text.read()):
                            of, kind, module = (word for word in found.groups() if word)
                            if of in names and of != crate:
                                cited[of, kind, module.replace('::', '.')].add(crate)
    return cited


def modules_of(crate: str, part: str) -> list[str]:
    """Return the modules of a crate's specs/, or of another folder of it."""
    folder = os.path.join(CRATES, crate, part)
    files = os.listdir(folder) if os.path.isdir(folder) else []
    return sorted(file[:-5] for file in files if file.endswith('.antt') and file != 'Lib.antt')


def open_doors(names: list[str]) -> list[str]:
    """Return a line for each citation past proofs/Shared/, and for each module there that the head of lib.rt doesn't name."""
    lines = []
    for (of, kind, module), by in sorted(citations(names).items()):
        if kind == 'proofs' and not module.startswith(SHARED):
            lines.append(f'{of}: proofs/{module} is cited by {", ".join(sorted(by))}, and isn\'t in proofs/Shared')
    for crate in names:
        root = os.path.join(CRATES, crate, 'src', 'lib.rt')
        if not os.path.isfile(root):
            continue
        with open(root) as text:
            head = ''.join(line for line in text if line.startswith('//!'))
        lines += [f'{crate}: its head doesn\'t name {SHARED}{module}' for module in modules_of(crate, 'proofs/Shared') if f'`{module}`' not in head]
    return lines


def main() -> None:
    """Print the citations, or those that are not allowed."""
    names = sorted(os.listdir(CRATES))
    asked = sys.argv[1:]
    if asked == ['--closed']:
        lines = open_doors(names)
        print('\n'.join(lines) if lines else 'doors.py: other crates cite only proofs/Shared/ of proofs/')
        sys.exit(1 if lines else 0)
    for crate in asked:
        if crate not in names:
            sys.exit(f'doors.py: there is no crate {crate}')
    cited = citations(names)
    for crate in asked or names:
        modules = modules_of(crate, 'specs')
        used = [module for module in modules if cited.get((crate, 'specs', module))]
        proofs = sorted(((len(by), module) for (of, kind, module), by in cited.items() if of == crate and kind == 'proofs'), reverse=True)
        told = ', '.join(f'{module.removeprefix(SHARED)} {count}' for count, module in proofs)
        print(f'{crate}: specs {len(used)} of {len(modules)}' + (f'; proofs: {told}' if told else ''))


if __name__ == '__main__':
    main()
