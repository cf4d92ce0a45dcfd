#!/usr/bin/env python3
"""Make the table of the crates in docs/ARCHITECTURE.md from the heads of their root files.

    crate_table.py          fail if that page has another one
    crate_table.py --write  write it into that page
    crate_table.py --print  print it

A row has the crate, the first sentence of its head, and the functions and types that its root file makes public. Crates come in the order
of crates.txt.
"""
from __future__ import annotations

import os
import re
import sys
from typing import Iterator

top = os.path.dirname(os.path.dirname(os.path.dirname(os.path.realpath(__file__))))
page = f'{top}/docs/ARCHITECTURE.md'
MOST = 8


def read(path: str) -> str:
    """Return the text of a file."""
    with open(path, encoding='utf-8') as text:
        return text.read()


def crates() -> Iterator[str]:
    """Yield the names in crates.txt, in its order."""
    for line in read(f'{top}/crates.txt').split('\n'):
        line = line.split('#')[0]
        if ':' in line:
            yield line.split(':')[0].split()[0]


def root_of(crate: str) -> str:
    """Return the text of the root file of a crate."""
    for name in ('lib.rt', 'main.rt'):
        path = f'{top}/crates/{crate}/src/{name}'
        if os.path.isfile(path):
            return read(path)
    sys.exit(f'crate_table.py: crate {crate} has no root file')


def first_sentence(crate: str, text: str) -> str:
    """Return the first sentence of the head of a root file."""
    head = []
    for line in text.split('\n'):
        if not line.startswith('//!') or line == '//!':
            break
        head.append(line[3:].strip())
    found = re.match(r'(.+?)\.(?: |$)', ' '.join(head))
    if not found:
        sys.exit(f'crate_table.py: the root file of {crate} begins with no sentence')
    return found.group(1).replace('|', r'\|')


def interface(text: str) -> str:
    """Return the functions and types that a root file makes public, at most MOST of them by name."""
    names = re.findall(r'^pub (?:unsafe |extern "C" )?fn (\w+)', text, re.M)
    for group in re.findall(r'^pub use [\w:]+::(\{[^}]*\}|\w+);', text, re.M):
        names += [name.strip() for name in group.strip('{}').split(',') if name.strip()]
    calls = [f'`{name}`' for name in names if name[0].islower()]
    types = [f'`{name}`' for name in names if name[0].isupper()]
    told = calls + types
    if not told:
        return 'none'
    more = len(told) - MOST
    return ', '.join(told[:MOST]) + (f' and {more} more' if more > 0 else '')


def table() -> str:
    """Return the table."""
    rows = ['| Crate | Has | Public interface |', '|---|---|---|']
    for crate in crates():
        text = root_of(crate)
        rows.append(f'| {crate} | {first_sentence(crate, text)} | {interface(text)} |')
    return '\n'.join(rows) + '\n'


def in_page(text: str) -> tuple[int, int]:
    """Return where the table begins and ends in the page."""
    found = re.search(r'^\| Crate \| Has \| Public interface \|\n(?:\|.*\n)+', text, re.M)
    if not found:
        sys.exit('crate_table.py: docs/ARCHITECTURE.md has no table of the crates')
    return found.span()


def main(words: list[str]) -> None:
    """Print, write or check the table."""
    if words == ['--print']:
        print(table(), end='')
        return
    text = read(page)
    begin, end = in_page(text)
    if words == ['--write']:
        with open(page, 'w', encoding='utf-8') as it:
            it.write(text[:begin] + table() + text[end:])
    elif not words:
        if text[begin:end] != table():
            sys.exit('crate_table.py: docs/ARCHITECTURE.md is out of date: run tools/source/crate_table.py --write')
        print(f'crate_table.py: {table().count(chr(10)) - 2} crates, all as in docs/ARCHITECTURE.md')
    else:
        sys.exit(__doc__)


main(sys.argv[1:])
