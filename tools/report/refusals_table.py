#!/usr/bin/env python3
"""Writes the tables of docs/REFUSALS.md, which are made of web/refusals.json, or tells whether they are those.

    refusals_table.py             writes them in their places
    refusals_table.py --check     ends with status 1 where one of them is another, and says which

Their places are the lines between `<!-- made of web/refusals.json: NAME -->` and `<!-- made: end -->`.
"""
from __future__ import annotations

import json
import pathlib
import re
import sys
from typing import Any

TOP = pathlib.Path(__file__).resolve().parent.parent.parent
DATA = TOP / 'web' / 'refusals.json'
PAGE = TOP / 'docs' / 'REFUSALS.md'
PLACE = re.compile(r'(<!-- made of web/refusals\.json: (\w+) -->\n)(.*?)(<!-- made: end -->\n)', re.S)
WIDEST = 300


def plain(text: str) -> str:
    """A sentence with the words that stand for names as the column of lines has them."""
    return re.sub(r'\{(\w+)\}', r'\1', text).replace('|', '\\|')


def table(head: str, rows: list[list[str]]) -> str:
    """A table in Markdown, none of whose cells is too wide."""
    for row in rows:
        for cell in row:
            if len(cell) > WIDEST:
                sys.exit(f'refusals_table.py: a cell of {len(cell)} characters: {cell}')
    lines = [head, '|---' * len(head.strip('|').split('|')) + '|'] + [f'| {" | ".join(row)} |' for row in rows]
    return '\n'.join(re.sub(r'\| +(?=\|)', '| ', line) for line in lines) + '\n'


def line_of(line: str) -> str:
    """A line as its column has it. The kind of a text stands for the word in it."""
    return f'`{line.replace("KIND", "design")}`' if 'KIND' in line else f'`{line}`'


def refusals(entries: list[dict[str, Any]]) -> str:
    """The table of some lines, and below it the causes of those that have many."""
    rows = [[line_of(one['line']), plain(one['says']), ' '.join(plain(one[key]) for key in ('look', 'do') if key in one)] for one in entries]
    made = table('| On standard error | What it says | What to look at, and to do |', rows)
    for one in entries:
        if 'causes' in one:
            made += f'\n{line_of(one["line"])} has one of these causes:\n\n' + ''.join(f'- {plain(cause)};\n' for cause in one['causes'])
            made = made[:-2] + '.\n'
    return made


def tables(data: dict[str, Any]) -> dict[str, str]:
    """All tables by their names."""
    made = {name: refusals(entries) for name, entries in data['tables'].items()}
    made['bodies'] = table('| Fault | What is wrong | What to do |',
                           [[fault, plain(one['says']), plain(one['do'])] for fault, one in data['bodies'].items()])
    made['hints'] = table('| At the place | Usual cause |',
                          [[plain(one['shown']), plain(one['says'])] for one in data['hints'] if 'shown' in one])
    return made


def main() -> None:
    """Writes or compares all tables."""
    made = tables(json.loads(DATA.read_text(encoding='utf-8')))
    page = PAGE.read_text(encoding='utf-8')
    others = [name for _, name, text, _ in PLACE.findall(page) if text != made[name]]
    missing = sorted(set(made) - {name for _, name, _, _ in PLACE.findall(page)})
    if missing:
        sys.exit(f'refusals_table.py: docs/REFUSALS.md has no place for {", ".join(missing)}')
    if sys.argv[1:] == ['--check']:
        if others:
            sys.exit(f'refusals_table.py: docs/REFUSALS.md has another table {", ".join(others)}: run tools/report/refusals_table.py')
    elif sys.argv[1:]:
        sys.exit(__doc__)
    else:
        PAGE.write_text(PLACE.sub(lambda found: found[1] + made[found[2]] + found[4], page), encoding='utf-8')


if __name__ == '__main__':
    main()
