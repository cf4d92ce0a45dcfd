#!/usr/bin/env python3
"""Make the table of the last figures in bench/README.md from bench/results.csv.

    bench_table.py           fail if bench/README.md does not contain the current table
    bench_table.py --write   write the table into bench/README.md
    bench_table.py --add script=check_designs form='check: a long block' value=0.05 unit=s ...   append a row to bench/results.csv

`bench/results.csv` has one row per measurement. The table has the last row of each form of a script, in the order of the file.
"""
from __future__ import annotations

import argparse
import csv
import datetime
import os
import sys

TOP = os.environ.get('BENCH_TOP') or os.path.dirname(os.path.dirname(os.path.dirname(os.path.abspath(__file__))))
PAGE = os.path.join(TOP, 'bench', 'README.md')
RESULTS = os.path.join(TOP, 'bench', 'results.csv')
BEGIN, END = '<!-- results -->\n', '<!-- end of results -->'

Row = dict[str, str]


def read_rows() -> list[Row]:
    """Return the rows of bench/results.csv; exit if one has another number of fields than the head."""
    with open(RESULTS, encoding='utf-8', newline='') as text:
        rows = list(csv.DictReader(text))
    for row in rows:
        if None in row or None in row.values():
            raise SystemExit(f'bench_table: a row of {RESULTS} has the wrong number of fields: {row}')
    return rows


def last_rows(rows: list[Row]) -> list[Row]:
    """Return the last row of each form of a script, in the order in which the forms come first."""
    last: dict[tuple[str, str], Row] = {}
    for row in rows:
        last[row['script'], row['form']] = row
    return list(last.values())


def table(rows: list[Row]) -> str:
    """Return the Markdown table; the name of a script is given once."""
    lines = ['| Script | Form | Size | Result | Memory | Exponent | Load |', '| --- | --- | --- | ---: | ---: | ---: | --- |']
    before = ''
    for row in last_rows(rows):
        script = '' if row['script'] == before else row['script']
        before = row['script']
        result = f'{row["value"]} {row["unit"]}'.strip()
        cells = [script, row['form'], row['size'], result, row['memory'], row['exponent'], row['load']]
        lines.append('| ' + ' | '.join(cells) + ' |')
    return '\n'.join(lines) + '\n'


def with_table(page: str, text: str) -> str:
    """Return the page with the text between the two markers replaced."""
    head, found, rest = page.partition(BEGIN)
    _, closed, tail = rest.partition(END)
    if not found or not closed:
        raise SystemExit(f'bench_table: {PAGE} has no markers for results')
    return head + BEGIN + text + END + tail


def add(words: list[str]) -> None:
    """Append a row to the CSV file; columns that are not given stay empty, and the date defaults to today."""
    with open(RESULTS, encoding='utf-8', newline='') as text:
        columns = next(csv.reader(text))
    row = {'date': f'{datetime.datetime.now():%Y-%m-%d}', **dict(word.split('=', 1) for word in words)}
    unknown = sorted(set(row) - set(columns))
    if unknown:
        raise SystemExit(f'bench_table: no such column: {", ".join(unknown)}')
    with open(RESULTS, 'a', encoding='utf-8', newline='') as text:
        csv.writer(text, lineterminator='\n').writerow([row.get(column, '') for column in columns])


def main() -> int:
    """Check or write the page; return the exit status."""
    parser = argparse.ArgumentParser(description=__doc__, formatter_class=argparse.RawDescriptionHelpFormatter)
    parser.add_argument('--write', action='store_true')
    parser.add_argument('--add', nargs='+', metavar='COLUMN=VALUE')
    given = parser.parse_args()
    if given.add:
        add(given.add)
    with open(PAGE, encoding='utf-8') as text:
        old = text.read()
    new = with_table(old, table(read_rows()))
    if given.write or given.add:
        with open(PAGE, 'w', encoding='utf-8') as text:
            text.write(new)
        return 0
    if old != new:
        print('bench/README.md is out of date: run tools/gate/bench_table.py --write')
    return int(old != new)


if __name__ == '__main__':
    sys.exit(main())
