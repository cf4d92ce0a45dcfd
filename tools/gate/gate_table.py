#!/usr/bin/env python3
"""Make the tables and the picture of docs/GATE.md from its two CSV files.

    gate_table.py           fail if docs/GATE.md does not contain the current tables
    gate_table.py --write   write the tables into docs/GATE.md and draw docs/pictures/gate.svg
    gate_table.py --add passed=115 kind=whole ...   append a row to docs/gate/runs.csv, and write

A row gets the date and time of now and the lines of code, definitions and proofs that are in crates/, unless they are given. Its kind is
`whole` (everything from nothing, in one run), `incremental`, `in pieces` or `not run`.

`docs/gate/runs.csv` has one row per run of the gate, `docs/gate/crates.csv` one row per crate: the processor
seconds of its proof, its tests and its must-fail edits in the last whole run.
"""
from __future__ import annotations

import argparse
import csv
import datetime
import glob
import os
import sys
from typing import Iterable

TOP = os.environ.get('GATE_TOP') or os.path.dirname(os.path.dirname(os.path.dirname(os.path.abspath(__file__))))
PAGE = os.path.join(TOP, 'docs', 'GATE.md')
RUNS = os.path.join(TOP, 'docs', 'gate', 'runs.csv')
CRATES = os.path.join(TOP, 'docs', 'gate', 'crates.csv')
PICTURE = os.path.join(TOP, 'docs', 'pictures', 'gate.svg')
LIMIT = 180             # processor minutes of a whole run on an idle machine
WHOLE_RUNS_SHOWN = 6
CRATES_SHOWN = 12

Row = dict[str, str]


def read_rows(path: str) -> list[Row]:
    """Return the rows of a CSV file, each as a dictionary keyed by the column names."""
    with open(path, encoding='utf-8', newline='') as text:
        return list(csv.DictReader(text))


def table(head: Iterable[str], rows: Iterable[Iterable[str]], numbers: int) -> str:
    """Return a Markdown table; the last `numbers` columns are right-aligned."""
    names = list(head)
    rules = ['---' if place < len(names) - numbers else '---:' for place in range(len(names))]
    lines = [names, rules, *[list(row) for row in rows]]
    return '\n'.join('| ' + ' | '.join(line) + ' |' for line in lines)


def whole_runs(runs: list[Row]) -> list[Row]:
    """Return the runs that proved everything from nothing in one piece, oldest first."""
    return [run for run in runs if run['kind'] == 'whole']


def runs_table(runs: list[Row]) -> str:
    """Return the table of the last whole runs, newest first."""
    columns = ['date', 'time', 'load', 'change', 'code', 'proofs', 'passed', 'edits', 'minutes', 'processor_minutes']
    head = ['Date', 'Time', 'Load', 'Change', 'Code', 'Proofs', 'Passed', 'Edits', 'Minutes', 'Processor minutes']
    last = list(reversed(whole_runs(runs)))[:WHOLE_RUNS_SHOWN]
    return table(head, [[run[column] for column in columns] for run in last], 6)


def seconds(crate: Row) -> int:
    """Return the processor seconds that the gate spends on a crate."""
    return sum(int(crate[part]) for part in ('proof', 'tests', 'edits'))


def crates_table(crates: list[Row]) -> str:
    """Return the table of the most expensive crates."""
    dear = sorted(crates, key=seconds, reverse=True)[:CRATES_SHOWN]
    rows = [[crate['crate'], crate['proof'], crate['tests'], crate['edits'], str(seconds(crate))] for crate in dear]
    return table(['Crate', 'Proof', 'Tests', 'Edits', 'Total'], rows, 4)


def picture(runs: list[Row]) -> str:
    """Return an SVG chart: lines of code and of proofs per run, and processor minutes of each whole run."""
    width, height, left, top, right, bottom = 900, 300, 60, 34, 60, 30
    lines = [(int(run['code']), int(run['proofs'])) for run in runs]
    most = max(max(pair) for pair in lines)
    step = (width - left - right) / max(len(runs) - 1, 1)

    def at(place: int, value: float, full: float) -> str:
        return f'{left + place * step:.1f},{height - bottom - value / full * (height - top - bottom):.1f}'

    def curve(values: list[int], colour: str) -> str:
        points = ' '.join(at(place, value, most) for place, value in enumerate(values))
        return f'<polyline fill="none" stroke="{colour}" stroke-width="2" points="{points}"/>'

    parts = [f'<svg xmlns="http://www.w3.org/2000/svg" viewBox="0 0 {width} {height}" font-family="sans-serif" font-size="12">',
             '<rect width="100%" height="100%" fill="white"/>',
             curve([code for code, _ in lines], '#1f77b4'), curve([proofs for _, proofs in lines], '#7f7f7f')]
    full = 250
    y_limit = at(0, LIMIT, full).split(',')[1]
    parts.append(f'<line x1="{left}" x2="{width - right}" y1="{y_limit}" y2="{y_limit}" stroke="#d62728" stroke-dasharray="4 4"/>')
    for place, run in enumerate(runs):
        if run['kind'] == 'whole' and run['processor_minutes']:
            x, y = at(place, int(run['processor_minutes']), full).split(',')
            fill = '#2ca02c' if run['load'] == 'idle' else 'white'
            parts.append(f'<circle cx="{x}" cy="{y}" r="5" fill="{fill}" stroke="#2ca02c" stroke-width="2">'
                         f'<title>{run["date"]} {run["time"]}: {run["processor_minutes"]} processor minutes, {run["load"]}</title></circle>')
        if run['kind'] == 'not run':
            x, _ = at(place, 0, most).split(',')
            parts.append(f'<text x="{x}" y="{height - bottom - 4}" text-anchor="middle" fill="#d62728">x</text>')
    legend = [('#1f77b4', f'lines of code (to {lines[-1][0]:,})'), ('#7f7f7f', f'lines of proofs (to {lines[-1][1]:,})'),
              ('#2ca02c', f'processor minutes (filled: idle machine; limit {LIMIT})'), ('#d62728', 'x: landed untested')]
    shift = left
    for colour, words in legend:
        parts.append(f'<text x="{shift}" y="18" fill="{colour}">{words}</text>')
        shift += 6 * len(words) + 30
    parts.append(f'<text x="{left}" y="{height - 8}">{runs[0]["date"]}</text>')
    parts.append(f'<text x="{width - right}" y="{height - 8}" text-anchor="end">{runs[-1]["date"]}</text></svg>')
    return '\n'.join(parts) + '\n'


def with_tables(page: str, tables: dict[str, str]) -> str:
    """Return the page with the text between each pair of markers replaced."""
    for name, text in tables.items():
        begin, end = f'<!-- {name} -->\n', f'<!-- end of {name} -->'
        head, found, rest = page.partition(begin)
        _, closed, tail = rest.partition(end)
        if not found or not closed:
            raise SystemExit(f'gate_table: {PAGE} has no markers for {name}')
        page = head + begin + text + '\n' + end + tail
    return page


def lines_below(folder: str) -> int:
    """Return the lines of the .rt and .antt files below crates/*/FOLDER."""
    count = 0
    for path in glob.glob(os.path.join(TOP, 'crates', '*', folder, '**', '*'), recursive=True):
        if path.endswith(('.rt', '.antt')):
            with open(path, 'rb') as text:
                count += text.read().count(b'\n')
    return count


def add(words: list[str]) -> None:
    """Append a run to the CSV file; columns that are not given stay empty, except the date, the time and the lines."""
    with open(RUNS, encoding='utf-8', newline='') as text:
        columns = next(csv.reader(text))
    now = datetime.datetime.now()
    lines = {name: str(lines_below(folder)) for name, folder in (('code', 'src'), ('definitions', 'specs'), ('proofs', 'proofs'))}
    row = {'date': f'{now:%Y-%m-%d}', 'time': f'{now:%H:%M}', **lines, **dict(word.split('=', 1) for word in words)}
    unknown = sorted(set(row) - set(columns))
    if unknown:
        raise SystemExit(f'gate_table: no such column: {", ".join(unknown)}')
    with open(RUNS, 'a', encoding='utf-8', newline='') as text:
        csv.writer(text, lineterminator='\n').writerow([row.get(column, '') for column in columns])


def main() -> int:
    """Check or write the page; return the exit status."""
    parser = argparse.ArgumentParser(description=__doc__, formatter_class=argparse.RawDescriptionHelpFormatter)
    parser.add_argument('--write', action='store_true')
    parser.add_argument('--add', nargs='+', metavar='COLUMN=VALUE')
    given = parser.parse_args()
    if given.add:
        add(given.add)
    runs, crates = read_rows(RUNS), read_rows(CRATES)
    with open(PAGE, encoding='utf-8') as text:
        old = text.read()
    new = with_tables(old, {'whole runs': runs_table(runs), 'crates': crates_table(crates)})
    if given.write or given.add:
        with open(PAGE, 'w', encoding='utf-8') as text:
            text.write(new)
        os.makedirs(os.path.dirname(PICTURE), exist_ok=True)
        with open(PICTURE, 'w', encoding='utf-8') as text:
            text.write(picture(runs))
        return 0
    if old != new:
        print('docs/GATE.md is out of date: run tools/gate/gate_table.py --write')
    return int(old != new)


if __name__ == '__main__':
    sys.exit(main())
