#!/usr/bin/env python3
"""Makes the tables of docs/TARGET.md from the CSV files of docs/assurance.

    target_table.py             fails if docs/TARGET.md does not contain the current tables
    target_table.py --write     writes them

`target_runs.csv` has a row for each run of run.sh, `target_logs.csv` one for each random design that test_machine.py ran and compared, and
`target_changed_logs.csv` one for each kind of change that changed_logs.py made.
"""

from __future__ import annotations

import csv
import os
import sys
from typing import Iterable

TOP = os.environ.get('TARGET_TOP') or os.path.join(os.path.dirname(os.path.abspath(__file__)), '..', '..')
PAGE = os.path.join(TOP, 'docs', 'TARGET.md')
FOLDER = os.path.join(TOP, 'docs', 'assurance')
# Bits of a word, and the order of bytes.
PROCESSORS = {'aarch64': ('64', 'little-endian'), 'arm': ('32', 'little-endian'), 'riscv64': ('64', 'little-endian'), 's390x': ('64', 'big-endian'),
              'powerpc64': ('64', 'big-endian'), 'sparc64': ('64', 'big-endian')}
Row = dict[str, str]


def read_rows(name: str) -> list[Row]:
    """Returns the rows of a CSV file, each as a dictionary keyed by the column names."""
    with open(os.path.join(FOLDER, name), encoding='utf-8', newline='') as text:
        return list(csv.DictReader(text))


def table(head: list[str], rows: Iterable[list[str]], numbers: int = 0) -> str:
    """Returns a Markdown table; the last `numbers` columns are right-aligned."""
    rules = ['---' if place < len(head) - numbers else '---:' for place in range(len(head))]
    return '\n'.join('| ' + ' | '.join(line) + ' |' for line in [head, rules, *rows])


def code(words: str) -> str:
    """Returns words of a run in quotes for the page."""
    return '`%s`' % words if words else 'none'


def machine_table(runs: list[Row]) -> str:
    """Returns the table of runs in an emulated machine."""
    return table(['Design or text', 'Arrivals', 'Tick in ms', 'Options', 'Lines', 'Result'],
                 [[code(run['input']), code(run['arrivals']), '%g' % (int(run['tick_us']) / 1000), code(run['options']), run['lines'], run['result']]
                  for run in runs if run['where'].startswith('qemu-system')])


def processors_table(runs: list[Row]) -> str:
    """Returns the table of runs for other processors."""
    rows = []
    for run in runs:
        if run['where'] == 'qemu-user':
            bits, order = PROCESSORS[run['target'].split('-')[0]]
            rows.append(['`%s`' % run['target'], bits, order, run['lines'], run['result'], run['log']])
    return table(['TARGET', 'Bits of a word', 'Byte order', 'Lines', 'Result', 'Log'], rows)


def logs_table(logs: list[Row]) -> str:
    """Returns the counts of the random designs."""
    rows = [['designs', len(logs)], ['lines compared', sum(int(log['lines'] or 0) for log in logs)],
            ['runs that agree with the replay, line by line', sum(log['result'] == 'same' for log in logs)],
            ['logs that `accepts` accepts', sum(log['accepts'].startswith('yes') for log in logs)],
            ['logs that `to_trace.py --replay` replays with the same lines', sum(log['replay'] == 'same' for log in logs)],
            ['logs that are the trace of the replay, byte for byte', sum(log['is_trace'] == 'yes' for log in logs)]]
    return table(['What', 'Count'], [[str(cell) for cell in row] for row in rows], 1)


def changes_table(changes: list[Row]) -> str:
    """Returns what changed logs are taken for."""
    return table(['Change', 'Logs', '`accepts`: yes', '`--replay`: same'],
                 [[row['change'], row['logs'], row['accepted'], row['same_replay']] for row in changes], 3)


def with_tables(page: str, tables: dict[str, str]) -> str:
    """Returns the page with the text between each pair of markers replaced."""
    for name, text in tables.items():
        begin, end = f'<!-- {name} -->\n', f'<!-- end of {name} -->'
        head, found, rest = page.partition(begin)
        _, closed, tail = rest.partition(end)
        if not found or not closed:
            raise SystemExit(f'target_table: docs/TARGET.md has no markers for {name}')
        page = head + begin + text + '\n' + end + tail
    return page


def main(words: list[str]) -> int:
    """Checks or writes the page; returns the exit status."""
    if words not in ([], ['--write']):
        print(__doc__, file=sys.stderr)
        return 2
    runs = read_rows('target_runs.csv')
    with open(PAGE, encoding='utf-8') as text:
        old = text.read()
    new = with_tables(old, {'emulated machine': machine_table(runs), 'other processors': processors_table(runs),
                            'logs': logs_table(read_rows('target_logs.csv')), 'changed logs': changes_table(read_rows('target_changed_logs.csv'))})
    if words:
        with open(PAGE, 'w', encoding='utf-8') as text:
            text.write(new)
        return 0
    if old != new:
        print('docs/TARGET.md is out of date: run tools/target/target_table.py --write')
    return int(old != new)


if __name__ == '__main__':
    sys.exit(main(sys.argv[1:]))
