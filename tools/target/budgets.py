#!/usr/bin/env python3
"""Compares what activations used in traces with what a design allows them.

    budgets.py [--csv] DESIGN LOG ..

A log is a trace, as `replay` and `verify` write them or a target logs them (docs/USING.md, "Traces from a target"). Each line
`TICK end THREAD used N` counts, and all other lines are passed over. Of each thread the table has the number of ends, the greatest and the mean
`used`, the cost that the program computes, its THREAD_BUDGET, and what is exceeded: `cost`, or `budget` and so the cost too. A thread that never
ended has empty cells. The table is in Markdown, with --csv in comma-separated values; the mean is rounded up to hundredths.

Bounds are computed from costs: if an activation used more than the cost, they say nothing about that run. Logs that stay within say nothing about
other runs: a greatest value that was seen is no worst case.

PROGRAM is the path of the program, and the proved program of this repository if it isn't set. The cost is that of the program, and the budget is
that of the formatted design; everything else is arithmetic of this script, which claims no proof. The status is 1 if a cost or a budget is exceeded
or the program refuses the design, and 2 for a line of a log that can't be read, with its place, and for other words.
"""

from __future__ import annotations

import os
import re
import subprocess
import sys
from fractions import Fraction
from typing import Dict, Iterator, List

TOP = os.path.dirname(os.path.dirname(os.path.dirname(os.path.abspath(__file__))))
sys.path.insert(0, os.path.join(TOP, 'tools', 'report'))
from design_reader import Design    # noqa: E402

THREAD = re.compile(r'thread (\w+) .* cost (\d+) ')
END = re.compile(r'(\d{1,19}) end ([a-z][a-z0-9_]*) used (\d{1,19})')
HEADS = ('thread', 'ends', 'greatest', 'mean', 'cost', 'budget', 'exceeded')
MOST_CALLS = 20000

Limits = Dict[str, Dict[str, int]]


class Refused(Exception):
    """The program's line for a design that it refuses."""


class Fault(Exception):
    """A line of a log that can't be read, with its place."""


def output(verb: str, file: str) -> str:
    """What a verb writes of a file that it accepts."""
    path = os.path.abspath(os.environ.get('PROGRAM', os.path.join(TOP, 'crates', 'hrthood', 'out', 'hrthood')))
    if not os.access(path, os.X_OK):
        raise Refused(f'there is no program {path}; tools/gate/prove_program.sh makes it, or set PROGRAM to tools/hrthood.mjs')
    done = subprocess.run([path, verb, file], capture_output=True, text=True, stdin=subprocess.DEVNULL)
    lines = [line for line in done.stderr.splitlines() if not line.startswith('hrthood: ')]
    if done.returncode != 0:
        raise Refused(f'{file}: {lines[-1] if lines else f"status {done.returncode}"}')
    return done.stdout


def limits_of(file: str) -> Limits:
    """The cost and the budget of each thread of a design, by priority. `explain` has the costs of designs that miss their limits too."""
    costs = {found[1]: int(found[2]) for found in map(THREAD.match, output('explain', file).splitlines()) if found}
    budgets = {thread.name: thread.attributes['THREAD_BUDGET'] for thread in Design(output('format', file)).threads}
    return {name: {'cost': cost, 'budget': budgets[name]} for name, cost in costs.items()}


def used_in(file: str, limits: Limits) -> Iterator[tuple[str, int]]:
    """The thread of each end of a log, and what the activation used."""
    try:
        with open(file, encoding='utf-8') as log:
            for number, line in enumerate(log, 1):
                words = line.split()
                if words[1:2] != ['end'] or not words[0].isdigit():
                    continue
                found = END.fullmatch(line.strip())
                if not found:
                    raise Fault(f'{file}:{number}: not `TICK end THREAD used N`: {line.strip()}')
                if found[2] not in limits:
                    raise Fault(f'{file}:{number}: the design has no thread {found[2]}')
                yield found[2], int(found[3])
    except (OSError, UnicodeDecodeError) as error:
        raise Fault(f'{file}: {getattr(error, "strerror", None) or "not UTF-8"}') from error


def hundredths(number: Fraction) -> str:
    """A number with two digits, rounded up."""
    whole = -(-number * 100 // 1)
    return f'{whole // 100}.{whole % 100:02}'


def row_of(name: str, used: List[int], limit: Dict[str, int]) -> tuple[str, ...]:
    """The row of a thread."""
    if not used:
        return (name, '0', '', '', str(limit['cost']), str(limit['budget']), '')
    greatest = max(used)
    exceeded = 'budget' if greatest > limit['budget'] else 'cost' if greatest > limit['cost'] else ''
    return (name, str(len(used)), str(greatest), hundredths(Fraction(sum(used), len(used))), str(limit['cost']), str(limit['budget']), exceeded)


def written(rows: List[tuple[str, ...]], is_csv: bool) -> List[str]:
    """The lines of the table."""
    if is_csv:
        return [','.join(HEADS), *(','.join(row) for row in rows)]
    return ['| ' + ' | '.join(HEADS) + ' |', '|---' + '|---:' * 5 + '|---|', *('| ' + ' | '.join(row) + ' |' for row in rows)]


def main() -> None:
    """Writes the table of a design and its logs."""
    words = sys.argv[1:]
    if words == ['--help']:
        print(__doc__)
        return
    is_csv = words[:1] == ['--csv']
    files = words[1:] if is_csv else words
    if len(files) < 2 or any(file.startswith('-') for file in files):
        print(__doc__, file=sys.stderr)
        sys.exit(2)
    sys.setrecursionlimit(MOST_CALLS)
    try:
        limits = limits_of(files[0])
        used: Dict[str, List[int]] = {name: [] for name in limits}
        for file in files[1:]:
            for name, ticks in used_in(file, limits):
                used[name].append(ticks)
    except Refused as line:
        sys.exit(f'budgets.py: {line}')
    except Fault as fault:
        print(f'budgets.py: {fault}', file=sys.stderr)
        sys.exit(2)
    rows = [row_of(name, used[name], limits[name]) for name in limits]
    print('\n'.join(written(rows, is_csv)))
    if not any(used.values()):
        print('budgets.py: no line of an end in these logs', file=sys.stderr)
        sys.exit(2)
    sys.exit(1 if any(row[-1] for row in rows) else 0)


if __name__ == '__main__':
    main()
