#!/usr/bin/env python3
"""A table of margins and slacks of a design: how far all `work` may grow, and how far that of each thread alone.

    margins.py [--csv] DESIGN

The first row is that of all `work`, as `hrthood scale` tells it. Each other row is of one thread: its slacks, in ticks, as `hrthood analyse`
tells its bound (deadline less response, and period less jitter and response), and the greatest per mille, from 1 to 1,000,000, at which the
design holds with the `work` of that thread's own body so scaled, all else as it was; and what fails at the next one. The table is in Markdown,
and with --csv in comma-separated values. Where the design is refused for its bounds there are no slacks, and a margin of a thread may be
below 1,000, or `none`.

PROGRAM is the path of the program, and the proved program of this repository where it isn't set.

What is proved: each answer of the program; that a design that holds with the `work` of one object at so many per mille holds with it at less, so
that halving finds the greatest (`holding_alone_is_kept` of `law_scaling`); and that what runs of the changed design is the flat design with that
object's `work` so scaled (`flat_designs_scale_alone`). Not proved: this script, which writes the changed designs, asks `analyse` about each, and
halves. `scale_alone` of crate `scaling` does the same by a proved function, and no verb calls it.
"""

from __future__ import annotations

import os
import re
import subprocess
import sys
import tempfile
from functools import partial
from typing import Any, Callable, Iterable, Iterator

TOP = os.path.dirname(os.path.dirname(os.path.dirname(os.path.abspath(__file__))))
MOST_TICKS = 1000000000
MOST_PER_MILLE = 1000000
NUMBERS = ('priority', 'period', 'deadline', 'jitter', 'cost', 'blocking', 'response')
THREAD = re.compile(r'thread (\w+) ' + ' '.join(rf'{word} (\d+)' for word in NUMBERS))
WORK = re.compile(r'(?<![\w.])work \((\d+)\);')
BUDGET = re.compile(r'(?<!\w)THREAD_BUDGET = [^;]*;')


class Refused(Exception):
    """What the program says of a design or of these words."""


class Program:
    """The program, on designs in a folder of its own."""

    def __init__(self, path: str, room: str) -> None:
        self.path = path
        self.design = os.path.join(room, 'changed.design')
        self.calls = 0

    def run(self, verb: str, file: str) -> tuple[int, str, str]:
        """The status of a verb on a file, what it writes, and the line of its refusal."""
        self.calls += 1
        done = subprocess.run([self.path, verb, file], capture_output=True, text=True, stdin=subprocess.DEVNULL)
        lines = [line for line in done.stderr.splitlines() if not line.startswith('hrthood: ')]
        return done.returncode, done.stdout, lines[-1] if lines else ''

    def failure(self, text: str) -> str | None:
        """What fails of a design, as the second line of `scale` would tell it; None where it holds."""
        with open(self.design, 'w', encoding='utf-8') as file:
            file.write(text)
        status, _, line = self.run('analyse', self.design)
        if status == 0:
            return None
        if status == 1 and line.startswith(('refused U1 ', 'refused U2 ')):
            return line[len('refused '):]
        if status == 1 and line.startswith('refused V15 cost '):
            return line[len('refused V15 '):]
        raise Refused(line)


def scaled_ticks(per_mille: int, ticks: int) -> int:
    """Ticks at so many per mille, rounded up, at most 1,000,000,000."""
    return min(MOST_TICKS, -(-ticks * per_mille // 1000))


def threads_of(text: str) -> list[tuple[str, int, int]]:
    """The objects with threads of a formatted design, each with the lines from the first of its thread's body to the one behind the last."""
    objects: list[str] = []
    threads: list[tuple[str, int, int]] = []
    body = 0
    for number, line in enumerate(text.split('\n')):
        words = line.split()
        if words[:1] == ['OBJECT']:
            objects.append(words[1])
        elif words == ['THREAD']:
            body = number + 1
        elif words == ['END', 'THREAD;']:
            threads.append((objects[-1], body, number))
        elif objects and words == ['END', objects[-1] + ';']:
            objects.pop()
    return threads


def with_work(text: str, body: tuple[int, int], per_mille: int) -> str:
    """A formatted design with the `work` in these lines at so many per mille, and each THREAD_BUDGET the greatest."""
    lines = BUDGET.sub(f'THREAD_BUDGET = {MOST_TICKS};', text).split('\n')
    first, end = body
    for number in range(first, end):
        lines[number] = WORK.sub(lambda found: f'work ({scaled_ticks(per_mille, int(found[1]))});', lines[number])
    return '\n'.join(lines)


def margin_of(failure: Callable[[int], str | None]) -> tuple[int | None, str]:
    """The greatest per mille at which nothing fails, None where something does at one, and what fails at the next, or there."""
    at_most = failure(MOST_PER_MILLE)
    if at_most is None:
        return MOST_PER_MILLE, 'limit'
    at_least = failure(1)
    if at_least is not None:
        return None, at_least
    low, high, fails = 1, MOST_PER_MILLE, at_most
    while low + 1 < high:
        middle = (low + high) // 2
        told = failure(middle)
        if told is None:
            low = middle
        else:
            high, fails = middle, told
    return low, fails


def slacks_of(program: Program, file: str) -> dict[str, tuple[int, int]]:
    """The two slacks of each thread, where the design has bounds."""
    status, out, line = program.run('analyse', file)
    if status != 0:
        if status == 1 and line.startswith(('refused U1 ', 'refused U2 ')):
            return {}
        raise Refused(line)
    threads = [found for found in map(THREAD.fullmatch, out.splitlines()) if found]
    numbers = {found[1]: dict(zip(NUMBERS, map(int, found.groups()[1:]))) for found in threads}
    return {name: (one['deadline'] - one['response'], one['period'] - one['jitter'] - one['response']) for name, one in numbers.items()}


def whole_margin(program: Program, file: str) -> tuple[int | None, str]:
    """The margin of all `work`, as `scale` tells it."""
    status, out, line = program.run('scale', file)
    if status == 1 and line.startswith(('refused U1 ', 'refused U2 ')):
        return None, line[len('refused '):]
    if status != 0:
        raise Refused(line)
    first, second = out.splitlines()
    return int(first[len('scale '):]), second[len('next '):]


def failure_of(program: Program, text: str, body: tuple[int, int], per_mille: int) -> str | None:
    """What fails with the `work` of one body at so many per mille."""
    return program.failure(with_work(text, body, per_mille))


def rows_of(program: Program, file: str) -> Iterator[tuple[Any, ...]]:
    """A row for all `work`, and one for each thread, in the order of the design."""
    slacks = slacks_of(program, file)
    status, text, line = program.run('format', file)
    if status != 0:
        raise Refused(line)
    yield ('all', '', '', '', *whole_margin(program, file))
    for name, first, end in threads_of(text):
        ticks = [int(found) for found in WORK.findall('\n'.join(text.split('\n')[first:end]))]
        margin = margin_of(partial(failure_of, program, text, (first, end)))
        yield (name, len(ticks), *slacks.get(name, ('', '')), *margin)


def written(rows: Iterable[tuple[Any, ...]], is_csv: bool) -> list[str]:
    """The lines of the table."""
    heads = ('thread', 'statements of work', 'slack to deadline', 'slack to period', 'margin per mille', 'next')
    told = [[str(cell if cell is not None else 'none') for cell in row] for row in rows]
    if is_csv:
        return [','.join(head.replace(' ', '_') for head in heads), *(','.join(row) for row in told)]
    return ['| ' + ' | '.join(heads) + ' |', '|---' + '|---:' * 4 + '|---|', *('| ' + ' | '.join(row) + ' |' for row in told)]


def main() -> None:
    words = sys.argv[1:]
    is_csv = words[:1] == ['--csv']
    files = words[1:] if is_csv else words
    if len(files) != 1 or files[0].startswith('-'):
        sys.exit(__doc__)
    path = os.path.abspath(os.environ.get('PROGRAM', os.path.join(TOP, 'crates', 'hrthood', 'out', 'hrthood')))
    if not os.access(path, os.X_OK):
        sys.exit(f'margins.py: there is no program {path}; tools/gate/prove_program.sh makes it')
    with tempfile.TemporaryDirectory() as room:
        try:
            print('\n'.join(written(rows_of(Program(path, room), files[0]), is_csv)))
        except Refused as line:
            sys.exit(f'margins.py: {files[0]}: {line}')


if __name__ == '__main__':
    main()
