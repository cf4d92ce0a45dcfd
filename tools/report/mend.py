#!/usr/bin/env python3
"""A table of changes, each of one number, by which a design passes that `analyse` refuses for its bounds [U1, U2].

    mend.py [--csv] DESIGN

The first row is the utilisation in per mille, rounded down: the sum of cost / period over all threads. The second is all `work` in per mille, by
`hrthood scale`. Each other row has one number and the least change of it by which the design passes, all else as it is, sorted by the change in per
cent. The numbers are the cost of a thread (of its own body, with the operations that it calls as they are), the cost of an operation's body, and
each PERIOD, SEPARATION, DEADLINE and ARRIVAL_JITTER. Costs and jitters shrink, periods and separations grow, and deadlines do either. A number
without a row is of no help alone. The table is in Markdown, or with --csv in comma-separated values. Times are in ticks; for a design with TICK
the note has the time, and for a deadline the priorities, if that of its thread changes.

Each change is tried with the program before it is printed: `analyse` accepts the changed design, and refuses the design with one tick less of the
change. In the design that is tried for a cost, the statements of that body that call nothing are replaced by `work`, and its calls stay. So a
cost never shrinks below that of the calls.

PROGRAM is the path of the program, and the proved program of this repository where it isn't set. The status is 0 if the table is written, 1 if the
program refuses the design for another reason or isn't there, and 2 for other words.

What is proved: each answer of the program. Not proved: this script, which reads the design from the output of `format`, solves the response-time
equations itself to find the changes, and writes the changed designs. So there may be a change that it doesn't find.
"""

from __future__ import annotations

import os
import subprocess
import sys
import tempfile
from dataclasses import dataclass
from fractions import Fraction
from functools import partial
from typing import Callable, Dict, Iterable, Iterator

from design_reader import Body, Design, Operation, Pricing, UNITS
from response_times import Model, Numbers, order_of

TOP = os.path.dirname(os.path.dirname(os.path.dirname(os.path.abspath(__file__))))
MOST_TICKS = 1000000000
HEADS = ('number', 'of', 'value', 'passes at', 'change', 'per cent', 'note')
# The number of a thread in a line of `analyse` that is the number of a change.
FIELDS = {'cost': 'cost', 'PERIOD': 'period', 'SEPARATION': 'period', 'DEADLINE': 'deadline', 'ARRIVAL_JITTER': 'jitter'}
# Operations of 500 objects may call each other in one chain.
MOST_CALLS = 20000

Bounds = Dict[str, Dict[str, int]]


class Refused(Exception):
    """The line of a refusal for another reason than a bound, or what this script doesn't read as the program does."""


class Program:
    """The program, on designs in a folder of its own."""

    def __init__(self, path: str, room: str) -> None:
        self.path = path
        self.design = os.path.join(room, 'changed.design')

    def run(self, verb: str, file: str) -> tuple[int, str, str]:
        """The status of a verb on a file, what it writes, and the line of its refusal."""
        done = subprocess.run([self.path, verb, file], capture_output=True, text=True, stdin=subprocess.DEVNULL)
        lines = [line for line in done.stderr.splitlines() if not line.startswith('hrthood: ')]
        return done.returncode, done.stdout, lines[-1] if lines else ''

    def output(self, verb: str, file: str) -> str:
        """What a verb writes of a file that it accepts."""
        status, out, line = self.run(verb, file)
        if status != 0:
            raise Refused(line)
        return out

    def bounded(self, verb: str, file: str) -> str | None:
        """What a verb writes of a file, and None where it refuses that for its bounds."""
        status, out, line = self.run(verb, file)
        if status == 1 and line.startswith(('refused U1 ', 'refused U2 ')):
            return None
        if status != 0:
            raise Refused(line)
        return out

    def written(self, text: str) -> str:
        """The file of this program that has a text now."""
        with open(self.design, 'w', encoding='utf-8') as file:
            file.write(text)
        return self.design

    def bounds(self, text: str) -> Bounds | None:
        """The numbers of each thread that `analyse` writes of this text, and None where it refuses that."""
        status, out, line = self.run('analyse', self.written(text))
        if status > 1:
            raise Refused(line)
        threads = [line.split() for line in out.splitlines() if line.startswith('thread ')]
        return {words[1]: dict(zip(words[2::2], map(int, words[3::2]))) for words in threads} if status == 0 else None


@dataclass(frozen=True)
class Number:
    """A number of a design: what it is, of what, its value, and with another value the numbers of the equations and the text of the design."""
    what: str
    of: str
    value: int
    numbers: Callable[[int], Numbers]
    text: Callable[[int], str]


@dataclass(frozen=True)
class Change:
    """A number with another value."""
    number: Number
    value: int

    def step(self) -> int:
        """The step from its value."""
        return self.value - self.number.value

    def share(self) -> Fraction:
        """The step as a share of its value."""
        return Fraction(abs(self.step()), max(1, self.number.value))

    def nearer(self) -> int:
        """The value that is one tick nearer to that of the design."""
        return self.value - (1 if self.step() > 0 else -1)


def least_step(passes: Callable[[int], bool], most: int) -> int | None:
    """The least step of 1 to the most with which something passes, as it does with each greater one, and None where there is none."""
    if most < 1 or not passes(most):
        return None
    low, high = 0, most
    while low + 1 < high:
        middle = (low + high) // 2
        if passes(middle):
            high = middle
        else:
            low = middle
    return high


class Search:
    """The numbers of a design, and the least change of each with which the equations have a solution within the limits."""

    def __init__(self, design: Design) -> None:
        self.design = design
        self.model = Model(design)
        self.now = self.model.numbers
        self.pricing = Pricing(design)

    def with_attribute(self, thread: int, key: str, ticks: int) -> str:
        """The text with another value of an attribute."""
        lines, at = self.design.lines, self.design.threads[thread].lines[key]
        return '\n'.join([*lines[:at], f'{key} = {ticks};', *lines[at + 1:]])

    def with_body(self, body: Body, besides: int, cost: int) -> str:
        """The text with a body of another cost, of which so much is no part of its block."""
        lines = self.design.lines
        return '\n'.join([*lines[:body.first], *self.pricing.shortened(body.block, cost - besides), *lines[body.end:]])

    def with_operation(self, operation: Operation, cost: int) -> Numbers:
        """The numbers with another cost of an operation's body."""
        return self.model.priced(Pricing(self.design, {operation: cost}), self.now)

    def changed(self, number: Number, way: int, most: int) -> list[Change]:
        """The least change of a number upwards (1) or downwards (-1) by at most so much, if there is one."""
        step = least_step(lambda step: self.model.passes(number.numbers(number.value + way * step)), most)
        return [Change(number, number.value + way * step)] if step is not None else []

    def attribute(self, key: str, name: str, thread: int) -> Number:
        """An attribute of a thread, whose numbers are the list of this name."""
        return Number(key, self.design.threads[thread].name, getattr(self.now, name)[thread],
                      partial(self.now.with_one, name, thread), partial(self.with_attribute, thread, key))

    def cost(self, thread: int) -> list[Change]:
        """The least change of the cost of a thread's own body."""
        owner, finish = self.design.threads[thread], self.design.costs['FINISH']
        assert owner.thread is not None
        number = Number('cost', owner.name, self.now.costs[thread],
                        partial(self.now.with_one, 'costs', thread), partial(self.with_body, owner.thread, finish))
        return self.changed(number, -1, number.value - finish - self.pricing.least(owner.thread.block))

    def body(self, operation: Operation, body: Body) -> list[Change]:
        """The least change of the cost of an operation's body."""
        number = Number('body', '.'.join(operation), self.pricing.operation(operation),
                        partial(self.with_operation, operation), partial(self.with_body, body, 0))
        return self.changed(number, -1, number.value - self.pricing.least(body.block))

    def period(self, thread: int) -> list[Change]:
        """The least change of a period, or of a separation, which may not exceed the period or separation of the starter [V16]."""
        starter, now = self.model.starters[thread], self.now.periods[thread]
        most = MOST_TICKS if starter is None else self.now.periods[starter]
        key = 'PERIOD' if 'PERIOD' in self.design.threads[thread].lines else 'SEPARATION'
        return self.changed(self.attribute(key, 'periods', thread), 1, most - now)

    def jitter(self, thread: int) -> list[Change]:
        """The least change of an arrival jitter."""
        most = self.now.jitters[thread]
        return self.changed(self.attribute('ARRIVAL_JITTER', 'jitters', thread), -1, most) if most else []

    def deadline(self, thread: int) -> list[Change]:
        """The least change of a deadline: of all places in the order, which a deadline decides, the nearest one with which the design passes."""
        number = self.attribute('DEADLINE', 'deadlines', thread)
        best: Change | None = None
        for low, high in sorted(self.deadlines(thread), key=lambda ends: max(ends[0] - number.value, number.value - ends[1])):
            if best is not None and max(low - number.value, number.value - high) >= abs(best.step()):
                break
            responses = self.model.responses(number.numbers(high))
            if responses is not None:
                change = Change(number, min(high, max(low, responses[thread], number.value)))
                best = change if best is None or abs(change.step()) < abs(best.step()) else best
        return [best] if best is not None and best.step() else []

    def deadlines(self, thread: int) -> list[tuple[int, int]]:
        """The ranges of deadlines of a thread in each of which its place in the order is the same."""
        most = self.now.periods[thread]
        lowest = {ticks + (other > thread) for other, ticks in enumerate(self.now.deadlines) if other != thread}
        lows = sorted({1} | {ticks for ticks in lowest if ticks <= most})
        return list(zip(lows, [low - 1 for low in lows[1:]] + [most]))

    def changes(self) -> list[Change]:
        """All changes that are found, the least first."""
        threads = range(len(self.design.threads))
        found = [change for way in (self.cost, self.period, self.deadline, self.jitter) for thread in threads for change in way(thread)]
        found += [change for owner in self.design.objects for name, body in owner.operations.items()
                  for change in self.body((owner.name, name), body)]
        return sorted(found, key=Change.share)


def lifted(design: Design, model: Model) -> str:
    """The text with all periods, separations and deadlines longer by one factor, and each budget the greatest: costs and order are the same."""
    factor = MOST_TICKS // max(model.numbers.periods)
    lines = list(design.lines)
    for thread in design.threads:
        for key, at in thread.lines.items():
            if key in ('PERIOD', 'SEPARATION', 'DEADLINE'):
                lines[at] = f'{key} = {thread.attributes[key] * factor};'
            elif key == 'THREAD_BUDGET':
                lines[at] = f'{key} = {MOST_TICKS};'
    return '\n'.join(lines)


def priorities_of(program: Program, search: Search) -> dict[str, int]:
    """The priorities that `analyse` writes of the lifted design, if it accepts that. Refused where its costs, blockings or order are others."""
    bounds = program.bounds(lifted(search.design, search.model))
    if bounds is None:
        return {}
    order = order_of(search.now.deadlines)
    names, costs = [search.design.threads[thread].name for thread in order], [search.now.costs[thread] for thread in order]
    by_priority = [name for name, _ in sorted(bounds.items(), key=lambda one: -one[1]['priority'])]
    found = [(name, bounds[name]['cost'], bounds[name]['blocking']) for name in by_priority]
    if found != list(zip(names, costs, search.model.blockings(order, search.now))):
        raise Refused('this script computes other costs, blockings or priorities than the program')
    return {name: own['priority'] for name, own in bounds.items()}


def confirmed(program: Program, change: Change) -> Bounds | None:
    """The bounds of the changed design, and None where the program refuses it, or accepts the design with one tick less of the change."""
    number = change.number
    bounds = program.bounds(number.text(change.value))
    if bounds is None or number.what in FIELDS and bounds[number.of][FIELDS[number.what]] != change.value:
        return None
    return bounds if change.nearer() == number.value or program.bounds(number.text(change.nearer())) is None else None


def as_time(ticks: int, tick: int | None) -> str:
    """Ticks in the longest unit of which they are a whole number, as a design writes it; nothing for a design without TICK."""
    if tick is None:
        return ''
    unit = max((unit for unit in UNITS if ticks * tick % UNITS[unit] == 0), key=lambda unit: UNITS[unit])
    return f'{ticks * tick // UNITS[unit]} {unit}'


def row_of(change: Change, tick: int | None, before: dict[str, int], after: Bounds) -> tuple[str, ...]:
    """The row of a change, with the priorities before it and the bounds after it."""
    number = change.number
    notes = [as_time(change.value, tick)]
    if number.what == 'DEADLINE' and number.of in before and before[number.of] != after[number.of]['priority']:
        notes.append(f'priority {before[number.of]} to {after[number.of]["priority"]}')
    return (number.what, number.of, str(number.value), str(change.value), f'{change.step():+}', f'{float(100 * change.share()):.1f}',
            '; '.join(filter(None, notes)))


def utilisation_row(numbers: Numbers) -> tuple[str, ...]:
    """The row of the utilisation."""
    whole = sum((Fraction(cost, period) for cost, period in zip(numbers.costs, numbers.periods)), Fraction())
    return ('utilisation', 'all', str(int(1000 * whole)), '', '', '', 'per mille')


def work_row(program: Program, file: str) -> tuple[str, ...]:
    """The row of all `work`, of a design that doesn't pass."""
    out = program.bounded('scale', file)
    if out is None:
        return ('work', 'all', '1000', 'none', '', '', 'per mille')
    margin = int(out.split()[1])
    return ('work', 'all', '1000', str(margin), str(margin - 1000), f'{(1000 - margin) / 10:.1f}', 'per mille')


def rows_of(program: Program, file: str) -> Iterator[tuple[str, ...]]:
    """All rows. Changes that the program doesn't confirm are left out, and standard error says so."""
    is_late = program.bounded('analyse', file) is None
    search = Search(Design(program.output('format', file)))
    yield utilisation_row(search.now)
    priorities = priorities_of(program, search)
    if not is_late:
        return
    yield work_row(program, file)
    for change in search.changes():
        bounds = confirmed(program, change)
        if bounds is not None:
            yield row_of(change, search.design.tick, priorities, bounds)
        else:
            print(f'mend.py: the program does not confirm {change.number.what} of {change.number.of} at {change.value}', file=sys.stderr)


def written(rows: Iterable[tuple[str, ...]], is_csv: bool) -> list[str]:
    """The lines of the table."""
    cells = list(rows)
    if is_csv:
        return [','.join(head.replace(' ', '_') for head in HEADS), *(','.join(row) for row in cells)]
    lines = ['| ' + ' | '.join(HEADS) + ' |', '|---|---|' + '---:|' * 4 + '---|', *('| ' + ' | '.join(row) + ' |' for row in cells)]
    if len(cells) == 1:
        return [*lines, '', 'The design passes as it is; `margins.py` reports how much it may grow.']
    return lines if len(cells) > 2 else [*lines, '', 'No change of one number was found by which it passes.']


def main() -> None:
    """Writes the table of a design."""
    words = sys.argv[1:]
    if words == ['--help']:
        print(__doc__)
        return
    is_csv = words[:1] == ['--csv']
    files = words[1:] if is_csv else words
    if len(files) != 1 or files[0].startswith('-'):
        print(__doc__, file=sys.stderr)
        sys.exit(2)
    sys.setrecursionlimit(MOST_CALLS)
    path = os.path.abspath(os.environ.get('PROGRAM', os.path.join(TOP, 'crates', 'hrthood', 'out', 'hrthood')))
    if not os.access(path, os.X_OK):
        sys.exit(f'mend.py: there is no program {path}; tools/gate/prove_program.sh makes it, or set PROGRAM to tools/hrthood.mjs')
    with tempfile.TemporaryDirectory() as room:
        try:
            print('\n'.join(written(rows_of(Program(path, room), files[0]), is_csv)))
        except Refused as line:
            sys.exit(f'mend.py: {files[0]}: {line}')


if __name__ == '__main__':
    main()
