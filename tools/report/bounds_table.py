#!/usr/bin/env python3
"""A table of bounds, from the lines that `hrthood analyse` writes.

    hrthood analyse D | bounds_table.py [--csv | --why]

Without a word a table in Markdown: of each thread, by priority from the greatest on, its numbers in ticks, its slack (deadline less response) and
its utilisation (cost by period), and below it the whole utilisation, the least slack, and the ceilings. --csv writes the rows of the threads as
comma-separated values. --why writes of what each response is made: the thread's own cost, its blocking, and what each thread of greater
priority takes in that time; which section blocks is not told by those lines.

It claims no proof: the bounds are those of the program, and what is reckoned here is arithmetic on them. Where a line is none that analyse
writes, or a response is not the sum of its parts, it says so and ends with status 1.
"""

from __future__ import annotations

import re
import sys
from fractions import Fraction
from typing import Any, Dict, Iterable, Iterator, List, Tuple

NUMBERS = ('priority', 'period', 'deadline', 'jitter', 'cost', 'blocking', 'response')
THREAD = re.compile(r'thread (\w+) ' + ' '.join(rf'{word} (\d+)' for word in NUMBERS))
CEILING = re.compile(r'ceiling (\w+) (\d+)')

Thread = Dict[str, Any]     # a thread's name and its numbers
Ceilings = List[Tuple[str, int]]


class Unreadable(Exception):
    """A line that analyse doesn't write."""


def read_lines(lines: Iterable[str]) -> tuple[list[Thread], Ceilings]:
    """The threads, each as a dictionary of its name and numbers, and the ceilings as pairs."""
    threads: list[Thread] = []
    ceilings: Ceilings = []
    for number, line in enumerate(lines, 1):
        thread = THREAD.fullmatch(line.rstrip('\n'))
        ceiling = CEILING.fullmatch(line.rstrip('\n'))
        if thread:
            threads.append({'name': thread[1], **{word: int(value) for word, value in zip(NUMBERS, thread.groups()[1:])}})
        elif ceiling:
            ceilings.append((ceiling[1], int(ceiling[2])))
        else:
            raise Unreadable(f'line {number} is none that analyse writes: {line.rstrip()}')
    if not threads:
        raise Unreadable('no line of a thread: give it what `hrthood analyse D` writes')
    return threads, ceilings


def slack(thread: Thread) -> int:
    """The ticks between the response and the deadline."""
    return int(thread['deadline'] - thread['response'])


def utilisation(thread: Thread) -> Fraction:
    """The part of the processor that the thread takes at most."""
    return Fraction(thread['cost'], thread['period'])


def percent(part: Fraction) -> str:
    """A part as a percentage with two digits, rounded up, so that it is never told as less."""
    hundredths = -(-part * 10000 // 1)
    return f'{hundredths // 100}.{hundredths % 100:02} %'


def parts_of(thread: Thread, threads: list[Thread]) -> list[tuple[Thread, int]]:
    """The threads of greater priority, each with how often it is released within the response and its jitter."""
    above = [other for other in threads if other['priority'] > thread['priority']]
    return [(other, -(-(thread['response'] + other['jitter']) // other['period'])) for other in above]


def is_sum(thread: Thread, threads: list[Thread]) -> bool:
    """Whether the response is the sum of its parts, as the response equations say."""
    taken = sum(times * other['cost'] for other, times in parts_of(thread, threads))
    return bool(thread['response'] == thread['cost'] + thread['blocking'] + taken)


def markdown(threads: list[Thread], ceilings: Ceilings) -> Iterator[str]:
    """The lines of the table."""
    columns = ['thread', *NUMBERS, 'slack', 'utilisation']
    yield '| ' + ' | '.join(columns) + ' |'
    yield '|---' + '|---:' * (len(columns) - 1) + '|'
    for thread in threads:
        cells = [thread['name'], *(str(thread[word]) for word in NUMBERS), str(slack(thread)), percent(utilisation(thread))]
        yield '| ' + ' | '.join(cells) + ' |'
    least = min(threads, key=slack)
    yield ''
    yield f'Utilisation {percent(sum(map(utilisation, threads), Fraction(0)))}; the least slack is {slack(least)} ticks, of {least["name"]}.'
    if ceilings:
        yield ''
        yield 'Ceilings: ' + ', '.join(f'{name} {ceiling}' for name, ceiling in ceilings) + '.'


def csv(threads: list[Thread]) -> Iterator[str]:
    """The lines of comma-separated values; utilisation in parts of a million, rounded up."""
    yield ','.join(['thread', *NUMBERS, 'slack', 'utilisation_ppm'])
    for thread in threads:
        parts = -(-utilisation(thread) * 1000000 // 1)
        yield ','.join([thread['name'], *(str(thread[word]) for word in NUMBERS), str(slack(thread)), str(parts)])


def why(threads: list[Thread]) -> Iterator[str]:
    """Of what each response is made, a line a thread."""
    for thread in threads:
        sums = [f'cost {thread["cost"]}', f'blocking {thread["blocking"]}']
        sums += [f'{other["name"]} {times} x {other["cost"]}' for other, times in parts_of(thread, threads)]
        yield f'{thread["name"]} {thread["response"]} = ' + ' + '.join(sums)


def main() -> None:
    words = sys.argv[1:]
    if words not in ([], ['--csv'], ['--why']):
        sys.exit(__doc__)
    try:
        threads, ceilings = read_lines(sys.stdin)
    except Unreadable as fault:
        sys.exit(f'bounds_table.py: {fault}')
    lines = csv(threads) if words == ['--csv'] else why(threads) if words == ['--why'] else markdown(threads, ceilings)
    print('\n'.join(lines))
    wrong = [thread['name'] for thread in threads if not is_sum(thread, threads)]
    if wrong:
        sys.exit(f'bounds_table.py: no sum of its parts is the response of {", ".join(wrong)}')


if __name__ == '__main__':
    main()
