#!/usr/bin/env python3
"""Changes logs by one thing each, and counts what `hrthood accepts` and `to_trace.py --replay` find.

    changed_logs.py FIRST COUNT

The logs are the traces of COUNT random designs from seed FIRST on; a stepped run that agrees has this log (test_machine.py). Of each log it makes one
changed log of each kind, at a place that the seed draws. It writes a row for each kind: logs, accepted, refused, replayed with the same lines, with
other lines. The program is PROGRAM, or `hrthood` of this repository.
"""

from __future__ import annotations

import os
import random
import subprocess
import sys
import tempfile
from typing import Callable, Iterator

sys.dont_write_bytecode = True
HERE = os.path.dirname(os.path.realpath(__file__))
sys.path.insert(0, HERE)
import random_design            # noqa: E402
import to_trace                 # noqa: E402
import traces                   # noqa: E402

PROGRAM = os.environ.get('PROGRAM', os.path.join(HERE, '..', '..', 'hrthood'))
COLUMNS = 'change,logs,accepted,refused,same_replay,other_replay'
OWN = frozenset(('enter', 'leave', 'put', 'request', 'end', 'stop'))    # the events that a task tells itself
Log = list[list[str]]           # the words of each line
Change = Callable[[Log, int], 'Log | None']


# Each change takes a log and a place, and returns the changed log, or None if the line is not of its kind.

def replaced(log: Log, place: int, words: list[str]) -> Log:
    return [*log[:place], words, *log[place + 1:]]


def retimed(log: Log, place: int, kind: tuple[str, ...], by: int) -> Log | None:
    """Moves a line by a tick, where the times of the log stay in order."""
    line = log[place]
    time = int(line[0]) + by
    neighbours = log[place - 1:place] if by < 0 else log[place + 1:place + 2]
    if line[1] not in kind or time < 0 or any((int(other[0]) - time) * by < 0 for other in neighbours):
        return None
    return replaced(log, place, [str(time), *line[1:]])


def used_changed(log: Log, place: int, by: int) -> Log | None:
    line = log[place]
    return replaced(log, place, [*line[:-1], str(int(line[-1]) + by)]) if line[1] == 'end' and int(line[-1]) + by > 0 else None


def value_changed(log: Log, place: int) -> Log | None:
    line = log[place]
    has_value = line[1] in ('put', 'arrive') or line[1] in ('enter', 'leave', 'request') and len(line) > 4
    return replaced(log, place, [*line[:-1], str((int(line[-1]) + 1) % 2 ** 32)]) if has_value else None


def exchanged(log: Log, place: int) -> Log | None:
    """Exchanges what two lines of different tasks say, and keeps their times."""
    if place + 1 >= len(log) or not all(line[1] in OWN for line in log[place:place + 2]) or log[place][2] == log[place + 1][2]:
        return None
    one, other = log[place:place + 2]
    return [*log[:place], [one[0], *other[1:]], [other[0], *one[1:]], *log[place + 2:]]


CHANGES: dict[str, Change] = {
    'none': lambda log, place: log,
    'used one tick more': lambda log, place: used_changed(log, place, 1),
    'used one tick less': lambda log, place: used_changed(log, place, -1),
    'another value': value_changed,
    'a line twice': lambda log, place: [*log[:place], log[place], *log[place:]] if log[place][1] != 'horizon' else None,
    'a line left out': lambda log, place: [*log[:place], *log[place + 1:]],
    'a release or an arrival a tick later': lambda log, place: retimed(log, place, ('release', 'arrive'), 1),
    'a release or an arrival a tick earlier': lambda log, place: retimed(log, place, ('release', 'arrive'), -1),
    'an end a tick later': lambda log, place: retimed(log, place, ('end',), 1),
    'an end a tick earlier': lambda log, place: retimed(log, place, ('end',), -1),
    'lines of two tasks exchanged': exchanged,
}


def changed(log: Log, change: Change, dice: random.Random) -> Log | None:
    """Returns the log with this change at a place that is drawn, if it fits anywhere."""
    places = list(range(len(log)))
    dice.shuffle(places)
    return next((new for place in places for new in [change(log, place)] if new is not None), None)


def verified(first: int, count: int, room: str) -> Iterator[tuple[int, str, str, str, str]]:
    """The first random designs with bounds within their limits: seed, paths of the design and of the arrivals, text and trace."""
    seed = first
    while count:
        design, arrivals = random_design.write(seed, room)
        answer = subprocess.run([PROGRAM, 'verify', design, arrivals], capture_output=True, text=True)
        if answer.returncode not in (0, 1):
            raise SystemExit('changed_logs: %s ends with status %d' % (PROGRAM, answer.returncode))
        if answer.returncode == 0:
            text, _, trace = answer.stdout.partition('-- trace\n')
            yield seed, design, arrivals, text, trace
            count -= 1
        seed += 1


def rows(first: int, count: int) -> Iterator[str]:
    counts = {name: [0] * 5 for name in CHANGES}
    with tempfile.TemporaryDirectory() as room:
        path = os.path.join(room, 'log')
        for seed, design, arrivals, text, trace in verified(first, count, room):
            for name, change in CHANGES.items():
                log = changed([line.split(' ') for line in trace.splitlines()], change, random.Random('%d %s' % (seed, name)))
                if log is None:
                    continue
                content = ''.join(' '.join(line) + '\n' for line in log)
                with open(path, 'w') as stream:
                    stream.write(content)
                is_accepted = subprocess.run([PROGRAM, 'accepts', design, arrivals, path], capture_output=True).returncode == 0
                with open(arrivals) as stream:
                    answer = to_trace.compare(traces.read_program(text), text, stream.read(), content)
                for place, is_one in enumerate((True, is_accepted, not is_accepted, not answer.is_bad, answer.is_bad)):
                    counts[name][place] += is_one
    for name, numbers in counts.items():
        yield ','.join([name, *(str(number) for number in numbers)])


if __name__ == '__main__':
    if len(sys.argv) != 3 or not all(word.isdecimal() for word in sys.argv[1:]):
        print(__doc__, file=sys.stderr)
        sys.exit(2)
    print(COLUMNS)
    for row in rows(int(sys.argv[1]), int(sys.argv[2])):
        print(row)
