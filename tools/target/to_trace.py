#!/usr/bin/env python3
"""Writes the log of a stepped run as a trace for `hrthood accepts`, and compares a log with the replay of its own durations.

    to_trace.py TEXT ARRIVALS RUN >TRACE
    to_trace.py --replay TEXT ARRIVALS TRACE

TEXT is the generated Ada text, and RUN has the lines of a stepped run (`run` in the folder of `run.sh -s -k`). Their order, values, ticks and `used`
are those of the target. A target does not report when activations are released: this follows from the text, the arrivals, the requests and the ends.

`--replay` searches for WORK lists under which each activation of the replay uses as many ticks as in the log, and compares the log with that replay,
line by line. The same lines mean that the target ran as the modelled processor does: by priorities, and nothing late. The program that replays is
PROGRAM, or `hrthood` of this repository. Status 0: the same lines, or a trace; 1: other lines; 2: an input is none of these.
"""

from __future__ import annotations

import os
import subprocess
import sys
import tempfile
from typing import NamedTuple

sys.dont_write_bytecode = True
HERE = os.path.dirname(os.path.realpath(__file__))
sys.path.insert(0, HERE)
import target                   # noqa: E402
import traces                   # noqa: E402
from traces import Event, Fault     # noqa: E402

ROUNDS = 4          # of the search for lists, since durations of one task can change which way another one takes
Lists = dict[str, list[int]]
Used = dict[str, list[int]]


# A log as a trace

class Waiting(NamedTuple):
    """A request that a task has not taken: the words behind the task in the line of its release."""
    more: str


class Tracer:
    """Puts the lines of a trace together, instant by instant."""

    def __init__(self, program: traces.Program) -> None:
        self.program = program
        self.lines: list[str] = []
        self.busy: set[str] = set()                     # sporadic tasks that are released and have not ended
        self.waiting: dict[str, Waiting] = {}

    def write(self, time: float, kind: str, task: str, more: str = '') -> None:
        self.lines.append(' '.join(part for part in (str(time), kind, task, more) if part))

    def request(self, time: float, task: str, more: str) -> None:
        """The task is released at once, or when its activation ends. A later request replaces the value of one that waits."""
        if task in self.busy:
            self.waiting[task] = Waiting(more)
        else:
            self.busy.add(task)
            self.write(time, 'release', task, more)

    def take(self, line: target.Line) -> None:
        """A line of the run, with the release that follows from it."""
        self.write(line.time, line.kind, line.task, line.more)
        if line.kind == 'request':
            name, _, value = line.more.partition(' ')
            self.request(line.time, name, value)
        elif line.kind == 'end':
            self.busy.discard(line.task)
            if line.task in self.waiting:
                self.request(line.time, line.task, self.waiting.pop(line.task).more)


def trace_of(program: traces.Program, arrivals_text: str, run_text: str) -> str:
    """Returns the trace of a run. Of one instant the lines of the run come first, as effects do on the modelled processor."""
    until, arrivals = target.read_arrivals(arrivals_text)
    run = [line for line in target.read_run(run_text, program) if line.kind in target.TOLD and line.time <= until]
    # A task can be preempted between its look at the clock and its write.
    run.sort(key=lambda line: line.time)
    for line in run:
        if line.kind == 'end' and not line.more.startswith('used '):
            raise Fault('an end of the run reports no ticks: %s %s' % (line.time, line.task))
    releases = [(time, task.name) for task in program.tasks.values() if task.is_cyclic for time in range(task.offset, until + 1, task.period)]
    tracer = Tracer(program)
    for instant in sorted({time for time, _ in releases} | {line.time for line in run} | {arrival.time for arrival in arrivals}):
        if instant > until:
            break
        while run and run[0].time == instant:
            tracer.take(run.pop(0))
        for time, task in releases:
            if time == instant:
                tracer.write(time, 'release', task)
        for arrival in arrivals:
            if arrival.time == instant:
                value = '' if arrival.value is None else str(arrival.value)
                tracer.write(instant, 'arrive', arrival.task, value)
                tracer.request(instant, arrival.task, value)
    return ''.join(line + '\n' for line in [*tracer.lines, '%d horizon' % until])


# The replay of a log

def read_log(text: str) -> list[Event]:
    return [traces.read_event(line, place) for place, line in enumerate(text.splitlines(), 1)]


def used_of(events: list[Event]) -> Used:
    """The ticks of each activation that ended, task by task."""
    used: Used = {}
    for event in events:
        if event.kind == 'end':
            used.setdefault(event.task, []).append(event.values[0])
    return used


class Replayer:
    """Replays one text under one file of arrivals, with different WORK lists."""

    def __init__(self, text: str, arrivals: str, room: str) -> None:
        self.program = os.environ.get('PROGRAM', os.path.join(HERE, '..', '..', 'hrthood'))
        self.horizon, _, self.requests = target.without_durations(arrivals).partition('\n')
        self.until, _ = target.read_arrivals(arrivals)
        self.text, self.arrivals = os.path.join(room, 'text'), os.path.join(room, 'arrivals')
        with open(self.text, 'w', encoding='latin-1') as stream:
            stream.write(text)

    def write(self, lists: Lists) -> str:
        """Returns the arrivals with these lists."""
        durations = ['WORK %s %s;' % (task, ', '.join(str(ticks) for ticks in lists[task])) for task in sorted(lists) if lists[task]]
        return '\n'.join([self.horizon, *durations, self.requests])

    def replay(self, lists: Lists) -> list[Event]:
        with open(self.arrivals, 'w') as stream:
            stream.write(self.write(lists))
        answer = subprocess.run([self.program, 'replay', self.text, self.arrivals], capture_output=True, text=True)
        if answer.returncode:
            raise Fault('the text is not replayed: %s' % (answer.stderr or answer.stdout).strip().rpartition('\n')[2])
        return read_log(answer.stdout)

    def statements(self, lists: Lists, task: str, last: int) -> list[tuple[int, int]]:
        """Returns, for the `work` statements of a task that take more than a tick, in order: the activation and the ticks, up to activation `last`.
        The k-th statement is found by replays in which the first k take one tick. A statement of one tick is listed as of activation -1."""
        found: list[tuple[int, int]] = []
        others = {name: ticks for name, ticks in lists.items() if name != task}
        before = used_of(self.replay(others)).get(task, [])
        least = used_of(self.replay({**others, task: [1] * (self.until + 1)})).get(task, [])
        while any(a > b for a, b in list(zip(before, least))[:last + 1]):
            now = used_of(self.replay({**others, task: [1] * (len(found) + 1)})).get(task, [])
            place = next((i for i, (a, b) in enumerate(zip(before, now)) if a != b), None)
            found.append((-1, 1) if place is None else (place, before[place] - now[place] + 1))
            before = now
            if len(found) > self.until:
                break
        return found


def durations(statements: list[tuple[int, int]], missing: list[int]) -> list[int]:
    """Returns the durations of `work` statements, where each activation uses so many ticks less than with all of them. The first ones give first."""
    left = list(missing)
    out = []
    for activation, ticks in statements:
        given = min(ticks - 1, left[activation]) if 0 <= activation < len(left) else 0
        if given > 0:
            left[activation] -= given
        out.append(ticks - max(given, 0))
    return out


def lists_of(replayer: Replayer, log: list[Event]) -> Lists:
    """Returns WORK lists under which the replay uses as many ticks as the log, as far as there are some."""
    wanted = used_of(log)
    lists: Lists = {}
    for _ in range(ROUNDS):
        found = used_of(replayer.replay(lists))
        if all(found.get(task, [])[:len(ticks)] == ticks[:len(found.get(task, []))] for task, ticks in wanted.items()):
            break
        for task, ticks in wanted.items():
            full = used_of(replayer.replay({name: of for name, of in lists.items() if name != task})).get(task, [])
            missing = [a - b for a, b in zip(full, ticks)]
            last = max((i for i, count in enumerate(missing) if count > 0), default=-1)
            lists[task] = durations(replayer.statements(lists, task, last), missing) if last >= 0 else []
    return lists


def compare(program: traces.Program, text: str, arrivals: str, log_text: str) -> target.Answer:
    """Compares a log with the replay of its own durations."""
    log = read_log(log_text)
    answer = target.Answer([])
    with tempfile.TemporaryDirectory() as room:
        replayer = Replayer(text, arrivals, room)
        lists = lists_of(replayer, log)
        replayed = replayer.replay(lists)
    for line in replayer.write(lists).splitlines():
        if line.startswith('WORK'):
            answer.say(line)
    wanted, found = ([target.Line(e.time, e.kind, e.task, target.more_of(e)) for e in events if e.kind in target.TOLD] for events in (replayed, log))
    target.compare_lines(wanted, found, answer, 'log')
    outside = [sorted(event.line() for event in events if event.kind in ('release', 'arrive', 'horizon')) for events in (replayed, log)]
    if not answer.is_bad and outside[0] != outside[1]:
        other = sorted(set(outside[0]) ^ set(outside[1]), key=lambda line: (int(line.split()[0]), line))
        answer.refuse('another release, arrival or horizon: %s' % (other[0] if other else 'one twice'))
    return answer


def main(words: list[str]) -> int:
    if len(words) == 4 and words[0] == '--replay':
        text, arrivals, log = (target.load(word) for word in words[1:])
        return target.told(compare(traces.read_program(text), text, arrivals, log))
    if len(words) != 3:
        raise Fault('the words are none of these:\n' + (__doc__ or ''))
    text, arrivals, run = (target.load(word) for word in words)
    sys.stdout.write(trace_of(target.read_text(text), arrivals, run))
    return target.AGREES


if __name__ == '__main__':
    try:
        sys.exit(main(sys.argv[1:]))
    except (Fault, OSError) as fault:
        print('to_trace: %s' % fault, file=sys.stderr)
        sys.exit(target.NO_INPUT)
