#!/usr/bin/env python3
"""Parts of run.sh: arrivals as Ada tasks, and a run beside its replay.

    target.py arrivals ARRIVALS                     the arrivals without lists of durations: the target burns all of a `work`
    target.py tick DESIGN                           microseconds of a tick of a design of version 2, else 1000
    target.py driver TEXT ARRIVALS UNTIL FOLDER [children]
                                                    writes the package hrt_arrivals, whose tasks make the requests, and the program hrt_run,
                                                    which ends 100 ms after UNTIL; with `children`, objects are child packages
    target.py steps TEXT TRACE RUN                  compares each line of a stepped run with the replay
    target.py responses TEXT TRACE ARRIVALS TICK_US RUN     compares what is put, and responses with their bounds

A line of a run is `TIME KIND PRIORITY MORE`. TIME is seconds, or ticks of a stepped run, and the priority is that of the task. Status 0: the run
agrees; 1: it does not; 2: an input is none of these; 5: it does not, and the host took the processor away meanwhile, so that nothing is shown.
"""

from __future__ import annotations

import os
import re
import sys
from typing import Iterable, Iterator, NamedTuple

sys.dont_write_bytecode = True
sys.path.insert(0, os.path.dirname(os.path.realpath(__file__)))
import traces                   # noqa: E402
from traces import Fault        # noqa: E402

AGREES, DIFFERS, NO_INPUT, DISTURBED = 0, 1, 2, 5
TOLD = ('enter', 'leave', 'put', 'request', 'end')      # events of which a stepped run has lines
MICROSECONDS = 1000000                                  # of a second


class Line(NamedTuple):
    """A line of a run."""
    time: float
    kind: str
    task: str
    more: str


class Arrival(NamedTuple):
    """A request from outside."""
    time: int
    task: str
    value: int | None


# Inputs

def number(word: str) -> int:
    return int(word.replace('_', ''))


def items_of(text: str) -> list[list[str]]:
    """The items of an arrivals file, as lists of words."""
    return [item.replace(',', ' ').lower().split() for item in re.sub('--[^\n]*', '', text).split(';')[:-1]]


def read_arrivals(text: str) -> tuple[int, list[Arrival]]:
    """The horizon, and the requests from outside."""
    horizon, arrivals = 0, []
    for words in items_of(text):
        if words[:1] == ['until']:
            horizon = number(words[1])
        elif words[:1] == ['at']:
            arrivals.append(Arrival(number(words[1]), words[2], number(words[3]) if len(words) > 3 else None))
    return horizon, arrivals


def without_durations(text: str) -> str:
    """The items of an arrivals file but those of WORK."""
    return ''.join(' '.join(words) + ';\n' for words in items_of(text) if words[:1] != ['work'])


def tick_of(design: str) -> int:
    """The microseconds of a tick. An Ada text does not tell them."""
    found = re.search(r'\btick\s*=\s*([0-9_]+)\s*(us|ms|s)\b', re.sub('--[^\n]*', '', design.lower()))
    return number(found[1]) * {'us': 1, 'ms': 1000, 's': MICROSECONDS}[found[2]] if found else 1000


def read_text(text: str) -> traces.Program:
    """A text whose tasks have priorities of their own, by which the lines of a run tell them."""
    program = traces.read_program(text)
    priorities = [task.priority for task in program.tasks.values()]
    if len(set(priorities)) < len(priorities):
        raise Fault('two tasks have one priority, so that a run does not tell who is who')
    return program


def read_trace(text: str) -> tuple[list[Line], list[traces.Event]]:
    """The lines of the trace of a replay that a run has too, and all its events."""
    events = [traces.read_event(line, place) for place, line in enumerate(text.splitlines(), 1)]
    lines = [Line(event.time, event.kind, event.task, more_of(event)) for event in events if event.kind in TOLD]
    return lines, events


def more_of(event: traces.Event) -> str:
    """What stands behind the task in the line of an event."""
    return ' '.join(event.line().split(' ')[3:])


def read_run(text: str, program: traces.Program) -> list[Line]:
    """The lines of a run. The last one may be cut off where the program was ended."""
    names = {task.priority: task.name for task in program.tasks.values()}
    lines = []
    for line in text.split('\n')[:-1]:
        words = line.split()
        try:
            time = float(words[0])
            lines.append(Line(int(time) if time.is_integer() and '.' not in words[0] else time, words[1],
                              names.get(int(words[2]), words[2]), ' '.join(words[3:])))
        except (IndexError, ValueError):
            raise Fault('a line of the run is none: ' + line) from None
    return lines


# Requests from outside

def driver(text: str, arrivals_text: str, until: int, has_children: bool = False) -> dict[str, str]:
    """Ada units, name to text: a task for each unit that is requested, at the priority of its requests, and a main program."""
    program = traces.read_program(text)
    _, arrivals = read_arrivals(arrivals_text)
    names = sorted({arrival.task for arrival in arrivals})
    withs = ['with %s.%s;' % (program.design, name) for name in names] if has_children else ['with %s;' % program.design]
    spec = ['package hrt_arrivals is', '   pragma elaborate_body;']
    body = ['with ada.real_time;', 'with hrt;', *withs, 'package body hrt_arrivals is', '   use type ada.real_time.time;',
            '   use type ada.real_time.time_span;',
            '   tick : constant ada.real_time.time_span := hrt.after (hrt.epoch, 1) - hrt.epoch;']
    for name in names:
        task = program.tasks.get(name)
        if task is None or task.operation is None:
            raise Fault('no task of the text takes requests as %s' % name)
        spec += ['   task hrt_of_%s is' % name, '      pragma priority (%d);' % program.ceilings[name], '   end hrt_of_%s;' % name]
        # As the tasks of the text do, these call hrt.after behind each release.
        body += ['   task body hrt_of_%s is' % name, '      hrt_next : ada.real_time.time := hrt.epoch;', '   begin']
        for arrival in arrivals:
            if arrival.task == name:
                value = '' if arrival.value is None else ' (%d)' % arrival.value
                body += ['      hrt_next := hrt.epoch + %d * tick;' % arrival.time, '      delay until hrt_next;',
                         '      hrt_next := hrt.after (hrt_next, 0);', '      %s.%s.%s%s;' % (program.design, name, task.operation, value)]
        body += ['      loop', '         delay until ada.real_time.time_last;', '      end loop;', '   end hrt_of_%s;' % name]
    # hrt_main names all objects, also those that are child packages.
    # The last line may take longer than a tick, if it is that of an exception.
    main = ['with ada.real_time;', 'with hrt;', 'with hrt_arrivals;', 'with hrt_host;', 'with hrt_main;', 'procedure hrt_run is',
            '   use type ada.real_time.time;', 'begin',
            '   delay until hrt.after (hrt.epoch, %d) + ada.real_time.milliseconds (100);' % until, '   hrt_host.leave;', 'end hrt_run;']
    units = {'hrt_arrivals.ads': spec + ['end hrt_arrivals;'], 'hrt_arrivals.adb': body + ['end hrt_arrivals;'], 'hrt_run.adb': main}
    return {name: '\n'.join(lines) + '\n' for name, lines in units.items()}


# Comparing

class Answer:
    """What is said of a run, and whether it agrees."""

    def __init__(self, run: list[Line]) -> None:
        self.lines: list[str] = []
        self.is_bad = False
        self.away = [float(line.more) for line in run if line.kind == 'away']

    def refuse_ends_of_tasks(self, run: list[Line]) -> None:
        for line in run:
            if line.kind == 'dead':
                self.refuse('TASK ENDED: %s at %s %s' % (line.task, line.time, line.more))

    def say(self, line: str) -> None:
        self.lines.append(line)

    def refuse(self, line: str) -> None:
        self.lines.append(line)
        self.is_bad = True

    def status(self) -> int:
        if self.away:
            self.say('the host took the processor away %d times, for %.1f ms at most%s' % (
                len(self.away), 1000 * max(self.away), '; so nothing is shown: run it again' if self.is_bad else ''))
        return AGREES if not self.is_bad else DISTURBED if self.away else DIFFERS


def key_of(line: Line) -> tuple[str, str]:
    """What a leave is counted by: its task and its operation."""
    return line.task, line.more.split(' ')[0]


def late_leaves(wanted: list[Line]) -> set[tuple[str, str, int]]:
    """The leaves that the replay has at the instant of a request of the same task: each with its number among those of its key.

    The modelled processor does all that takes no tick before it dispatches. On a host the task that is requested preempts at once, and the leave of
    the outer object comes when the task runs again. Nothing is left to do behind it, so no bound is touched.
    """
    requested: dict[str, float] = {}
    counts: dict[tuple[str, str], int] = {}
    late: set[tuple[str, str, int]] = set()
    for line in wanted:
        if line.kind == 'request':
            requested[line.task] = line.time
        elif line.kind == 'leave':
            counts[key_of(line)] = counts.get(key_of(line), 0) + 1
            if requested.get(line.task) == line.time:
                late.add((*key_of(line), counts[key_of(line)]))
    return late


def without(lines: Iterable[Line], late: set[tuple[str, str, int]]) -> Iterator[Line]:
    counts: dict[tuple[str, str], int] = {}
    for line in lines:
        if line.kind == 'leave':
            counts[key_of(line)] = counts.get(key_of(line), 0) + 1
            if (*key_of(line), counts[key_of(line)]) in late:
                continue
        yield line


def compare_stop(stop: traces.Event, run: list[Line], answer: Answer) -> None:
    """Where the replay stops, the task gets Program_Error."""
    found = next((line for line in run if line.kind == 'dead'), None)
    if found is None:
        answer.refuse('the replay stops, and no task of the run does: ' + stop.line())
    elif found[:3] == (stop.time, 'dead', stop.task) and found.more.startswith('PROGRAM_ERROR'):
        answer.say('the replay stops, and the task gets PROGRAM_ERROR: ' + stop.line())
    else:
        answer.refuse('the replay stops, and the run does otherwise: %s, %s at %s %s' % (stop.line(), found.task, found.time, found.more))


def compare_steps(program: traces.Program, trace: str, run_text: str) -> Answer:
    """Each enter, leave, put, request and end, with its values and its tick."""
    wanted, events = read_trace(trace)
    run = read_run(run_text, program)
    answer = Answer(run)
    until = max(event.time for event in events)
    if events[-1].kind == 'stop':
        compare_stop(events[-1], run, answer)
    else:
        answer.refuse_ends_of_tasks(run)
    compare_lines(wanted, [line for line in run if line.kind in TOLD and line.time <= until], answer, 'run')
    return answer


def compare_lines(wanted: list[Line], found: list[Line], answer: Answer, name: str) -> None:
    """The lines of a replay, and those that were found, in the order of both."""
    late = late_leaves(wanted)
    wanted, found = list(without(wanted, late)), list(without(found, late))
    if wanted == found:
        passed = '; %d leaves behind requests are passed over' % len(late) if late else ''
        answer.say('same: all %d lines of the replay, in order, at the same ticks%s' % (len(wanted), passed))
        return
    place = next((i for i, (one, other) in enumerate(zip(wanted, found)) if one != other), min(len(wanted), len(found)))
    answer.refuse('different from line %d on (of %d and %d):' % (place + 1, len(wanted), len(found)))
    for i in range(max(0, place - 2), place + 3):
        one, other = (' '.join(str(part) for part in lines[i]).strip() if i < len(lines) else '-' for lines in (wanted, found))
        answer.say('   replay %-44s %s %s' % (one, name, other))
    if [line[1:] for line in wanted] == [line[1:] for line in found]:
        answer.say('the order is the same, and ticks differ by %d at most' % max(abs(a.time - b.time) for a, b in zip(wanted, found)))


def compare_puts(program: traces.Program, replayed: list[Line], run: list[Line], answer: Answer) -> None:
    """The values that each task puts have to be those of the replay, as far as both go."""
    wanted = [(line.task, line.more) for line in replayed if line.kind == 'put']
    found = [(line.task, line.more) for line in run if line.kind == 'put']
    count = min(len(wanted), len(found))
    order = 'same order' if wanted[:count] == found[:count] else 'another order'
    answer.say('puts: %d replayed, %d run, %s' % (len(wanted), len(found), order))
    for task in program.tasks:
        one, other = ([value for name, value in lines if name == task] for lines in (wanted, found))
        if one[:len(other)] != other[:len(one)]:
            answer.refuse('   %s: OTHER VALUES' % task)


def responses(task: traces.Task, arrivals: list[Arrival], ends: list[float]) -> list[float]:
    """From the releases that are known beforehand to the ends; none for a task that another one requests."""
    if task.is_cyclic:
        releases = [task.offset + task.period * i for i in range(len(ends))]
    else:
        releases = [arrival.time for arrival in arrivals if arrival.task == task.name]
    return [end - release for release, end in zip(releases, ends)]


def replayed_responses(events: list[traces.Event]) -> dict[str, int]:
    """The greatest response of each task in the replay."""
    begun: dict[str, int] = {}
    greatest: dict[str, int] = {}
    for event in events:
        if event.kind == 'release':
            begun[event.task] = event.time
        elif event.kind == 'end':
            greatest[event.task] = max(greatest.get(event.task, 0), event.time - begun[event.task])
    return greatest


def compare_responses(program: traces.Program, trace: str, arrivals_text: str, tick: int, run_text: str) -> Answer:
    """What is put, and the greatest response of each task beside its bound."""
    wanted, events = read_trace(trace)
    until, arrivals = read_arrivals(arrivals_text)
    lines = read_run(run_text, program)
    answer = Answer(lines)
    answer.refuse_ends_of_tasks(lines)
    run = [line._replace(time=line.time * MICROSECONDS / tick) for line in lines]
    run = [line for line in run if line.time <= until]
    compare_puts(program, wanted, run, answer)
    replayed = replayed_responses(events)
    answer.say('%-20s %8s %8s %10s %10s %8s' % ('task', 'deadline', 'bound', 'replayed', 'run', 'ends'))
    for task in sorted(program.tasks.values(), key=lambda task: -int(task.priority)):
        ends = [line.time for line in run if line.kind == 'end' and line.task == task.name]
        found = responses(task, arrivals, ends)
        answer.say('%-20s %8s %8s %10s %10s %8d' % (task.name, task.deadline, task.bound, replayed.get(task.name, '-'),
                                                    '%.2f' % max(found) if found else '-', len(ends)))
        if found and task.bound is not None and max(found) > task.bound:
            answer.refuse('   OVER THE BOUND')
    if not any(line.kind == 'end' for line in run) and any(event.kind == 'end' for event in events):
        answer.refuse('NO ACTIVATION ENDED')
    return answer


def load(path: str) -> str:
    with open(path, encoding='latin-1') as stream:
        return stream.read()


def do(words: list[str]) -> int:
    """Does what the words say, and returns a status."""
    if words[:1] == ['arrivals'] and len(words) == 2:
        sys.stdout.write(without_durations(load(words[1])))
    elif words[:1] == ['tick'] and len(words) == 2:
        print(tick_of(load(words[1])))
    elif words[:1] == ['driver'] and (len(words) == 5 or words[5:] == ['children']):
        for name, unit in driver(load(words[1]), load(words[2]), int(words[3]), len(words) == 6).items():
            with open(os.path.join(words[4], name), 'w') as stream:
                stream.write(unit)
    elif words[:1] == ['steps'] and len(words) == 4:
        return told(compare_steps(read_text(load(words[1])), load(words[2]), load(words[3])))
    elif words[:1] == ['responses'] and len(words) == 6:
        return told(compare_responses(read_text(load(words[1])), load(words[2]), load(words[3]), int(words[4]), load(words[5])))
    else:
        raise Fault('the words are none of these:\n' + __doc__)
    return AGREES


def told(answer: Answer) -> int:
    status = answer.status()
    print('\n'.join(answer.lines))
    return status


def main() -> None:
    try:
        sys.exit(do(sys.argv[1:]))
    except (Fault, OSError) as fault:
        print('target: %s' % fault, file=sys.stderr)
        sys.exit(NO_INPUT)


if __name__ == '__main__':
    main()
