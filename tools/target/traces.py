"""What an Ada text and the lines of a trace of it say, for runs on a target. Who runs when is told by web/traces.js.

Times are ticks.
"""

from __future__ import annotations

import re
from typing import Any

TOKEN = re.compile(r'[a-z][a-z0-9_]*|[0-9][0-9_]*|:=|\.\.|[^\sa-z0-9]')
COMMENT = re.compile('--[^\n]*')


class Fault(Exception):
    """What is wrong with an input, in one line."""


# What the Ada text says

class Task:
    """A task; what its text does not tell is None."""

    def __init__(self, name: str) -> None:
        self.name = name
        self.priority: Any = None
        self.is_cyclic = True
        self.is_external = False
        self.operation: str | None = None       # the name of its requests, where it takes any
        self.period: Any = None
        self.offset: Any = None
        self.deadline: Any = None
        self.bound: Any = None
        self.jitter: Any = None

    def kind(self) -> str:
        return 'cyclic' if self.is_cyclic else 'sporadic, external' if self.is_external else 'sporadic'


class Program:
    """What an Ada text says of its tasks, of ceilings and of costs."""

    def __init__(self) -> None:
        self.design: str | None = None
        self.tasks: dict[str, Task] = {}
        self.ceilings: dict[str, int] = {}      # of protected and sporadic units
        self.costs: dict[str, int] = {}

    def task(self, name: str) -> Task:
        return self.tasks.setdefault(name, Task(name))


class ProgramReader:
    """Takes from the tokens of an Ada text what a Program holds. The text is one that the program writes or has taken."""

    def __init__(self, text: str) -> None:
        self.program = Program()
        self.tokens = TOKEN.findall(COMMENT.sub('', text.lower()))
        self.packages: list[str] = []           # those that are open
        self.part: str | None = None            # the declaration that is open: 'protected' or 'task'

    def read(self) -> Program:
        steps = {'package': self.open_package, 'end': self.close_package, 'protected': self.open_part, 'task': self.open_part,
                 'pragma': self.take_priority, 'after': self.take_time, 'constant': self.take_constant, 'renames': self.take_operation}
        for place, token in enumerate(self.tokens):
            step = steps.get(token)
            if step is not None:
                step(place)
        return self.program

    def number(self, place: int) -> int:
        return int(self.tokens[place].replace('_', ''))

    def is_at(self, place: int, *tokens: str) -> bool:
        return self.tokens[place:place + len(tokens)] == list(tokens)

    def open_package(self, place: int) -> None:
        name = self.tokens[place + 2 if self.is_at(place + 1, 'body') else place + 1]
        if not self.packages and name != 'hrt':
            self.program.design = name
        self.packages.append(name)

    def close_package(self, place: int) -> None:
        if self.packages and self.is_at(place + 1, self.packages[-1]):
            self.packages.pop()

    def open_part(self, place: int) -> None:
        if not self.is_at(place + 1, 'body'):
            self.part = self.tokens[place]

    def take_priority(self, place: int) -> None:
        if not self.is_at(place + 1, 'priority') or self.part is None:
            return
        unit = self.packages[-1]
        if self.part == 'task':
            self.program.task(unit).priority = self.number(place + 3)
        else:
            self.program.ceilings[unit] = self.number(place + 3)
        self.part = None

    def take_time(self, place: int) -> None:
        """The offset of a cyclic task, or its period."""
        task = self.program.tasks.get(self.packages[-1]) if self.packages else None
        if task is None or not self.is_at(place - 2, 'hrt', '.'):
            return
        if self.is_at(place + 1, '(', 'hrt', '.', 'epoch', ','):
            task.offset = self.number(place + 6)
        elif self.is_at(place + 1, '(', 'hrt_next', ','):
            task.period = self.number(place + 4)

    def take_constant(self, place: int) -> None:
        name = self.tokens[place - 2]
        if self.packages[-1] == 'hrt' and name.endswith('_cost'):
            self.program.costs[name[:-len('_cost')]] = self.number(place + 2)
        elif name == 'hrt_separation':
            task = self.program.task(self.packages[-1])
            task.is_cyclic, task.period = False, self.number(place + 2)
        elif name == 'hrt_jitter':
            self.program.task(self.packages[-1]).jitter = self.number(place + 2)
        elif name == 'hrt_external':
            self.program.task(self.packages[-1]).is_external = self.is_at(place + 1, 'boolean', ':=', 'true')

    def take_operation(self, place: int) -> None:
        if self.is_at(place + 1, 'hrt_obcs', '.'):
            self.program.task(self.packages[-1]).operation = self.tokens[place + 3]


def read_program(text: str) -> Program:
    """Reads an Ada text, and the bounds in comments at its head."""
    try:
        program = ProgramReader(text).read()
    except (IndexError, ValueError):
        raise Fault('the Ada text is none that the program writes or takes') from None
    if not program.tasks or any(task.priority is None for task in program.tasks.values()) or 'assign' not in program.costs:
        raise Fault('the Ada text tells no tasks with priorities, or no costs')
    for line in text.split('\n'):
        if not line.startswith('--'):
            break
        words = line.split()
        if words[1:2] == ['thread'] and len(words) == 11 and words[2] in program.tasks:
            task = program.tasks[words[2]]
            task.jitter, task.bound, task.deadline = (int(word) for word in words[6::2])
    return program


# The lines of a trace

class Event:
    """A line of a trace: who did what, when. `object` is what is entered, left, requested or stopped at, `operation` of which operation."""
    __slots__ = ('time', 'kind', 'task', 'object', 'operation', 'values')

    def __init__(self, time: int, kind: str, task: Any = None, object: Any = None, operation: str | None = None,
                 values: tuple[int, ...] = ()) -> None:
        self.time, self.kind, self.task = time, kind, task
        self.object, self.operation, self.values = object, operation, values

    def line(self) -> str:
        if self.kind == 'end':
            return '%d end %s used %d' % (self.time, self.task, *self.values)
        if self.kind == 'stop':
            return '%d stop %s %s priority %d ceiling %d' % (self.time, self.task, self.object, *self.values)
        words = [str(self.time), self.kind]
        words += [self.task] if self.task else []
        words += [self.object + ('.' + self.operation if self.operation else '')] if self.object else []
        return ' '.join(words + [str(value) for value in self.values])


def event_of(words: list[str]) -> Event | None:
    """The event of the words of a line, or None."""
    time, kind, count = int(words[0]), words[1], len(words)
    if kind in ('enter', 'leave') and count >= 4:
        unit, operation = words[3].split('.')
        return Event(time, kind, words[2], unit, operation, tuple(map(int, words[4:])))
    if kind == 'end' and count == 5 and words[3] == 'used':
        return Event(time, kind, words[2], values=(int(words[4]),))
    if kind in ('release', 'arrive') and count in (3, 4) or kind == 'put' and count == 4:
        return Event(time, kind, words[2], values=tuple(map(int, words[3:])))
    if kind == 'request' and count in (4, 5):
        return Event(time, kind, words[2], words[3], values=tuple(map(int, words[4:])))
    if kind == 'horizon' and count == 2:
        return Event(time, kind)
    if kind == 'stop' and count == 8 and (words[4], words[6]) == ('priority', 'ceiling'):
        return Event(time, kind, words[2], words[3], values=(int(words[5]), int(words[7])))
    return None


def read_event(line: str, place: int) -> Event:
    """The event of a line, whose number in the trace is `place`."""
    try:
        event = event_of(line.split(' '))
    except (ValueError, IndexError):
        event = None
    if event is None:
        raise Fault('line %d of the trace is none: %s' % (place, line))
    return event
