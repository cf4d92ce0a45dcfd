"""What `hrthood explain` and `hrthood format` write of a design, as tasks and shared resources, for the formats of other tools.

Periods, deadlines, priorities, jitters, costs, blockings, responses, starters and ceilings are numbers of the program. The ticks of each section are
computed here from the formatted design, as the program does; a cost or a blocking that comes out otherwise is an error. No part of it is proved.
"""

from __future__ import annotations

import os
import re
import subprocess
import sys
from dataclasses import dataclass
from typing import Callable

HERE = os.path.dirname(os.path.abspath(__file__))
TOP = os.path.dirname(os.path.dirname(HERE))
sys.path.insert(0, os.path.join(TOP, 'tools', 'report'))
from design_reader import Design, Pricing, UNITS    # noqa: E402

NUMBERS = ('priority', 'period', 'deadline', 'jitter', 'cost', 'blocking', 'response')
THREAD = re.compile(r'thread (\w+) ' + ' '.join(rf'{word} (\d+)' for word in NUMBERS))
STARTED = re.compile(r'started (\w+) by (\w+) jitter \d+ response \d+')
BLOCKED = re.compile(r'blocked (\w+) by (\w+) in (\w+)\.(\w+) ticks (\d+)')
CEILING = re.compile(r'ceiling (\w+) (\d+)')
HEAD = re.compile(r'DESIGN (\w+) (?:VERSION \d+ )?IS')
PRIORITIES = re.compile(r'PRIORITIES (\d+) \.\. (\d+);')
MOST_CALLS = 20000


class Refused(Exception):
    """The program's line for a design that it refuses, or what this module doesn't read as the program does."""


@dataclass(frozen=True)
class Section:
    """An operation in which a task holds a resource, and the most ticks for which it does."""
    resource: str
    operation: str
    ticks: int


@dataclass(frozen=True)
class Task:
    """A thread. Times are in ticks; the arrival jitter and the offset are 0 and the starter is None if there is none."""
    name: str
    is_cyclic: bool
    period: int
    offset: int
    deadline: int
    arrival_jitter: int
    starter: str | None
    budget: int
    priority: int
    jitter: int
    cost: int
    blocking: int
    response: int
    sections: tuple[Section, ...]


@dataclass(frozen=True)
class Resource:
    """A protected object, or the control structure of a sporadic object, that has a ceiling."""
    name: str
    is_protected: bool
    ceiling: int


@dataclass(frozen=True)
class System:
    """A design with its bounds. The tick is in microseconds, and None if the design has no TICK."""
    name: str
    tick: int | None
    priorities: tuple[int, int]
    tasks: tuple[Task, ...]
    resources: tuple[Resource, ...]

    def started_by(self, name: str) -> list[Task]:
        """The tasks that a task requests."""
        return [task for task in self.tasks if task.starter == name]


def program_path() -> str:
    """The path of the program. It is refused if there is none."""
    path = os.path.abspath(os.environ.get('PROGRAM', os.path.join(TOP, 'crates', 'hrthood', 'out', 'hrthood')))
    if not os.access(path, os.X_OK):
        raise Refused(f'there is no program {path}; tools/gate/prove_program.sh makes it, or set PROGRAM to tools/hrthood.mjs')
    return path


def output(verb: str, file: str) -> str:
    """What a verb writes of a file that it accepts."""
    done = subprocess.run([program_path(), verb, file], capture_output=True, text=True, stdin=subprocess.DEVNULL)
    lines = [line for line in done.stderr.splitlines() if not line.startswith('hrthood: ')]
    if done.returncode != 0:
        raise Refused(f'{file}: {lines[-1] if lines else f"status {done.returncode}"}')
    return done.stdout


def system_of(explained: str, formatted: str) -> System:
    """The system that these outputs of `explain` and `format` describe."""
    lines = explained.splitlines()
    missed = next((line for line in lines if line.startswith('miss ')), None)
    if missed:
        raise Refused('refused ' + missed[len('miss '):])
    design = Design(formatted)
    numbers = {found[1]: dict(zip(NUMBERS, map(int, found.groups()[1:]))) for found in map(THREAD.fullmatch, lines) if found}
    starters = {found[1]: found[2] for found in map(STARTED.fullmatch, lines) if found}
    pricing = Pricing(design)
    check_prices(design, pricing, numbers, lines)
    tasks = [task_of(design, pricing, number, starters, numbers) for number in range(len(design.threads))]
    ceilings = [(found[1], int(found[2])) for found in map(CEILING.fullmatch, lines) if found]
    resources = tuple(Resource(name, design.by_name[name].kind == 'PROTECTED', ceiling) for name, ceiling in ceilings)
    head, limits = HEAD.match(formatted), PRIORITIES.search(formatted)
    assert head is not None
    low = int(limits[1]) if limits else 1
    high = int(limits[2]) if limits else max(task.priority for task in tasks)
    return System(head[1], design.tick, (low, high), tuple(sorted(tasks, key=lambda task: -task.priority)), resources)


def task_of(design: Design, pricing: Pricing, number: int, starters: dict[str, str], numbers: dict[str, dict[str, int]]) -> Task:
    """The task of a thread of a design."""
    thread = design.threads[number]
    own, line = thread.attributes, numbers[thread.name]
    sections = tuple(Section(name, operation, pricing.operation((name, operation))) for name, operation in design.sections()[number])
    return Task(thread.name, thread.kind == 'CYCLIC', line['period'], own.get('OFFSET', 0), line['deadline'], own.get('ARRIVAL_JITTER', 0),
                starters.get(thread.name), own['THREAD_BUDGET'], line['priority'], line['jitter'], line['cost'], line['blocking'],
                line['response'], sections)


def check_prices(design: Design, pricing: Pricing, numbers: dict[str, dict[str, int]], lines: list[str]) -> None:
    """Refuses a design of which the costs or the blocking sections that are computed here are not those of the program."""
    for thread in design.threads:
        assert thread.thread is not None
        if numbers.get(thread.name, {}).get('cost') != pricing.block(thread.thread.block) + design.costs['FINISH']:
            raise Refused(f'this script computes another cost of {thread.name} than the program')
    for found in filter(None, map(BLOCKED.fullmatch, lines)):
        if pricing.operation((found[3], found[4])) != int(found[5]):
            raise Refused(f'this script computes another cost of {found[3]}.{found[4]} than the program')


def read(file: str) -> System:
    """The system of a design in a file, by the program."""
    return system_of(output('explain', file), output('format', file))


def main_of(script: str, doc: str, written: Callable[[System], str]) -> None:
    """Writes the design that the command line names by this function. The status is 1 if it is refused, and 2 for other words."""
    words = sys.argv[1:]
    if words == ['--help']:
        print(doc)
        return
    if len(words) != 1 or words[0].startswith('-'):
        print(doc, file=sys.stderr)
        sys.exit(2)
    sys.setrecursionlimit(MOST_CALLS)
    try:
        sys.stdout.write(written(read(words[0])))
    except Refused as line:
        place = '' if str(line).startswith(words[0]) else words[0] + ': '
        sys.exit(f'{script}: {place}{line}')


def time_of(ticks: int, tick: int | None) -> str:
    """What a tick is, in words."""
    return f'{ticks} tick of {tick} us' if tick is not None else f'{ticks} tick'


class Names:
    """Names for the elements of a text: each is a name of a design, with a number if it is reserved or in use."""

    def __init__(self, reserved: str) -> None:
        self.used = set(reserved.lower().split())
        self.given: dict[tuple[str, ...], str] = {}

    def of(self, *parts: str) -> str:
        """The name of what these parts denote, the same at each call."""
        if parts not in self.given:
            self.given[parts] = self.fresh('_'.join(parts))
        return self.given[parts]

    def fresh(self, wanted: str) -> str:
        """A name that is not in use, this one if it can be."""
        name, number = wanted, 1
        while name in self.used:
            number += 1
            name = f'{wanted}_{number}'
        self.used.add(name)
        return name


__all__ = ['Names', 'Refused', 'Resource', 'Section', 'System', 'Task', 'UNITS', 'main_of', 'output', 'read', 'system_of', 'time_of']
