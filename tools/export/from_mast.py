#!/usr/bin/env python3
"""A skeleton of a design from a file in the text format of MAST: one processor, fixed priorities, immediate ceilings.

    from_mast.py [--ticks N] FILE >DESIGN

One unit of time becomes N ticks, 1 if not given. Each activity becomes a thread: that of a periodic event without jitter a CYCLIC object, any other
a SPORADIC one, with the jitter as ARRIVAL_JITTER; an activity that follows another one is requested by that one. Each resource becomes a PROTECTED
object, with an operation for each operation that locks it. A resource with the name of the server of a following activity is the control structure
of that thread, as `to_mast.py` writes it. The bodies are calls and `work`, so that costs are those of the file; if the sections of a thread together
take longer than its cost, each is in a branch of an `if`.

Not carried over: priorities and ceilings, which the program computes (a comment says where they differ), best and average times, overheads of the
processor (a comment says which), and other kinds of events, handlers, servers and resources, which are refused. A design has costs of calls, requests
and ends of at least a tick, so a thread that costs less than those of its calls is refused: more ticks for a unit may help.

The status is 2 for a file that is refused, with its line, and for other words. Nothing is proved of this script.
"""

from __future__ import annotations

import os
import re
import sys
from fractions import Fraction
from typing import Iterator

from exported import Names
from mast import Fault, Section, System, Task

RESERVED = '''end provides requires data operation thread objects implements begin is null if then elsif else for in out loop exit when range mod and
or xor not word work put hrt activation_end boolean true false ada standard system abort abs abstract accept access aliased all array at body case
constant declare delay delta digits do entry exception function generic goto interface limited new of others overriding package pragma private
procedure protected raise record rem renames requeue return reverse select separate some subtype synchronized tagged task terminate type until use
while with design version costs object attributes'''
ENDED = 1       # FINISH
CALLED = 1      # CALL
TESTED = 1      # TEST


def name_of(text: str) -> str:
    """A name of a design near to this one."""
    name = re.sub(r'_+', '_', re.sub(r'[^a-z0-9_]', '_', text)).strip('_')[:50]
    return name if re.match(r'[a-z]', name) and not name.startswith('hrt_') else f'n_{name}'.rstrip('_')


class Skeleton:
    """Writes the design of a system."""

    def __init__(self, system: System, per_unit: int, title: str) -> None:
        self.system = system
        self.per_unit = per_unit
        self.names = Names(RESERVED)
        self.objects = {name: self.names.fresh(name_of(name)) for name in system.tasks}
        self.requested = {task.name for task in system.tasks.values() if task.starter is not None}
        locked = {one.resource for task in system.tasks.values() for one in task.sections}
        self.stores = [name for name in system.resources if name not in self.requested and (name in locked or name not in system.tasks)]
        self.owners = {name: self.names.fresh(name_of(name) + '_resource' * (name in system.tasks)) for name in self.stores}
        self.owners.update((name, self.objects[name]) for name in self.requested)
        self.whole, self.title = self.names.fresh('whole'), self.names.fresh(title)
        self.by_priority = sorted(system.tasks.values(), key=lambda task: -task.priority)
        self.assign = self.assign_cost()
        self.operations: dict[str, dict[tuple[str, Fraction], str]] = {}

    def ticks(self, time: Fraction, line: int) -> int:
        """A time in ticks."""
        ticks = time * self.per_unit
        if ticks.denominator != 1:
            raise Fault(line, f'{float(time):g} is not a whole number of ticks; give --ticks N')
        if ticks > 1000000000:
            raise Fault(line, f'{float(time):g} is over 1,000,000,000 ticks')
        return int(ticks)

    def assign_cost(self) -> int:
        """Half of what a request takes inside a control structure, and 1 if the file doesn't say."""
        requests = [(one.time, task.line) for task in self.by_priority for one in task.sections if one.resource in self.requested]
        times = {(self.ticks(time, line), line) for time, line in requests}
        if len({ticks for ticks, _ in times}) > 1 or any(ticks % 2 or not ticks for ticks, _ in times):
            raise Fault(min(line for _, line in times), 'the requests don\'t take one even number of ticks')
        return min((ticks for ticks, _ in times), default=2) // 2

    def operation(self, section: Section) -> str:
        """The operation of a section."""
        owner = self.owners[section.resource]
        base = name_of(section.operation)
        base = base[len(owner) + 1:] if base.startswith(owner + '_') and re.match(r'[a-z]', base[len(owner) + 1:]) else base
        known = self.operations.setdefault(owner, {})
        key = (section.operation, section.time)
        if key not in known:
            name, number = base, 1
            while name in self.names.used or name in known.values():
                number += 1
                name = f'{base}_{number}'
            known[key] = name
        return known[key]

    def request(self, name: str) -> str:
        """The operation by which a sporadic thread is requested."""
        found = [one for task in self.by_priority for one in task.sections if one.resource == name]
        return self.operation(found[0]) if found and name in self.requested else 'start'

    def lines(self) -> Iterator[str]:
        """The lines of the design."""
        threads = [line for task in self.by_priority for line in self.thread(task)]
        ticks = f'{self.per_unit} tick' + 's' * (self.per_unit > 1)
        yield f'-- A skeleton from a file of MAST: one unit of time is {ticks}, and each `work` is what remains of a cost.'
        yield from (f'-- {note}' for note in self.notes())
        yield f'DESIGN {self.title} IS'
        yield f'COSTS ASSIGN = {self.assign}; TEST = 1; TURN = 1; CALL = 1; NULL = 1; PUT = 1; FINISH = 1; END COSTS;'
        yield f'OBJECT {self.whole} IS ACTIVE'
        yield 'OBJECTS'
        for name in self.stores:
            yield from self.store(name)
        yield from threads
        yield f'END {self.whole};'
        yield f'END {self.title};'

    def notes(self) -> Iterator[str]:
        """What the program computes otherwise than the file has it."""
        if self.system.overheads:
            yield f'The file has overheads, which no cost here includes: {", ".join(self.system.overheads)}.'
        by_deadline = sorted(self.by_priority, key=lambda task: task.deadline)
        if by_deadline != self.by_priority or len({task.priority for task in self.by_priority}) < len(self.by_priority):
            yield 'The priorities of the file differ: by deadline the order is ' + ', '.join(self.objects[task.name] for task in by_deadline) + '.'
        for name in self.system.resources:
            users = [task.priority for task in self.by_priority if task.name == name or any(one.resource == name for one in task.sections)]
            if users and max(users) != self.system.resources[name]:
                yield f'The ceiling of {name} in the file is {self.system.resources[name]}, and its users have priorities up to {max(users)}.'
            elif not users:
                yield f'No activity locks {name}: it is left out.'

    def store(self, name: str) -> Iterator[str]:
        """The protected object of a resource, if it is used."""
        owner = self.owners[name]
        operations = self.operations.get(owner, {})
        if not operations:
            return
        yield f'  OBJECT {owner} IS PROTECTED'
        yield '  PROVIDES ' + ' '.join(f'{one} PAER;' for one in operations.values())
        for (_, time), one in operations.items():
            yield f'  OPERATION {one} IS BEGIN work ({self.ticks(time, 1)}); END {one};'
        yield f'  END {owner};'

    def thread(self, task: Task) -> Iterator[str]:
        """The object of a task."""
        owner = self.objects[task.name]
        period, deadline, jitter = (self.ticks(time, task.line) for time in (task.period, task.deadline, task.jitter))
        cost = self.ticks(task.cost, task.line)
        if not 1 <= deadline <= period:
            raise Fault(task.line, f'the deadline of {task.name} is not 1 to its period')
        if jitter >= period:
            raise Fault(task.line, f'the jitter of {task.name} is not less than its period')
        is_cyclic = task.is_periodic and not jitter and task.starter is None
        calls = self.calls(task)
        yield f'  OBJECT {owner} IS {"CYCLIC" if is_cyclic else "SPORADIC"}'
        phase = self.ticks(task.phase, task.line)
        offset = f' OFFSET = {phase};' if is_cyclic and phase else ''
        arrival = f' ARRIVAL_JITTER = {jitter};' if not is_cyclic and task.starter is None else ''
        yield (f'  ATTRIBUTES {"PERIOD" if is_cyclic else "SEPARATION"} = {period};{offset} DEADLINE = {deadline};'
               f' THREAD_BUDGET = {cost};{arrival}')
        if not is_cyclic:
            yield f'  PROVIDES {self.request(task.name)} ASER;'
        if calls:
            yield '  REQUIRES ' + ' '.join(f'{text};' for text, _ in calls)
        yield from self.body(task, calls, cost - ENDED)
        yield f'  END {owner};'

    def calls(self, task: Task) -> list[tuple[str, int]]:
        """The calls of a thread and their costs: its sections, then its requests."""
        found: dict[str, int] = {}
        for one in task.sections:
            if one.resource not in self.requested:
                found[f'{self.owners[one.resource]}.{self.operation(one)}'] = CALLED + self.ticks(one.time, task.line)
            elif self.system.tasks[one.resource].starter != task.name:
                raise Fault(task.line, f'{task.name} locks {one.resource}, which another activity releases')
        for other in self.by_priority:
            if other.starter == task.name:
                found[f'{self.objects[other.name]}.{self.request(other.name)}'] = CALLED + 2 * self.assign
        return list(found.items())

    def body(self, task: Task, calls: list[tuple[str, int]], cost: int) -> Iterator[str]:
        """The lines of a body of this cost."""
        rest = cost - sum(ticks for _, ticks in calls)
        if rest > 0 or rest == 0 and calls:
            yield '  THREAD'
            if rest:
                yield f'    work ({rest});'
            yield from (f'    {text};' for text, _ in calls)
            yield '  END THREAD;'
            return
        calls = sorted(calls, key=lambda call: -call[1])
        rest = cost - TESTED * len(calls)
        if rest < 1 or any(TESTED * number + ticks > cost for number, (_, ticks) in enumerate(calls, 1)):
            raise Fault(task.line, f'{task.name} costs less than its calls and its end; give more --ticks')
        yield '  DATA turn : word := 0;'
        yield '  THREAD'
        for number, (text, _) in enumerate(calls):
            yield f'    {"els" if number else ""}if turn = {number} then {text};'
        yield f'    else work ({rest}); end if;'
        yield '  END THREAD;'


def main() -> None:
    """Writes the skeleton of a file."""
    words = sys.argv[1:]
    if words == ['--help']:
        print(__doc__)
        return
    per_unit = 1
    if words[:1] == ['--ticks'] and len(words) > 1 and re.fullmatch(r'[1-9]\d{0,8}', words[1]):
        per_unit, words = int(words[1]), words[2:]
    if len(words) != 1 or words[0].startswith('-'):
        print(__doc__, file=sys.stderr)
        sys.exit(2)
    try:
        with open(words[0], encoding='utf-8') as file:
            system = System(file.read())
        title = name_of(os.path.splitext(os.path.basename(words[0]))[0].lower())
        print('\n'.join(Skeleton(system, per_unit, title).lines()))
    except Fault as fault:
        print(f'from_mast.py: {words[0]}:{fault.line}: {fault}', file=sys.stderr)
        sys.exit(2)
    except (OSError, UnicodeDecodeError) as error:
        print(f'from_mast.py: {words[0]}: {getattr(error, "strerror", None) or "not UTF-8"}', file=sys.stderr)
        sys.exit(2)


if __name__ == '__main__':
    main()
