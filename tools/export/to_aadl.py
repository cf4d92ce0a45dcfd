#!/usr/bin/env python3
"""A design as a package of AADL (SAE AS5506, version 2), with the properties of its standard property sets.

    to_aadl.py DESIGN >FILE

Each thread is a thread with Dispatch_Protocol, Period, Deadline, Dispatch_Offset, Dispatch_Jitter, Compute_Execution_Time and Priority; the jitter of
a thread that another one requests is that of the bounds. A request is a connection of event ports. Each protected object is a data component with its
ceiling as Priority and with Priority_Ceiling as Concurrency_Control_Protocol; each operation in which a thread holds it is a subprogram that the
thread calls, with the ticks of the section as Compute_Execution_Time. Execution times run from 0, since least times are not known. The control
structure of a sporadic object that is requested is a data component too, `NAME_control`.

A tick is the TICK of the design, and without TICK it is written as 1 us. Bounds are comments. Not carried over: the tree of objects, passive
operations, data, budgets, the order of calls, and loops.

PROGRAM is the path of the program, and the proved program of this repository if it isn't set. It claims no proof. The status is 1 if the program
refuses the design or its bounds, and 2 for other words.
"""

from __future__ import annotations

from typing import Iterator

from exported import Names, Resource, Section, System, Task, main_of

RESERVED = '''aadlboolean aadlinteger aadlreal aadlstring abstract access all and annex applies binding bus calls classifier compute connections
constant data delta device end enumeration event extends false feature features flow flows group implementation in inherit initial
inverse is list memory mode modes none not of or out package parameter path port private process processor properties property
prototypes provides public range record reference refined renames requires self set sink source subcomponents subprogram system
thread to true type units virtual with application requested sequence'''


class Writer:
    """Writes a system."""

    def __init__(self, system: System) -> None:
        self.system = system
        self.names = Names(RESERVED)
        for task in system.tasks:
            self.names.of(task.name)
        self.sections = {(one.resource, one.operation): one for task in system.tasks for one in task.sections}
        held = {one.resource for one in self.sections.values()}
        self.resources = [one for one in system.resources if one.name in held or one.is_protected]

    def time(self, ticks: int) -> str:
        """A time with its unit."""
        return f'{ticks * (self.system.tick or 1)} us'

    def store(self, name: str) -> str:
        """The name of the data component of a resource."""
        is_protected = next(one.is_protected for one in self.resources if one.name == name)
        return self.names.of(name) if is_protected else self.names.of(name, 'control')

    def lines(self) -> Iterator[str]:
        """The lines of the package."""
        name = self.names.of(self.system.name, 'design')
        yield f'-- {self.system.name}, as the proved program bounds it; ' + (
            f'a tick is {self.system.tick} us.' if self.system.tick is not None else 'the design has no TICK, so a tick is written as 1 us.')
        yield f'package {name}\npublic'
        for section in self.sections.values():
            yield from self.subprogram(section)
        for resource in self.resources:
            yield from self.data(resource)
        for task in self.system.tasks:
            yield from self.thread(task)
        yield from self.process()
        yield '   processor hrt_processor\n   properties\n      Scheduling_Protocol => (POSIX_1003_HIGHEST_PRIORITY_FIRST_PROTOCOL);'
        yield '   end hrt_processor;'
        yield '   system hrt_system\n   end hrt_system;\n   system implementation hrt_system.application\n   subcomponents'
        yield '      software : process hrt_software.application;\n      cpu : processor hrt_processor;\n   properties'
        yield '      Actual_Processor_Binding => (reference (cpu)) applies to software;\n   end hrt_system.application;'
        yield f'end {name};'

    def subprogram(self, section: Section) -> Iterator[str]:
        """The subprogram of a section."""
        name = self.names.of(section.resource, section.operation)
        yield f'   subprogram {name}\n   properties\n      Compute_Execution_Time => 0 us .. {self.time(section.ticks)};\n   end {name};'

    def data(self, resource: Resource) -> Iterator[str]:
        """The data component of a resource."""
        name = self.store(resource.name)
        yield f'   data {name}'
        operations = [one for one in self.sections.values() if one.resource == resource.name]
        if operations:
            yield '   features'
            for one in operations:
                yield f'      {self.feature(one)} : provides subprogram access {self.names.of(one.resource, one.operation)};'
        yield f'   properties\n      Concurrency_Control_Protocol => Priority_Ceiling;\n      Priority => {resource.ceiling};\n   end {name};'

    def feature(self, section: Section) -> str:
        """The feature of a data component by which a section is called."""
        return f'call_{section.operation}'

    def thread(self, task: Task) -> Iterator[str]:
        """The thread of a task, with its calls."""
        name = self.names.of(task.name)
        features = [f'      use_{self.store(one)} : requires data access {self.store(one)};' for one in self.used(task)]
        features += [f'      start_{self.names.of(other.name)} : out event port;' for other in self.system.started_by(task.name)]
        features += ['      requested : in event port;'] if not task.is_cyclic else []
        yield f'   -- {task.name}: blocking {task.blocking}, response {task.response} ticks\n   thread {name}'
        if features:
            yield '   features\n' + '\n'.join(features)
        yield f'   properties\n      Dispatch_Protocol => {"Periodic" if task.is_cyclic else "Sporadic"};\n      Period => {self.time(task.period)};'
        yield f'      Deadline => {self.time(task.deadline)};\n      Compute_Execution_Time => 0 us .. {self.time(task.cost)};'
        if task.is_cyclic:
            yield f'      Dispatch_Offset => {self.time(task.offset)};'
        yield f'      Dispatch_Jitter => {self.time(task.jitter)};\n      Priority => {task.priority};\n   end {name};'
        yield f'   thread implementation {name}.application'
        if task.sections:
            calls = [f'         call_{number} : subprogram {self.store(one.resource)}.{self.feature(one)};'
                     for number, one in enumerate(task.sections, 1)]
            yield '   calls\n      sequence : {\n' + '\n'.join(calls) + '\n      };'
        yield f'   end {name}.application;'

    def used(self, task: Task) -> list[str]:
        """The resources that a task holds."""
        return list(dict.fromkeys(one.resource for one in task.sections))

    def process(self) -> Iterator[str]:
        """The process with all threads and data, and its connections."""
        yield '   process hrt_software\n   end hrt_software;\n   process implementation hrt_software.application\n   subcomponents'
        for resource in self.resources:
            yield f'      the_{self.store(resource.name)} : data {self.store(resource.name)};'
        for task in self.system.tasks:
            yield f'      the_{self.names.of(task.name)} : thread {self.names.of(task.name)}.application;'
        connections = []
        for task in self.system.tasks:
            name = self.names.of(task.name)
            connections += [f'data access the_{self.store(one)} <-> the_{name}.use_{self.store(one)}' for one in self.used(task)]
            connections += [f'port the_{name}.start_{self.names.of(other.name)} -> the_{self.names.of(other.name)}.requested'
                            for other in self.system.started_by(task.name)]
        if connections:
            yield '   connections\n' + '\n'.join(f'      connection_{number} : {text};' for number, text in enumerate(connections, 1))
        yield '   end hrt_software.application;'


def written(system: System) -> str:
    """The text of a system."""
    return '\n'.join(Writer(system).lines()) + '\n'


if __name__ == '__main__':
    main_of('to_aadl.py', __doc__, written)
