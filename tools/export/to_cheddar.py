#!/usr/bin/env python3
"""A design in the XML of Cheddar (Singhoff et al. 2004; the files of Cheddar 3).

    to_cheddar.py DESIGN >FILE

One unit of time is a tick. Each thread is a periodic or sporadic task with its priority, period, deadline, offset, jitter and blocking time; the
jitter of a thread that another one requests is that of the bounds, so no precedence is written. Each protected object, and each control structure of
a sporadic object that is requested, is a resource with the immediate ceiling protocol and its ceiling, with a critical section for each operation in
which a task holds it. The lengths of sections are those of the design; where they begin in an activation is schematic: one after another, and as
late as they fit if they are in branches that exclude each other.

Not carried over: the tree of objects, passive operations, data, budgets and who requests whom.

PROGRAM is the path of the program, and the proved program of this repository if it isn't set. It claims no proof. The status is 1 if the program
refuses the design or its bounds, and 2 for other words.
"""

from __future__ import annotations

from typing import Iterator

from exported import Resource, System, Task, main_of

PROTOCOL = 'IMMEDIATE_PRIORITY_CEILING_PROTOCOL'


def tags(indent: int, **values: object) -> Iterator[str]:
    """Elements with these values, a line each."""
    yield from (f'{" " * indent}<{name}>{value}</{name}>' for name, value in values.items())


def places(task: Task) -> list[tuple[int, int]]:
    """The first and the last unit of execution of each section of a task."""
    found, now = [], 0
    for one in task.sections:
        first = min(now, task.cost - one.ticks)
        found.append((first + 1, first + one.ticks))
        now = first + one.ticks
    return found


def platform(system: System) -> Iterator[str]:
    """The core, the processor and the address space."""
    yield '  <core_units>\n    <core_unit id="id_1">'
    yield from tags(6, object_type='CORE_OBJECT_TYPE', name='hrt_core')
    yield '      <scheduling>\n        <scheduling_parameters>'
    yield from tags(10, scheduler_type='POSIX_1003_HIGHEST_PRIORITY_FIRST_PROTOCOL', quantum=0, preemptive_type='PREEMPTIVE', capacity=0, period=0,
                    priority=0, start_time=0)
    yield '        </scheduling_parameters>\n      </scheduling>\n      <speed>1.0</speed>\n    </core_unit>\n  </core_units>'
    yield '  <processors>\n    <mono_core_processor id="id_2">'
    yield from tags(6, object_type='PROCESSOR_OBJECT_TYPE', name='hrt_processor', processor_type='MONOCORE_TYPE',
                    migration_type='NO_MIGRATION_TYPE')
    yield '      <core ref="id_1"></core>\n    </mono_core_processor>\n  </processors>'
    yield '  <address_spaces>\n    <address_space id="id_3">'
    yield from tags(6, object_type='ADDRESS_SPACE_OBJECT_TYPE', name=system.name, cpu_name='hrt_processor', text_memory_size=0, stack_memory_size=0,
                    data_memory_size=0, heap_memory_size=0)
    yield '    </address_space>\n  </address_spaces>'


def task_of(system: System, number: int, task: Task) -> Iterator[str]:
    """The element of a task."""
    kind = 'periodic' if task.is_cyclic else 'sporadic'
    yield f'    <{kind}_task id="id_{number}">'
    yield from tags(6, object_type='TASK_OBJECT_TYPE', name=task.name, task_type=f'{kind.upper()}_TYPE', cpu_name='hrt_processor',
                    address_space_name=system.name, capacity=task.cost, deadline=task.deadline, start_time=task.offset, priority=task.priority,
                    blocking_time=task.blocking, policy='SCHED_FIFO', text_memory_size=0, stack_memory_size=0, criticality=0,
                    context_switch_overhead=0, period=task.period, jitter=task.jitter)
    yield f'    </{kind}_task>'


def resource_of(system: System, number: int, resource: Resource) -> Iterator[str]:
    """The element of a resource."""
    yield f'    <ipcp_resource id="id_{number}">'
    yield from tags(6, object_type='RESOURCE_OBJECT_TYPE', name=resource.name, state=1, size=0, address=0, protocol=PROTOCOL)
    yield '      <critical_sections>'
    for task in system.tasks:
        for one, (first, last) in zip(task.sections, places(task)):
            if one.resource == resource.name:
                yield f'        <task_name>{task.name}</task_name>\n        <critical_section>'
                yield from tags(10, task_begin=first, task_end=last)
                yield '        </critical_section>'
    yield '      </critical_sections>'
    yield from tags(6, cpu_name='hrt_processor', address_space_name=system.name, priority=resource.ceiling,
                    priority_assignment='MANUAL_ASSIGNMENT')
    yield '    </ipcp_resource>'


def lines(system: System) -> Iterator[str]:
    """The lines of the text."""
    yield '<?xml version="1.0" encoding="utf-8"?>'
    yield '<cheddar>'
    yield from platform(system)
    yield '  <tasks>'
    for number, task in enumerate(system.tasks, 4):
        yield from task_of(system, number, task)
    yield '  </tasks>'
    held = {one.resource for task in system.tasks for one in task.sections}
    resources = [resource for resource in system.resources if resource.name in held]
    if resources:
        yield '  <resources>'
        for number, resource in enumerate(resources, 4 + len(system.tasks)):
            yield from resource_of(system, number, resource)
        yield '  </resources>'
    yield '</cheddar>'


def written(system: System) -> str:
    """The text of a system."""
    return '\n'.join(lines(system)) + '\n'


if __name__ == '__main__':
    main_of('to_cheddar.py', __doc__, written)
