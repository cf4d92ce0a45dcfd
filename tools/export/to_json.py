#!/usr/bin/env python3
"""A design with its bounds in JSON, by the schema in design.schema.json.

    to_json.py DESIGN >FILE

Times are in ticks; `tick_us` is the tick in microseconds, or null. Tasks come by priority, each with the sections in which it holds a resource;
resources are protected objects and the control structures of sporadic objects. Not carried over: the tree of objects, passive operations, data,
and what bodies compute.

PROGRAM is the path of the program, and the proved program of this repository if it isn't set. The numbers are those of `explain`; the ticks of
sections are computed by this script from what `format` writes. It claims no proof. The status is 1 if the program refuses the design or its
bounds, and 2 for other words.
"""

from __future__ import annotations

import json
from typing import Any

from exported import Resource, System, Task, main_of


def task_of(task: Task) -> dict[str, Any]:
    """A task as the schema has it."""
    return {
        'name': task.name, 'kind': 'cyclic' if task.is_cyclic else 'sporadic', 'period': task.period, 'offset': task.offset,
        'deadline': task.deadline, 'arrival_jitter': task.arrival_jitter, 'started_by': task.starter, 'budget': task.budget,
        'priority': task.priority, 'jitter': task.jitter, 'cost': task.cost, 'blocking': task.blocking, 'response': task.response,
        'sections': [{'resource': one.resource, 'operation': one.operation, 'ticks': one.ticks} for one in task.sections],
    }


def resource_of(resource: Resource) -> dict[str, Any]:
    """A resource as the schema has it."""
    return {'name': resource.name, 'kind': 'protected' if resource.is_protected else 'sporadic', 'ceiling': resource.ceiling}


def written(system: System) -> str:
    """The text of a system."""
    low, high = system.priorities
    value = {'format': 'lafomizana-design-1', 'name': system.name, 'tick_us': system.tick, 'priorities': {'lowest': low, 'highest': high},
             'tasks': [task_of(task) for task in system.tasks], 'resources': [resource_of(one) for one in system.resources]}
    return json.dumps(value, indent=2) + '\n'


if __name__ == '__main__':
    main_of('to_json.py', __doc__, written)
