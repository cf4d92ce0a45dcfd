#!/usr/bin/env python3
"""A design in the text format of MAST (Gonzalez Harbour et al. 2001; file format of MAST 1.3 and later).

    to_mast.py DESIGN >FILE

One unit of time is a tick. A thread is a scheduling server with its priority and an enclosing operation with its cost and its sections; a protected
object, or the control structure of a sporadic object, is an immediate ceiling resource. A cyclic thread has a periodic event with its OFFSET as
phase. A thread that is requested from outside has a sporadic event, or with ARRIVAL_JITTER a periodic one with that jitter, since sporadic events of
MAST have none: the worst case is the same. A thread that another thread requests follows it in the transaction of that one. If its SEPARATION is
not the period of the starter, it has a transaction of its own, with the jitter that the program computed, and a comment says so.

Not carried over: the tree of objects, passive operations, data, budgets, and where in an activation sections and requests are.

PROGRAM is the path of the program, and the proved program of this repository if it isn't set. It claims no proof. The status is 1 if the program
refuses the design or its bounds, and 2 for other words.
"""

from __future__ import annotations

from typing import Iterator

from exported import Names, Section, System, Task, main_of, time_of

# Words of the format that a name could be.
RESERVED = '''processing_resource scheduler scheduling_server shared_resource operation transaction model regular simple composite enclosing periodic
sporadic singular unbounded bursty activity multicast barrier delay offset name type host policy priority fixed_priority period phase deadline
speed_factor ceiling preassigned yes no the_priority processor fixed_priority_scheduler hard_local_deadline'''


class Writer:
    """Writes a system."""

    def __init__(self, system: System) -> None:
        self.system = system
        self.names = Names(RESERVED)
        self.tasks = {task.name: task for task in system.tasks}
        # First, so that they get the names of the design.
        for name in (*self.tasks, *(resource.name for resource in system.resources)):
            self.names.of(name)

    def lines(self) -> Iterator[str]:
        """The lines of the text."""
        yield f'-- {self.system.name}, as the proved program bounds it; one unit of time is {time_of(1, self.system.tick)}.'
        yield from self.platform()
        for resource in self.system.resources:
            yield f'Shared_Resource (\n   Type => Immediate_Ceiling_Resource,\n   Name => {self.names.of(resource.name)},'
            yield f'   Ceiling => {resource.ceiling},\n   Preassigned => YES);'
        for section in sorted({one for task in self.system.tasks for one in task.sections}, key=lambda one: (one.resource, one.operation)):
            yield from self.section(section)
        for task in self.system.tasks:
            yield from self.task(task)
        for task in self.system.tasks:
            if self.is_first(task):
                yield from self.transaction(task)

    def platform(self) -> Iterator[str]:
        """The processor and its scheduler."""
        low, high = self.system.priorities
        yield f'Processing_Resource (\n   Type => Regular_Processor,\n   Name => hrt_processor,\n   Max_Interrupt_Priority => {high + 1},'
        yield f'   Min_Interrupt_Priority => {high + 1},\n   Worst_ISR_Switch => 0.0,\n   Speed_Factor => 1.0);'
        yield 'Scheduler (\n   Type => Primary_Scheduler,\n   Name => hrt_scheduler,\n   Host => hrt_processor,\n   Policy => ('
        yield f'      Type => Fixed_Priority,\n      Worst_Context_Switch => 0.0,\n      Max_Priority => {high},\n      Min_Priority => {low}));'

    def section(self, section: Section) -> Iterator[str]:
        """The operation of a section."""
        yield f'Operation (\n   Type => Simple,\n   Name => {self.names.of(section.resource, section.operation)},'
        yield f'   Worst_Case_Execution_Time => {section.ticks}.0,\n   Shared_Resources_List => ({self.names.of(section.resource)}));'

    def task(self, task: Task) -> Iterator[str]:
        """The server and the operation of a task."""
        yield f'Scheduling_Server (\n   Type => Regular,\n   Name => {self.names.of(task.name)},\n   Server_Sched_Parameters => ('
        yield f'      Type => Fixed_Priority_Policy,\n      The_Priority => {task.priority},\n      Preassigned => YES),'
        yield '   Scheduler => hrt_scheduler);'
        inner = ', '.join(self.names.of(one.resource, one.operation) for one in task.sections)
        yield f'Operation (\n   Type => {"Enclosing" if inner else "Simple"},\n   Name => {self.names.of(task.name, "body")},'
        yield f'   Worst_Case_Execution_Time => {task.cost}.0' + (f',\n   Composite_Operation_List => ({inner}));' if inner else ');')

    def is_first(self, task: Task) -> bool:
        """Whether a task begins a transaction."""
        return task.starter is None or self.tasks[task.starter].period != task.period

    def chain(self, task: Task) -> list[Task]:
        """A task and those that follow it in its transaction, each before those that it requests."""
        return [task, *(one for other in self.system.started_by(task.name) if not self.is_first(other) for one in self.chain(other))]

    def event(self, task: Task) -> Iterator[str]:
        """The external event of a transaction."""
        jitter = task.jitter
        yield f'      (Type => {"Periodic" if task.is_cyclic or jitter else "Sporadic"},'
        yield f'       Name => {self.names.of(task.name, "released")},'
        if not task.is_cyclic and not jitter:
            yield f'       Min_Interarrival => {task.period}.0)),'
            return
        yield f'       Period => {task.period}.0,'
        yield f'       Max_Jitter => {jitter}.0,'
        yield f'       Phase => {task.offset}.0)),'

    def transaction(self, first: Task) -> Iterator[str]:
        """The transaction that begins with a task."""
        if first.starter is not None:
            yield f'-- {first.name} is requested by {first.starter}; its jitter is that of the bounds, since the periods differ.'
        yield f'Transaction (\n   Type => Regular,\n   Name => {self.names.of(first.name, "transaction")},\n   External_Events => ('
        yield from self.event(first)
        chain = self.chain(first)
        yield '   Internal_Events => ('
        yield ',\n'.join(text for task in chain for text in self.events_of(task)) + '),'
        yield '   Event_Handlers => ('
        yield ',\n'.join(text for task in chain for text in self.handlers_of(task)) + '));'

    def events_of(self, task: Task) -> Iterator[str]:
        """The internal events of a task: its end, and the releases of the tasks that it requests, if they are several."""
        ended = self.names.of(task.name, 'ended')
        yield (f'      (Type => Regular,\n       Name => {ended},\n       Timing_Requirements => (\n'
               f'          Type => Hard_Local_Deadline,\n          Deadline => {task.deadline}.0))')
        followers = [other for other in self.system.started_by(task.name) if not self.is_first(other)]
        if len(followers) > 1:
            yield from (f'      (Type => Regular,\n       Name => {self.names.of(other.name, "released")})' for other in followers)

    def handlers_of(self, task: Task) -> Iterator[str]:
        """The handlers of a task: its activity, and the one that releases several tasks."""
        followers = [other for other in self.system.started_by(task.name) if not self.is_first(other)]
        yield (f'      (Type => Activity,\n       Input_Event => {self.input_of(task)},\n'
               f'       Output_Event => {self.names.of(task.name, "ended")},\n'
               f'       Activity_Operation => {self.names.of(task.name, "body")},\n       Activity_Server => {self.names.of(task.name)})')
        if len(followers) > 1:
            outputs = ', '.join(self.names.of(other.name, 'released') for other in followers)
            yield (f'      (Type => Multicast,\n       Input_Event => {self.names.of(task.name, "ended")},\n'
                   f'       Output_Events_List => ({outputs}))')

    def input_of(self, task: Task) -> str:
        """The event that releases a task."""
        if task.starter is not None and not self.is_first(task):
            followers = [other for other in self.system.started_by(task.starter) if not self.is_first(other)]
            if len(followers) == 1:
                return self.names.of(task.starter, 'ended')
        return self.names.of(task.name, 'released')


def written(system: System) -> str:
    """The text of a system."""
    return '\n'.join(Writer(system).lines()) + '\n'


if __name__ == '__main__':
    main_of('to_mast.py', __doc__, written)
