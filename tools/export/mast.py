"""The text format of MAST, as far as one processor with fixed priorities needs it, and response times by the published equations.

It shares nothing with the program, nor with the scripts that write the format, so that it checks them. The responses are the least solution of
R = C + B + sum over tasks of at least this priority of ceil((R + J) / T) * C (Audsley et al. 1993), with the jitter of an activity that another
one releases being jitter plus response of that one (Tindell and Clark 1994), and B the longest section of a task of lower priority on a resource
whose ceiling is at least this priority. No part of it is proved.
"""

from __future__ import annotations

import re
from dataclasses import dataclass, field
from fractions import Fraction
from typing import Dict, List, Union

TOKEN = re.compile(r'\s+|--[^\n]*|(?P<arrow>=>)|(?P<mark>[(),;])|"(?P<text>[^"\n]*)"|(?P<word>[\w.+-]+)')
NUMBER = re.compile(r'[+]?\d{1,18}(\.\d{0,18})?([eE][+-]?\d{1,2})?')
MOST_NESTED = 50
MOST_STEPS = 10000


class Fault(Exception):
    """What is wrong with a text, with the number of its line."""

    def __init__(self, line: int, what: str) -> None:
        super().__init__(what)
        self.line = line


@dataclass(frozen=True)
class Word:
    """A name or a number, in lower case."""
    text: str
    line: int

    def number(self) -> Fraction:
        """The number that it is."""
        if not NUMBER.fullmatch(self.text):
            raise Fault(self.line, f'{self.text} is not a number')
        return Fraction(self.text)

    def whole(self) -> int:
        """The whole number that it is."""
        if self.number().denominator != 1:
            raise Fault(self.line, f'{self.text} is not a whole number')
        return int(self.number())


@dataclass
class Element:
    """Values by the names of their attributes, in lower case."""
    line: int
    values: Dict[str, Value] = field(default_factory=dict)

    def word(self, name: str) -> Word:
        """The word of an attribute."""
        value = self.values.get(name)
        if not isinstance(value, Word):
            raise Fault(self.line, f'{name} is missing' if value is None else f'{name} is not a single value')
        return value

    def text(self, name: str, default: str | None = None) -> str:
        """The text of a word, or this one if there is none."""
        return default if default is not None and name not in self.values else self.word(name).text

    def number(self, name: str, default: int | None = None) -> Fraction:
        """The number of an attribute, or this one if there is none."""
        return Fraction(default) if default is not None and name not in self.values else self.word(name).number()

    def elements(self, name: str) -> list[Element]:
        """The elements of an attribute: of a list, or a single one."""
        value = self.values.get(name, [])
        many = value if isinstance(value, list) else [value]
        found = [one for one in many if isinstance(one, Element)]
        if len(found) != len(many):
            raise Fault(self.line, f'{name} is not a list of elements')
        return found

    def words(self, name: str) -> list[Word]:
        """The words of an attribute: of a list, or a single one."""
        value = self.values.get(name, [])
        many = value if isinstance(value, list) else [value]
        found = [one for one in many if isinstance(one, Word)]
        if len(found) != len(many):
            raise Fault(self.line, f'{name} is not a list of names')
        return found


Value = Union[Word, Element, List['Value']]


class Parser:
    """Reads the elements of a text."""

    def __init__(self, text: str) -> None:
        self.tokens: list[Word] = []
        self.at = 0
        place, line = 0, 1
        while place < len(text):
            found = TOKEN.match(text, place)
            if not found:
                raise Fault(line, f'no token begins with {text[place]}')
            if found.lastgroup:
                self.tokens.append(Word(found[found.lastgroup].lower(), line))
            line += found[0].count('\n')
            place = found.end()
        self.tokens.append(Word('', line))

    def next(self, wanted: str = '') -> Word:
        """Returns the token here, which must be this one, and moves to the next."""
        token = self.tokens[self.at]
        if not token.text or wanted and token.text != wanted or not wanted and token.text in ('(', ')', ',', ';', '=>'):
            raise Fault(token.line, f'{wanted or "a name or a number"} is missing before {token.text or "the end"}')
        self.at += 1
        return token

    def file(self) -> list[tuple[str, Element]]:
        """The elements of the text, each with its kind."""
        found = []
        while self.tokens[self.at].text:
            kind = self.next()
            value = self.group()
            if not isinstance(value, Element):
                raise Fault(kind.line, f'{kind.text} has no attributes')
            self.next(';')
            found.append((kind.text, value))
        return found

    def group(self, depth: int = 0) -> Value:
        """An element, or a list of values, in parentheses."""
        element, values = Element(self.next('(').line), []
        if depth > MOST_NESTED:
            raise Fault(element.line, f'more than {MOST_NESTED} parentheses are open')
        while True:
            if self.tokens[self.at].text == '(':
                values.append(self.group(depth + 1))
            else:
                word = self.next()
                if self.tokens[self.at].text == '=>':
                    self.at += 1
                    element.values[word.text] = self.group(depth + 1) if self.tokens[self.at].text == '(' else self.next()
                else:
                    values.append(word)
            if self.tokens[self.at].text != ',':
                break
            self.at += 1
        self.next(')')
        if element.values and values:
            raise Fault(element.line, 'a list has both attributes and values')
        return element if element.values else values


@dataclass(frozen=True)
class Section:
    """A time in which a resource is held, in an operation."""
    resource: str
    operation: str
    time: Fraction


@dataclass
class Task:
    """An activity on its server."""
    name: str
    line: int
    priority: int
    is_periodic: bool
    period: Fraction
    jitter: Fraction
    phase: Fraction
    deadline: Fraction
    cost: Fraction
    sections: list[Section]
    starter: str | None


class System:
    """The tasks and the ceilings of a text."""

    def __init__(self, text: str) -> None:
        elements = Parser(text).file()
        self.kinds: dict[str, dict[str, Element]] = {}
        for kind, element in elements:
            if kind == 'model':
                continue
            named = self.kinds.setdefault(kind, {})
            name = element.text('name')
            if name in named:
                raise Fault(element.line, f'{name} is there twice')
            named[name] = element
        processors = list(self.kinds.get('processing_resource', {}).values())
        if len(processors) != 1:
            raise Fault(processors[1].line if processors else 1, 'one processing resource is wanted')
        if processors[0].text('type', 'regular_processor') not in ('regular_processor', 'fixed_priority_processor'):
            raise Fault(processors[0].line, f'a processing resource of type {processors[0].text("type")} is not read')
        for scheduler in self.kinds.get('scheduler', {}).values():
            for policy in scheduler.elements('policy'):
                if policy.text('type') != 'fixed_priority':
                    raise Fault(policy.line, f'a scheduler of policy {policy.text("type")} is not read')
        self.speed = processors[0].number('speed_factor', 1)
        if not self.speed:
            raise Fault(processors[0].line, 'the speed factor is 0')
        platform = [*processors, *self.kinds.get('scheduler', {}).values()]
        parts = platform + [policy for one in platform if 'policy' in one.values for policy in one.elements('policy')]
        self.overheads = sorted({name for one in parts for name in one.values if name.startswith('worst_') and one.number(name)})
        self.resources = {name: self.ceiling(one) for name, one in self.kinds.get('shared_resource', {}).items()}
        self.tasks: dict[str, Task] = {}
        for transaction in self.kinds.get('transaction', {}).values():
            self.transaction(transaction)
        if not self.tasks:
            raise Fault(1, 'no transaction has an activity')

    def ceiling(self, resource: Element) -> int:
        """The ceiling of a resource."""
        if resource.text('type') != 'immediate_ceiling_resource':
            raise Fault(resource.line, f'{resource.text("type")} is not an immediate ceiling resource')
        return resource.word('ceiling').whole() if 'ceiling' in resource.values else 0

    def find(self, kind: str, name: Word) -> Element:
        """The element of a kind with a name."""
        found = self.kinds.get(kind, {}).get(name.text)
        if found is None:
            raise Fault(name.line, f'there is no {kind} {name.text}')
        return found

    def transaction(self, transaction: Element) -> None:
        """Adds the tasks of a transaction, each after the one that releases it."""
        events = transaction.elements('external_events')
        if len(events) != 1:
            raise Fault(transaction.line, f'transaction {transaction.text("name")} has not exactly one external event')
        handlers = transaction.elements('event_handlers')
        worklist: list[tuple[str, str | None]] = [(events[0].text('name'), None)]
        taken = 0
        while worklist:
            event, starter = worklist.pop(0)
            if taken > len(handlers):
                break
            for handler in [one for one in handlers if one.text('input_event') == event]:
                taken += 1
                if handler.text('type') == 'activity':
                    task = self.task(transaction, events[0], handler, starter)
                    worklist.append((handler.text('output_event'), task.name))
                elif handler.text('type') == 'multicast':
                    worklist += [(one.text, starter) for one in handler.words('output_events_list')]
                else:
                    raise Fault(handler.line, f'a handler of type {handler.text("type")} is not read')
        if taken != len(handlers):
            raise Fault(transaction.line, f'transaction {transaction.text("name")} has a handler that its external event does not reach once')

    def task(self, transaction: Element, event: Element, handler: Element, starter: str | None) -> Task:
        """Adds the task of an activity."""
        server_name = handler.word('activity_server')
        server = self.find('scheduling_server', server_name)
        policies = server.elements('server_sched_parameters')
        if len(policies) != 1 or policies[0].text('type') != 'fixed_priority_policy':
            raise Fault(server.line, f'{server_name.text} has no fixed priority policy')
        kind = event.text('type')
        if kind not in ('periodic', 'sporadic'):
            raise Fault(event.line, f'an external event of type {kind} is not read')
        period = event.word('period' if kind == 'periodic' else 'min_interarrival')
        if period.number() <= 0:
            raise Fault(period.line, 'a period is 0')
        if server_name.text in self.tasks:
            raise Fault(server_name.line, f'the server {server_name.text} has a second activity')
        cost, sections = self.cost(handler.word('activity_operation'))
        task = Task(server_name.text, handler.line, policies[0].word('the_priority').whole(), kind == 'periodic', period.number(),
                    event.number('max_jitter', 0) if starter is None else Fraction(0), event.number('phase', 0),
                    self.deadline(transaction, event, handler, period.number()), cost, sections, starter)
        self.tasks[task.name] = task
        return task

    def deadline(self, transaction: Element, event: Element, handler: Element, period: Fraction) -> Fraction:
        """The deadline of an activity after its release, which is the period if there is none."""
        for output in transaction.elements('internal_events'):
            if output.text('name') != handler.text('output_event'):
                continue
            for wanted in output.elements('timing_requirements'):
                is_own = wanted.text('referenced_event', '') == handler.text('input_event') and not event.number('max_jitter', 0)
                if wanted.text('type') == 'hard_local_deadline' or wanted.text('type') == 'hard_global_deadline' and is_own:
                    return wanted.number('deadline')
                why = ' that does not count from the release of its activity' if wanted.text('type') == 'hard_global_deadline' else ''
                raise Fault(wanted.line, f'a {wanted.text("type")}{why} is not read')
        return period

    def cost(self, name: Word) -> tuple[Fraction, list[Section]]:
        """The cost of an operation and its sections."""
        operation = self.find('operation', name)
        steps: list[Word] = []
        self.steps(name, 0, steps)
        sections, now = [], Fraction(0)
        held: dict[str, tuple[Fraction, Word]] = {}
        for step in steps:
            one = self.find('operation', step)
            both = one.words('shared_resources_list')
            for resource in both + one.words('shared_resources_to_lock'):
                self.find('shared_resource', resource)
                if resource.text in held:
                    raise Fault(resource.line, f'{resource.text} is locked twice')
                held[resource.text] = (now, step)
            now += one.number('worst_case_execution_time') / self.speed
            for resource in both + one.words('shared_resources_to_unlock'):
                if resource.text not in held:
                    raise Fault(resource.line, f'{resource.text} is not locked here')
                since, first = held.pop(resource.text)
                sections.append(Section(resource.text, first.text, now - since))
        if held:
            raise Fault(operation.line, f'{min(held)} is not unlocked')
        if operation.text('type') == 'enclosing':
            return operation.number('worst_case_execution_time') / self.speed, sections
        return now, sections

    def steps(self, name: Word, depth: int, found: list[Word]) -> None:
        """Adds the simple operations of an operation, in order."""
        operation = self.find('operation', name)
        kind = operation.text('type')
        if len(found) > MOST_STEPS or depth > MOST_NESTED:
            raise Fault(name.line, f'{name.text} has more than {MOST_STEPS} operations, or {MOST_NESTED} inside one another')
        if kind == 'simple':
            found.append(name)
            return
        if kind not in ('composite', 'enclosing'):
            raise Fault(name.line, f'an operation of type {kind} is not read')
        if kind == 'enclosing' and depth:
            raise Fault(name.line, 'an enclosing operation inside another one is not read')
        for one in operation.words('composite_operation_list'):
            self.steps(one, depth + 1, found)

    def blocking(self, task: Task) -> Fraction:
        """The longest section by which a task of lower priority delays a task."""
        return max((one.time for other in self.tasks.values() if other.priority < task.priority
                    for one in other.sections if self.resources[one.resource] >= task.priority), default=Fraction(0))

    def responses(self) -> dict[str, tuple[Fraction, Fraction]] | None:
        """Jitter and response of each task by the equations, and None if one passes its period."""
        found = {task.name: (task.jitter, task.cost) for task in self.tasks.values()}
        before: dict[str, tuple[Fraction, Fraction]] = {}
        while before != found:
            before = dict(found)
            for task in self.tasks.values():
                jitter = sum(found[task.starter]) if task.starter is not None else task.jitter
                above = [other for other in self.tasks.values() if other.priority >= task.priority and other is not task]
                response = found[task.name][1]
                response = task.cost + self.blocking(task) + sum(
                    (-(-(response + found[other.name][0]) // other.period) * other.cost for other in above), Fraction(0))
                if jitter + response > task.period:
                    return None
                found[task.name] = (Fraction(jitter), response)
        return found
