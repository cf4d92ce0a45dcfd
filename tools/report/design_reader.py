"""A design as `format` writes it: its objects, what their bodies cost and call, and bodies of other costs. No part of it is proved."""
from __future__ import annotations

import re
from dataclasses import dataclass, field
from typing import Iterator, List, Tuple, Union

UNITS = {'us': 1, 'ms': 1000, 's': 1000000}
COST = re.compile(r'(ASSIGN|TEST|TURN|CALL|NULL|PUT|FINISH) = (\d+);')
TICK = re.compile(r'TICK = (\d+) (\w+);')
ATTRIBUTE = re.compile(r'(PERIOD|OFFSET|SEPARATION|DEADLINE|THREAD_BUDGET|ARRIVAL_JITTER) = (\d+)(?: (us|ms|s))?;')
LOOP = re.compile(r'for \w+ in word range (\d+) \.\. (\d+) loop')
CALL = re.compile(r'(\w+)\.(\w+)[ ;]')
LINK = re.compile(r'(\w+) BY (\w+)\.(\w+);')
BLOCK_ENDS = re.compile(r'(END|elsif|else|end)\b')

Operation = Tuple[str, str]


@dataclass(frozen=True)
class Plain:
    """A statement that calls nothing and has no block, by its cost."""
    cost: int


@dataclass(frozen=True)
class Call:
    """A call, as it is written, with the operation that it names."""
    text: str
    operation: Operation


@dataclass(frozen=True)
class If:
    """The branches of an `if`: the head of each, how many conditions are evaluated before its block, and the block."""
    branches: list[tuple[str, int, Block]]


@dataclass(frozen=True)
class For:
    """A loop by its head and its number of iterations."""
    head: str
    turns: int
    block: Block


Statement = Union[Plain, Call, If, For]
Block = List[Statement]


@dataclass(frozen=True)
class Body:
    """A block with the number of its first line in the design, and that of the line after its last."""
    first: int
    end: int
    block: Block


@dataclass
class Object:
    """An object of a design. Attributes are in ticks, and have the number of their line."""
    name: str
    kind: str
    has_children: bool = False
    attributes: dict[str, int] = field(default_factory=dict)
    lines: dict[str, int] = field(default_factory=dict)
    operations: dict[str, Body] = field(default_factory=dict)
    thread: Body | None = None
    links: dict[str, Operation] = field(default_factory=dict)


class Reader:
    """Reads a formatted design line by line."""

    def __init__(self, text: str) -> None:
        self.lines = [line.strip() for line in text.split('\n')]
        self.at = 0
        self.costs = {name: int(ticks) for name, ticks in COST.findall(text)}
        found = TICK.search(text)
        self.tick = int(found[1]) * UNITS[found[2]] if found else None

    def next(self) -> str:
        """Returns the line here, and moves to the next."""
        self.at += 1
        return self.lines[self.at - 1]

    def block(self) -> Block:
        """Reads statements to the line that ends their block."""
        block = []
        while not BLOCK_ENDS.match(self.lines[self.at]):
            block.append(self.statement())
        return block

    def statement(self) -> Statement:
        """Reads one statement."""
        line = self.next()
        if line.startswith('if '):
            return self.branches(line)
        if found := LOOP.fullmatch(line):
            block = self.block()
            self.next()
            return For(line, max(0, int(found[2]) - int(found[1]) + 1), block)
        if found := CALL.match(line):
            return Call(line, (found[1], found[2]))
        return Plain(self.plain_cost(line))

    def branches(self, head: str) -> If:
        """Reads the rest of an `if` after its head."""
        branches, tests = [], 0
        while head != 'end if;':
            tests += head != 'else'
            block = self.block()
            branches.append((head, tests, block))
            head = self.next()
        if branches[-1][0] != 'else':
            branches.append(('else', tests, []))
        return If(branches)

    def plain_cost(self, line: str) -> int:
        """The cost of a statement that calls nothing and has no block."""
        if found := re.fullmatch(r'work \((\d+)\);', line):
            return int(found[1])
        return self.costs[{'null': 'NULL', 'put': 'PUT', 'exit': 'TEST'}.get(re.split(r'\W', line)[0], 'ASSIGN')]

    def body(self) -> Body:
        """Reads a body from its first statement on."""
        first = self.at
        block = self.block()
        return Body(first, self.at, block)

    def operation(self, owner: Object, name: str) -> None:
        """Reads an operation after its head."""
        while self.next() != 'BEGIN':
            pass
        owner.operations[name] = self.body()

    def objects(self) -> list[Object]:
        """Reads all objects, each before its children."""
        objects: list[Object] = []
        outer: list[Object] = []
        while self.at < len(self.lines):
            line = self.next()
            words = line.split()
            if words[:1] == ['OBJECT']:
                if outer:
                    outer[-1].has_children = True
                outer.append(Object(words[1], words[3]))
                objects.append(outer[-1])
            elif outer and line == f'END {outer[-1].name};':
                outer.pop()
            elif outer:
                self.part(outer[-1], line)
        return objects

    def part(self, owner: Object, line: str) -> None:
        """Reads a part of an object that begins with this line."""
        words = line.split()
        if line == 'THREAD':
            owner.thread = self.body()
        elif words[:1] == ['OPERATION']:
            self.operation(owner, words[1])
        elif found := ATTRIBUTE.fullmatch(line):
            owner.attributes[found[1]] = int(found[2]) * UNITS[found[3]] // (self.tick or 1) if found[3] else int(found[2])
            owner.lines[found[1]] = self.at - 1
        elif found := LINK.fullmatch(line):
            owner.links[found[1]] = (found[2], found[3])


class Design:
    """A design as `format` writes it, with what its bodies cost and whom they call."""

    def __init__(self, text: str) -> None:
        reader = Reader(text)
        self.lines = text.split('\n')
        self.costs, self.tick = reader.costs, reader.tick
        self.objects = reader.objects()
        self.by_name = {one.name: one for one in self.objects}
        self.threads = [one for one in self.objects if one.thread is not None]

    def target(self, operation: Operation) -> Operation:
        """The operation to which a call leads through the links of parents."""
        while self.by_name[operation[0]].has_children:
            operation = self.by_name[operation[0]].links[operation[1]]
        return operation

    def body_of(self, operation: Operation) -> Body | None:
        """The body of an operation, and None of a request."""
        return self.by_name[operation[0]].operations.get(operation[1])

    def calls(self, block: Block, is_live: bool) -> Iterator[Operation]:
        """The operations that a block calls, with or without those in loops of no iteration."""
        for one in block:
            if isinstance(one, Call):
                yield self.target(one.operation)
            elif isinstance(one, If):
                for _, _, branch in one.branches:
                    yield from self.calls(branch, is_live)
            elif isinstance(one, For) and (one.turns > 0 or not is_live):
                yield from self.calls(one.block, is_live)

    def reached(self, block: Block, is_live: bool) -> list[Operation]:
        """The operations that a block calls, directly and through others."""
        reached: set[Operation] = set()
        worklist = list(self.calls(block, is_live))
        while worklist:
            one = worklist.pop()
            body = self.body_of(one)
            if one not in reached and body is not None:
                worklist += self.calls(body.block, is_live)
            reached.add(one)
        return sorted(reached)

    def starters(self) -> list[int | None]:
        """The thread that requests each thread, by their numbers."""
        starters: dict[str, int] = {}
        for number, thread in enumerate(self.threads):
            assert thread.thread is not None
            starters.update((name, number) for name, _ in self.reached(thread.thread.block, False))
        return [starters.get(thread.name) for thread in self.threads]

    def users(self) -> dict[str, set[int]]:
        """The threads of whose priorities the ceiling of each object with sections is the greatest."""
        users: dict[str, set[int]] = {one.name: set() for one in self.objects}
        for number, thread in enumerate(self.threads):
            assert thread.thread is not None
            for name in {thread.name, *(name for name, _ in self.calls(thread.thread.block, False))}:
                users[name].add(number)
        inner = {one.name: {name for body in one.operations.values() for name, _ in self.calls(body.block, False)} for one in self.objects}
        has_grown = True
        while has_grown:
            has_grown = False
            for name, called in inner.items():
                for other in called:
                    has_grown = has_grown or not users[name] <= users[other]
                    users[other] |= users[name]
        return users

    def sections(self) -> list[list[Operation]]:
        """The operations in which each thread may hold a protected object or a control structure."""
        return [[one for one in self.reached(thread.thread.block, True) if self.by_name[one[0]].kind != 'PASSIVE']
                for thread in self.threads if thread.thread is not None]


class Pricing:
    """The costs of a design's bodies, where those of some operations are these."""

    def __init__(self, design: Design, given: dict[Operation, int] | None = None) -> None:
        self.design = design
        self.known = dict(given or {})

    def operation(self, operation: Operation) -> int:
        """The cost of an operation's body, or of a request inside the control structure."""
        if operation not in self.known:
            body = self.design.body_of(operation)
            self.known[operation] = 2 * self.design.costs['ASSIGN'] if body is None else self.block(body.block)
        return self.known[operation]

    def block(self, block: Block) -> int:
        """The cost of a block."""
        return sum(map(self.statement, block))

    def statement(self, one: Statement) -> int:
        """The cost of a statement."""
        costs = self.design.costs
        if isinstance(one, Plain):
            return one.cost
        if isinstance(one, Call):
            return costs['CALL'] + self.operation(self.design.target(one.operation))
        if isinstance(one, If):
            return max(tests * costs['TEST'] + self.block(block) for _, tests, block in one.branches)
        return one.turns * (costs['TURN'] + self.block(one.block))

    def least(self, block: Block) -> int:
        """What a block costs at least if statements without calls are replaced by `work`."""
        calling = [one for one in block if has_calls(one)]
        return sum(map(self.least_statement, calling)) if calling else min(1, len(block))

    def least_statement(self, one: Statement) -> int:
        """The same of a statement with calls."""
        costs = self.design.costs
        if isinstance(one, If):
            return max(tests * costs['TEST'] + self.least(block) for _, tests, block in one.branches)
        if isinstance(one, For):
            return one.turns * (costs['TURN'] + self.least(one.block))
        return self.statement(one)

    def shortened(self, block: Block, cost: int) -> list[str]:
        """A block of this cost, at least the least, with the calls of another one, and `work` in place of the rest."""
        calling = [one for one in block if has_calls(one)]
        spare = cost - sum(map(self.least_statement, calling))
        lines: list[str] = []
        for one in calling:
            least = self.least_statement(one)
            written, taken = self.shortened_statement(one, min(self.statement(one), least + spare))
            lines += written
            spare -= taken - least
        return [*lines, f'work ({spare});'] if spare else lines

    def shortened_statement(self, one: Statement, cost: int) -> tuple[list[str], int]:
        """A statement with calls, of at most this cost, and its cost."""
        costs = self.design.costs
        if isinstance(one, If):
            lines = []
            for head, tests, block in one.branches:
                written = self.shortened(block, min(self.block(block), cost - tests * costs['TEST']))
                lines += [head, *written] if written or head != 'else' else []
            return [*lines, 'end if;'], cost
        if isinstance(one, For):
            turn = cost // one.turns - costs['TURN'] if one.turns else self.block(one.block)
            return [one.head, *self.shortened(one.block, turn), 'end loop;'], one.turns * (costs['TURN'] + turn)
        assert isinstance(one, Call)
        return [one.text], cost


def has_calls(one: Statement) -> bool:
    """Whether a statement calls something."""
    if isinstance(one, If):
        return any(has_calls(inner) for _, _, block in one.branches for inner in block)
    return any(map(has_calls, one.block)) if isinstance(one, For) else isinstance(one, Call)
