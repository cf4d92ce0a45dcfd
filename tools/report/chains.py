#!/usr/bin/env python3
"""A bound on the end-to-end latency of a chain of threads whose links are requests, or data of protected objects that one writes and the next reads.

    chains.py [--csv] DESIGN "gyro -> kalman -> wheels"

A link is a request if the first thread starts the second (docs/CHAINS.md). Otherwise it is data: the first thread calls, directly or through other
operations, an operation that assigns a datum of a protected object, and the second one calls an operation that reads it, and is cyclic. A run of
requests is one segment. The table has a row for each segment: the datum by which it is reached and the two operations, how long the data may wait
for the reader's release, its response, and what it adds. Below it are the sums. Times are in ticks, and in microseconds for a design with TICK.

A segment reached by data adds period and response of its reader (Davare et al. 2007): the value is in place when the activation that writes it ends,
the reader's next release comes at most a period later (or at its OFFSET, if that is more), and its segment responds. The first segment adds its
response alone, from the release of its first thread; a change outside that this thread reads may come right after its reading, so that its period is
to be added.

What is proved, by the program: the response of each thread, and that a segment responds within the response of its thread of lowest priority
(`law_chain_bounds`). Not proved: this script, which finds the data by reading what `format` writes, and adds periods and responses. Assumed: each
activation of the chain writes, reads and requests on the path that it takes; an `if` around a call is not looked at. That the value which arrives
depends on the value that was sent is not examined, and a later value may have replaced it.

PROGRAM is the path of the program, and the proved program of this repository if it isn't set. The status is 1 if the program refuses the design or
its bounds, or if a link has neither a request nor data, and 2 for other words.
"""

from __future__ import annotations

import os
import re
import subprocess
import sys
from dataclasses import dataclass
from typing import Dict, Iterator, List, Set, Tuple

from design_reader import Design, Object, Operation

TOP = os.path.dirname(os.path.dirname(os.path.dirname(os.path.abspath(__file__))))
THREAD = re.compile(r'thread (\w+) priority (\d+) period (\d+) deadline \d+ jitter \d+ cost \d+ blocking \d+ response (\d+)')
STARTED = re.compile(r'started (\w+) by (\w+) ')
CHAIN = re.compile(r'chain (\w+) jitter \d+ response (\d+) by (.+)')
DATUM = re.compile(r'(\w+) : word := \d+;')
CALL = re.compile(r'(\w+)\.(\w+)(?: \((.*)\))?;')
ASSIGNED = re.compile(r'(\w+) := (.*);')
SECTIONS = ('ATTRIBUTES', 'PROVIDES', 'REQUIRES', 'DATA', 'OPERATION', 'THREAD', 'OBJECTS', 'IMPLEMENTS', 'OBJECT', 'END')
MOST_CALLS = 20000

Datum = Tuple[str, str]             # a protected object and one of its data
Access = Dict[Datum, Operation]     # data, each with an operation that reads or writes it


class Refused(Exception):
    """The line of a refusal, by the program or by this script."""


@dataclass(frozen=True)
class Bound:
    """The numbers of a thread that `explain` writes."""
    priority: int
    period: int
    response: int


@dataclass
class Segment:
    """A thread and those that follow it by requests; the datum by which it is reached, if any, and the operations that write and read it."""
    threads: List[str]
    datum: Datum | None = None
    writes: Operation | None = None
    reads: Operation | None = None


def output(verb: str, file: str) -> str:
    """What a verb writes of a file that it accepts."""
    path = os.path.abspath(os.environ.get('PROGRAM', os.path.join(TOP, 'crates', 'hrthood', 'out', 'hrthood')))
    if not os.access(path, os.X_OK):
        raise Refused(f'there is no program {path}; tools/gate/prove_program.sh makes it, or set PROGRAM to tools/hrthood.mjs')
    done = subprocess.run([path, verb, file], capture_output=True, text=True, stdin=subprocess.DEVNULL)
    lines = [line for line in done.stderr.splitlines() if not line.startswith('hrthood: ')]
    if done.returncode != 0:
        raise Refused(f'{file}: {lines[-1] if lines else f"status {done.returncode}"}')
    return done.stdout


def split(actuals: str) -> List[str]:
    """Actual parameters, one by one."""
    found, depth = [''], 0
    for sign in actuals:
        depth += (sign == '(') - (sign == ')')
        if sign == ',' and not depth:
            found.append('')
        else:
            found[-1] += sign
    return [one.strip() for one in found]


class Data:
    """Which data of protected objects the operations of a design read and write."""

    def __init__(self, design: Design) -> None:
        self.design = design
        self.data: Dict[str, Set[str]] = {}
        self.outs: Dict[Operation, List[bool]] = {}
        self.read_heads()
        self.reads: Dict[Operation, Set[str]] = {}
        self.writes: Dict[Operation, Set[str]] = {}
        for owner in design.objects:
            if owner.kind == 'PROTECTED':
                for name in owner.operations:
                    self.read_operation(owner, name)

    def read_heads(self) -> None:
        """Reads the data of each object, and which parameters of its operations are `out`."""
        outer: List[str] = []
        section = ''
        for line in map(str.strip, self.design.lines):
            word = line.split(' ')[0].rstrip(';') if line else ''
            section = word if word in SECTIONS else section
            if word == 'OBJECT':
                outer.append(line.split()[1])
            elif outer and line == f'END {outer[-1]};':
                outer.pop()
            elif outer and section == 'DATA' and DATUM.fullmatch(line):
                self.data.setdefault(outer[-1], set()).add(line.split()[0])
            elif outer and section == 'PROVIDES' and word != 'PROVIDES':
                name, parameters = line.split()[0].rstrip(';'), re.findall(r': (in|out) word', line)
                self.outs[outer[-1], name] = [mode == 'out' for mode in parameters]

    def read_operation(self, owner: Object, name: str) -> None:
        """Reads what the body of an operation does with the data of its object."""
        reads, writes, body = set(), set(), owner.operations[name]
        for line in map(str.strip, self.design.lines[body.first:body.end]):
            read = line
            if found := CALL.fullmatch(line):
                actuals = list(zip(split(found[3] or ''), self.outs.get((found[1], found[2]), [])))
                writes |= {actual for actual, is_out in actuals if is_out}
                read = ' '.join(actual for actual, is_out in actuals if not is_out)
            elif found := ASSIGNED.fullmatch(line):
                writes.add(found[1])
                read = found[2]
            reads |= set(re.findall(r'\w+', read))
        own = self.data.get(owner.name, set())
        self.reads[owner.name, name], self.writes[owner.name, name] = reads & own, writes & own

    def accesses(self, thread: Object, of: Dict[Operation, Set[str]]) -> Access:
        """The data that a thread reads or writes through the operations that it reaches."""
        assert thread.thread is not None
        found: Access = {}
        for one in self.design.reached(thread.thread.block, True):
            for datum in sorted(of.get(one, ())):
                found.setdefault((one[0], datum), one)
        return found


class Chains:
    """The threads of a design, and the links between them."""

    def __init__(self, explained: str, formatted: str) -> None:
        lines = explained.splitlines()
        missed = next((line for line in lines if line.startswith('miss ')), None)
        if missed:
            raise Refused('refused ' + missed[len('miss '):])
        self.bounds = {found[1]: Bound(*map(int, found.groups()[1:])) for found in map(THREAD.fullmatch, lines) if found}
        self.starters = {found[1]: found[2] for found in map(STARTED.match, lines) if found}
        self.printed = {(found[1], *found[3].split()): int(found[2]) for found in map(CHAIN.fullmatch, lines) if found}
        self.design = Design(formatted)
        self.data = Data(self.design)

    def segments(self, names: List[str]) -> List[Segment]:
        """The segments of a chain. It is refused if a link has neither a request nor data."""
        for name in names:
            if name not in self.bounds:
                raise Refused(f'there is no thread {name}; the threads are {", ".join(self.bounds)}')
        found = [Segment([names[0]])]
        for sender, receiver in zip(names, names[1:]):
            if self.starters.get(receiver) == sender:
                found[-1].threads.append(receiver)
            else:
                found.append(self.by_data(sender, receiver))
        return found

    def by_data(self, sender: str, receiver: str) -> Segment:
        """The segment that a thread begins that reads what another one writes."""
        writes = self.data.accesses(self.design.by_name[sender], self.data.writes)
        reads = self.data.accesses(self.design.by_name[receiver], self.data.reads)
        shared = [datum for datum in writes if datum in reads]
        if not shared:
            raise Refused(f'no link from {sender} to {receiver}: {sender} writes {self.told(writes)} and requests {self.requested(sender)}; '
                          f'{receiver} reads {self.told(reads)}')
        if self.design.by_name[receiver].kind != 'CYCLIC':
            starter = self.starters.get(receiver)
            advice = f'the chain must pass through {starter}, which requests it' if starter else 'it is requested from outside, at no least rate'
            raise Refused(f'no bound from {sender} to {receiver}: {receiver} reads {".".join(shared[0])}, but is sporadic; {advice}')
        return Segment([receiver], shared[0], writes[shared[0]], reads[shared[0]])

    def told(self, accesses: Access) -> str:
        """Data in words."""
        return ', '.join('.'.join(datum) for datum in accesses) or 'nothing of a protected object'

    def requested(self, sender: str) -> str:
        """The threads that a thread requests, in words."""
        return ', '.join(name for name, starter in self.starters.items() if starter == sender) or 'nothing'

    def response(self, segment: Segment) -> int:
        """The proved bound of a segment: the response of its thread of lowest priority, which is the number of its `chain` line, if there is one."""
        least = min((self.bounds[name] for name in segment.threads), key=lambda bound: bound.priority).response
        if self.printed.get(tuple(reversed(segment.threads)), least) != least:
            raise Refused(f'the chain line of {segment.threads[-1]} has another response than its thread of lowest priority')
        return least

    def sum(self, segment: Segment) -> int:
        """The sum of the responses of a segment, which is a bound too (`law_runs::design_chains_respond`)."""
        return sum(self.bounds[name].response for name in segment.threads)

    def wait(self, segment: Segment) -> int:
        """How much later than the data is written the reader of a segment may be released; 0 for the first segment."""
        first = segment.threads[0]
        return max(self.bounds[first].period, self.design.by_name[first].attributes.get('OFFSET', 0)) if segment.datum else 0

    def row(self, segment: Segment) -> Tuple[str, ...]:
        """The row of a segment."""
        through = '.'.join(segment.datum) if segment.datum else ''
        if segment.writes and segment.reads:
            through += f': {".".join(segment.writes)}; {".".join(segment.reads)}'
        wait, response = self.wait(segment), self.response(segment)
        return (' -> '.join(segment.threads), through, str(wait) if segment.datum else '', str(response), str(self.sum(segment)),
                str(wait + response))

    def time(self, ticks: int) -> str:
        """A time in words."""
        return f'{ticks} ticks' + (f' ({ticks * self.design.tick} us)' if self.design.tick is not None else '')

    def below(self, segments: List[Segment]) -> Iterator[str]:
        """The lines below the table."""
        first, last = segments[0].threads[0], segments[-1].threads[-1]
        whole = sum(self.wait(one) + self.response(one) for one in segments)
        by_sums = sum(self.wait(one) + self.sum(one) for one in segments)
        yield f'From a release of {first} to the end of {last}: at most {self.time(whole)}; with the sums of the responses {by_sums}.'
        if self.design.by_name[first].kind == 'CYCLIC':
            period = self.bounds[first].period
            yield f'From a change outside that {first} reads: its period of {period} more, {self.time(whole + period)}.'
        yield ('The program proves this bound, since all links are requests.' if len(segments) == 1 else
               'The program proves the column `response`; `wait`, `adds` and the bound are arithmetic of this script.')


HEADS = ('segment', 'through', 'wait', 'response', 'sum of responses', 'adds')


def written(chains: Chains, segments: List[Segment], is_csv: bool) -> Iterator[str]:
    """The lines of the table, and those below it."""
    rows = [chains.row(one) for one in segments]
    if is_csv:
        yield ','.join(head.replace(' ', '_') for head in HEADS)
        yield from (','.join(row) for row in rows)
        return
    yield '| ' + ' | '.join(HEADS) + ' |'
    yield '|---|---|' + '---:|' * 4
    yield from ('| ' + ' | '.join(row) + ' |' for row in rows)
    yield ''
    yield from chains.below(segments)


def main() -> None:
    """Writes the bound of a chain."""
    words = sys.argv[1:]
    if words == ['--help']:
        print(__doc__)
        return
    is_csv = words[:1] == ['--csv']
    words = words[1:] if is_csv else words
    if len(words) != 2 or words[0].startswith('-'):
        print(__doc__, file=sys.stderr)
        sys.exit(2)
    names = [name.strip().lower() for name in words[1].split('->')]
    if not all(re.fullmatch(r'[a-z][a-z0-9_]*', name) for name in names):
        print(f'chains.py: not names of threads with -> between them: {words[1]} (chains.py [--csv] DESIGN "a -> b")', file=sys.stderr)
        sys.exit(2)
    sys.setrecursionlimit(MOST_CALLS)
    file = words[0]
    try:
        chains = Chains(output('explain', file), output('format', file))
        print('\n'.join(written(chains, chains.segments(names), is_csv)))
    except Refused as line:
        sys.exit(f'chains.py: {line}' if str(line).startswith((file, 'there is no program')) else f'chains.py: {file}: {line}')


if __name__ == '__main__':
    main()
