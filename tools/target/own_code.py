#!/usr/bin/env python3
"""Replaces marked `work` statements of a generated Ada text by calls of your own procedures.

    own_code.py DESIGN <TEXT >EDITED

A mark is a comment behind the statement, in DESIGN: `work (10); -- calls flight_law.compute (pitch, command)`. In EDITED this call stands in the
place of `work (10);`, and the design's body has `with flight_law;`. TEXT is what `hrthood generate DESIGN` writes; nothing else of it is changed.
The model keeps `work (10)`: that the procedure takes at most 10 ticks and does not wait is your claim. Status 2: a mark or a text is none of these.
"""

from __future__ import annotations

import re
import sys
from typing import Iterator, NamedTuple

WORK = re.compile(r'\bwork\s*\(\s*([0-9_]+)\s*\)\s*;')
MARK = re.compile(r'\s*calls\s+([a-z][a-z0-9_]*(?:\.[a-z][a-z0-9_]*)+)\s*(\([a-z0-9_, ]*\))?\s*')
TOKEN = re.compile(r'[a-z][a-z0-9_]*|[0-9][0-9_]*|[^\sa-z0-9]')
THREAD = 'hrt_thread'           # the name of a thread's body in a text


class Fault(Exception):
    """The fault of an input, in one line."""


class Statement(NamedTuple):
    """A `work` statement: the body that it is in, its ticks, and the call of its mark."""
    object: str
    operation: str
    ticks: int
    call: str | None


def mark_of(comment: str, place: int) -> str | None:
    """Returns the call of a comment, or None for another comment."""
    if not re.match(r'\s*calls\s', comment):
        return None
    found = MARK.fullmatch(comment)
    if not found:
        raise Fault('line %d: a mark is `-- calls PACKAGE.PROCEDURE (ARGUMENTS)`, and this is none: --%s' % (place, comment.rstrip()))
    return found[1] + (' ' + found[2] if found[2] else '')


class Reader:
    """Finds the `work` statements of a design, line by line."""

    def __init__(self) -> None:
        self.open: list[tuple[str, str]] = []       # kind and name of what is open
        self.statements: list[Statement] = []
        self.before: list[str] = []                 # the last tokens

    def take(self, token: str) -> None:
        self.before = [*self.before[-2:], token]
        if token == 'is' and len(self.before) > 2 and self.before[-3] in ('design', 'object', 'operation'):
            self.open.append((self.before[-3], self.before[-2]))
        elif token == ';' and len(self.before) > 2 and self.before[-3] == 'end' and self.open and self.before[-2] == self.open[-1][1]:
            self.open.pop()
        elif token == 'version' and len(self.before) > 2 and self.before[-3] == 'design':
            self.open.append(('design', self.before[-2]))

    def place(self) -> tuple[str, str]:
        """Returns the object and the operation that are open."""
        operation = self.open[-1][1] if self.open and self.open[-1][0] == 'operation' else THREAD
        return next((name for kind, name in reversed(self.open) if kind == 'object'), ''), operation

    def take_line(self, line: str, number: int) -> None:
        code, _, comment = line.lower().partition('--')
        call = mark_of(comment, number)
        works = list(WORK.finditer(code))
        if call is not None and (not works or code[works[-1].end():].strip()):
            raise Fault('line %d: a mark stands behind no `work` statement' % number)
        start = 0
        for work in works:
            for token in TOKEN.findall(code[start:work.start()]):
                self.take(token)
            is_last = work is works[-1]
            self.statements.append(Statement(*self.place(), int(work[1].replace('_', '')), call if is_last else None))
            start = work.end()
        for token in TOKEN.findall(code[start:]):
            self.take(token)


def statements_of(design: str) -> dict[tuple[str, str], list[Statement]]:
    """Returns the `work` statements of a design, each in the list of its body."""
    reader = Reader()
    for number, line in enumerate(design.splitlines(), 1):
        reader.take_line(line, number)
    bodies: dict[tuple[str, str], list[Statement]] = {}
    for statement in reader.statements:
        bodies.setdefault((statement.object, statement.operation), []).append(statement)
    return bodies


def edited(design: str, text: str) -> str:
    """Returns the text with the calls of the marks."""
    left = statements_of(design)
    units = sorted({one.call.split('.')[0] for of in left.values() for one in of if one.call is not None})
    return ''.join(line + '\n' for line in lines_of(text, left, units))


def lines_of(text: str, left: dict[tuple[str, str], list[Statement]], units: list[str]) -> Iterator[str]:
    """Returns the lines of a text, and takes each statement from those that are left."""
    packages: list[str] = []
    ends: list[str] = []        # how each of them ends: an operation may have the name of its object
    operation = ''
    for number, line in enumerate(text.splitlines(), 1):
        words = line.strip().rstrip(';').split()
        if words[:2] == ['package', 'body']:
            yield from ['with %s;' % unit for unit in units] if not packages else []
            packages.append(words[2])
            ends.append('%send %s;' % (line[:line.index('package')], words[2]))
        elif ends and line == ends[-1]:
            packages.pop()
            ends.pop()
        elif packages and (words[:1] == ['procedure'] or words[:2] == ['task', 'body']):
            operation = words[2] if words[0] == 'task' else words[1]
        found = WORK.fullmatch(line.strip()) if packages else None
        if found:
            body = left.get((packages[-1], operation), [])
            if not body or body[0].ticks != int(found[1]):
                raise Fault('line %d of the text: the design has no such statement there: %s' % (number, line.strip()))
            call = body.pop(0).call
            line = line if call is None else line[:len(line) - len(line.lstrip())] + call + ';'
        yield line
    over = [one for of in left.values() for one in of]
    if over:
        raise Fault('the text does not have work (%d) of %s' % (over[0].ticks, over[0].object))


def main(words: list[str]) -> None:
    if len(words) != 1:
        raise Fault('the words are none of these:\n' + (__doc__ or ''))
    with open(words[0], encoding='latin-1') as stream:
        design = stream.read()
    sys.stdout.write(edited(design, sys.stdin.read()))


if __name__ == '__main__':
    try:
        main(sys.argv[1:])
    except (Fault, OSError) as fault:
        print('own_code: %s' % fault, file=sys.stderr)
        sys.exit(2)
