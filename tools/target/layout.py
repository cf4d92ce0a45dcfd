#!/usr/bin/env python3
"""Lays a generated Ada text out as child packages, in Mixed_Case and in lines of 79 characters, and converts it back.

    layout.py [-o UNIT.OPERATION]... <TEXT >LAID_OUT
    layout.py -b <LAID_OUT >TEXT

Each object becomes a child package of the design. `gnatchop` makes a file of each library unit. No statement, declaration or number is changed.
`-b` returns the generated text byte for byte, also from the files of `gnatchop`, concatenated in any order. So a set of files is compared with the
output of `hrthood generate`.

With `-o` the body of an operation of a passive object becomes a subunit (`is separate`), whose file is the user's. `-b` returns that body in its
place.
"""

from __future__ import annotations

import re
import sys
from typing import Iterable, Iterator

RESERVED = frozenset("""abort abs abstract accept access aliased all and array at begin body case constant declare delay delta digits do else
elsif end entry exception exit for function generic goto if in interface is limited loop mod new not null of or others
out overriding package parallel pragma private procedure protected raise range record rem renames requeue return reverse
select separate some subtype synchronized tagged task terminate then type until use when while with xor""".split())
WHOLE = {'fifo_within_priorities': 'FIFO_Within_Priorities'}
WORD = re.compile(r'"[^"]*"|[a-z][a-z0-9_]*')
ENDS = (';', 'is', 'then', 'else', 'loop', 'begin', 'private')      # how a line of the generator ends
APART = re.compile(r' *(task|protected|entry .* is$|procedure .* is$|procedure .* is separate;$)')     # lines that get an empty line before them
LEVEL = '   '
NEEDS_BODY = 'pragma elaborate_body;'
WIDTH = 79


class Fault(Exception):
    """The fault of an input, in one line."""


# Words

def capital(word: str) -> str:
    """Returns a word in Mixed_Case, unless it is reserved."""
    if word in RESERVED or word.startswith('"'):
        return word
    return WHOLE.get(word) or '_'.join(part.capitalize() for part in word.split('_'))


def dressed(line: str) -> str:
    """Returns a line in Mixed_Case; a comment gets a second space."""
    if line.startswith('-- '):
        return '--  ' + line[3:]
    return WORD.sub(lambda found: capital(found.group()), line)


def wrapped(line: str) -> Iterator[str]:
    """Breaks a line that is too long at its spaces. Before the last one no part ends as a line of the generator does, outside of parentheses."""
    indent = line[:len(line) - len(line.lstrip(' '))]
    while len(line) > WIDTH and not line.startswith('--'):
        place = line.rfind(' ', len(indent) + 3, WIDTH + 1)
        if place < 0:
            break
        yield line[:place]
        line = indent + '  ' + line[place + 1:]
        if len(line) <= WIDTH and line.endswith((' then', ' loop')):
            if line.strip() not in ('then', 'loop'):
                yield line[:-len(' then')]
            line = indent + line[-len('then'):]
    yield line


def printed(unit: Iterable[str]) -> Iterator[str]:
    """Returns the lines of a library unit in Mixed_Case, none too long, and with empty lines between bodies."""
    before: str | None = None
    for line in unit:
        if APART.match(line) and before is not None and not before.endswith((' is', 'private')) and not before.startswith(('with ', 'use ', 'sep')):
            if not (before.lstrip().startswith('procedure') and line.lstrip().startswith('entry')):
                yield ''
        yield from wrapped(dressed(line))
        before = line


def is_whole(line: str) -> bool:
    """Returns whether a line does not continue in the next one."""
    return line.startswith(('--', 'separate (')) or line.count('(') == line.count(')') and line.endswith(ENDS)


def bare(source: str) -> list[str]:
    """Returns the lines of a source in small letters, without empty lines and breaks."""
    lines: list[str] = []
    part = ''
    for line in source.lower().splitlines():
        part = part + ' ' + line.lstrip() if part else line
        if part and is_whole(part):
            lines.append('-- ' + part[4:] if part.startswith('--  ') else part)
            part = ''
    if part:
        raise Fault('a line has no end: ' + part)
    return lines


# The units of a text

class Text:
    """A generated text: lines before the design, its packages, and the name of the design."""

    def __init__(self, lines: list[str]) -> None:
        self.front: list[str] = []
        self.name = ''
        self.uses: list[str] = []               # the context of the design's package
        self.more: list[str] = []               # the context of its body, as in a text that pays its costs
        self.specs: dict[str, list[str]] = {}
        self.bodies: dict[str, list[str]] = {}
        self.rest = list(lines)
        self.read()

    def line(self) -> str:
        if not self.rest:
            raise Fault('the text ends too early')
        return self.rest.pop(0)

    def read(self) -> None:
        while self.rest and not re.fullmatch('package (?!hrt is)[a-z0-9_]+ is', self.rest[0]):
            self.front.append(self.line())
        while self.front and self.front[-1] != 'end hrt;':
            self.uses.insert(0, self.front.pop())
        if not self.rest:
            raise Fault('there is no package of a design')
        self.name = self.line().split()[1]
        self.packages('package ([a-z0-9_]+) is', self.specs)
        while self.rest and not self.rest[0].startswith(('package body ', 'with %s;' % self.name)):
            self.more.append(self.line())
        if self.rest and self.rest[0].startswith('package body '):
            self.line()
            self.packages('package body ([a-z0-9_]+) is', self.bodies)
        if self.rest != main_of(self.name, []):
            raise Fault('there is no hrt_main after the design: %s' % self.rest[:1])

    def packages(self, head: str, units: dict[str, list[str]]) -> None:
        """Reads the packages of the design up to its end, without the outer level of indentation."""
        while True:
            line = self.line()
            if line == 'end %s;' % self.name:
                return
            found = re.fullmatch(LEVEL + head, line)
            if not found:
                raise Fault('no package of an object: ' + line)
            units[found[1]] = unit = [line[len(LEVEL):]]
            while unit[-1] != 'end %s;' % found[1]:
                unit.append(self.line()[len(LEVEL):])


def main_of(name: str, units: list[str]) -> list[str]:
    """Returns the lines of hrt_main, which names the design, or these child packages of it."""
    withs = ['with %s;' % name] if not units else ['with %s.%s;' % (name, unit) for unit in units]
    return withs + ['procedure hrt_main is', 'begin', '   null;', 'end hrt_main;']


def named(lines: list[str], units: Iterable[str], own: str) -> list[str]:
    """Returns the units whose operations the lines call, in the order of the design."""
    words = set(re.findall(r'\b([a-z][a-z0-9_]*)\.', '\n'.join(line for line in lines if not line.startswith('--'))))
    return [unit for unit in units if unit in words and unit != own]


def needed(context: list[str], lines: list[str]) -> list[str]:
    """Returns the lines of a context whose units these lines name."""
    body = '\n'.join(lines)
    return [line for line in context if not line.startswith('with ') or re.search(r'\b%s\.' % re.escape(line[len('with '):-1]), body)]


def spec_of(unit: list[str], name: str, parent: str) -> list[str]:
    """Returns the specification of a child. If it needs no body, only this pragma lets it have one."""
    lines = as_child(unit, name, parent)
    return lines if len(unit) > 2 else [lines[0], LEVEL + NEEDS_BODY, lines[1]]


def as_child(unit: list[str], name: str, parent: str) -> list[str]:
    """Returns the lines of a package as those of a child of the design."""
    ends = (0, len(unit) - 1)
    return [re.sub(r'\b%s( is|;)$' % name, '%s.%s\\1' % (parent, name), line) if place in ends else line for place, line in enumerate(unit)]


def laid_out(source: str, own: Iterable[str] = ()) -> str:
    """Returns the text as child packages, with these operations as subunits."""
    text = Text(source.splitlines())
    left = list(own)
    subunits: list[list[str]] = []
    parts = [text.front, text.uses + ['package %s is' % text.name, 'end %s;' % text.name]]
    for unit, lines in text.specs.items():
        parts.append(spec_of(lines, unit, text.name) if unit in text.bodies else as_child(lines, unit, text.name))
    for unit, lines in text.bodies.items():
        lines = as_child(lines, unit, text.name)
        for operation in [word for word in left if word.startswith(unit + '.')]:
            lines, subunit = without_body(lines, text.name, *operation.split('.'))
            withs = ['with %s.%s;' % (text.name, other) for other in named(subunit, text.specs, unit)]
            subunits.append(needed(text.more, subunit) + withs + subunit)
            left.remove(operation)
        parts.append(needed(text.more, lines) + ['with %s.%s;' % (text.name, other) for other in named(lines, text.specs, unit)] + lines)
    if left:
        raise Fault('no operation of a passive object: ' + left[0])
    parts += subunits + [main_of(text.name, list(text.specs))]
    return '\n'.join(''.join(line + '\n' for line in printed(part)) for part in parts)


def without_body(lines: list[str], name: str, unit: str, operation: str) -> tuple[list[str], list[str]]:
    """Returns the lines of a body with a stub for an operation of a passive object, and the subunit."""
    head = next((i for i, line in enumerate(lines) if re.match('   procedure %s( \\(.*\\))? is$' % operation, line)), None)
    if head is None:
        raise Fault('no operation of a passive object: %s.%s' % (unit, operation))
    end = lines.index('   end %s;' % operation)
    body = [line[len(LEVEL):] for line in lines[head:end + 1]]
    return lines[:head] + [lines[head] + ' separate;'] + lines[end + 1:], ['separate (%s.%s)' % (name, unit)] + body


# Back

def units_of(lines: list[str]) -> list[list[str]]:
    """Returns the library units of a laid out text, each with its context, in the order of the lines."""
    units: list[list[str]] = []
    open_unit: list[str] = []
    end: str | None = None
    for line in lines:
        open_unit.append(line)
        if end is None:
            found = re.match(r'(?:package body|package|procedure) ([a-z0-9_.]+)\b.*\bis$', line)
            end = 'end %s;' % found[1] if found else None
        elif line == end:
            units.append(open_unit)
            open_unit, end = [], None
    if open_unit:
        raise Fault('a unit has no end: ' + open_unit[0])
    return units


def head_of(unit: list[str]) -> int:
    """Returns the place of the first line after the context of a unit."""
    return next(place for place, line in enumerate(unit) if re.match('package|procedure', line))


def text_of(source: str) -> str:
    """Returns the generated text of a laid out one."""
    units = units_of(bare(source))
    heads = {unit[head_of(unit)]: unit for unit in units if not any(line.startswith('separate (') for line in unit)}
    subunits = {(found[1], unit[head_of(unit)]): unit[head_of(unit):] for unit in units for line in unit
                for found in [re.fullmatch(r'separate \(([a-z0-9_.]+)\)', line)] if found}
    front = heads.get('package hrt is')
    main = heads.get('procedure hrt_main is')
    if front is None or main is None:
        raise Fault('there is no package hrt, or no procedure hrt_main')
    order = [line[len('with '):-1] for line in main if line.startswith('with ')]
    name = order[0].split('.')[0] if order else ''
    root = heads.get('package %s is' % name)
    if root is None or any('package %s is' % unit not in heads for unit in order):
        raise Fault('a package that hrt_main names is missing')
    bodies = [unit for unit in order if 'package body %s is' % unit in heads]
    out = front + root[:head_of(root) + 1]
    for unit in order:
        out += nested(heads['package %s is' % unit], unit, subunits)
    out.append('end %s;' % name)
    if bodies:
        out.append('package body %s is' % name)
        for unit in bodies:
            out += nested(heads['package body %s is' % unit], unit, subunits)
        out.append('end %s;' % name)
    return ''.join(line + '\n' for line in out + main_of(name, []))


def nested(unit: list[str], name: str, subunits: dict[tuple[str, str], list[str]]) -> list[str]:
    """Returns the lines of a child as those of a package inside the design, without its context."""
    lines = [line for line in unit[head_of(unit):] if line.strip() != NEEDS_BODY]
    for place in 0, -1:
        lines[place] = lines[place].replace(name, name.split('.')[1])
    out: list[str] = []
    for line in lines:
        body = subunits.get((name, line.strip()[:-len(' separate;')])) if line.endswith(' is separate;') else None
        out += [LEVEL + one for one in ([line] if body is None else [LEVEL + one for one in body])]
    return out


def main(words: list[str]) -> None:
    own: list[str] = []
    back = False
    while words:
        word = words.pop(0)
        if word == '-b':
            back = True
        elif word == '-o' and words:
            own.append(words.pop(0).lower())
        else:
            raise Fault('the words are none of these:\n' + __doc__)
    source = sys.stdin.read()
    sys.stdout.write(text_of(source) if back else laid_out(source, own))


if __name__ == '__main__':
    try:
        main(sys.argv[1:])
    except Fault as fault:
        print('layout: %s' % fault, file=sys.stderr)
        sys.exit(2)
