#!/usr/bin/env python3
"""Makes the statements of a generated Ada text pay their modelled costs.

    costed.py <TEXT >COSTED

The text has the layout of the generator, with one statement a line. Each statement burns its cost before it takes effect, as on the modelled
processor, and sections and requests tell their lines. The result needs the packages hrt and hrt_model of the folder `stepped`.
"""

from __future__ import annotations

import re
import sys

OUTSIDE = re.compile(r'hrt_external : constant boolean := true;\s+end ([a-z0-9_]+);')
PARAMETER = re.compile(r'([a-z][a-z0-9_]*) : (in|out) word')


class Coster:
    """Takes the lines of a text one by one."""

    def __init__(self, text: str) -> None:
        self.text = text
        self.out: list[str] = []
        self.outside = set(OUTSIDE.findall(text))   # units that are requested from outside
        self.packages: list[str] = []               # bodies that are open
        # 'object', 'obcs' or 'task' that is open, or 'passive' for an operation outside of them
        self.part: str | None = None
        self.operation: str | None = None           # the name of the operation, entry or task that is open
        self.ins: list[str] = []                    # its parameters
        self.outs: list[str] = []
        self.is_body = False                        # whether its `begin` has come

    def costed(self) -> str:
        lines = self.text.split('\n')
        for place, line in enumerate(lines):
            if line.startswith('procedure hrt_main'):
                self.out += lines[place:]
                break
            self.take(line)
        return '\n'.join(self.out)

    def take(self, line: str) -> None:
        statement = line.strip()
        words = statement.split()
        if words[:2] == ['package', 'body']:
            self.open_package(words[2])
        elif self.packages and words:
            if self.is_body and not statement == 'end %s;' % self.operation:
                self.take_statement(line, statement, words)
                return
            self.take_frame(statement, words)
            if statement == 'begin':
                self.out.append(line)
                self.begin()
                return
        self.out.append(line)

    def open_package(self, name: str) -> None:
        if not self.packages:
            self.out.append('with hrt_model;')
        self.packages.append(name)

    def take_frame(self, statement: str, words: list[str]) -> None:
        """A line that opens or closes something, or a declaration."""
        if words[:2] == ['protected', 'body']:
            self.part = 'obcs' if words[2] == 'hrt_obcs' else 'object'
        elif words[:2] == ['task', 'body']:
            self.part, self.operation, self.ins, self.outs = 'task', 'hrt_thread', [], []
        elif words[0] in ('procedure', 'entry'):
            self.part = self.part or 'passive'
            self.operation = words[1].rstrip(';')
            modes = PARAMETER.findall(statement)
            self.ins, self.outs = ([name for name, mode in modes if mode == wanted] for wanted in ('in', 'out'))
        elif words[0] == 'end':
            self.close(statement)

    def begin(self) -> None:
        self.is_body = self.operation is not None
        if self.part == 'object':
            self.tell('enter', f'{self.packages[-1]}.{self.operation}', self.ins)

    def close(self, statement: str) -> None:
        if self.is_body:
            if self.part == 'object':
                self.tell('leave', f'{self.packages[-1]}.{self.operation}', self.outs)
            elif self.is_request():
                self.tell('request', self.packages[-1], self.ins)
            self.is_body, self.operation = False, None
            if self.part in ('passive', 'task'):
                self.part = None
        elif statement in ('end hrt_obcs;', 'end hrt_object;'):
            self.part = None
        elif statement == 'end %s;' % self.packages[-1]:
            self.packages.pop()

    def is_request(self) -> bool:
        """Whether a task of the design pays for what is open. Requests from outside take no time, and are not told as requests."""
        return self.part == 'obcs' and self.operation != 'hrt_wait' and self.packages[-1] not in self.outside

    def take_statement(self, line: str, statement: str, words: list[str]) -> None:
        """A line of a body: its cost comes before it, or in it where it has a condition."""
        indent = line[:len(line) - len(line.lstrip(' '))]
        if self.part == 'obcs' and not self.is_request():
            self.out.append(line)
        elif words[0] in ('if', 'elsif'):
            condition = statement[len(words[0]) + 1:-len(' then')]
            self.out.append('%s%s hrt_model.paid (hrt.test_cost) and then (%s) then' % (indent, words[0], condition))
        elif words[0] == 'for':
            self.out += [line, '%s   hrt_model.pay (hrt.turn_cost);' % indent]
        else:
            cost = self.cost_of(statement, words)
            self.out += ['%shrt_model.pay (hrt.%s_cost);' % (indent, cost)] if cost else []
            self.out.append(line)

    def cost_of(self, statement: str, words: list[str]) -> str | None:
        """The name of the cost, or None where the body of hrt pays, or nothing does."""
        if statement in ('loop', 'else', 'end if;', 'end loop;', 'activation_end;') or words[0] in ('work', 'put', 'delay', 'hrt_next'):
            return None
        if words[0].startswith('hrt_obcs.'):
            return None
        if words[0] == 'exit':
            return 'test'
        if statement == 'null;':
            return 'null'
        return 'assign' if ':=' in words else 'call'

    def tell(self, what: str, object: str, values: list[str]) -> None:
        images = ''.join(' & hrt_model.image (%s)' % value for value in values)
        self.out.append('            hrt_model.tell ("%s", "%s"%s);' % (what, object, images))


if __name__ == '__main__':
    sys.stdout.write(Coster(sys.stdin.read()).costed())
