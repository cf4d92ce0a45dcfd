#!/usr/bin/env python3
"""Makes a random design, and arrivals for it, to compare runs on a target with replays.

    random_design.py SEED FOLDER

writes FOLDER/SEED.design and FOLDER/SEED.arrivals, the same ones for the same SEED. A design has 3 to 6 threads, of which some are requested by a
thread, from inside a protected object or from outside, 2 to 4 protected objects that call each other, and a passive object. Some of the designs
are refused, mostly since a bound exceeds its limit.
"""

from __future__ import annotations

import os
import random
import sys

HORIZON = 320
PERIODS = (100, 120, 150, 200)
COSTS = 'COSTS ASSIGN = %d; TEST = 1; TURN = 1; CALL = %d; NULL = 1; PUT = %d; FINISH = %d; END COSTS;'


class Object:
    """An object that is being written: its head, what it requires, and its body."""

    def __init__(self, name: str, kind: str) -> None:
        self.name, self.kind = name, kind
        self.attributes = ''
        self.provides: list[str] = []
        self.requires: list[str] = []
        self.data: list[str] = []
        self.body: list[str] = []

    def call(self, target: str, arguments: str) -> str:
        if target not in self.requires:
            self.requires.append(target)
        return '%s (%s);' % (target, arguments)

    def text(self) -> list[str]:
        lines = ['  OBJECT %s IS %s' % (self.name, self.kind)]
        lines += ['  ATTRIBUTES ' + self.attributes] if self.attributes else []
        lines += ['  PROVIDES ' + ' '.join(self.provides)] if self.provides else []
        lines += ['  REQUIRES ' + ' '.join(name + ';' for name in self.requires)] if self.requires else []
        lines += ['  DATA ' + ' '.join('%s : word := %s;' % tuple(datum.split('=')) for datum in self.data)] if self.data else []
        return lines + ['  ' + line for line in self.body] + ['  END %s;' % self.name]


class Maker:
    """Draws a design."""

    def __init__(self, seed: int) -> None:
        self.dice = random.Random(seed)
        self.name = 'd%d' % seed
        self.passive = ['filter.smooth', 'filter.clip'][:self.dice.randint(1, 2)]
        self.protected = ['store%d' % i for i in range(self.dice.randint(2, 4))]
        self.objects: list[Object] = []
        self.arrivals: list[tuple[int, str]] = []

    # Statements

    def value(self, names: list[str]) -> str:
        """An expression without division by a name."""
        one, other = self.dice.choice(names), self.dice.choice([*names, str(self.dice.randint(1, 9))])
        return self.dice.choice(('{0}', '{0} + {1}', '{0} * 3 + {1}', '({0} + {1}) mod 64', '{0} / 2', '({0} and 15) + 1')).format(one, other)

    def condition(self, names: list[str]) -> str:
        name = self.dice.choice(names)
        form = self.dice.choice(('{0} < {1}', '{0} mod 2 = 1', '{0} >= {1}', '{0} > 3 and {0} < 40', 'not ({0} = {1}) or {0} = 0'))
        return form.format(name, self.dice.randint(1, 20))

    def statement(self, unit: Object, names: list[str], calls: list[tuple[str, str]], depth: int) -> list[str]:
        """One statement. `calls` are operations that may be called, each with the modes of its parameters."""
        form = self.dice.choice(('assign', 'assign', 'work', 'call', 'call', 'call', 'if', 'for', 'put', 'null'))
        if form == 'call' and calls:
            operation, modes = self.dice.choice(calls)
            return [unit.call(operation, ', '.join(self.dice.choice(names) if mode == 'o' else self.value(names) for mode in modes))]
        if form == 'work':
            return ['work (%d);' % self.dice.randint(1, 4)]
        if form == 'put' and unit.kind in ('CYCLIC', 'SPORADIC'):
            return ['put (%s);' % self.value(names)]
        if form == 'if' and depth:
            one, other = (self.statement(unit, names, calls, depth - 1) for _ in range(2))
            return ['if %s then' % self.condition(names), *one, 'else', *other, 'end if;']
        if form == 'for' and depth:
            inner = self.statement(unit, names, calls, 0)
            leave = ['exit when %s;' % self.condition(names)] if self.dice.random() < 0.5 else []
            return ['for i in word range 1 .. %d loop' % self.dice.randint(2, 3), *inner, *leave, 'end loop;']
        return ['null;'] if form == 'null' else ['%s := %s;' % (self.dice.choice(names), self.value(names))]

    def statements(self, unit: Object, names: list[str], calls: list[tuple[str, str]], least: int, most: int) -> list[str]:
        return ['  ' + line for _ in range(self.dice.randint(least, most)) for line in self.statement(unit, names, calls, 1)]

    # Objects

    def make_passive(self) -> None:
        unit = Object('filter', 'PASSIVE')
        unit.provides = ['smooth (a : in word; past : in word; r : out word);', 'clip (a : in word; r : out word);'][:len(self.passive)]
        unit.body = ['OPERATION smooth IS BEGIN r := (past * 3 + a) / 4; END smooth;',
                     'OPERATION clip IS t : word := %d; BEGIN if a > t then r := t; else r := a; end if; END clip;' % self.dice.randint(5, 30)]
        unit.body = unit.body[:len(self.passive)]
        self.objects.append(unit)

    def passive_calls(self) -> list[tuple[str, str]]:
        return [(name, 'iio' if name.endswith('smooth') else 'io') for name in self.passive]

    def protected_calls(self, names: list[str]) -> list[tuple[str, str]]:
        return [call for name in names for call in ((name + '.set', 'i'), (name + '.get', 'o'), (name + '.swap', 'io'))]

    def make_protected(self, place: int, starts: str | None) -> None:
        """A protected object, which may call those behind it; with `starts` one operation requests that sporadic object."""
        unit = Object(self.protected[place], 'PROTECTED')
        unit.provides = ['set (v : in word) PAER;', 'get (v : out word) PSER;', 'swap (v : in word; old : out word) PSER;']
        unit.data = ['kept=%d' % self.dice.randint(0, 9), 'count=0']
        calls = self.passive_calls() + self.protected_calls(self.protected[place + 1:])
        names = ['kept', 'count']
        unit.body = ['OPERATION set IS BEGIN', '  kept := v;', *self.statements(unit, names, calls, 0, 2), 'END set;',
                     'OPERATION get IS BEGIN', *self.statements(unit, names, calls, 0, 1), '  v := kept;', 'END get;',
                     'OPERATION swap IS BEGIN', '  old := kept; kept := v;', *self.statements(unit, names, calls, 0, 1), 'END swap;']
        if starts is not None:
            unit.provides.append('kick (v : in word) PAER;')
            unit.body += ['OPERATION kick IS BEGIN', '  count := count + 1;', '  if count mod 2 = 1 then', unit.call(starts, 'v + count'),
                          '  end if;', 'END kick;']
        self.objects.append(unit)

    def make_thread(self, name: str, kind: str, period: int, request: tuple[str, str] | None) -> None:
        unit = Object(name, kind)
        unit.data = ['x=%d' % self.dice.randint(0, 9), 'y=1']
        names = ['x', 'y']
        calls = self.passive_calls() + self.protected_calls(self.protected)
        body = self.statements(unit, names, calls, 2, 4)
        if request is not None:
            body.insert(self.dice.choice([0, len(body)]), '  ' + unit.call(request[0], self.value(names)))
        if kind == 'CYCLIC':
            offset = 'OFFSET = %d; ' % self.dice.randint(0, 20) if self.dice.random() < 0.5 else ''
            unit.attributes = 'PERIOD = %d; %sDEADLINE = %d; THREAD_BUDGET = 1000;' % (period, offset, period)
        else:
            unit.provides = ['start (v : in word) ASER;']
            body.insert(0, '  x := v;')
            unit.attributes = 'SEPARATION = %d; DEADLINE = %d; THREAD_BUDGET = 1000;' % (period, period)
        unit.body = ['THREAD', *body, 'END THREAD;']
        self.objects.append(unit)

    def make_outside(self, name: str) -> None:
        separation = self.dice.choice(PERIODS)
        self.make_thread(name, 'SPORADIC', separation, None)
        self.objects[-1].attributes += ' ARRIVAL_JITTER = %d;' % self.dice.randint(0, 5)
        time = self.dice.randint(0, 30)
        while time < HORIZON:
            self.arrivals.append((time, name))
            time += separation + self.dice.randint(0, 15)

    def make(self) -> tuple[str, str]:
        starts_inside = self.dice.random() < 0.5
        self.make_passive()
        for place in range(len(self.protected)):
            self.make_protected(place, 'inner.start' if starts_inside and place == 0 else None)
        cyclic = self.dice.randint(2, 3)
        for number in range(cyclic):
            period = self.dice.choice(PERIODS)
            request = None
            if number == 0 and starts_inside:
                request = (self.protected[0] + '.kick', 'inner')
            elif number == 1 and self.dice.random() < 0.7:
                request = ('follower.start', 'follower')
            self.make_thread('cycle%d' % number, 'CYCLIC', period, request)
            if request is not None:
                self.make_thread(request[1], 'SPORADIC', period, None)
        for number in range(self.dice.randint(0, 1)):
            self.make_outside('alarm%d' % number)
        costs = COSTS % (self.dice.randint(1, 2), self.dice.randint(1, 2), self.dice.randint(1, 3), self.dice.randint(1, 2))
        lines = ['DESIGN %s IS' % self.name, costs, 'OBJECT whole IS ACTIVE', 'OBJECTS']
        lines += [line for unit in self.objects for line in unit.text()]
        lines += ['END whole;', 'END %s;' % self.name]
        requests = ['AT %d %s %d;' % (time, name, self.dice.randint(1, 99)) for time, name in sorted(self.arrivals)]
        return '\n'.join(lines) + '\n', '\n'.join(['UNTIL %d;' % HORIZON, *requests]) + '\n'


def write(seed: int, folder: str) -> tuple[str, str]:
    """Writes the files of a seed, and returns their paths."""
    paths = os.path.join(folder, '%d.design' % seed), os.path.join(folder, '%d.arrivals' % seed)
    for path, content in zip(paths, Maker(seed).make()):
        with open(path, 'w') as stream:
            stream.write(content)
    return paths


if __name__ == '__main__':
    if len(sys.argv) != 3 or not sys.argv[1].isdecimal():
        print(__doc__, file=sys.stderr)
        sys.exit(2)
    write(int(sys.argv[1]), sys.argv[2])
