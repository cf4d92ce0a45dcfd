#!/usr/bin/env python3
"""Tests of mend.py, by the program: of the late designs of examples/, of random late designs, and of its bodies of other costs.

    test_mend.py [-v]

PROGRAM is the path of the program, and the proved program of this repository where it isn't set. Without one there is nothing to test, which is
reported. No part of the gate.
"""
from __future__ import annotations

import contextlib
import csv
import io
import os
import random
import re
import subprocess
import sys
import tempfile
import unittest
from typing import Iterator, List, Tuple

import design_reader
import mend
import response_times

TOOLS = os.path.dirname(os.path.abspath(__file__))
EXAMPLES = os.path.join(mend.TOP, 'examples')
PROGRAM = os.path.abspath(os.environ.get('PROGRAM', os.path.join(mend.TOP, 'crates', 'hrthood', 'out', 'hrthood')))
COSTS = 'COSTS ASSIGN = 1; TEST = 1; TURN = 1; CALL = 1; NULL = 1; PUT = 1; FINISH = 1; END COSTS;'

Row = Tuple[str, ...]

# A thread with calls in branches and loops, of which one has no iteration, and a protected object that calls another.
NESTED = f'''DESIGN nested IS {COSTS}
OBJECT whole IS ACTIVE OBJECTS
OBJECT inner IS PROTECTED PROVIDES put_one PAER; OPERATION put_one IS BEGIN work (4); END put_one; END inner;
OBJECT outer IS PROTECTED PROVIDES put_two PAER; REQUIRES inner.put_one;
OPERATION put_two IS BEGIN work (2); inner.put_one; null; END put_two; END outer;
OBJECT follower IS SPORADIC ATTRIBUTES SEPARATION = 900; DEADLINE = 900; THREAD_BUDGET = 100; PROVIDES start ASER;
THREAD work (5); END THREAD; END follower;
OBJECT leader IS CYCLIC ATTRIBUTES PERIOD = 1000; DEADLINE = 1000; THREAD_BUDGET = 500; REQUIRES inner.put_one; outer.put_two; follower.start;
DATA x : word := 0;
THREAD
   work (20);
   if x = 1 then
      outer.put_two;
      work (9);
   elsif x = 2 then
      x := 3;
      for i in word range 1 .. 3 loop
         exit when x = i;
         if x > i then inner.put_one; else work (8); end if;
         work (6);
      end loop;
   end if;
   for i in word range 2 .. 1 loop outer.put_two; end loop;
   for i in word range 1 .. 5 loop x := x + i; null; end loop;
   put (x);
   follower.start;
END THREAD;
END leader;
END whole;
END nested;
'''


def table_of(room: str, text: str) -> list[Row]:
    """The rows that mend.py writes of a design. None is left out."""
    file = os.path.join(room, 'one.design')
    with open(file, 'w', encoding='utf-8') as out:
        out.write(text)
    err = io.StringIO()
    with contextlib.redirect_stderr(err):
        rows = list(mend.rows_of(mend.Program(PROGRAM, room), file))
    assert err.getvalue() == '', err.getvalue()
    return rows


def example(name: str) -> str:
    """The text of a design of examples/."""
    with open(os.path.join(EXAMPLES, name + '.design'), encoding='utf-8') as text:
        return text.read()


class Small:
    """A random design of a few threads, as data, whose texts share nothing with mend.py. Each body has one `work` of its own."""

    def __init__(self, source: random.Random) -> None:
        self.tick = source.choice((0, 0, 20))
        self.numbers: dict[tuple[str, str], int] = {('body', 'store.keep'): source.randint(2, 9), ('body', 'maths.next'): source.randint(2, 6)}
        self.calls: dict[str, list[str]] = {}
        names = [f'thread_{number}' for number in range(source.randint(2, 3))]
        for name in names:
            period = source.choice((30, 40, 50, 60, 80, 100))
            self.add(source, name, 'PERIOD', period, source.randint(2, 2 + period // (len(names) + 2)))
        if source.random() < 0.6:
            self.numbers['ARRIVAL_JITTER', 'alarm'] = source.randint(1, 30)
            self.add(source, 'alarm', 'SEPARATION', source.choice((60, 90, 120)), source.randint(2, 9))
        if source.random() < 0.6:
            self.calls[names[0]].append('follower.start')
            least = self.numbers['PERIOD', names[0]]
            self.add(source, 'follower', 'SEPARATION', source.randint(least // 2, least), source.randint(2, 7))

    def add(self, source: random.Random, name: str, key: str, period: int, work: int) -> None:
        """Adds a thread."""
        self.numbers[key, name] = period
        self.numbers['DEADLINE', name] = source.randint(period // 3, period)
        self.numbers['cost', name] = work
        self.calls[name] = [call for call in ('store.keep', 'maths.next') if source.random() < 0.5]

    def thread(self, name: str) -> str:
        """The text of a thread."""
        unit = '0 us' if self.tick else ''
        kinds = {'PERIOD': 'CYCLIC', 'SEPARATION': 'SPORADIC'}
        key = 'PERIOD' if ('PERIOD', name) in self.numbers else 'SEPARATION'
        keys = [one for one in (key, 'DEADLINE', 'ARRIVAL_JITTER') if (one, name) in self.numbers]
        attributes = ' '.join(f'{one} = {self.numbers[one, name] * max(1, self.tick // 10)}{unit};' for one in keys)
        provides = 'PROVIDES start ASER;' if key == 'SEPARATION' else ''
        requires = 'REQUIRES ' + ' '.join(f'{call};' for call in self.calls[name]) if self.calls[name] else ''
        calls = ' '.join(f'{call};' for call in self.calls[name])
        work = f'work ({self.numbers["cost", name]});' if self.numbers['cost', name] else ''
        return f'''OBJECT {name} IS {kinds[key]} ATTRIBUTES {attributes} THREAD_BUDGET = 1000; {provides} {requires}
THREAD {work} {calls} END THREAD; END {name};'''

    def text(self) -> str:
        """The text of the design."""
        head = f'VERSION 2 IS TICK = {self.tick} us;' if self.tick else 'IS'
        threads = '\n'.join(map(self.thread, self.calls))
        return f'''DESIGN small {head} {COSTS}
OBJECT whole IS ACTIVE OBJECTS
OBJECT store IS PROTECTED PROVIDES keep PAER; OPERATION keep IS BEGIN work ({self.numbers['body', 'store.keep']}); END keep; END store;
OBJECT maths IS PASSIVE PROVIDES next; OPERATION next IS BEGIN work ({self.numbers['body', 'maths.next']}); END next; END maths;
{threads}
END whole;
END small;
'''

    def with_step(self, key: tuple[str, str], step: int) -> str:
        """The text with one number changed by a step."""
        self.numbers[key] += step
        text = self.text()
        self.numbers[key] -= step
        return text

    def steps(self, key: tuple[str, str]) -> List[int]:
        """The steps of a number, by how far they go, that its rule allows; no more than 60 upwards."""
        value = self.numbers[key]
        if key[0] in ('cost', 'body'):
            return list(range(-1, -value - bool(self.calls.get(key[1])), -1))
        if key[0] == 'ARRIVAL_JITTER':
            return list(range(-1, -value - 1, -1))
        if key[0] == 'DEADLINE':
            period = self.numbers.get(('PERIOD', key[1])) or self.numbers['SEPARATION', key[1]]
            return sorted((step for step in range(1 - value, period - value + 1) if step), key=abs)
        most = self.numbers['PERIOD', 'thread_0'] - value if key[1] == 'follower' else 60
        return list(range(1, most + 1))


def late_designs(program: mend.Program, source: random.Random) -> Iterator[Small]:
    """Random designs that `analyse` refuses for their bounds."""
    while True:
        small = Small(source)
        if program.bounds(small.text()) is None:
            yield small


@unittest.skipUnless(os.access(PROGRAM, os.X_OK), f'there is no program {PROGRAM}')
class Mends(unittest.TestCase):
    """The table, against the program."""

    def setUp(self) -> None:
        self.folder = tempfile.TemporaryDirectory()
        self.program = mend.Program(PROGRAM, self.folder.name)

    def tearDown(self) -> None:
        self.folder.cleanup()

    def test_late_control(self) -> None:
        self.assertEqual(table_of(self.folder.name, example('late_control')), [
            ('utilisation', 'all', '763', '', '', '', 'per mille'),
            ('work', 'all', '1000', '837', '-163', '16.3', 'per mille'),
            ('DEADLINE', 'star_tracker', '600', '729', '+129', '21.5', '72900 us'),
            ('cost', 'star_tracker', '370', '284', '-86', '23.2', '28400 us'),
            ('cost', 'controller', '92', '44', '-48', '52.2', '4400 us'),
        ])

    def test_late_platform(self) -> None:
        """One tick less of any of sixteen threads is enough for 30 threads, or a deadline at which the decoder responds."""
        rows = table_of(self.folder.name, example('late_platform'))
        ones = {of for number, of, _, _, change, *_ in rows if (number, change) == ('cost', '-1')}
        self.assertEqual(ones, {
            'gyro', 'reconfigure', 'safe_mode', 'handler', 'wheel0', 'wheel1', 'wheel2', 'thrusters', 'sun_sensor', 'magnetometer', 'kalman',
            'controller', 'watchdog', 'star_tracker_a', 'star_tracker_b', 'decoder'})
        self.assertEqual({of: (at, note) for number, of, _, at, _, _, note in rows if number == 'DEADLINE'}, {
            'decoder': ('1494', '74700 us'), 'watchdog': ('1494', '74700 us; priority 18 to 15'),
            'star_tracker_a': ('1494', '74700 us; priority 17 to 15'), 'star_tracker_b': ('1494', '74700 us; priority 16 to 15')})
        self.assertEqual([row[:4] for row in rows[:2]], [('utilisation', 'all', '885', ''), ('work', 'all', '1000', '990')])
        shares = [float(row[5]) for row in rows[2:]]
        self.assertEqual(shares, sorted(shares))

    def test_overloaded(self) -> None:
        """Where the processor has too little time for all, no change of one number is enough."""
        text = re.sub(r'(PERIOD|SEPARATION) = 20 ms; DEADLINE = \d+ ms;', r'\1 = 10 ms; DEADLINE = 10 ms;', example('late_platform'))
        rows = table_of(self.folder.name, text)
        self.assertEqual([row[:4] for row in rows], [('utilisation', 'all', '1028', ''), ('work', 'all', '1000', '666')])
        self.assertEqual(mend.written(rows, False)[-1], 'No change of one number was found by which it passes.')

    def test_random_designs(self) -> None:
        """A hundred late designs pass with each change of the table, and don't with one tick less of it."""
        changes = 0
        designs = late_designs(self.program, random.Random(1))
        for _ in range(100):
            small = next(designs)
            for number, of, value, _, change, *_ in table_of(self.folder.name, small.text())[2:]:
                changes += 1
                step, key = int(change), (number, of)
                if number != 'cost' and number != 'body':
                    self.assertEqual(int(value), small.numbers[key])
                self.assertIsNotNone(self.program.bounds(small.with_step(key, step)), (key, change, small.text()))
                nearer = step - (1 if step > 0 else -1)
                self.assertIsNone(self.program.bounds(small.with_step(key, nearer)), (key, change, small.text()))
        self.assertGreater(changes, 80)

    def test_nothing_nearer(self) -> None:
        """Of each number all smaller changes are refused by the program, and all at all where the table has no row of it."""
        designs = late_designs(self.program, random.Random(2))
        for _ in range(3):
            small = next(designs)
            found = {row[:2]: int(row[4]) for row in table_of(self.folder.name, small.text())[2:]}
            for key in small.numbers:
                most = abs(found.get(key, 1000))
                tried = [step for step in small.steps(key) if abs(step) < most]
                passing = [step for step in tried if self.program.bounds(small.with_step(key, step)) is not None]
                self.assertEqual(passing, [], (key, small.text()))

    def test_bodies(self) -> None:
        """A body with calls in branches and loops is written with each cost from its own down to the least, and blocks as before."""
        design = design_reader.Design(self.program.output('format', self.program.written(NESTED)))
        search = mend.Search(design)
        leader, follower = (design.by_name[name].thread for name in ('leader', 'follower'))
        assert leader is not None and follower is not None
        before = self.program.bounds(NESTED)
        assert before is not None
        least = search.pricing.least(leader.block) + 1
        self.assertLess(least, before['leader']['cost'])
        for cost in range(least, before['leader']['cost'] + 1):
            after = self.program.bounds(search.with_body(leader, 1, cost))
            assert after is not None
            self.assertEqual(after['leader']['cost'], cost)
            self.assertEqual(after['follower']['blocking'], before['follower']['blocking'])

    def test_sections(self) -> None:
        """The cost of a body changes what blocks by as much, also inside another protected object."""
        text = NESTED.replace('work (20);', 'work (20); outer.put_two;')
        search = mend.Search(design_reader.Design(self.program.output('format', self.program.written(text))))
        for operation, least in (('inner', 'put_one'), 1), (('outer', 'put_two'), 5):
            body = search.design.body_of(operation)
            assert body is not None
            self.assertEqual(search.pricing.least(body.block), least)
            cost = search.pricing.operation(operation)
            for less in range(least, cost + 1):
                bounds = self.program.bounds(search.with_body(body, 0, less))
                assert bounds is not None
                numbers = search.with_operation(operation, less)
                self.assertEqual([bounds[name]['cost'] for name in ('follower', 'leader')], numbers.costs)
                order = response_times.order_of(numbers.deadlines)
                names = [search.design.threads[thread].name for thread in order]
                self.assertEqual([bounds[name]['blocking'] for name in names], search.model.blockings(order, numbers))


@unittest.skipUnless(os.access(PROGRAM, os.X_OK), f'there is no program {PROGRAM}')
class Commands(unittest.TestCase):
    """The script as it is called."""

    def run_script(self, *words: str, **environment: str) -> tuple[int, str, str]:
        """The status of the script in the folder of examples, and both streams."""
        done = subprocess.run([sys.executable, os.path.join(TOOLS, 'mend.py'), *words], capture_output=True, text=True, cwd=EXAMPLES,
                              env={**os.environ, 'PROGRAM': PROGRAM, **environment})
        return done.returncode, done.stdout, done.stderr

    def test_values(self) -> None:
        status, out, err = self.run_script('--csv', 'late_control.design')
        self.assertEqual((status, err), (0, ''))
        rows = list(csv.DictReader(out.splitlines()))
        self.assertEqual([(row['number'], row['passes_at']) for row in rows], [
            ('utilisation', ''), ('work', '837'), ('DEADLINE', '729'), ('cost', '284'), ('cost', '44')])

    def test_passing_designs(self) -> None:
        """Of a design that passes the utilisation is reported, and that there is nothing to change."""
        for name, utilisation in ('mine_pump', 594), ('flight_control', 600), ('tank', 395):
            status, out, err = self.run_script(name + '.design')
            self.assertEqual((status, err), (0, ''))
            self.assertEqual(out.splitlines()[2:], [
                f'| utilisation | all | {utilisation} |  |  |  | per mille |', '',
                'The design passes as it is; `margins.py` reports how much it may grow.'])

    def test_refusals(self) -> None:
        self.assertEqual(self.run_script('logged_control.design'), (1, '', 'mend.py: logged_control.design: refused V05 reporter\n'))
        status, out, err = self.run_script('absent.design')
        self.assertEqual((status, out), (1, ''))
        self.assertIn('absent.design', err)
        status, _, err = self.run_script('tank.design', PROGRAM='/nothing')
        self.assertEqual((status, err.split(';')[0]), (1, 'mend.py: there is no program /nothing'))

    def test_words(self) -> None:
        for words in (), ('--all', 'tank.design'), ('tank.design', 'tank.design'):
            status, out, err = self.run_script(*words)
            self.assertEqual((status, out), (2, ''))
            self.assertIn('mend.py [--csv] DESIGN', err)
        status, out, err = self.run_script('--help')
        self.assertEqual((status, err), (0, ''))
        self.assertIn('mend.py [--csv] DESIGN', out)


if __name__ == '__main__':
    unittest.main()
