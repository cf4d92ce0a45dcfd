#!/usr/bin/env python3
"""Tests of budgets.py and wcet.py.

    test_budgets.py [-v]

PROGRAM is the path of the program, and the proved program of this repository where it isn't set. Without one, the tests that need it are skipped,
which is told.
"""

from __future__ import annotations

import os
import stat
import subprocess
import sys
import tempfile
import unittest
from fractions import Fraction

sys.dont_write_bytecode = True
HERE = os.path.dirname(os.path.abspath(__file__))
TOP = os.path.dirname(os.path.dirname(HERE))
sys.path.insert(0, HERE)
import budgets  # noqa: E402
import wcet     # noqa: E402

PROGRAM = os.path.abspath(os.environ.get('PROGRAM', os.path.join(TOP, 'crates', 'hrthood', 'out', 'hrthood')))
HAS_PROGRAM = os.access(PROGRAM, os.X_OK)
EXAMPLE = os.path.join(TOP, 'examples', 'measured')
LIMITS = {'a': {'cost': 5, 'budget': 8}, 'b': {'cost': 3, 'budget': 3}}
HEAD = '| thread | ends | greatest | mean | cost | budget | exceeded |\n|---|---:|---:|---:|---:|---:|---|\n'
TIMES = 'object,operation,ticks\na,thread,7\np,read,2\n'
DESIGN = '''TICK = 50 us;
THREAD Work ( 3 ) ;  -- wcet A.Thread\r
  if x = 1 then work(1); --wcet p . read
  work (9); -- of no row; the word wcet is not first
work (4);
'''


def run(script: str, *words: str, program: str = PROGRAM) -> tuple[int, str, str]:
    """The status of a script of this folder, and what it writes on standard output and standard error."""
    done = subprocess.run([sys.executable, os.path.join(HERE, script), *words], capture_output=True, text=True, timeout=300,
                          env={**os.environ, 'PROGRAM': program})
    return done.returncode, done.stdout, done.stderr


class InFolder(unittest.TestCase):
    """Tests with files in a folder of their own."""

    def setUp(self) -> None:
        self.folder = tempfile.TemporaryDirectory()
        self.addCleanup(self.folder.cleanup)

    def file(self, name: str, text: str) -> str:
        """The path of a new file with this text."""
        path = os.path.join(self.folder.name, name)
        with open(path, 'w', encoding='utf-8', newline='') as stream:
            stream.write(text)
        return path


class Used(InFolder):
    """budgets.py on logs written by hand."""

    def fault(self, text: str) -> str:
        """What is wrong with a log, after its name."""
        path = self.file('log', text)
        with self.assertRaises(budgets.Fault) as caught:
            list(budgets.used_in(path, LIMITS))
        self.assertTrue(str(caught.exception).startswith(path + ':'))
        return str(caught.exception)[len(path) + 1:]

    def test_lines(self) -> None:
        """Ends count; other lines, and those of an Ada text before the trace, don't."""
        path = self.file('log', '   end a;\n-- trace\n0 release a\n4 end a used 4\n5 put a 9\n9 end b used 3\n12 end a used 6\n20 horizon\n')
        self.assertEqual(list(budgets.used_in(path, LIMITS)), [('a', 4), ('b', 3), ('a', 6)])

    def test_faults(self) -> None:
        self.assertEqual(self.fault('0 release a\n4 end a\n'), '2: not `TICK end THREAD used N`: 4 end a')
        self.assertEqual(self.fault('4 end a used x\n'), '1: not `TICK end THREAD used N`: 4 end a used x')
        self.assertEqual(self.fault('4 end c used 3\n'), '1: the design has no thread c')

    def test_rows(self) -> None:
        """Up to the cost nothing is exceeded; up to the budget the cost is; above it the budget. The mean is rounded up."""
        limit = LIMITS['a']
        self.assertEqual(budgets.row_of('a', [5, 1, 4], limit), ('a', '3', '5', '3.34', '5', '8', ''))
        self.assertEqual(budgets.row_of('a', [6], limit)[-1], 'cost')
        self.assertEqual(budgets.row_of('a', [8], limit)[-1], 'cost')
        self.assertEqual(budgets.row_of('a', [9, 1], limit)[-1], 'budget')
        self.assertEqual(budgets.row_of('a', [], limit), ('a', '0', '', '', '5', '8', ''))
        self.assertEqual(budgets.hundredths(Fraction(2)), '2.00')

    @unittest.skipUnless(HAS_PROGRAM, f'there is no program {PROGRAM}')
    def test_example(self) -> None:
        self.assertEqual(run('budgets.py', EXAMPLE + '.design', EXAMPLE + '.log'), (
            1, HEAD + '| sampler | 3 | 21 | 16.00 | 13 | 20 | budget |\n| regulator | 2 | 24 | 21.50 | 27 | 40 |  |\n', ''))

    @unittest.skipUnless(HAS_PROGRAM, f'there is no program {PROGRAM}')
    def test_own_traces(self) -> None:
        """A trace of the program is within the costs, and reaches them; two logs count together; a design that is late has costs too."""
        mine = os.path.join(TOP, 'examples', 'mine_pump.design')
        arrivals = os.path.join(TOP, 'examples', 'one_water_alarm.arrivals')
        trace = subprocess.run([PROGRAM, 'verify', mine, arrivals], capture_output=True, text=True, check=True, timeout=300).stdout
        path = self.file('trace', trace)
        status, out, err = run('budgets.py', '--csv', mine, path, path)
        self.assertEqual((status, err), (0, ''))
        rows = [line.split(',') for line in out.splitlines()]
        self.assertEqual(rows[0], ['thread', 'ends', 'greatest', 'mean', 'cost', 'budget', 'exceeded'])
        ends = trace.split('-- trace', 1)[1].count(' end ')
        self.assertGreater(ends, 5)
        self.assertEqual(sum(int(row[1]) for row in rows[1:]), 2 * ends)
        self.assertTrue(any(row[2] == row[4] for row in rows[1:]))
        late = os.path.join(TOP, 'examples', 'late_control.design')
        self.assertEqual(run('budgets.py', late, self.file('log', '1 end gyro used 1\n'))[0], 0)

    @unittest.skipUnless(HAS_PROGRAM, f'there is no program {PROGRAM}')
    def test_refusals(self) -> None:
        """Wrong words, files and logs have status 2, and a design that the program refuses 1."""
        self.assertEqual(run('budgets.py', EXAMPLE + '.design')[0], 2)
        self.assertEqual(run('budgets.py', EXAMPLE + '.design', '/no/such'), (2, '', 'budgets.py: /no/such: No such file or directory\n'))
        status, out, err = run('budgets.py', EXAMPLE + '.design', self.file('log', '1 release sampler\n'))
        self.assertEqual((status, err), (2, 'budgets.py: no line of an end in these logs\n'))
        wrong = self.file('wrong.design', 'DESIGN d IS\n')
        self.assertEqual(run('budgets.py', wrong, EXAMPLE + '.log'), (1, '', f'budgets.py: {wrong}: refused S1 design line 2 column 1\n'))


class Written(InFolder):
    """wcet.py"""

    def fault(self, times: str, design: str = DESIGN) -> str:
        """What is wrong with these texts."""
        with self.assertRaises(wcet.Fault) as caught:
            wcet.replaced('D', design, 'T', wcet.rows_of('T', times, wcet.tick_of(design)))
        return str(caught.exception)

    def test_numbers_alone_change(self) -> None:
        """Every other byte stays, ends of lines and capitals among them."""
        text, changes = wcet.replaced('D', DESIGN, 'T', wcet.rows_of('T', TIMES, None))
        self.assertEqual(text, DESIGN.replace('( 3 )', '( 7 )').replace('work(1)', 'work(2)'))
        self.assertEqual(changes, ['D:2: a.thread: work (3) becomes work (7)', 'D:3: p.read: work (1) becomes work (2)'])

    def test_units(self) -> None:
        """Times are rounded up to ticks."""
        for unit, time, ticks in (('us', '50', 1), ('us', '50.001', 2), ('us', '0.1', 1), ('ns', '100001', 3), ('ms', '1.5', 30), ('s', '2', 40000)):
            self.assertEqual(wcet.rows_of('T', f'object,operation,{unit}\na,b,{time}\n', 50000), {('a', 'b'): (ticks, 2)})
        self.assertEqual(wcet.rows_of('T', '\ufeffobject,operation,ticks\r\n\r\na,b,7\r\n', None), {('a', 'b'): (7, 3)})
        self.assertEqual(wcet.tick_of('-- TICK = 1 us;\nTick = 2  ms ;'), 2000000)

    def test_times_that_do_not_fit(self) -> None:
        for times, line in (
                ('', 'T:1: the first line is not object,operation,ticks, or with ns, us, ms or s for ticks'),
                ('object,operation,hours\n',
                 'T:1: the first line is not object,operation,ticks, or with ns, us, ms or s for ticks: object,operation,hours'),
                ('object,operation,ticks\na,thread\n', 'T:2: not a name, a name and a time: a,thread'),
                ('object,operation,ticks\n\na,thread,-1\n', 'T:3: not a name, a name and a time: a,thread,-1'),
                ('object,operation,ticks\na,thread,1.5\n', 'T:2: 1.5 is not a whole number of ticks'),
                ('object,operation,ticks\na,thread,0\n', 'T:2: 0 ticks is not 1 to 1,000,000,000 ticks'),
                ('object,operation,s\na,thread,50000.1\n', 'T:2: 50000.1 s is not 1 to 1,000,000,000 ticks'),
                (TIMES + 'a,thread,3\n', 'T:4: a.thread is in line 2 too'),
                (TIMES + 'a,other,3\n', 'T:4: no statement of D names a.other')):
            self.assertEqual(self.fault(times), line)
        self.assertEqual(self.fault('object,operation,us\na,thread,1\n', 'work (1); -- wcet a.thread'),
                         'T:1: the times are in us, and the design has no TICK')

    def test_designs_that_do_not_fit(self) -> None:
        for design, line in (
                ('work (1); -- wcet a.thread\nwork (2); -- wcet b.c', 'D:2: T has no row b,c'),
                ('-- wcet a.thread', 'D:1: 0 statements of work on the line that names a.thread'),
                ('work (1); work (2); -- wcet a.thread', 'D:1: 2 statements of work on the line that names a.thread'),
                ('work (1); -- wcet a', 'D:1: not `-- wcet OBJECT.OPERATION`'),
                ('work (1); -- wcet a.thread slow', 'D:1: not `-- wcet OBJECT.OPERATION`')):
            self.assertEqual(self.fault('object,operation,ticks\na,thread,3\n', design), line)

    @unittest.skipUnless(HAS_PROGRAM, f'there is no program {PROGRAM}')
    def test_example(self) -> None:
        """The file gets the numbers and keeps its rights; a second call finds them there."""
        with open(EXAMPLE + '.design', encoding='utf-8') as stream:
            text = stream.read()
        design = self.file('m.design', text)
        os.chmod(design, 0o640)
        status, out, err = run('wcet.py', EXAMPLE + '.csv', design)
        self.assertEqual((status, err), (0, ''))
        self.assertEqual(out, ''.join(f'{design}:{line}\n' for line in (
            '11: latest.set: work (1) becomes work (2)', '20: sampler.thread: work (6) becomes work (7)',
            '32: regulator.far: work (20) becomes work (24)')))
        self.assertEqual(stat.S_IMODE(os.stat(design).st_mode), 0o640)
        with open(design, encoding='utf-8') as stream:
            self.assertEqual(stream.read(), text.replace('work (1);', 'work (2);').replace('work (6);', 'work (7);').replace('(20)', '(24)'))
        self.assertEqual(run('wcet.py', EXAMPLE + '.csv', design), (0, f'{design}: all numbers are those of {EXAMPLE}.csv\n', ''))

    @unittest.skipUnless(HAS_PROGRAM, f'there is no program {PROGRAM}')
    def test_nothing_is_written(self) -> None:
        """A design that the program refuses with the times, and one whose program is missing, stay, and nothing is left beside them."""
        with open(EXAMPLE + '.design', encoding='utf-8') as stream:
            text = stream.read()
        design = self.file('m.design', text)
        times = self.file('t.csv', 'object,operation,us\nlatest,set,50\nsampler,thread,2000\nregulator,far,50\nregulator,near,50\n')
        self.assertEqual(run('wcet.py', times, design), (1, '', f'wcet.py: {design}: with these times: refused V14 sampler cost 47 budget 20\n'))
        status, _, err = run('wcet.py', EXAMPLE + '.csv', design, program='/no/such')
        self.assertEqual((status, err.split(';')[0]), (1, 'wcet.py: there is no program /no/such'))
        self.assertEqual(run('wcet.py', '/no/such', design), (2, '', 'wcet.py: /no/such: No such file or directory\n'))
        with open(design, encoding='utf-8') as stream:
            self.assertEqual(stream.read(), text)
        self.assertEqual(sorted(os.listdir(self.folder.name)), ['m.design', 't.csv'])


if __name__ == '__main__':
    unittest.main()
