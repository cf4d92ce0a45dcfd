#!/usr/bin/env python3
"""Tests of to_trace.py, which need neither GNAT nor rights; those with logs run the program PROGRAM, or `hrthood` of this repository."""

from __future__ import annotations

import os
import random
import subprocess
import sys
import tempfile
import unittest

sys.dont_write_bytecode = True
HERE = os.path.dirname(os.path.realpath(__file__))
sys.path.insert(0, HERE)
import target                   # noqa: E402
import test_target              # noqa: E402
import to_trace                 # noqa: E402
import traces                   # noqa: E402
from test_target import ARRIVALS, STEPS, TRACE, example, program    # noqa: E402

HOOD = os.environ.get('PROGRAM', os.path.join(HERE, '..', '..', 'hrthood'))
# Both are released at 0, and both end at 6 with 6 ticks used.
TWO_PROCESSORS = '0 release a\n0 release b\n6 end a used 6\n6 end b used 6\n20 release a\n20 release b\n20 horizon\n'
TWO_TASKS = """DESIGN d IS
COSTS ASSIGN = 1; TEST = 1; TURN = 1; CALL = 1; NULL = 1; PUT = 1; FINISH = 1; END COSTS;
OBJECT r IS ACTIVE
OBJECTS
  OBJECT a IS CYCLIC
  ATTRIBUTES PERIOD = 20; DEADLINE = 10; THREAD_BUDGET = 6;
  THREAD work (5); END THREAD;
  END a;
  OBJECT b IS CYCLIC
  ATTRIBUTES PERIOD = 20; DEADLINE = 20; THREAD_BUDGET = 6;
  THREAD work (5); END THREAD;
  END b;
END r;
END d;
"""


def run_program(room: str, *words: str, **files: str) -> str:
    """Returns what the program writes. A word that is a name in `files` is the path of a file of that content."""
    for name, content in files.items():
        with open(os.path.join(room, name), 'w') as stream:
            stream.write(content)
    paths = [os.path.join(room, word) if word in files else word for word in words]
    return subprocess.run([HOOD, *paths], capture_output=True, text=True).stdout


class Traces(unittest.TestCase):
    def test_a_run_that_agrees_is_its_trace(self) -> None:
        self.assertEqual(to_trace.trace_of(program(), ARRIVALS, STEPS), TRACE)

    def test_what_a_run_does_otherwise_stands_in_its_trace(self) -> None:
        for old, new, wanted in ((' 33 put 2 2', ' 34 put 2 3', '34 put printer 3'),
                                 (' 28 end 3 used 5', ' 29 end 3 used 6', '29 end button used 6')):
            trace = to_trace.trace_of(program(), ARRIVALS, STEPS.replace(old, new))
            self.assertEqual(set(trace.splitlines()) - set(TRACE.splitlines()), {wanted})

    def test_lines_behind_the_horizon_are_left_out(self) -> None:
        self.assertNotIn('121', to_trace.trace_of(program(), ARRIVALS, STEPS))
        self.assertEqual(to_trace.trace_of(program(), 'UNTIL 20;', ''), '10 release sampler\n20 horizon\n')

    def test_a_request_waits_for_the_end_before_it(self) -> None:
        run = ' 28 end 3 used 5\n 50 end 3 used 5\n'
        self.assertEqual(to_trace.trace_of(program(), 'UNTIL 60; AT 21 button 7; AT 24 button 8; AT 26 button 9;', run), (
            '10 release sampler\n21 arrive button 7\n21 release button 7\n24 arrive button 8\n26 arrive button 9\n'
            '28 end button used 5\n28 release button 9\n50 end button used 5\n60 horizon\n'))

    def test_lines_are_sorted_by_time_alone(self) -> None:
        lines = STEPS.splitlines()
        self.assertEqual(to_trace.trace_of(program(), ARRIVALS, '\n'.join([lines[1], lines[0], *lines[2:]]) + '\n'), TRACE)
        swapped = to_trace.trace_of(program(), 'UNTIL 9;', ' 3 put 2 5\n 3 put 2 4\n')
        self.assertEqual(swapped, '3 put printer 5\n3 put printer 4\n9 horizon\n')

    def test_an_end_without_ticks_is_refused(self) -> None:
        with self.assertRaises(traces.Fault):
            to_trace.trace_of(program(), ARRIVALS, STEPS.replace(' used 5', ''))


class Durations(unittest.TestCase):
    def test_the_first_statements_give_first(self) -> None:
        statements = [(0, 5), (0, 3), (-1, 1), (1, 4)]
        for missing, wanted in (([0, 0], [5, 3, 1, 4]), ([3, 0], [2, 3, 1, 4]), ([5, 1], [1, 2, 1, 3]), ([9, 9], [1, 1, 1, 1]),
                                ([-1, 2], [5, 3, 1, 2])):
            self.assertEqual(to_trace.durations(statements, missing), wanted)


class Replays(unittest.TestCase):
    def answer(self, text: str, arrivals: str, log: str) -> tuple[int, list[str]]:
        answer = to_trace.compare(traces.read_program(text), text, arrivals, log)
        return answer.status(), answer.lines

    def case(self, room: str, name: str, arrivals: str) -> tuple[str, str]:
        """The text of an example, and its trace under these arrivals."""
        text = run_program(room, 'generate', os.path.join(test_target.EXAMPLES, name))
        return text, run_program(room, 'replay', 'text', 'arrivals', text=text, arrivals=arrivals)

    def test_durations_that_were_drawn_are_found(self) -> None:
        dice = random.Random(1)
        with tempfile.TemporaryDirectory() as room:
            lists = ['WORK sampler %s;' % ', '.join(str(dice.randint(1, 5)) for _ in range(6)), 'WORK button %d;' % dice.randint(1, 2)]
            arrivals = 'UNTIL 240;\n%s\nAT 21 button 7;\nAT 219 button 8;\n' % '\n'.join(lists)
            text, log = self.case(room, 'every_kind.design', arrivals)
            _, full = self.case(room, 'every_kind.design', target.without_durations(arrivals))
            self.assertNotEqual(log, full)
            status, lines = self.answer(text, arrivals, log)
            self.assertEqual((status, lines[-1][:9]), (target.AGREES, 'same: all'))
            self.assertTrue(any(line.startswith('WORK sampler') for line in lines))
            self.assertEqual(self.answer(text, arrivals, full), (target.AGREES, lines[-1:]))

    def test_a_late_thread_is_accepted_and_not_replayed(self) -> None:
        with tempfile.TemporaryDirectory() as room:
            design, arrivals = os.path.join(test_target.EXAMPLES, 'mine_pump.design'), example('one_water_alarm.arrivals')
            text, trace = self.case(room, 'mine_pump.design', arrivals)
            late = trace.replace('65 end flow_sensor', '66 end flow_sensor')
            self.assertNotEqual(late, trace)
            self.assertEqual(run_program(room, 'accepts', design, 'arrivals', 'log', arrivals=arrivals, log=late), 'yes lines 36\n')
            self.assertEqual(self.answer(text, arrivals, trace)[0], target.AGREES)
            status, lines = self.answer(text, arrivals, late)
            self.assertEqual((status, lines[-1]), (target.DIFFERS, 'the order is the same, and ticks differ by 1 at most'))

    def test_two_processors_are_accepted_and_not_replayed(self) -> None:
        with tempfile.TemporaryDirectory() as room:
            text = run_program(room, 'generate', 'design', design=TWO_TASKS)
            self.assertEqual(run_program(room, 'accepts', 'design', 'arrivals', 'log', design=TWO_TASKS, arrivals='UNTIL 20;\n', log=TWO_PROCESSORS),
                             'yes lines 7\n')
            status, lines = self.answer(text, 'UNTIL 20;\n', TWO_PROCESSORS)
            self.assertEqual((status, lines[0]), (target.DIFFERS, 'different from line 2 on (of 2 and 2):'))
            exchanged = '0 release a\n0 release b\n6 end b used 6\n12 end a used 6\n20 release a\n20 release b\n20 horizon\n'
            self.assertEqual(self.answer(text, 'UNTIL 20;\n', exchanged)[0], target.DIFFERS)
            self.assertEqual(self.answer(text, 'UNTIL 20;\n', exchanged.replace('6 end b', '6 end a').replace('12 end a', '12 end b')),
                             (target.AGREES, ['same: all 2 lines of the replay, in order, at the same ticks']))
            moved = exchanged.replace('6 end b', '6 end a').replace('12 end a', '12 end b').replace('20 release b', '19 release b')
            self.assertEqual(self.answer(text, 'UNTIL 20;\n', moved)[0], target.DIFFERS)

    def test_more_ticks_than_the_text_allows(self) -> None:
        with tempfile.TemporaryDirectory() as room:
            text = run_program(room, 'generate', 'design', design=TWO_TASKS)
            log = '0 release a\n0 release b\n7 end a used 7\n13 end b used 6\n20 release a\n20 release b\n20 horizon\n'
            self.assertEqual(self.answer(text, 'UNTIL 20;\n', log)[0], target.DIFFERS)


class Words(unittest.TestCase):
    def run_script(self, *words: str) -> subprocess.CompletedProcess[str]:
        return subprocess.run([sys.executable, os.path.join(HERE, 'to_trace.py'), *words], capture_output=True, text=True)

    def test_statuses(self) -> None:
        with tempfile.TemporaryDirectory() as room:
            paths = {}
            for name, content in (('text', test_target.HEAD + example('every_kind.ada')), ('arrivals', ARRIVALS), ('run', STEPS),
                                  ('none', 'hello\n')):
                paths[name] = os.path.join(room, name)
                with open(paths[name], 'w') as stream:
                    stream.write(content)
            answer = self.run_script(paths['text'], paths['arrivals'], paths['run'])
            self.assertEqual((answer.returncode, answer.stdout, answer.stderr), (0, TRACE, ''))
            answer = self.run_script(paths['text'], paths['arrivals'], paths['none'])
            self.assertEqual((answer.returncode, answer.stdout, answer.stderr), (2, '', 'to_trace: a line of the run is none: hello\n'))
            answer = self.run_script('--replay', paths['text'], paths['arrivals'], paths['none'])
            self.assertEqual((answer.returncode, answer.stdout, answer.stderr), (2, '', 'to_trace: line 1 of the trace is none: hello\n'))
        for words in ((), ('--replay', 'a'), ('nowhere', 'nowhere', 'nowhere')):
            self.assertEqual(self.run_script(*words).returncode, 2)


if __name__ == '__main__':
    unittest.main()
