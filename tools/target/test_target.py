#!/usr/bin/env python3
"""Tests of what needs neither GNAT nor rights: texts that pay their costs, arrivals as tasks, and that the comparisons find what is changed."""

from __future__ import annotations

import os
import shutil
import subprocess
import sys
import tempfile
import unittest
from typing import Any

sys.dont_write_bytecode = True
HERE = os.path.dirname(os.path.realpath(__file__))
EXAMPLES = os.path.join(HERE, '..', '..', 'examples')
sys.path.insert(0, HERE)
import changed_logs             # noqa: E402
import costed                   # noqa: E402
import initramfs                # noqa: E402
import random_design            # noqa: E402
import target                   # noqa: E402
import test_bodies              # noqa: E402
import traces                   # noqa: E402

HEAD = """-- design kinds
-- thread button priority 3 jitter 3 response 9 deadline 20
-- thread printer priority 2 jitter 26 response 11 deadline 60
-- thread sampler priority 1 jitter 0 response 26 deadline 80
"""
TRACE = """10 release sampler
20 enter sampler board.note 2
21 arrive button 7
21 release button 7
23 leave sampler board.note
25 enter button board.note 7
27 leave button board.note
28 end button used 5
32 request sampler printer 2
32 release printer 2
33 put printer 2
34 end printer used 2
35 end sampler used 18
110 release sampler
120 horizon
"""
# The same as lines of a run, with priorities in the place of names, and an enter behind the horizon.
STEPS = """ 20 enter 1 board.note 2
 23 leave 1 board.note
 25 enter 3 board.note 7
 27 leave 3 board.note
 28 end 3 used 5
 32 request 1 printer 2
 33 put 2 2
 34 end 2 used 2
 35 end 1 used 18
 121 enter 1 board.note 4
"""
# Seconds, where a tick is a millisecond: the button responds in 5.5 ticks, and the sampler in 21.25.
SECONDS = """ 0.0265 end 3
 0.0300 put 2 2
 0.0305 end 2
 0.03125 end 1
"""
ARRIVALS = '-- once\nUNTIL 120;\nWORK sampler 5, 2;\nAT 21 button 7;\n'


def example(name: str) -> str:
    with open(os.path.join(EXAMPLES, name)) as stream:
        return stream.read()


def program() -> traces.Program:
    return target.read_text(HEAD + example('every_kind.ada'))


class Steps(unittest.TestCase):
    def answer(self, run: str, trace: str = TRACE) -> tuple[int, list[str]]:
        answer = target.compare_steps(program(), trace, run)
        return answer.status(), answer.lines

    def test_a_run_that_agrees(self) -> None:
        self.assertEqual(self.answer(STEPS), (target.AGREES, ['same: all 9 lines of the replay, in order, at the same ticks']))

    def test_each_line_that_is_changed_is_found(self) -> None:
        lines = STEPS.splitlines()[:9]
        for i, line in enumerate(lines):
            time, rest = line.split()[0], line.split(' ', 2)[2]
            later = ' %d %s' % (int(time) + 1, rest)
            other_task = line.replace(' 1', ' 2', 1) if ' 1 ' in line or line.endswith(' 1') else line[:-1] + '9'
            changes: tuple[tuple[str, list[str]], ...] = (
                ('missing', []), ('twice', [line, line]), ('a tick later', [later]), ('other values', [line + ' 1']),
                ('another task or value', [other_task]))
            for name, changed in changes:
                self.assertNotEqual(changed, [line])
                status, told = self.answer('\n'.join(lines[:i] + changed + lines[i + 1:]) + '\n')
                self.assertEqual(status, target.DIFFERS, '%s: %s' % (name, line))
                self.assertTrue(any('different from line' in one for one in told))

    def test_lines_in_another_order(self) -> None:
        lines = STEPS.splitlines()[:9]
        for i in range(8):
            swapped = lines[:i] + [lines[i + 1], lines[i]] + lines[i + 2:]
            self.assertEqual(self.answer('\n'.join(swapped) + '\n')[0], target.DIFFERS)

    def test_an_empty_run_does_not_agree(self) -> None:
        self.assertEqual(self.answer('')[0], target.DIFFERS)

    def test_the_place_is_told(self) -> None:
        status, lines = self.answer(STEPS.replace('32 request 1 printer 2', '32 request 1 printer 3'))
        self.assertEqual(lines[0], 'different from line 6 on (of 9 and 9):')
        self.assertIn('   replay 32 request sampler printer 2                 run 32 request sampler printer 3', lines)

    def test_ticks_alone(self) -> None:
        status, lines = self.answer(STEPS.replace(' 35 end', ' 37 end'))
        self.assertEqual((status, lines[-1]), (target.DIFFERS, 'the order is the same, and ticks differ by 2 at most'))

    def test_a_task_that_ended(self) -> None:
        status, lines = self.answer(STEPS + ' 40 dead 1 PROGRAM_ERROR hrt_run.adb:1\n')
        self.assertEqual((status, lines[0]), (target.DIFFERS, 'TASK ENDED: sampler at 40 PROGRAM_ERROR hrt_run.adb:1'))

    def test_a_replay_that_stops(self) -> None:
        trace = TRACE[:TRACE.index('25 enter')] + '23 stop button board priority 3 ceiling 2\n'
        run = STEPS[:STEPS.index(' 25 enter')]
        dead = ' 23 dead 3 PROGRAM_ERROR kinds.adb:1 explicit raise\n'
        self.assertEqual(self.answer(run + dead, trace), (target.AGREES, [
            'the replay stops, and the task gets PROGRAM_ERROR: 23 stop button board priority 3 ceiling 2',
            'same: all 2 lines of the replay, in order, at the same ticks']))
        for other in ('', dead.replace('23', '24'), dead.replace('dead 3', 'dead 2'), dead.replace('PROGRAM', 'CONSTRAINT')):
            self.assertEqual(self.answer(run + other, trace)[0], target.DIFFERS, other)
        self.assertEqual(self.answer(run.replace('board.note 2', 'board.note 3') + dead, trace)[0], target.DIFFERS)

    def test_the_host_took_the_processor(self) -> None:
        away = ' 22 away 1 0.0043\n'
        self.assertEqual(self.answer(away + STEPS)[0], target.AGREES)
        status, lines = self.answer(away + STEPS.replace('35 end', '36 end'))
        self.assertEqual((status, lines[-1]), (target.DISTURBED, 'the host took the processor away 1 times, for 4.3 ms at most; '
                                               'so nothing is shown: run it again'))

    def test_a_leave_behind_a_request_may_come_late(self) -> None:
        trace = TRACE.replace('32 request sampler printer 2\n32 release printer 2\n',
                              '30 enter sampler board.note 2\n32 request sampler printer 2\n32 release printer 2\n32 leave sampler board.note\n')
        run = STEPS.replace(' 32 request 1 printer 2\n', ' 30 enter 1 board.note 2\n 32 request 1 printer 2\n')
        run = run.replace(' 34 end 2 used 2\n', ' 34 end 2 used 2\n 34 leave 1 board.note\n')
        self.assertEqual(self.answer(run, trace)[1],
                         ['same: all 10 lines of the replay, in order, at the same ticks; 1 leaves behind requests are passed over'])
        self.assertEqual(self.answer(run.replace(' 23 leave 1 board.note\n', ''), trace)[0], target.DIFFERS)

    def test_lines_that_are_none(self) -> None:
        for line in ('hello', '3', '3 put', 'x put 1', '3 put x'):
            with self.assertRaises(traces.Fault):
                self.answer(line + '\n')

    def test_the_last_line_may_be_cut_off(self) -> None:
        self.assertEqual(self.answer(STEPS + ' 130 le')[0], target.AGREES)


class Responses(unittest.TestCase):
    def answer(self, run: str, tick: int = 1000) -> tuple[int, list[str]]:
        answer = target.compare_responses(program(), TRACE, ARRIVALS, tick, run)
        return answer.status(), answer.lines

    def test_a_run_within_its_bounds(self) -> None:
        status, lines = self.answer(SECONDS)
        self.assertEqual(status, target.AGREES)
        self.assertEqual([line.split() for line in lines], [
            'puts: 1 replayed, 1 run, same order'.split(), 'task deadline bound replayed run ends'.split(),
            'button 20 9 7 5.50 1'.split(), 'printer 60 11 2 - 1'.split(), 'sampler 80 26 25 21.25 1'.split()])

    def test_an_end_over_its_bound(self) -> None:
        status, lines = self.answer(SECONDS.replace('0.0265', '0.0301'))
        self.assertEqual((status, lines[3]), (target.DIFFERS, '   OVER THE BOUND'))
        self.assertEqual(self.answer(SECONDS.replace('0.0265', '0.0300'))[0], target.AGREES)

    def test_a_tick_of_the_design(self) -> None:
        self.assertEqual(self.answer(SECONDS, 500)[0], target.DIFFERS)

    def test_other_values(self) -> None:
        status, lines = self.answer(SECONDS.replace('put 2 2', 'put 2 3'))
        self.assertEqual((status, lines[1]), (target.DIFFERS, '   printer: OTHER VALUES'))

    def test_a_run_without_lines(self) -> None:
        self.assertEqual(self.answer('')[0], target.DIFFERS)


class Inputs(unittest.TestCase):
    def test_ticks(self) -> None:
        self.assertEqual(target.tick_of('DESIGN d VERSION 2 IS TICK = 500 us;'), 500)
        self.assertEqual(target.tick_of('design d version 2 is\ntick=1_0 ms ; -- TICK = 7 s'), 10000)
        self.assertEqual(target.tick_of('-- TICK = 7 s\nDESIGN d IS'), 1000)

    def test_arrivals(self) -> None:
        self.assertEqual(target.read_arrivals(ARRIVALS), (120, [target.Arrival(21, 'button', 7)]))
        self.assertEqual(target.read_arrivals('until 1_000; at 3 s; At 4 T 1_1;'), (
            1000, [target.Arrival(3, 's', None), target.Arrival(4, 't', 11)]))
        self.assertEqual(target.without_durations(ARRIVALS), 'until 120;\nat 21 button 7;\n')

    def test_equal_priorities_are_refused(self) -> None:
        with self.assertRaises(traces.Fault):
            target.read_text((HEAD + example('every_kind.ada')).replace('pragma priority (2)', 'pragma priority (3)'))

    def test_driver(self) -> None:
        units = target.driver(HEAD + example('every_kind.ada'), ARRIVALS, 120)
        self.assertEqual(sorted(units), ['hrt_arrivals.adb', 'hrt_arrivals.ads', 'hrt_run.adb'])
        self.assertIn('   task hrt_of_button is\n      pragma priority (3);\n', units['hrt_arrivals.ads'])
        self.assertIn('      hrt_next := hrt.epoch + 21 * tick;\n      delay until hrt_next;\n      hrt_next := hrt.after (hrt_next, 0);\n'
                      '      kinds.button.press (7);\n', units['hrt_arrivals.adb'])
        self.assertIn('with kinds;\n', units['hrt_arrivals.adb'])
        children = target.driver(HEAD + example('every_kind.ada'), ARRIVALS, 120, True)
        self.assertIn('with kinds.button;\n', children['hrt_arrivals.adb'])
        self.assertNotIn('with kinds;\n', children['hrt_arrivals.adb'])
        self.assertIn('   delay until hrt.after (hrt.epoch, 120) + ada.real_time.milliseconds (100);\n   hrt_host.leave;\n', units['hrt_run.adb'])
        with self.assertRaises(traces.Fault):
            target.driver(HEAD + example('every_kind.ada'), 'UNTIL 9; AT 3 sampler;', 9)

    def test_costs_are_paid_before_what_they_are_for(self) -> None:
        lines = costed.Coster(example('every_kind.ada')).costed().split('\n')
        text = [line.strip() for line in lines]
        place = text.index('hrt_model.tell ("enter", "board.note" & hrt_model.image (v));')
        self.assertEqual(text[place - 1:place + 6], [
            'begin', 'hrt_model.tell ("enter", "board.note" & hrt_model.image (v));', 'hrt_model.pay (hrt.assign_cost);', 'last := v;',
            'work (2);', 'hrt_model.tell ("leave", "board.note");', 'end note;'])
        place = text.index('hrt_model.tell ("request", "printer" & hrt_model.image (v));')
        self.assertEqual(text[place - 4:place], ['hrt_model.pay (hrt.assign_cost);', 'hrt_value := v;', 'hrt_model.pay (hrt.assign_cost);',
                                                 'hrt_open := true;'])

    def test_each_kind_of_statement_pays(self) -> None:
        for statement, wanted in (('null;', 'hrt_model.pay (hrt.null_cost);null;'), ('x := 1;', 'hrt_model.pay (hrt.assign_cost);x := 1;'),
                                  ('exit when x = 1;', 'hrt_model.pay (hrt.test_cost);exit when x = 1;'),
                                  ('q.set (x);', 'hrt_model.pay (hrt.call_cost);q.set (x);'), ('work (3);', 'work (3);'),
                                  ('if x = 1 or x = 2 then', 'if hrt_model.paid (hrt.test_cost) and then (x = 1 or x = 2) then'),
                                  ('for i in word range 1 .. 3 loop', 'for i in word range 1 .. 3 loop   hrt_model.pay (hrt.turn_cost);'),
                                  ('put (x);', 'put (x);'), ('else', 'else'), ('end if;', 'end if;'), ('activation_end;', 'activation_end;')):
            text = 'package body d is\npackage body p is\nprocedure f is\nbegin\n%s\nend f;\nend p;\nend d;\n' % statement
            out = costed.Coster(text).costed().split('\n')
            self.assertEqual(''.join(out[5:-4]), wanted)

    def test_only_added(self) -> None:
        """A text without what was added is the text itself, but for conditions."""
        for name in ('every_kind.ada', 'units_of_every_kind.ada', 'passive_operation.ada', 'one_cyclic_task.ada'):
            lines = costed.Coster(example(name)).costed().split('\n')
            self.assertEqual('\n'.join(line for line in lines if 'hrt_model' not in line), example(name))


class Places(unittest.TestCase):
    def test_each_statement_of_work_has_a_place(self) -> None:
        body = test_bodies.body_of('stepped')
        text, count = test_bodies.with_places(body)
        lines = text.split('\n')
        self.assertEqual([line for line in lines if 'hrt_forced' not in line], body.split('\n'))
        self.assertEqual([line for line in lines[1:] if 'hrt_forced' in line], [test_bodies.CALL % place for place in range(count)])
        inside = lines[lines.index('   procedure work (ticks : positive) is'):lines.index('   end work;')]
        self.assertEqual(sum('hrt_forced' in line for line in inside), count)
        for statement in ('   begin', '         now := ada.real_time.clock;', '         current := calls;', '         else'):
            self.assertIn('hrt_forced', inside[inside.index(statement) + 1])


class Changes(unittest.TestCase):
    def test_each_change_changes_one_thing(self) -> None:
        log = [line.split(' ') for line in TRACE.splitlines()]
        for name, change in changed_logs.CHANGES.items():
            found = [new for place in range(len(log)) for new in [change(log, place)] if new is not None]
            self.assertTrue(found, name)
            for new in found:
                times = [int(line[0]) for line in new]
                self.assertEqual(times, sorted(times), name)
                self.assertEqual(new == log, name == 'none', name)
                self.assertLessEqual(sum(one != other for one, other in zip(log, new)) if len(log) == len(new) else 1, 2, name)

    def test_random_designs_are_those_of_their_seeds(self) -> None:
        made = [random_design.Maker(seed).make() for seed in range(1, 21)]
        self.assertEqual(made, [random_design.Maker(seed).make() for seed in range(1, 21)])
        self.assertEqual(len(set(made)), 20)
        text = ''.join(design for design, _ in made)
        for part in ('inner.start', 'follower.start', 'ARRIVAL_JITTER', 'IS PASSIVE', 'swap', 'exit when', 'work ('):
            self.assertIn(part, text)


class Tables(unittest.TestCase):
    def test_tables_are_written_and_compared(self) -> None:
        names = ('emulated machine', 'other processors', 'logs', 'changed logs')
        files = {'TARGET.md': 'a\n' + ''.join('<!-- %s -->\n<!-- end of %s -->\n' % (name, name) for name in names) + 'z\n',
                 'assurance/target_runs.csv': 'where,target,tick_us,options,input,arrivals,lines,result,log\n'
                 'qemu-system,x86_64,1000,-s,a.design,a.arrivals,26,same,\nqemu-user,s390x-linux-gnu,9,-s,b.design,b.arrivals,7,same,equal\n',
                 'assurance/target_logs.csv': 'seed,lines,result,accepts,replay,is_trace\n1,4,same,yes lines 5,same,yes\n'
                 '2,6,same,refused,different,no\n',
                 'assurance/target_changed_logs.csv': 'change,logs,accepted,refused,same_replay,other_replay\nnone,3,2,1,1,2\n'}
        with tempfile.TemporaryDirectory() as top:
            os.makedirs(os.path.join(top, 'docs', 'assurance'))
            for name, content in files.items():
                with open(os.path.join(top, 'docs', name), 'w') as stream:
                    stream.write(content)
            statuses = []
            rows: tuple[list[str], ...] = ([], ['--write'], [], ['--other'])
            for words in rows:
                script = [sys.executable, os.path.join(HERE, 'target_table.py')]
                statuses.append(subprocess.run([*script, *words], capture_output=True, env=dict(os.environ, TARGET_TOP=top)).returncode)
            self.assertEqual(statuses, [1, 0, 0, 2])
            with open(os.path.join(top, 'docs', 'TARGET.md')) as stream:
                page = stream.read()
        for line in ('| `a.design` | `a.arrivals` | 1 | `-s` | 26 | same |', '| `s390x-linux-gnu` | 64 | big-endian | 7 | same | equal |',
                     '| designs | 2 |', '| lines compared | 10 |', '| logs that `accepts` accepts | 1 |', '| none | 3 | 2 | 1 |'):
            self.assertIn(line + '\n', page)


class Words(unittest.TestCase):
    def run_target(self, *words: Any) -> subprocess.CompletedProcess[str]:
        return subprocess.run([sys.executable, os.path.join(HERE, 'target.py'), *words], capture_output=True, text=True)

    def test_statuses(self) -> None:
        with tempfile.TemporaryDirectory() as room:
            paths = {}
            for name, text in (('text', HEAD + example('every_kind.ada')), ('trace', TRACE), ('run', STEPS), ('other', STEPS.replace('35', '36')),
                               ('none', 'hello\n')):
                paths[name] = os.path.join(room, name)
                with open(paths[name], 'w') as stream:
                    stream.write(text)
            for run, wanted in (('run', 0), ('other', 1), ('none', 2)):
                self.assertEqual(self.run_target('steps', paths['text'], paths['trace'], paths[run]).returncode, wanted)
        self.assertEqual(self.run_target('steps').returncode, 2)
        self.assertEqual(self.run_target('tick', 'nowhere.design').returncode, 2)

    def run_script(self, name: str, *words: Any, **more: Any) -> subprocess.CompletedProcess[str]:
        return subprocess.run(['/bin/sh', os.path.join(HERE, name), *words], capture_output=True, text=True, **more)

    def test_what_is_missing_is_named(self) -> None:
        tools = ['dirname', 'sed', 'gnatmake', 'gnatchop', 'chrt', 'taskset']
        arm = 'aarch64-linux-gnu'
        rows: tuple[tuple[list[str], list[str], int, str], ...] = (
            ([], ['-x', 'riscv64-linux-gnu'], 3,
             'riscv64-linux-gnu-gnatmake is missing: install GNAT (Debian: apt-get install gnat-12-riscv64-linux-gnu)'),
            ([arm + '-gnatmake'], ['-x', arm], 4, 'qemu-aarch64 is missing (Debian: apt-get install qemu-user)'),
            ([], ['-m', 'nowhere'], 4, 'qemu-system-x86_64 is missing (Debian: apt-get install qemu-system-x86)'),
            ([arm + '-gnatmake'], ['-x', arm, '-m', 'nowhere'], 4, 'qemu-system-aarch64 is missing (Debian: apt-get install qemu-system-arm)'),
            (['qemu-system-x86_64'], ['-m', 'nowhere'], 4, 'no kernel can be read from nowhere'),
            (['s390x-linux-gnu-gnatmake'], ['-x', 's390x-linux-gnu', '-m', 'nowhere'], 4, 'no machine is known for s390x-linux-gnu'))
        for more, options, status, wanted in rows:
            with self.subTest(options=options), tempfile.TemporaryDirectory() as room:
                for tool in tools + more:
                    os.symlink(str(shutil.which(tool if tool in ('dirname', 'sed') else 'true')), os.path.join(room, tool))
                answer = self.run_script('run.sh', *options, 'a.design', 'a.arrivals', env={'PATH': room})
                self.assertEqual((answer.returncode, answer.stdout, answer.stderr), (status, '', wanted + '\n'))

    def test_the_archive_of_a_machine(self) -> None:
        """A kernel unpacks its files: each head has the lengths of the name and of the content, and starts at a multiple of four."""
        data, files, place = initramfs.archive(b'12345'), [], 0
        while place < len(data):
            self.assertEqual((data[place:place + 6], place % 4), (b'070701', 0))
            fields = [int(data[place + 6 + 8 * i:place + 14 + 8 * i], 16) for i in range(13)]
            name = data[place + 110:place + 110 + fields[11] - 1].decode()
            start = (place + 110 + fields[11] + 3) // 4 * 4
            files.append((name, fields[1], data[start:start + fields[6]]))
            place = (start + fields[6] + 3) // 4 * 4
        self.assertEqual(files, [('dev', 0o040755, b''), ('dev/console', 0o020600, b''), ('hrt_run', 0o100755, b'12345'), ('TRAILER!!!', 0, b'')])

    def test_usage(self) -> None:
        for words in ((), ('-z', 'a', 'b'), ('a', 'b', 'c')):
            answer = self.run_script('run.sh', *words)
            self.assertEqual((answer.returncode, answer.stdout), (2, ''))
            self.assertIn('run.sh [-s]', answer.stderr)
            self.assertIn('Status 0: the run agrees.', answer.stderr)

    def test_a_host_without_gnat(self) -> None:
        with tempfile.TemporaryDirectory() as room:
            os.symlink(str(shutil.which('dirname')), os.path.join(room, 'dirname'))
            missing = (3, '', 'gnatmake is missing: install GNAT (Debian: apt-get install gnat)\n')
            for name, words in (('run.sh', ('a.design', 'a.arrivals')), ('measure.sh', ())):
                answer = self.run_script(name, *words, env={'PATH': room})
                self.assertEqual((answer.returncode, answer.stdout, answer.stderr), missing)
            os.symlink('/bin/sh', os.path.join(room, 'sh'))
            answer = subprocess.run([sys.executable, os.path.join(HERE, 'test_bodies.py')], capture_output=True, text=True, env={'PATH': room})
            self.assertEqual((answer.returncode, answer.stdout, answer.stderr), missing)


if __name__ == '__main__':
    unittest.main()
