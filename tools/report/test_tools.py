#!/usr/bin/env python3
"""Tests of the scripts that users run, and of the man page and the completion, by hand-made lines.

    test_tools.py [-v]

PROGRAM is the path of the program, and the proved program of this repository where it isn't set. Without one, and without bash, the tests that
need it are skipped, which is told. No part of the gate.
"""

from __future__ import annotations

import csv
import importlib.util
import os
import re
import shutil
import subprocess
import sys
import tempfile
import types
import unittest
from typing import Any

TOOLS = os.path.dirname(os.path.abspath(__file__))
TOP = os.path.dirname(os.path.dirname(TOOLS))
SOURCE = os.path.join(TOP, 'tools', 'source')
PROGRAM = os.path.abspath(os.environ.get('PROGRAM', os.path.join(TOP, 'crates', 'hrthood', 'out', 'hrthood')))
HAS_PROGRAM = os.access(PROGRAM, os.X_OK)


def load(name: str, folder: str = TOOLS) -> types.ModuleType:
    """A script as a module."""
    spec = importlib.util.spec_from_file_location(name, os.path.join(folder, name + '.py'))
    assert spec is not None and spec.loader is not None
    module = importlib.util.module_from_spec(spec)
    spec.loader.exec_module(module)
    return module


def run(words: list[str], given: str = '', **environment: Any) -> tuple[int, str, str]:
    """The status of a command, and what it writes on standard output and standard error."""
    done = subprocess.run(words, input=given, capture_output=True, text=True, env={**os.environ, **environment}, timeout=60)
    return done.returncode, done.stdout, done.stderr


BOUNDS = '''thread a priority 2 period 10 deadline 8 jitter 0 cost 3 blocking 1 response 4
thread b priority 1 period 30 deadline 20 jitter 5 cost 5 blocking 0 response 8
ceiling q 2
'''


class Tables(unittest.TestCase):
    """bounds_table.py"""

    def test_table(self) -> None:
        status, out, err = run([sys.executable, os.path.join(TOOLS, 'bounds_table.py')], BOUNDS)
        self.assertEqual((status, err), (0, ''))
        self.assertEqual(out.splitlines()[2:], [
            '| a | 2 | 10 | 8 | 0 | 3 | 1 | 4 | 4 | 30.00 % |',
            '| b | 1 | 30 | 20 | 5 | 5 | 0 | 8 | 12 | 16.67 % |',
            '',
            'Utilisation 46.67 %; the least slack is 4 ticks, of a.',
            '',
            'Ceilings: q 2.',
        ])

    def test_values(self) -> None:
        status, out, _ = run([sys.executable, os.path.join(TOOLS, 'bounds_table.py'), '--csv'], BOUNDS)
        self.assertEqual(status, 0)
        self.assertEqual(out.splitlines()[1:], ['a,2,10,8,0,3,1,4,4,300000', 'b,1,30,20,5,5,0,8,12,166667'])

    def test_why(self) -> None:
        status, out, _ = run([sys.executable, os.path.join(TOOLS, 'bounds_table.py'), '--why'], BOUNDS)
        self.assertEqual(status, 0)
        self.assertEqual(out.splitlines(), ['a 4 = cost 3 + blocking 1', 'b 8 = cost 5 + blocking 0 + a 1 x 3'])

    def test_jitter_counts(self) -> None:
        """Within 8 ticks a thread of period 10 whose jitter is 3 is released at most twice."""
        table = load('bounds_table')
        threads, _ = table.read_lines(BOUNDS.replace('jitter 0', 'jitter 3').splitlines())
        self.assertEqual(table.parts_of(threads[1], threads), [(threads[0], 2)])

    def test_wrong_sum(self) -> None:
        status, _, err = run([sys.executable, os.path.join(TOOLS, 'bounds_table.py')], BOUNDS.replace('response 8', 'response 9'))
        self.assertEqual((status, err), (1, 'bounds_table.py: no sum of its parts is the response of b\n'))

    def test_other_lines(self) -> None:
        for given in ('', 'ok d objects 1 threads 1\n', BOUNDS + 'thread c\n'):
            status, out, err = run([sys.executable, os.path.join(TOOLS, 'bounds_table.py')], given)
            self.assertEqual((status, out), (1, ''))
            self.assertIn('analyse', err)


PAIR = '''DESIGN d IS
COSTS ASSIGN = 1; TEST = 1; TURN = 1; CALL = 2; NULL = 1; PUT = 1; FINISH = 1; END COSTS;
OBJECT whole IS ACTIVE
OBJECTS
OBJECT a IS CYCLIC
ATTRIBUTES PERIOD = 10; DEADLINE = 10; THREAD_BUDGET = 4;
THREAD work (3); END THREAD;
END a;
OBJECT b IS CYCLIC
ATTRIBUTES PERIOD = 20; DEADLINE = 20; THREAD_BUDGET = 5;
THREAD work (4); END THREAD;
END b;
END whole;
END d;
'''


class Margins(unittest.TestCase):
    """margins.py"""

    def table(self, design: Any) -> Any:
        """What the script writes of a design, as status, lines and standard error."""
        with tempfile.TemporaryDirectory() as room:
            file = os.path.join(room, 'one.design')
            with open(file, 'w', encoding='utf-8') as text:
                text.write(design)
            status, out, err = run([sys.executable, os.path.join(TOOLS, 'margins.py'), '--csv', file], PROGRAM=PROGRAM)
        return status, out.splitlines(), err.replace(file, 'one.design')

    def test_ticks(self) -> None:
        """Ticks are rounded up, and cut at the greatest number."""
        margins = load('margins')
        self.assertEqual([margins.scaled_ticks(1, n) for n in (1, 1000, 1001)], [1, 1, 2])
        self.assertEqual([margins.scaled_ticks(1001, n) for n in (1, 4, 1000000000)], [2, 5, 1000000000])

    def test_changed(self) -> None:
        """The work of that thread alone is changed, and no call of an operation of that name; budgets become the greatest."""
        margins = load('margins')
        lines = ['   OBJECT one IS CYCLIC', '      ATTRIBUTES', '         THREAD_BUDGET = 5 ms;', '      THREAD', '         work (3);',
                 '         other.work (3);', '      END THREAD;', '   END one;', '   OBJECT two IS CYCLIC', '      THREAD', '         work (7);',
                 '      END THREAD;', '   END two;']
        text = '\n'.join(lines)
        self.assertEqual(margins.threads_of(text), [('one', 4, 6), ('two', 10, 11)])
        wanted = list(lines)
        wanted[2] = '         THREAD_BUDGET = 1000000000;'
        wanted[4] = '         work (5);'
        self.assertEqual(margins.with_work(text, (4, 6), 1500).split('\n'), wanted)

    def test_greatest(self) -> None:
        """Halving finds the greatest at which nothing fails, and what fails at the next one."""
        margins = load('margins')
        for greatest in (1, 2, 999, 1000, 999999):
            self.assertEqual(margins.margin_of(lambda k: None if k <= greatest else f'over {k}'), (greatest, f'over {greatest + 1}'))
        self.assertEqual(margins.margin_of(lambda k: None), (1000000, 'limit'))
        self.assertEqual(margins.margin_of(lambda k: f'over {k}'), (None, 'over 1'))

    @unittest.skipUnless(HAS_PROGRAM, 'there is no program')
    def test_table(self) -> None:
        """The first thread may work twice as long, as an example of crate law_scaling has it, and the second one 2.75 times."""
        self.assertEqual(self.table(PAIR), (0, [
            'thread,statements_of_work,slack_to_deadline,slack_to_period,margin_per_mille,next',
            'all,,,,1666,U1 b value 22 limit 20 round 2',
            'a,1,6,6,2000,U1 b value 21 limit 20 round 2',
            'b,1,11,11,2750,U1 b value 21 limit 20 round 1',
        ], ''))

    @unittest.skipUnless(HAS_PROGRAM, 'there is no program')
    def test_over_limits(self) -> None:
        """A design without bounds has no slacks; where the other thread alone is late a thread has no margin."""
        status, lines, err = self.table(PAIR.replace('work (4)', 'work (40)').replace('= 5;', '= 50;'))
        self.assertEqual((status, err), (0, ''))
        self.assertEqual([line.split(',')[:5] for line in lines[2:]], [['a', '1', '', '', 'none'], ['b', '1', '', '', '275']])

    @unittest.skipUnless(HAS_PROGRAM, 'there is no program')
    def test_refused(self) -> None:
        self.assertEqual(self.table(PAIR.replace('= 4;', '= 3;')), (1, [], 'margins.py: one.design: refused V14 a cost 4 budget 3\n'))


@unittest.skipUnless(shutil.which('node'), 'there is no node')
class Places(unittest.TestCase):
    """told_at.sh, over a program that tells one line."""

    DESIGN = 'DESIGN d VERSION 2 IS TICK = 1 ms;\n' + PAIR.split('\n', 1)[1].replace('work (4)', 'work (4); c.op').replace('OBJECT b', '  Object  b')

    def tell(self, line: str, words: list[str], **environment: Any) -> list[str]:
        with tempfile.TemporaryDirectory() as room:
            program = os.path.join(room, 'program')
            with open(program, 'w') as text:
                text.write(f"#!/bin/sh\necho made\necho '{line}' >&2\nexit 7\n")
            os.chmod(program, 0o755)
            with open(os.path.join(room, 'd.design'), 'w') as text:
                text.write(self.DESIGN)
            with open(os.path.join(room, 'r.arrivals'), 'w') as text:
                text.write('UNTIL 1;\n\nAT 1 b;\n  AT 0 b;\n')
            words = [os.path.join(room, word) if '.' in word else word for word in words]
            status, out, err = run([os.path.join(TOOLS, 'told_at.sh'), *words], PROGRAM=program, **environment)
            self.assertEqual((status, out), (7, 'made\n'))
            return err.replace(room + '/', '').rstrip('\n').split('\n')

    def test_places(self) -> None:
        for line, wanted in (
            ('refused S1 design line 3 column 14', 'd.design:3:14: error: S1: '),
            ('refused L2 arrivals line 2 column 1', 'r.arrivals:2:1: error: L2: '),
            ('refused Q2 line 4 radio', 'r.arrivals:4:3: error: Q2: '),
            ('refused Q1 line 4', 'r.arrivals:4:3: error: Q1: '),
            ('refused Q4 value 2 limit 1', 'r.arrivals:1:7: error: Q4: '),
            ('refused S3 arrivals', 'r.arrivals: error: S3: '),
            ('refused V13 b thread B1', 'd.design:11:18: error: V13: The call c.op '),
            ('refused V14 b cost 6 budget 5', 'd.design:10:40: error: V14: '),
            ('refused V15 cost b thread', 'd.design:11:1: error: V15: '),
            ('refused V15 threads 31', 'd.design:1:1: error: V15: '),
            ('refused V11 costs', 'd.design:2:1: error: V11: '),
            ('refused V17 tick', 'd.design:1:23: error: V17: '),
            ('refused V01 b', 'd.design:9:11: error: V01: '),
            ('refused U1 b value 9 limit 8 round 2', 'd.design:10:25: error: U1: '),
            ('refused U2 b value 9 limit 8 round 2', 'd.design:10:12: error: U2: '),
            ('refused S3 text', 'd.design: error: S3: '),
        ):
            told = self.tell(line, ['verify', 'd.design', 'r.arrivals'])[0]
            self.assertEqual((told[:len(wanted)], told[-len(line) - 3:]), (wanted, f' [{line}]'))

    def test_ada(self) -> None:
        told = self.tell('refused S1 ada line 9 column 2', ['replay', 'a.ada', 'r.arrivals'])
        self.assertEqual(told[0].split(': error: ')[0], 'a.ada')

    def test_other_lines(self) -> None:
        """A line that is no refusal, or one of a code that is not known, stays as it is."""
        for line in ('fault reading d.design', 'no memory', 'refused V99 b'):
            self.assertEqual(self.tell(line, ['check', 'd.design']), [line])

    def test_no_file(self) -> None:
        """Of a file that isn't there the words are told, and no place."""
        told = self.tell('refused V12 b', ['check', 'absent.design'])
        self.assertEqual(told[0], 'absent.design: error: V12: b has no children and is ACTIVE. [refused V12 b]')

    def test_words(self) -> None:
        """The words stand under what the program tells, and alone where that is in a file."""
        at = os.path.join(TOOLS, 'told_at.mjs')
        with tempfile.TemporaryDirectory() as room:
            told = os.path.join(room, 'told')
            with open(told, 'w') as text:
                text.write('hrthood: not proved\nrefused V12 b\n')
            words = 'V12: b has no children and is ACTIVE.\n  Give it children, or another kind.\n'
            self.assertEqual(run(['node', at, '--words', told, 'check', '/absent']), (0, '', words))
            self.assertEqual(run(['node', at, '--run', 'cat', told])[:2], (0, 'hrthood: not proved\nrefused V12 b\n'))
            missed = os.path.join(room, 'missed')
            with open(missed, 'w') as text:
                text.write('refused U1 decoder value 1001 limit 1000 round 3\n')
            design = os.path.join(TOP, 'examples', 'late_platform.design')
            offered = run(['node', at, '--words', missed, 'analyse', design])[2].splitlines()[-1]
            self.assertRegex(offered, f'^  `.*tools/report/mend.py {re.escape(design)}` lists changes by which it passes[.]$')
            self.assertNotIn('mend.py /', run(['node', at, '--words', missed, 'analyse', '/absent'])[2])
            shown = f'hrthood: not proved\nrefused V12 b\n{words}'
            self.assertEqual(run(['node', at, '--run', 'sh', '-c', f'cat {told} >&2; exit 3']), (3, '', shown))


class Sentences(unittest.TestCase):
    """web/refusals.json, and what is made of it."""

    def test_tables(self) -> None:
        self.assertEqual(run([sys.executable, os.path.join(TOOLS, 'refusals_table.py'), '--check'])[0], 0)

    @unittest.skipUnless(shutil.which('node'), 'there is no node')
    def test_mistakes(self) -> None:
        status, out, err = run(['node', os.path.join(TOOLS, 'test_mistakes.mjs')])
        self.assertEqual((status, err), (0, ''), out)


class Crates(unittest.TestCase):
    """above.py and check_rules.py"""

    def test_above(self) -> None:
        above = load('above', SOURCE)
        below = {'low': [], 'middle': ['low'], 'other': [], 'high': ['middle', 'other']}
        self.assertEqual(above.all_above(['low'], below), {'low', 'middle', 'high'})
        self.assertEqual(above.all_above(['high'], below), {'high'})

    def test_seconds(self) -> None:
        above = load('above', SOURCE)
        with tempfile.TemporaryDirectory() as room:
            path = os.path.join(room, 'crates.csv')
            with open(path, 'w') as out:
                out.write('crate,proof,tests,edits\nlow,3,0,40\nhigh,5,,\n')
            self.assertEqual(above.read_seconds(path), {'low': 43, 'high': 5})

    def test_every_crate_is_told(self) -> None:
        status, out, _ = run([sys.executable, os.path.join(SOURCE, 'above.py'), 'seq_tree'])
        self.assertEqual(status, 0)
        self.assertRegex(out, r'\d+ seq_tree\n')
        status, _, err = run([sys.executable, os.path.join(SOURCE, 'above.py'), 'nothing'])
        self.assertEqual((status, err), (1, 'above.py: nothing is no crate of crates.txt\n'))

    def test_decisions(self) -> None:
        with open(os.path.join(TOP, 'docs', 'DECISIONS.md'), encoding='utf-8') as text:
            entries = re.findall(r'^`([a-z-]+)`: ', text.read(), re.M)
        self.assertEqual(len(entries), len(set(entries)))
        with open(os.path.join(TOP, 'docs', 'decisions_map.csv'), encoding='utf-8', newline='') as text:
            rows = list(csv.DictReader(text))
        self.assertEqual({row['where'] for row in rows if row['state'] == 'entry'} - set(entries), set())
        self.assertEqual([row for row in rows if row['state'].startswith(('docstring', 'page to')) and not row['text']], [])

    def test_doors(self) -> None:
        script = os.path.join(SOURCE, 'doors.py')
        with tempfile.TemporaryDirectory() as room:
            def put(path: str, text: str) -> None:
                os.makedirs(os.path.dirname(os.path.join(room, path)), exist_ok=True)
                with open(os.path.join(room, path), 'w') as out:
                    out.write(text)
            put('low/proofs/Inner.antt', '')
            put('low/proofs/Shared/Outer.antt', '')
            put('low/src/lib.rt', '//! - `Outer`: lists.\n')
            put('high/src/lib.rt', '#[tactic(auto, using(low::proofs::Shared::Outer::rules))]\n')
            put('high/proofs/Steps.antt', 'use Rattle.low.proofs.Shared.Outer.{lists}\nuse Rattle.high.proofs.Steps.{one}\n')
            self.assertEqual(run([sys.executable, script, '--closed'], CRATES_OF_DOORS=room)[0], 0)
            self.assertEqual(run([sys.executable, script, 'low'], CRATES_OF_DOORS=room)[1], 'low: specs 0 of 0; proofs: Outer 1\n')
            put('low/src/lib.rt', '//! Lists.\nfn outer() {}\n')
            told = run([sys.executable, script, '--closed'], CRATES_OF_DOORS=room)
            self.assertEqual(told[:2], (1, "low: its head doesn't name Shared.Outer\n"))
            put('low/src/lib.rt', '//! - `Outer`: lists.\n')
            put('high/proofs/Steps.antt', 'use Rattle.low.proofs.Inner.{lists}\n')
            told = run([sys.executable, script, '--closed'], CRATES_OF_DOORS=room)
            self.assertEqual(told[:2], (1, "low: proofs/Inner is cited by high, and isn't in proofs/Shared\n"))

    def test_rules(self) -> None:
        rules = load('check_rules', SOURCE)
        self.assertEqual(list(rules.faults()), [])
        self.assertTrue(rules.is_there('design_rules.Clashes.clashes'))
        self.assertFalse(rules.is_there('design_rules.Clashes.clash'))
        self.assertFalse(rules.is_there('design_rules.Clash'))
        self.assertFalse(rules.is_there('ods_names::first_clas'))
        self.assertFalse(rules.is_there('ods_names/src/clash.rt'))
        self.assertTrue(rules.is_there('docs/RULES.md'))
        self.assertFalse(rules.is_there('docs/RULE.md'))
        self.assertIsNone(rules.is_there('out/page/lafomizana.html'))
        self.assertEqual(list(rules.row_faults(1, '| V01 | names | `nothing.rt` |', set())), ['RULES.md:1: there is no test nothing.rt'])
        self.assertEqual(list(rules.row_faults(1, '| V01 | names | `arrivals.rt` |', set())), ['RULES.md:1: arrivals.rt has no row with V01'])

    def test_edits_fit(self) -> None:
        """Each line that a wrong body changes stands once in its file, so that none is passed over since its crate changed."""
        tried, lost = 0, []
        for crate in sorted(os.listdir(os.path.join(TOP, 'crates'))):
            for folder in ('must-fail', 'more-edits'):
                room = os.path.join(TOP, 'crates', crate, folder)
                for edit in sorted(os.listdir(room)) if os.path.isdir(room) else []:
                    with open(os.path.join(room, edit)) as said:
                        lines = [line.rstrip('\n').split(': ', 1) for line in said]
                    for key, *values in lines:
                        value = ''.join(values)
                        if key == 'file':
                            with open(os.path.join(TOP, 'crates', crate, value)) as source:
                                text = source.read()
                        elif key == 'old':
                            lost += [] if text.count(value) == 1 else [f'{crate}/{folder}/{edit}']
                            tried += 1
        self.assertEqual(lost, [])
        self.assertGreater(tried, 500)


class Pages(unittest.TestCase):
    """test_docs.py, over a page of its own"""

    PAGE = "text\n\nThe file `a.txt`:\n\n```\none\ntwo\n```\n\n```\n$ cat a.txt\none\n...\n$ echo \\\n  done\n{}\n```\n" \
        "<!-- not run: it is slow -->\n```\n$ false\nx\n```\n```sh\n$ false\n```\n"

    def try_page(self, answer: str, *words: Any) -> tuple[int, str, str]:
        with tempfile.TemporaryDirectory() as room:
            path = os.path.join(room, 'page.md')
            with open(path, 'w') as text:
                text.write(self.PAGE.format(answer))
            status, out, _ = run([sys.executable, os.path.join(SOURCE, 'test_docs.py'), *words, path], PROGRAM='/bin/true')
            with open(path) as text:
                return status, out.partition(': ')[2], text.read()

    def test_equal(self) -> None:
        self.assertEqual(self.try_page('done'), (0, '2 commands, 0 differ, 1 files, 2 blocks not run\n', self.PAGE.format('done')))

    def test_other(self) -> None:
        self.assertEqual(self.try_page('gone'), (1, '2 commands, 1 differ, 1 files, 2 blocks not run\n', self.PAGE.format('gone')))

    def test_update(self) -> None:
        self.assertEqual(self.try_page('gone', '--update')[2], self.PAGE.format('done'))

    def test_no_program(self) -> None:
        status, out, err = run([sys.executable, os.path.join(SOURCE, 'test_docs.py'), '/dev/null'], PROGRAM='/nothing')
        self.assertEqual((status, out), (2, ''))
        self.assertIn('there is no program /nothing', err)


def usage() -> list[tuple[str, ...]]:
    """The verbs of the usage line, each with its operands."""
    _, _, line = run([PROGRAM])
    return [tuple(command.split()) for command in re.sub(r'^usage: hrthood |\n$', '', line).split(' | ')]


@unittest.skipUnless(HAS_PROGRAM, f'there is no program {PROGRAM}')
class Usage(unittest.TestCase):
    """The man page and the completion have the verbs of the usage line."""

    def test_man_page(self) -> None:
        with open(os.path.join(TOP, 'man', 'hrthood.1')) as text:
            page = text.read()
        synopsis = page[page.index('.SH SYNOPSIS'):page.index('.SH DESCRIPTION')]
        found = re.findall(r'^\.B hrthood (\w+)\n\.I (.*)$', synopsis, re.M)
        self.assertEqual([(verb, *operands.split()) for verb, operands in found], usage())
        for command in usage():
            self.assertIn(f'.TP\n.B {command[0]}\n', page)

    def test_completion(self) -> None:
        with open(os.path.join(TOP, 'completion', 'hrthood.bash')) as text:
            line = re.findall(r"^_hrthood_usage='(.*)'$", text.read(), re.M)[0]
        self.assertEqual([tuple(command.split()) for command in line.split(' | ')], usage())


@unittest.skipUnless(shutil.which('bash'), 'there is no bash')
class Completion(unittest.TestCase):
    """What the completion offers in a folder with a file of each kind."""

    def offers(self, *words: Any) -> list[str]:
        with tempfile.TemporaryDirectory() as room:
            for name in ('one.design', 'two.design', 'one.ada', 'one.arrivals', 'other.txt'):
                open(os.path.join(room, name), 'w').close()
            typed = ' '.join(f"'{word}'" for word in words)
            script = (f'. {TOP}/completion/hrthood.bash; COMP_WORDS=({typed}); COMP_CWORD={len(words) - 1}; _hrthood; '
                      'printf "%s\\n" "${COMPREPLY[@]}"')
            done = subprocess.run(['bash', '-c', script], cwd=room, capture_output=True, text=True)
            self.assertEqual(done.stderr, '')
            return sorted(done.stdout.split())

    def test_offers(self) -> None:
        self.assertEqual(self.offers('hrthood', 'ver'), ['verify'])
        self.assertIn('check', self.offers('hrthood', ''))
        self.assertEqual(self.offers('hrthood', 'check', ''), ['one.design', 'two.design'])
        self.assertEqual(self.offers('hrthood', 'check', 'tw'), ['two.design'])
        self.assertEqual(self.offers('hrthood', 'replay', ''), ['one.ada'])
        self.assertEqual(self.offers('hrthood', 'verify', 'one.design', ''), ['one.arrivals'])
        self.assertEqual(self.offers('hrthood', 'sample', '3'), ['3', '30'])
        self.assertEqual(self.offers('hrthood', 'check', 'one.design', ''), [])


if __name__ == '__main__':
    unittest.main()
