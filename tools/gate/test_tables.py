#!/usr/bin/env python3
"""Tests of gate_table.py, bench_table.py and check_words.py, over files in a temporary folder.

    test_tables.py [-v]
"""
from __future__ import annotations

import os
import subprocess
import sys
import tempfile
import unittest

HERE = os.path.dirname(os.path.abspath(__file__))
SOURCE = os.path.join(os.path.dirname(HERE), 'source')
RUNS = '''date,time,code,definitions,proofs,passed,failed,edits,kind,minutes,processor_minutes,cores,load,change
2026-01-01,10:00,10,5,20,3,0,1,whole,4,9,4,idle,First
2026-01-02,10:00,11,5,22,,,,not run,,,4,shared,Second
'''
CRATES = 'crate,proof,tests,edits\nlow,1,0,0\nhigh,5,2,10\n'
GATE = '# Gate\n\n<!-- whole runs -->\nold\n<!-- end of whole runs -->\n\n<!-- crates -->\n<!-- end of crates -->\nend\n'
BENCH = 'date,script,form,size,value,unit,memory,exponent,load,remark\n,one,a,1,2,s,,,idle,\n,one,b,1,3,s,,,idle,\n,one,a,1,4,s,,,idle,\n'


class Tables(unittest.TestCase):
    """Each script over a small repository."""

    def setUp(self) -> None:
        """Make the repository."""
        room = tempfile.TemporaryDirectory()
        self.addCleanup(room.cleanup)
        self.top = room.name
        self.put('docs/GATE.md', GATE)
        self.put('docs/gate/runs.csv', RUNS)
        self.put('docs/gate/crates.csv', CRATES)
        self.put('bench/README.md', '# Bench\n<!-- results -->\n<!-- end of results -->\n')
        self.put('bench/results.csv', BENCH)
        self.put('README.md', 'A room is told behind.\n')
        self.put('crates/one/src/lib.rt', '/// It stands here.\nfn stands() {}\n')
        self.put('crates/one/proofs/Lib.antt', '-- It stands there.\n')

    def put(self, path: str, text: str) -> None:
        """Write a file of the repository."""
        whole = os.path.join(self.top, path)
        os.makedirs(os.path.dirname(whole), exist_ok=True)
        with open(whole, 'w', encoding='utf-8') as file:
            file.write(text)

    def read(self, path: str) -> str:
        """Return a file of the repository."""
        with open(os.path.join(self.top, path), encoding='utf-8') as file:
            return file.read()

    def run_script(self, script: str, *words: str) -> tuple[int, str]:
        """Run a script over the repository; return its status and standard output."""
        tops = {'GATE_TOP': self.top, 'BENCH_TOP': self.top, 'WORDS_TOP': self.top}
        done = subprocess.run([sys.executable, script, *words], capture_output=True, text=True, check=False, env={**os.environ, **tops})
        return done.returncode, done.stdout

    def test_gate(self) -> None:
        """The tables are written, checked, and changed by a new row."""
        script = os.path.join(HERE, 'gate_table.py')
        self.assertEqual(self.run_script(script), (1, 'docs/GATE.md is out of date: run tools/gate/gate_table.py --write\n'))
        self.assertEqual(self.run_script(script, '--write')[0], 0)
        self.assertEqual(self.run_script(script), (0, ''))
        page = self.read('docs/GATE.md')
        self.assertIn('| 2026-01-01 | 10:00 | idle | First | 10 | 20 | 3 | 1 | 4 | 9 |\n', page)
        self.assertNotIn('Second', page)
        self.assertIn('| high | 5 | 2 | 10 | 17 |\n| low | 1 | 0 | 0 | 1 |\n', page)
        self.assertTrue(page.endswith('end\n'))
        self.assertIn('<svg', self.read('docs/pictures/gate.svg'))
        self.assertEqual(self.run_script(script, '--add', 'code=12', 'proofs=30', 'kind=whole', 'load=idle', 'change=Third')[0], 0)
        self.assertIn('Third', self.read('docs/GATE.md'))
        self.assertEqual(self.run_script(script, '--add', 'kind=incremental')[0], 0)
        self.assertRegex(self.read('docs/gate/runs.csv').splitlines()[-1], r'^[\d-]+,[\d:]+,2,0,1,,,,incremental,')
        self.assertNotEqual(self.run_script(script, '--add', 'colour=red')[0], 0)

    def test_bench(self) -> None:
        """The last row of each form is in the table."""
        script = os.path.join(HERE, 'bench_table.py')
        self.assertEqual(self.run_script(script)[0], 1)
        self.assertEqual(self.run_script(script, '--write')[0], 0)
        self.assertEqual(self.run_script(script), (0, ''))
        self.assertIn('| one | a | 1 | 4 s |  |  | idle |\n|  | b | 1 | 3 s |  |  | idle |\n', self.read('bench/README.md'))
        self.put('bench/results.csv', BENCH + ',two,short\n')
        self.assertNotEqual(self.run_script(script)[0], 0)

    def test_words(self) -> None:
        """Pages and comments are counted, code and proofs are not, and a count may fall and not grow."""
        script = os.path.join(SOURCE, 'check_words.py')
        self.put('docs/words.csv', 'phrase,part,count\n')
        self.assertEqual(self.run_script(script, '--write')[0], 0)
        kept = self.read('docs/words.csv')
        self.assertIn('stands,comments,1\n', kept)
        self.assertIn('behind,pages,1\n', kept)
        self.assertEqual(self.run_script(script), (0, ''))
        self.put('README.md', 'A crate is reported after it.\n')
        self.assertEqual(self.run_script(script)[0], 0)
        self.put('README.md', 'A room is told behind what is behind.\n')
        self.assertEqual(self.run_script(script)[0], 1)
        self.put('README.md', 'The price is worked out.\n')
        status, out = self.run_script(script)
        self.assertEqual(status, 1)
        self.assertIn('README.md:1: "worked out"', out)


if __name__ == '__main__':
    unittest.main()
