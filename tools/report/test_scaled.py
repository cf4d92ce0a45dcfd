#!/usr/bin/env python3
"""Tests of scaled.py: what it changes of a text, and what the program makes of the texts that it writes.

    test_scaled.py [-v]

PROGRAM is the path of the program, and the proved program of this repository where it isn't set. Without one the texts alone are tested.
"""
from __future__ import annotations

import os
import random
import subprocess
import sys
import tempfile
import unittest

import scaled
from test_mend import EXAMPLES, PROGRAM, Small

SCRIPT = os.path.join(os.path.dirname(os.path.abspath(__file__)), 'scaled.py')
COSTS = 'COSTS ASSIGN = 1; TEST = 1; TURN = 1; CALL = 1; NULL = 1; PUT = 1; FINISH = 1; END COSTS;'

# A text and its parts that change, with what they are at 1,500 per mille.
ROWS = [
    ('work (3);', 'work (5);'),
    ('work (4);', 'work (6);'),
    ('WORK( 1_001 ) ;', 'WORK( 1502 ) ;'),
    ('work -- (7);\n  (2); -- work (2);', 'work -- (7);\n  (3); -- work (2);'),
    ('work (1000000000);', 'work (1000000000);'),
    ('ATTRIBUTES THREAD_BUDGET = 20 ms; DEADLINE = 20 ms;', 'ATTRIBUTES THREAD_BUDGET = 1000000000; DEADLINE = 20 ms;'),
    ('PERIOD = 7; Thread_Budget -- 5;\n= 2_0;', 'PERIOD = 7; Thread_Budget -- 5;\n= 1000000000;'),
    ('exit when thread_budget = 3;', 'exit when thread_budget = 3;'),
    ('thread_budget := 3;', 'thread_budget := 3;'),
    ('other.work (3);', 'other.work (3);'),
    ('for work_2 in word range 1 .. 2 loop', 'for work_2 in word range 1 .. 2 loop'),
    ('OFFSET = 3;\r\n', 'OFFSET = 3;\r\n'),
]

# At 1,000,000 per mille both bodies are too dear. `scale` tells the passive one, which is first in the flat design, and the rules tell the thread.
TWO_DEAR = f'''DESIGN dear IS {COSTS}
OBJECT whole IS ACTIVE OBJECTS
OBJECT a IS CYCLIC ATTRIBUTES PERIOD = 1000000000; DEADLINE = 1000000000; THREAD_BUDGET = 1000000000; THREAD work (1000000); END THREAD; END a;
OBJECT p IS PASSIVE PROVIDES f; OPERATION f IS BEGIN work (1000000); null; END f; END p;
END whole;
END dear;
'''


def run(words: list[str]) -> tuple[int, str, str]:
    """The status of a command, what it writes, and its last line on standard error."""
    done = subprocess.run(words, capture_output=True, text=True, stdin=subprocess.DEVNULL)
    lines = [line for line in done.stderr.splitlines() if not line.startswith('hrthood: ')]
    return done.returncode, done.stdout, lines[-1] if lines else ''


class Texts(unittest.TestCase):
    """What changes of a text, and what the words are."""

    def test_changes(self) -> None:
        for text, wanted in ROWS:
            self.assertEqual(scaled.Text(text).scaled(1500), wanted)

    def test_words(self) -> None:
        refused: list[list[str]] = [[], ['1000'], ['0', SCRIPT], ['1000001', SCRIPT], ['1.5', SCRIPT], ['-1', SCRIPT], ['1000', SCRIPT, SCRIPT]]
        for words in refused:
            self.assertEqual(run([sys.executable, SCRIPT, *words])[0], 2, words)
        status, out, line = run([sys.executable, SCRIPT, '1000', '/absent'])
        self.assertEqual((status, out), (1, ''))
        self.assertIn('/absent', line)


@unittest.skipUnless(os.access(PROGRAM, os.X_OK), f'there is no program {PROGRAM}')
class Designs(unittest.TestCase):
    """The texts that it writes, against the program."""

    def setUp(self) -> None:
        self.folder = tempfile.TemporaryDirectory()

    def tearDown(self) -> None:
        self.folder.cleanup()

    def file(self, name: str, text: str) -> str:
        """A file of this text."""
        path = os.path.join(self.folder.name, name)
        with open(path, 'w', encoding='utf-8') as file:
            file.write(text)
        return path

    def scaled(self, per_mille: int, design: str) -> str:
        """A file of the scaled text of a file."""
        status, out, line = run([sys.executable, SCRIPT, str(per_mille), design])
        self.assertEqual((status, line), (0, ''))
        return self.file('scaled.design', out)

    def leads_back(self, design: str) -> str:
        """The scaled design is taken at the margin, and refused at the next per mille with what `scale` tells of it, whose first word is returned."""
        status, out, line = run([PROGRAM, 'scale', design])
        if status != 0:
            self.assertRegex(line, '^refused U[12] ')
            self.assertEqual(run([PROGRAM, 'generate', self.scaled(1, design)])[::2], (1, line))
            return 'none'
        margin, told = int(out.split()[1]), out.splitlines()[1][len('next '):]
        at_margin = self.scaled(margin, design)
        self.assertEqual(run([PROGRAM, 'generate', at_margin])[::2], (0, ''))
        self.assertEqual(run([PROGRAM, 'scale', at_margin])[0], 0)
        if told != 'limit':
            status, out, line = run([PROGRAM, 'generate', self.scaled(margin + 1, design)])
            self.assertEqual((status, out), (1, ''))
            if told.startswith('U'):
                self.assertEqual(line, 'refused ' + told)
            else:
                self.assertTrue(line.startswith('refused V15 cost '), line)
        return told.split()[0]

    def test_examples(self) -> None:
        for name in sorted(os.listdir(EXAMPLES)):
            if name.endswith('.design') and name != 'logged_control.design':
                self.assertIn(self.leads_back(os.path.join(EXAMPLES, name)), ('U1', 'U2'))

    def test_random_designs(self) -> None:
        source = random.Random(3)
        for _ in range(40):
            self.leads_back(self.file('one.design', Small(source).text()))

    def test_first_dear(self) -> None:
        """Of two bodies that are too dear `scale` and the rules tell different ones."""
        design = self.file('dear.design', TWO_DEAR)
        self.assertEqual(run([PROGRAM, 'scale', design])[:2], (0, 'scale 999999\nnext cost p f\n'))
        self.assertEqual(run([PROGRAM, 'generate', self.scaled(1000000, design)])[::2], (1, 'refused V15 cost a thread'))
        self.assertEqual(self.leads_back(design), 'cost')

    def test_one_per_mille(self) -> None:
        """At 1,000 per mille the design does what it did: its bounds are the same."""
        design = os.path.join(EXAMPLES, 'mine_pump.design')
        self.assertEqual(run([PROGRAM, 'analyse', self.scaled(1000, design)]), run([PROGRAM, 'analyse', design]))


if __name__ == '__main__':
    unittest.main()
