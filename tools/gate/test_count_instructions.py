#!/usr/bin/env python3
"""Tests of tools/gate/count_instructions.py, over a valgrind that is a script."""
from __future__ import annotations

import importlib.machinery
import importlib.util
import os
import subprocess
import sys
import tempfile
import types
import unittest

HERE = os.path.dirname(os.path.abspath(__file__))


def load() -> types.ModuleType:
    """Return the script as a module."""
    loader = importlib.machinery.SourceFileLoader('count_instructions', os.path.join(HERE, 'count_instructions.py'))
    spec = importlib.util.spec_from_loader('count_instructions', loader)
    assert spec is not None
    module = importlib.util.module_from_spec(spec)
    loader.exec_module(module)
    return module


COUNTING = load()


class Comparing(unittest.TestCase):
    """What is told of counts, and what makes the comparison fail."""

    def test_equal(self) -> None:
        """Nothing is told of counts that are as they were."""
        self.assertEqual(COUNTING.compare({'a': 1000}, {'a': 1000}), ([], []))

    def test_ends(self) -> None:
        """5 % more is taken, and more than that is not."""
        self.assertEqual(COUNTING.compare({'a': 1000}, {'a': 1050}), ([], []))
        self.assertEqual(COUNTING.compare({'a': 1000}, {'a': 1051}), ([], ['a: 1,051 instructions, +5.1 %']))

    def test_fewer(self) -> None:
        """Over 5 % fewer is told, and does not fail."""
        told, failed = COUNTING.compare({'a': 1000}, {'a': 900})
        self.assertEqual((len(told), failed), (1, []))
        self.assertIn('--write', told[0])

    def test_other_cases(self) -> None:
        """A case without a kept count fails, and a count without a case."""
        self.assertEqual(COUNTING.compare({'a': 1}, {'b': 1}), ([], ['a: no longer a case', 'b: no count is kept']))


class Counting(unittest.TestCase):
    """Runs over a valgrind that is a script."""

    def count(self, script: str) -> int:
        """Return what is counted with this script as valgrind."""
        with tempfile.TemporaryDirectory() as folder:
            path = os.path.join(folder, 'valgrind')
            with open(path, 'w', encoding='utf-8') as text:
                text.write(f'#!/bin/sh\n{script}\n')
            os.chmod(path, 0o755)
            before = os.environ['PATH']
            os.environ['PATH'] = f'{folder}:{before}'
            try:
                return int(COUNTING.count('/bin/true', ['check'], folder))
            finally:
                os.environ['PATH'] = before

    def test_count(self) -> None:
        """The number is that behind Collected."""
        self.assertEqual(self.count('echo "==7== Collected : 1234" >&2'), 1234)

    def test_failed_run(self) -> None:
        """A run that is not done has no count, nor has one of which valgrind tells none."""
        for script in ('echo "==7== Collected : 1234" >&2; exit 1', 'true'):
            with self.assertRaises(SystemExit):
                self.count(script)

    def test_no_valgrind(self) -> None:
        """Without valgrind nothing is counted, and that is said."""
        with tempfile.TemporaryDirectory() as folder:
            made = subprocess.run([sys.executable, os.path.join(HERE, 'count_instructions.py')], env={'PATH': folder}, stdout=subprocess.PIPE,
                                  text=True)
        self.assertEqual((made.returncode, made.stdout), (0, 'count_instructions.py: there is no valgrind, so no instructions are counted\n'))


if __name__ == '__main__':
    unittest.main(verbosity=0)
