#!/usr/bin/env python3
"""Tests of layout.py, which need neither GNAT nor rights: each text comes back byte for byte, and its layout keeps to the style."""

from __future__ import annotations

import glob
import os
import random
import sys
import unittest
from typing import Iterator

sys.dont_write_bytecode = True
HERE = os.path.dirname(os.path.realpath(__file__))
EXAMPLES = os.path.join(HERE, '..', '..', 'examples')
sys.path.insert(0, HERE)
import layout                   # noqa: E402


def texts() -> Iterator[tuple[str, str]]:
    """Returns the Ada texts of the examples, with their paths."""
    for path in sorted(glob.glob(os.path.join(EXAMPLES, '*.ada')) + glob.glob(os.path.join(EXAMPLES, 'wanted', '*.generate'))):
        with open(path) as stream:
            yield path, stream.read()


def example(name: str) -> str:
    with open(os.path.join(EXAMPLES, name)) as stream:
        return stream.read()


class Layout(unittest.TestCase):
    def test_each_text_comes_back(self) -> None:
        count = 0
        for path, text in texts():
            self.assertEqual(layout.text_of(layout.laid_out(text)), text, path)
            count += 1
        self.assertGreater(count, 10)

    def test_files_in_any_order_come_back(self) -> None:
        dice = random.Random(1)
        for path, text in texts():
            units = layout.units_of(layout.bare(layout.laid_out(text)))
            for _ in range(5):
                dice.shuffle(units)
                self.assertEqual(layout.text_of('\n'.join(line for unit in units for line in unit)), text, path)

    def test_style(self) -> None:
        for path, text in texts():
            for line in layout.laid_out(text).split('\n'):
                self.assertLessEqual(len(line), layout.WIDTH, path)
                self.assertEqual(line, line.rstrip(), path)

    def test_a_package_of_an_object(self) -> None:
        lines = layout.laid_out(example('units_of_every_kind.ada'))
        self.assertIn('with D.P;\nwith D.S;\npackage body D.C is\n   X : Word := 0;\n\n   task body Hrt_Thread is\n'
                      '      Hrt_Next : Hrt.Moment := Hrt.After (Hrt.Epoch, 0);\n', lines)
        self.assertIn('pragma Task_Dispatching_Policy (FIFO_Within_Priorities);\n', lines)
        self.assertTrue(lines.endswith('with D.P;\nwith D.Q;\nwith D.C;\nwith D.S;\nprocedure Hrt_Main is\nbegin\n   null;\nend Hrt_Main;\n'))

    def test_long_lines_are_wrapped_and_come_back(self) -> None:
        for long in ('r := ' + ' + '.join('abcdefgh%d' % i for i in range(40)) + ';',
                     'if ' + ' and '.join('(a = b%d)' % i for i in range(30)) + ' then', 'p (' + ', '.join('x%d' % i for i in range(60)) + ');'):
            for indent in range(0, 31, 3):
                lines = list(layout.wrapped(' ' * indent + long))
                self.assertGreater(len(lines), 1)
                self.assertTrue(all(len(line) <= layout.WIDTH for line in lines))
                self.assertEqual(layout.bare('\n'.join(lines)), [' ' * indent + long])

    def test_a_package_that_needs_no_body(self) -> None:
        text = example('units_of_every_kind.ada')
        start, end = text.index('      procedure next'), text.index('   end p;')
        text = text[:start] + text[end:]
        start, end = text.index('      procedure next'), text.index('   end p;\n   package body q')
        text = text[:start] + text[end:]
        lines = layout.laid_out(text)
        self.assertIn('package D.P is\n   pragma Elaborate_Body;\nend D.P;\n', lines)
        self.assertEqual(layout.text_of(lines), text)

    def test_an_operation_of_your_own(self) -> None:
        text = example('units_of_every_kind.ada')
        lines = layout.laid_out(text, ['p.next'])
        self.assertIn('package body D.P is\n   procedure Next (A : in Word; R : out Word) is separate;\nend D.P;\n', lines)
        self.assertIn('\nseparate (D.P)\nprocedure Next (A : in Word; R : out Word) is\n   T : Word := 1;\nbegin\n   R := A * 3 + T;\n'
                      'end Next;\n', lines)
        self.assertEqual(layout.text_of(lines), text)
        for other in ('p.last', 'q.set', 'x.next', 'p'):
            with self.assertRaises(layout.Fault):
                layout.laid_out(text, [other])

    def test_faults(self) -> None:
        text = example('every_kind.ada')
        for bad in ('', text[:200], text.replace('procedure hrt_main', 'procedure hrt_other')):
            with self.assertRaises(layout.Fault):
                layout.laid_out(bad)
        for bad in ('', 'package hrt is\nend hrt;\n', layout.laid_out(text).replace('Board is', 'Other is', 1)):
            with self.assertRaises(layout.Fault):
                layout.text_of(bad)


if __name__ == '__main__':
    unittest.main()
