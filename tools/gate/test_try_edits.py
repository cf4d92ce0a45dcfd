#!/usr/bin/env python3
"""Test try_edits.py without the prover: which functions an edit changes, what a check says of it, and that each wrong body is tried."""
from __future__ import annotations

import csv
import os
import re
import unittest

import try_edits

TOP = try_edits.TOP
SOURCE = '''const LEAST: u32 = 1;

fn first(x: u32) -> u32 {
    x + LEAST
}

impl Machine {
    pub fn act(&mut self) {
        self.time += 1;
    }
}

impl fmt::Display for Machine {
    fn fmt(&self) -> u32 {
        self.ticks
    }
}

pub(crate) fn last() -> u32 {
    2
}
'''


def names_in(text: str) -> list[tuple[str, str]]:
    """Return each crate and edit that a cell of wrong_bodies.csv names: CRATE/EDIT, and further edits of that crate by their names."""
    found: list[tuple[str, str]] = []
    crate = ''
    for word in re.findall(r'[a-z_0-9]+/[a-z_0-9]+|[a-z_0-9]+', text):
        if '/' in word:
            crate, word = word.split('/')
        folder = os.path.join(TOP, 'crates', crate)
        if crate and any(os.path.isfile(os.path.join(folder, kind, word + '.edit')) for kind in ('must-fail', 'more-edits')):
            found.append((crate, word))
    return found


class Functions(unittest.TestCase):
    """The functions in which an edit stands."""

    def at(self, text: str, file: str = 'src/a/b.rt') -> str:
        """Return the function in which a text of the source stands."""
        return try_edits.function_at('c', file, SOURCE, SOURCE.index(text))

    def test_function(self) -> None:
        self.assertEqual(self.at('x + LEAST'), 'c::a::b::first')
        self.assertEqual(self.at('fn first'), 'c::a::b::first')
        self.assertEqual(self.at('    2'), 'c::a::b::last')

    def test_method(self) -> None:
        self.assertEqual(self.at('self.time'), 'c::a::b::Machine::act')

    def test_root(self) -> None:
        self.assertEqual(self.at('x + LEAST', 'src/lib.rt'), 'c::first')

    def test_constant(self) -> None:
        self.assertEqual(self.at('LEAST: u32'), 'c::a::b')


class Verdicts(unittest.TestCase):
    """What a check says of a changed function."""

    def test_refused(self) -> None:
        self.assertEqual(try_edits.verdict_of(1, 'fn c::a::first: not proved\nonly=2 proved=1\n'), 'refused')

    def test_missed(self) -> None:
        self.assertIn('NOT REFUSED', try_edits.verdict_of(0, 'fn c::a::first: proved\nonly=2 proved=2\n'))

    def test_no_verdict(self) -> None:
        self.assertIn('NOT TRIED', try_edits.verdict_of(1, 'error[E0308]: mismatched types\n'))
        self.assertIn('NOT TRIED', try_edits.verdict_of(3, 'fn c::a::first: could not tell\n'))


class Lists(unittest.TestCase):
    """The list of edits."""

    def test_edits_apply(self) -> None:
        for row in try_edits.read_rows():
            with self.subTest(edit=f"{row['crate']}/{row['edit']}"):
                with open(try_edits.edit_path(row), encoding='utf-8') as text:
                    edit = text.read()
                self.assertTrue(try_edits.functions_of(row['crate'], edit))
                for file, old in try_edits.changed_places(edit):
                    with open(os.path.join(TOP, 'crates', row['crate'], file), encoding='utf-8') as source:
                        self.assertEqual(source.read().count(old), 1)

    def test_choice(self) -> None:
        row = {'crate': 'c', 'edit': 'e', 'in_gate': 'no'}
        self.assertFalse(try_edits.is_asked(row, [], False))
        self.assertTrue(try_edits.is_asked(row, [], True))
        self.assertTrue(try_edits.is_asked(row, ['c'], False))
        self.assertTrue(try_edits.is_asked(row, ['c/e'], False))
        self.assertFalse(try_edits.is_asked(row, ['c/f', 'd'], True))

    def test_rows_are_sorted(self) -> None:
        keys = [(row['crate'], row['edit']) for row in try_edits.read_rows()]
        self.assertEqual(keys, sorted(set(keys)))

    def test_wrong_bodies_are_tried(self) -> None:
        rows = {(row['crate'], row['edit']) for row in try_edits.read_rows()}
        with open(os.path.join(TOP, 'docs', 'assurance', 'wrong_bodies.csv'), encoding='utf-8', newline='') as text:
            for body in csv.DictReader(text):
                if body['edits'].startswith('none'):
                    continue
                names = names_in(body['edits'])
                self.assertTrue(names, body['wrong_body'])
                for crate, edit in names:
                    in_gate = os.path.isfile(os.path.join(TOP, 'crates', crate, 'must-fail', edit + '.edit'))
                    self.assertTrue(in_gate or (crate, edit) in rows, f'{crate}/{edit}')


if __name__ == '__main__':
    unittest.main()
