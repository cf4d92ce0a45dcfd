#!/usr/bin/env python3
"""Tests of own_code.py. The example of examples/own_code is built if GNAT is installed; the program is PROGRAM, or `hrthood` of this repository."""

from __future__ import annotations

import glob
import os
import shutil
import subprocess
import sys
import tempfile
import unittest

sys.dont_write_bytecode = True
HERE = os.path.dirname(os.path.realpath(__file__))
EXAMPLES = os.path.join(HERE, '..', '..', 'examples')
sys.path.insert(0, HERE)
import layout                   # noqa: E402
import own_code                 # noqa: E402

PROGRAM = os.environ.get('PROGRAM', os.path.join(HERE, '..', '..', 'hrthood'))
CALL = 'flight_law.compute (pitch, rate, v, m, command)'
DESIGN = """DESIGN d VERSION 2 IS
OBJECT a IS ACTIVE
OBJECTS
  OBJECT p IS PROTECTED
  OPERATION p IS BEGIN work (3); work (4); -- calls app.four
  END p;
  OPERATION q IS t : word := 0; BEGIN work (3); -- calls app.three (t)
  END q;
  END p;
  OBJECT c IS CYCLIC
  THREAD Work ( 1_0 ); -- CALLS App.Deep.Ten (x, 5)
    work (5); -- it calls nothing
  END THREAD;
  END c;
END a;
END d;
"""
TEXT = """package hrt is
   procedure work (ticks : positive);
end hrt;
package d is
end d;
package body d is
   package body p is
      protected body hrt_object is
         procedure p is
         begin
            work (3);
            work (4);
         end p;
         procedure q is
            t : word := 0;
         begin
            work (3);
         end q;
      end hrt_object;
   end p;
   package body c is
      task body hrt_thread is
      begin
         loop
            work (10);
            work (5);
            activation_end;
         end loop;
      end hrt_thread;
   end c;
end d;
"""


def example(name: str) -> str:
    with open(os.path.join(EXAMPLES, name)) as stream:
        return stream.read()


def generated(design: str) -> str:
    """The text that the program writes for a design."""
    with tempfile.NamedTemporaryFile('w', suffix='.design') as stream:
        stream.write(design)
        stream.flush()
        return subprocess.run([PROGRAM, 'generate', stream.name], capture_output=True, text=True, check=True).stdout


def marked() -> str:
    """The design of the example: one statement of the flight control is marked."""
    design = example('flight_control.design')
    assert design.count('work (10);') == 1
    return design.replace('work (10);', 'work (10); -- calls ' + CALL)


class Marks(unittest.TestCase):
    def test_each_marked_statement_is_replaced_and_nothing_else(self) -> None:
        wanted = TEXT.replace('            work (4);', '            app.four;').replace('            work (10);', '            app.deep.ten (x, 5);')
        front, _, back = wanted.rpartition('            work (3);')
        wanted = (front + '            app.three (t);' + back).replace('package body d is', 'with app;\npackage body d is')
        self.assertEqual(own_code.edited(DESIGN, TEXT), wanted)

    def test_a_design_without_marks(self) -> None:
        count = 0
        for path in glob.glob(os.path.join(EXAMPLES, '*.design')):
            name = os.path.basename(path)[:-len('.design')]
            wanted = os.path.join('wanted', name + '.generate')
            if os.path.exists(os.path.join(EXAMPLES, wanted)):
                self.assertEqual(own_code.edited(example(name + '.design'), example(wanted)), example(wanted), name)
                count += 1
        self.assertGreater(count, 3)

    def test_a_text_of_another_design_is_refused(self) -> None:
        five = '            work (5);\n'
        for other in (TEXT.replace('work (10)', 'work (11)'), TEXT.replace('            work (4);\n', ''), TEXT.replace(five, five + five), '',
                      TEXT.replace('package body c', 'package body b'), TEXT.replace('procedure q', 'procedure r')):
            with self.assertRaises(own_code.Fault):
                own_code.edited(DESIGN, other)

    def test_marks_that_are_none(self) -> None:
        for bad in ('work (3); -- calls four', 'work (3); -- calls app.four (x', 'work (3); -- calls app.four; work (1);',
                    'x := 1; -- calls app.four', '-- calls app.four', 'work (3); x := 1; -- calls app.four', 'work (3); -- calls app.four (f (x))'):
            with self.assertRaises(own_code.Fault, msg=bad):
                own_code.statements_of(DESIGN.replace('work (5); -- it calls nothing', bad))

    def test_statuses(self) -> None:
        with tempfile.TemporaryDirectory() as room:
            path = os.path.join(room, 'design')
            with open(path, 'w') as stream:
                stream.write(DESIGN)
            rows: tuple[tuple[list[str], str, int], ...] = (
                ([path], TEXT, 0), ([path], '', 2), ([], TEXT, 2), ([os.path.join(room, 'nowhere')], TEXT, 2))
            for words, text, wanted in rows:
                script = [sys.executable, os.path.join(HERE, 'own_code.py')]
                answer = subprocess.run([*script, *words], input=text, capture_output=True, text=True)
                self.assertEqual(answer.returncode, wanted)
                self.assertEqual(bool(answer.stderr), wanted == 2)


class Example(unittest.TestCase):
    def test_the_text_differs_in_the_call_alone(self) -> None:
        text = generated(marked())
        self.assertEqual(text, generated(example('flight_control.design')))
        edited = own_code.edited(marked(), text)
        self.assertEqual([line for line in edited.splitlines() if line not in text.splitlines()], ['with flight_law;', '            %s;' % CALL])
        self.assertEqual(edited.count('\n'), text.count('\n') + 1)

    def test_only_the_caller_names_the_package(self) -> None:
        laid = layout.laid_out(own_code.edited(marked(), generated(marked())), ['filters.low_pass'])
        self.assertEqual(laid.count('with Flight_Law;'), 1)
        context = ['Flight_Law', 'Flight.Filters', 'Flight.Mode', 'Flight.State', 'Flight.Elevator']
        self.assertIn(''.join('with %s;\n' % name for name in context) + 'package body Flight.Law is', laid)

    def test_gnat_reports_nothing_but_units_that_are_not_referenced(self) -> None:
        if shutil.which('gnatmake') is None:
            self.skipTest('gnatmake is missing: install GNAT (Debian: apt-get install gnat)')
        laid = layout.laid_out(own_code.edited(marked(), generated(marked())), ['filters.low_pass'])
        with tempfile.TemporaryDirectory() as room:
            def run(*words: str) -> str:
                answer = subprocess.run(words, cwd=room, capture_output=True, text=True)
                self.assertEqual(answer.returncode, 0, answer.stdout + answer.stderr)
                return answer.stdout + answer.stderr
            with open(os.path.join(room, 'laid'), 'w') as stream:
                stream.write(laid)
            run('gnatchop', '-q', 'laid', '.')
            for path in glob.glob(os.path.join(HERE, 'hrt', '*.ad?')):
                shutil.copy(path, room)
            run('gnatmake', '-q', '-c', 'hrt.adb')
            # The generated body of the subunit builds too, and the user's one replaces it.
            for path in ('', os.path.join(EXAMPLES, 'own_code')):
                for own in glob.glob(os.path.join(path or os.path.join(EXAMPLES, 'own_code'), '*.ad?')):
                    if path or 'flight_law' in own:
                        shutil.copy(own, room)
                said = run('gnatmake', '-q', '-gnatwa', '-gnaty', 'hrt_main').splitlines()
                self.assertEqual([line for line in said if not line.endswith('[-gnatwu]')], [])
                self.assertTrue(all(line.startswith(('hrt_main.adb:', 'flight.ads:')) for line in said), said)
            self.assertTrue(os.path.exists(os.path.join(room, 'hrt_main')))


if __name__ == '__main__':
    unittest.main()
