#!/usr/bin/env python3
"""Tests of chains.py: by hand-made lines, by the examples, and against a simulation of a chain over data.

    test_chains.py [-v]

PROGRAM is the path of the program, and the proved program of this repository where it isn't set. Without one, the tests that need it are skipped,
which is told.
"""

from __future__ import annotations

import os
import subprocess
import sys
import tempfile
import unittest

sys.dont_write_bytecode = True
HERE = os.path.dirname(os.path.abspath(__file__))
TOP = os.path.dirname(os.path.dirname(HERE))
sys.path.insert(0, HERE)
import chains   # noqa: E402

PROGRAM = os.path.abspath(os.environ.get('PROGRAM', os.path.join(TOP, 'crates', 'hrthood', 'out', 'hrthood')))
HAS_PROGRAM = os.access(PROGRAM, os.X_OK)
SERVO = os.path.join(TOP, 'examples', 'servo.design')
PROVED = 'The program proves the column `response`; `wait`, `adds` and the bound are arithmetic of this script.'

# `a` writes x of p through its parent and a passive object; `b` reads it in an `out` actual of p, reads only y of q, and requests c.
FORMATTED = '''DESIGN d IS
   COSTS
      ASSIGN = 1;
      TEST = 1;
      TURN = 1;
      CALL = 1;
      NULL = 1;
      PUT = 1;
      FINISH = 1;
   END COSTS;
   OBJECT whole IS ACTIVE
      OBJECTS
         OBJECT store IS PROTECTED
            PROVIDES
               keep (v : in word) PAER;
            OBJECTS
               OBJECT p IS PROTECTED
                  PROVIDES
                     set (v : in word) PAER;
                     get (v : out word) PSER;
                     peek (v : out word; w : in word) PSER;
                  REQUIRES
                     maths.halve;
                  DATA
                     x : word := 0;
                     z : word := 0;
                  OPERATION set IS
                     l : word := 0;
                  BEGIN
                     x := v;
                  END set;
                  OPERATION get IS
                  BEGIN
                     maths.halve (x, v);
                  END get;
                  OPERATION peek IS
                  BEGIN
                     maths.halve (w, z);
                  END peek;
               END p;
            IMPLEMENTS
               keep BY p.set;
         END store;
         OBJECT maths IS PASSIVE
            PROVIDES
               halve (n : in word; h : out word);
               save (n : in word);
            OPERATION halve IS
            BEGIN
               h := n / 2;
            END halve;
            OPERATION save IS
            BEGIN
               store.keep (n);
            END save;
         END maths;
         OBJECT a IS CYCLIC
            ATTRIBUTES
               PERIOD = 10;
               DEADLINE = 10;
               THREAD_BUDGET = 9;
            THREAD
               maths.save (3);
            END THREAD;
         END a;
         OBJECT b IS CYCLIC
            ATTRIBUTES
               PERIOD = 40;
               OFFSET = 55;
               DEADLINE = 40;
               THREAD_BUDGET = 9;
            DATA
               v : word := 0;
            THREAD
               p.get (v);
               if v > 3 then
                  c.go;
               end if;
            END THREAD;
         END b;
         OBJECT c IS SPORADIC
            ATTRIBUTES
               SEPARATION = 40;
               DEADLINE = 40;
               THREAD_BUDGET = 9;
            PROVIDES
               go ASER;
            THREAD
               p.peek (v, 1);
               p.get (v);
            END THREAD;
         END c;
   END whole;
END d;
'''
EXPLAINED = '''thread a priority 3 period 10 deadline 10 jitter 0 cost 4 blocking 1 response 5
thread b priority 2 period 40 deadline 40 jitter 0 cost 6 blocking 1 response 12
thread c priority 1 period 40 deadline 40 jitter 12 cost 8 blocking 0 response 22
started c by b jitter 0 response 12
chain c jitter 0 response 22 by b
ceiling p 3
utilisation 750
'''


def run(*words: str) -> tuple[int, str, str]:
    """The status of the script, and what it writes on standard output and standard error."""
    done = subprocess.run([sys.executable, os.path.join(HERE, 'chains.py'), *words], capture_output=True, text=True, timeout=300)
    return done.returncode, done.stdout, done.stderr


class ByHand(unittest.TestCase):
    """The classes of chains.py on lines written by hand."""

    def refusal(self, *names: str) -> str:
        """The line by which a chain is refused."""
        with self.assertRaises(chains.Refused) as caught:
            chains.Chains(EXPLAINED, FORMATTED).segments(list(names))
        return str(caught.exception)

    def test_data(self) -> None:
        """Assignments and `out` actuals write, everything else reads; locals and parameters are no data."""
        data = chains.Chains(EXPLAINED, FORMATTED).data
        self.assertEqual(data.reads, {('p', 'set'): set(), ('p', 'get'): {'x'}, ('p', 'peek'): set()})
        self.assertEqual(data.writes, {('p', 'set'): {'x'}, ('p', 'get'): set(), ('p', 'peek'): {'z'}})

    def test_links(self) -> None:
        """`a` reaches p.set through a passive object and a parent; the first release of `b` may come 55 later, not 40."""
        found = chains.Chains(EXPLAINED, FORMATTED)
        segments = found.segments(['a', 'b', 'c'])
        self.assertEqual([found.row(one) for one in segments], [
            ('a', '', '', '5', '5', '5'), ('b -> c', 'p.x: p.set; p.get', '55', '22', '34', '77')])
        self.assertEqual(list(found.below(segments)), [
            'From a release of a to the end of c: at most 82 ticks; with the sums of the responses 94.',
            'From a change outside that a reads: its period of 10 more, 92 ticks.', PROVED])

    def test_requests(self) -> None:
        """A chain of requests alone has the bound that is proved."""
        found = chains.Chains(EXPLAINED, FORMATTED)
        self.assertEqual(list(found.below(found.segments(['b', 'c'])))[::2], [
            'From a release of b to the end of c: at most 22 ticks; with the sums of the responses 34.',
            'The program proves this bound, since all links are requests.'])

    def test_order_of_priorities(self) -> None:
        """The response of a segment is that of its lowest priority, wherever that is in the segment."""
        changed = EXPLAINED.replace('c priority 1', 'c priority 9').replace('chain c jitter 0 response 22', 'chain c jitter 0 response 12')
        found = chains.Chains(changed, FORMATTED)
        self.assertEqual(found.response(found.segments(['b', 'c'])[0]), 12)

    def test_refusals(self) -> None:
        self.assertEqual(self.refusal('a', 'x'), 'there is no thread x; the threads are a, b, c')
        self.assertEqual(self.refusal('b', 'a'), 'no link from b to a: b writes nothing of a protected object and requests c; '
                                                 'a reads nothing of a protected object')
        self.assertEqual(self.refusal('a', 'c'), 'no bound from a to c: c reads p.x, but is sporadic; '
                                                 'the chain must pass through b, which requests it')
        self.assertEqual(self.refusal('c', 'b'), 'no link from c to b: c writes p.z and requests nothing; b reads p.x')

    def test_other_response(self) -> None:
        """A chain line with another response is not taken."""
        found = chains.Chains(EXPLAINED.replace('chain c jitter 0 response 22', 'chain c jitter 0 response 23'), FORMATTED)
        with self.assertRaises(chains.Refused):
            found.response(found.segments(['b', 'c'])[0])

    def test_late(self) -> None:
        with self.assertRaises(chains.Refused) as caught:
            chains.Chains('utilisation 1020\nmiss U1 a value 12 limit 10 round 2\n' + EXPLAINED, FORMATTED)
        self.assertEqual(str(caught.exception), 'refused U1 a value 12 limit 10 round 2')

    def test_words(self) -> None:
        for words in ('', 'x', 'x|', 'x|a -> ', 'x|a => b', '--cvs|x|a', 'x|a|b'):
            status, out, err = run(*words.split('|'))
            self.assertEqual((status, out), (2, ''), words)
            self.assertIn('chains.py [--csv]', err)
        self.assertEqual(run('a -> b', 'x.design')[2].split(' (')[0], 'chains.py: not names of threads with -> between them: x.design')


@unittest.skipUnless(HAS_PROGRAM, f'there is no program {PROGRAM}')
class ByTheProgram(unittest.TestCase):
    """The script on examples."""

    def test_servo(self) -> None:
        self.assertEqual(run(SERVO, 'gyro -> kalman -> wheels'), (0, f'''| segment | through | wait | response | sum of responses | adds |
|---|---|---:|---:|---:|---:|
| gyro |  |  | 14 | 14 | 14 |
| kalman -> wheels | rates.rate: rates.put_rate; rates.last | 200 | 140 | 174 | 340 |

From a release of gyro to the end of wheels: at most 354 ticks (35400 us); with the sums of the responses 388.
From a change outside that gyro reads: its period of 50 more, 404 ticks (40400 us).
{PROVED}
''', ''))

    def test_values(self) -> None:
        self.assertEqual(run('--csv', SERVO, 'ground->kalman->wheels'), (0, '''segment,through,wait,response,sum_of_responses,adds
ground,,,347,347,347
kalman -> wheels,estimate.wanted: estimate.aim; estimate.target,200,140,174,340
''', ''))
        self.assertEqual(run('--csv', SERVO, 'Ground -> KALMAN'), run('--csv', SERVO, 'ground->kalman'))

    def test_parents(self) -> None:
        """`law` reads through a parent what `inertial` writes into its child."""
        status, out, err = run(os.path.join(TOP, 'examples', 'flight_control.design'), 'inertial -> law -> elevator')
        self.assertEqual((status, err), (0, ''))
        self.assertIn('| law -> elevator | state.pitch_now: state.put_attitude; state.attitude | 200 | 80 | 115 | 280 |\n', out)

    def test_refusals(self) -> None:
        for name, chain, line in (
                ('servo', 'gyro -> wheels', 'no link from gyro to wheels: gyro writes rates.rate and requests nothing; '
                 'wheels reads nothing of a protected object'),
                ('mine_pump', 'ch4_sensor -> water_handler', 'no bound from ch4_sensor to water_handler: water_handler reads motor.unsafe, '
                 'but is sporadic; it is requested from outside, at no least rate'),
                ('late_control', 'gyro -> controller', 'refused U1 star_tracker value 695 limit 600 round 2')):
            file = os.path.join(TOP, 'examples', name + '.design')
            self.assertEqual(run(file, chain), (1, '', f'chains.py: {file}: {line}\n'))
        self.assertEqual(run('/no/such', 'a -> b'), (1, '', 'chains.py: /no/such: fault reading /no/such\n'))

    def test_simulation(self) -> None:
        """In a run of half a second each rate reaches the wheels within the bound, and some take longer than the response of kalman."""
        with tempfile.TemporaryDirectory() as room:
            arrivals = os.path.join(room, 'x.arrivals')
            with open(arrivals, 'w', encoding='utf-8') as file:
                file.write('UNTIL 5000;\nAT 30 ground 45;\n')
            trace = subprocess.run([PROGRAM, 'verify', SERVO, arrivals], capture_output=True, text=True, check=True, timeout=300).stdout
        events = [line.split() for line in trace.split('-- trace', 1)[1].splitlines() if line and line[0].isdigit()]
        latencies = [latency for place, event in enumerate(events) if event[1:3] == ['release', 'gyro']
                     for latency in self.latency(events[place:])]
        self.assertGreater(len(latencies), 50)
        self.assertLessEqual(max(latencies), 354)
        self.assertGreater(max(latencies), 200)

    def latency(self, events: list[list[str]]) -> list[int]:
        """The ticks from the release of gyro, with which these events begin, to the end of wheels that its rate or a later one reaches."""
        wanted = [['leave', 'gyro', 'rates.put_rate'], ['enter', 'kalman', 'rates.last'], ['request', 'kalman', 'wheels'], ['end', 'wheels']]
        for event in events:
            if event[1:1 + len(wanted[0])] == wanted[0]:
                wanted = wanted[1:]
            if not wanted:
                return [int(event[0]) - int(events[0][0])]
        return []


if __name__ == '__main__':
    unittest.main()
