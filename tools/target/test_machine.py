#!/usr/bin/env python3
"""Runs the mine pump and twenty random designs in an emulated machine, and compares each tick with the replay.

    test_machine.py [FIRST COUNT]

Needs GNAT, qemu-system-x86_64 and a Linux kernel: the file HRT_KERNEL, or else the newest in /boot. If one is missing it says so, and exits with
status 0. The program is PROGRAM, or `hrthood` of this repository; HRT_JOBS machines (4) run at a time. With FIRST and COUNT it takes COUNT random
designs from seed FIRST on, and writes a row for each one:
the seed, and what run.sh, accepts and to_trace.py --replay say; last, whether the log is the trace of the replay.
"""

from __future__ import annotations

import concurrent.futures
import glob
import os
import re
import subprocess
import sys
import tempfile
import unittest
from typing import Iterator, NamedTuple

sys.dont_write_bytecode = True
HERE = os.path.dirname(os.path.realpath(__file__))
EXAMPLES = os.path.join(HERE, '..', '..', 'examples')
sys.path.insert(0, HERE)
import random_design            # noqa: E402

PROGRAM = os.environ.get('PROGRAM', os.path.join(HERE, '..', '..', 'hrthood'))
JOBS = int(os.environ.get('HRT_JOBS', '4'))
COUNT = 20                      # of random designs
TICK_US = 1000
COLUMNS = 'seed,lines,result,accepts,replay,is_trace'


def kernel() -> str:
    """The kernel of the machine: the one that is named, or the newest of the host."""
    found = sorted(glob.glob('/boot/vmlinuz-*'), key=lambda path: [int(number) for number in re.findall('[0-9]+', path)])
    return os.environ.get('HRT_KERNEL') or (found[-1] if found else '/boot/vmlinuz')


class Run(NamedTuple):
    """A run in a machine, and what was kept of it."""
    status: int
    said: str
    kept: str

    def read(self, name: str) -> str:
        with open(os.path.join(self.kept, name)) as stream:
            return stream.read()


def run(design: str, arrivals: str, kept: str) -> Run:
    words = ['/bin/sh', os.path.join(HERE, 'run.sh'), '-s', '-t', str(TICK_US), '-m', kernel(), '-k', kept, design, arrivals]
    answer = subprocess.run(words, capture_output=True, text=True, env=dict(os.environ, PROGRAM=PROGRAM))
    return Run(answer.returncode, answer.stdout + answer.stderr, kept)


def asked(*words: str) -> str:
    """What the program says."""
    return subprocess.run([PROGRAM, *words], capture_output=True, text=True).stdout


def designs(first: int, count: int, room: str) -> Iterator[tuple[int, str, str]]:
    """The first random designs with bounds within their limits: seed and paths."""
    seed = first
    while count:
        design, arrivals = random_design.write(seed, room)
        status = subprocess.run([PROGRAM, 'verify', design, arrivals], capture_output=True).returncode
        if status not in (0, 1):
            raise SystemExit('test_machine: %s ends with status %d' % (PROGRAM, status))
        if status == 0:
            yield seed, design, arrivals
            count -= 1
        seed += 1


def run_designs(first: int, count: int, room: str) -> Iterator[tuple[int, str, str, Run]]:
    with concurrent.futures.ThreadPoolExecutor(JOBS) as pool:
        runs = [(seed, design, arrivals, pool.submit(run, design, arrivals, os.path.join(room, str(seed))))
                for seed, design, arrivals in designs(first, count, room)]
        for seed, design, arrivals, one in runs:
            yield seed, design, arrivals, one.result()


class MinePump(unittest.TestCase):
    def test_two_runs_are_equal(self) -> None:
        design, arrivals = os.path.join(EXAMPLES, 'mine_pump.design'), os.path.join(EXAMPLES, 'one_water_alarm.arrivals')
        with tempfile.TemporaryDirectory() as room:
            with concurrent.futures.ThreadPoolExecutor(JOBS) as pool:
                one, other = pool.map(run, [design] * 2, [arrivals] * 2, [os.path.join(room, name) for name in ('one', 'other')])
            for answer in one, other:
                self.assertEqual((answer.status, answer.said), (0, 'same: all 26 lines of the replay, in order, at the same ticks\n'))
            self.assertEqual(one.read('run'), other.read('run'))
            self.assertEqual(one.read('log'), one.read('trace'))
            self.assertEqual(asked('accepts', design, os.path.join(one.kept, 'arrivals'), os.path.join(one.kept, 'log')), 'yes lines 36\n')
            self.a_tick_more_is_found(one)

    def a_tick_more_is_found(self, one: Run) -> None:
        """The run does not agree with the replay of a text whose last `work` takes a tick more."""
        paths = [os.path.join(one.kept, name) for name in ('other_text', 'arrivals', 'other_trace')]
        front, mark, back = one.read('text').rpartition('work (5);')
        self.assertTrue(mark)
        with open(paths[0], 'w') as stream:
            stream.write(front + 'work (6);' + back)
        with open(paths[2], 'w') as stream:
            stream.write(asked('replay', *paths[:2]))
        words = [sys.executable, os.path.join(HERE, 'target.py'), 'steps', paths[0], paths[2], os.path.join(one.kept, 'run')]
        self.assertEqual(subprocess.run(words, capture_output=True).returncode, 1)


class RandomDesigns(unittest.TestCase):
    def test_each_tick(self) -> None:
        lines = 0
        with tempfile.TemporaryDirectory() as room:
            for seed, design, _, answer in run_designs(1, COUNT, room):
                with self.subTest(seed=seed):
                    self.assertEqual((answer.status, answer.said[:9]), (0, 'same: all'), answer.said)
                    said = asked('accepts', design, os.path.join(answer.kept, 'arrivals'), os.path.join(answer.kept, 'log'))
                    self.assertEqual(said, 'yes lines %d\n' % answer.read('trace').count('\n'))
                    lines += int(answer.said.split()[2])
        self.assertGreater(lines, 20 * COUNT)


def rows(first: int, count: int) -> None:
    """Writes a row of what was found for each design."""
    print(COLUMNS, flush=True)
    with tempfile.TemporaryDirectory() as room:
        for seed, design, _, answer in run_designs(first, count, room):
            words = answer.said.split()
            lines = words[2] if words[:2] == ['same:', 'all'] else ''
            result = 'same' if answer.status == 0 else 'status %d' % answer.status
            log = os.path.join(answer.kept, 'log')
            accepted = replayed = is_trace = '-'
            if os.path.exists(log):
                accepted = asked('accepts', design, os.path.join(answer.kept, 'arrivals'), log).strip()
                script = [sys.executable, os.path.join(HERE, 'to_trace.py'), '--replay']
                status = subprocess.run([*script, os.path.join(answer.kept, 'text'), os.path.join(answer.kept, 'arrivals'), log],
                                        capture_output=True, env=dict(os.environ, PROGRAM=PROGRAM)).returncode
                replayed = {0: 'same', 1: 'different'}.get(status, 'none')
                is_trace = 'yes' if answer.read('log') == answer.read('trace') else 'no'
            print(','.join((str(seed), lines, result, accepted, replayed, is_trace)), flush=True)


def main() -> None:
    script = '. "$0/needs.sh"; need_gnat; need_machine "" "$1"'
    missing = subprocess.run(['/bin/sh', '-c', script, HERE, kernel()], capture_output=True, text=True)
    if missing.returncode:
        print('test_machine: not run: ' + missing.stderr.strip())
    elif len(sys.argv) == 3 and all(word.isdecimal() for word in sys.argv[1:]):
        rows(int(sys.argv[1]), int(sys.argv[2]))
    else:
        unittest.main()


if __name__ == '__main__':
    main()
