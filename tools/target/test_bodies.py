#!/usr/bin/env python3
"""Tests of the two bodies of package hrt, which build and run Ada programs: they need GNAT and the right to real-time priorities.

    test_bodies.py [CPU]

Without them it says what is missing, and exits with the status of needs.sh. The programs are those of the folder `disturbed`.
"""

from __future__ import annotations

import os
import shutil
import signal
import subprocess
import sys
import tempfile
import time
import unittest

sys.dont_write_bytecode = True
HERE = os.path.dirname(os.path.realpath(__file__))
SPECIFICATION = os.path.join(HERE, '..', '..', 'examples', 'every_kind.ada')
CALL = 'hrt_forced.at_place (%d);'
USED = 4            # ticks of `work` of a round of hrt_rounds
TURNS = 4           # activations of hrt_stopped
TRIES = 4           # of a run on a host, which may take the processor away
cpu = '0'


def with_places(body: str) -> tuple[str, int]:
    """Returns a body of hrt that calls the hook after each statement of `work`, and the number of places."""
    lines: list[str] = ['with hrt_forced;']
    count, is_work, is_open, depth = 0, False, False, 0
    for line in body.split('\n'):
        word = line.strip()
        is_work = is_work or word.startswith('procedure work')
        if is_work and line == '   end work;':
            is_work = is_open = False
        lines.append(line)
        is_open = is_open or is_work and word == 'begin'
        depth += line.count('(') - line.count(')')
        if is_open and depth == 0 and (word == 'begin' or word.endswith((';', 'loop', 'then', 'else'))) and not word.startswith('--'):
            lines.append(CALL % count)
            count += 1
    return '\n'.join(lines), count


def build(folder: str, body: str, main: str) -> None:
    """Builds the program of the folder `disturbed` with this body of hrt."""
    with open(SPECIFICATION) as stream:
        text = stream.read()
    with open(os.path.join(folder, 'text'), 'w') as stream:
        stream.write(text[:text.index('\nend hrt;\n')] + '\nend hrt;\n')
    with open(os.path.join(folder, 'hrt.adb'), 'w') as stream:
        stream.write(body)
    for source in ('hrt/hrt_host.ads', 'hrt/hrt_host.adb', *('disturbed/' + name for name in os.listdir(os.path.join(HERE, 'disturbed')))):
        shutil.copy(os.path.join(HERE, source), folder)
    subprocess.run(['gnatchop', '-w', '-q', 'text', '.'], cwd=folder, check=True)
    subprocess.run(['gnatmake', '-q', main], cwd=folder, check=True)


def body_of(folder: str) -> str:
    with open(os.path.join(HERE, folder, 'hrt.adb')) as stream:
        return stream.read()


def start(folder: str, main: str, **settings: str) -> subprocess.Popen[str]:
    return subprocess.Popen(['taskset', '-c', cpu, './' + main], cwd=folder, env=dict(os.environ, **settings), stdout=subprocess.PIPE, text=True)


class Preempted(unittest.TestCase):
    def rounds(self, folder: str, count: int) -> dict[tuple[int, ...], tuple[int, int]]:
        """Returns places and times of the rounds: how often the task was preempted, and the ticks that it used itself."""
        said, _ = start(folder, 'hrt_preempted', HRT_PLACES=str(count), HRT_TICK_US='3000').communicate(timeout=600)
        found = {}
        for line in said.splitlines():
            words = line.split()
            if words[0] == 'round':
                numbers = [int(word) for word in words[1:]]
                found[tuple(numbers[:3])] = numbers[3], numbers[4]
        return found

    def test_the_ticks_of_another_task_are_not_counted(self) -> None:
        """A task is preempted at each place of `work`, early and late, and then again at each place. It uses its own ticks in each round."""
        body, count = with_places(body_of('stepped'))
        with tempfile.TemporaryDirectory() as folder:
            build(folder, body, 'hrt_preempted')
            wrong: set[tuple[int, ...]] | None = None
            reached: set[int] = set()
            for _ in range(TRIES):
                rounds = self.rounds(folder, count)
                self.assertEqual(len(rounds), 2 * count * (count + 1))
                reached |= {key[0] for key, (times, _) in rounds.items() if times} | {key[1] for key, (times, _) in rounds.items() if times > 1}
                found = {key for key, (_, ticks) in rounds.items() if ticks != USED}
                wrong = found if wrong is None else wrong & found
                if not wrong:
                    break
        self.assertEqual(wrong, set())
        self.assertEqual(reached, set(range(count)))


class Stopped(unittest.TestCase):
    def test_a_late_wake_up_is_reported(self) -> None:
        """The program is stopped while its only task sleeps, for longer than its period: each body writes a line `away` then."""
        for name in 'hrt', 'stepped':
            with self.subTest(body=name), tempfile.TemporaryDirectory() as folder:
                build(folder, body_of(name), 'hrt_stopped')
                program = start(folder, 'hrt_stopped', HRT_TURNS=str(TURNS), HRT_TICK_US='10000')
                assert program.stdout is not None
                before = ''
                while ' end ' not in before:
                    before = program.stdout.readline()
                    self.assertTrue(before, 'the program ended before an activation did')
                program.send_signal(signal.SIGSTOP)
                time.sleep(0.6)
                program.send_signal(signal.SIGCONT)
                said, _ = program.communicate(timeout=600)
                lines = [line.split() for line in said.splitlines()]
                self.assertEqual(sum(words[1] == 'end' for words in lines), TURNS - 1)
                self.assertGreater(max((float(words[3]) for words in lines if words[1] == 'away'), default=0.0), 0.15)


def main() -> None:
    global cpu
    if len(sys.argv) > 1 and not sys.argv[1].startswith('-'):
        cpu = sys.argv.pop(1)
    missing = subprocess.run(['/bin/sh', '-c', '. "$0/needs.sh"; need_gnat; need_priorities "$1"', HERE, cpu]).returncode
    if missing:
        sys.exit(missing)
    unittest.main()


if __name__ == '__main__':
    main()
