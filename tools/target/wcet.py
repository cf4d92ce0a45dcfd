#!/usr/bin/env python3
"""Writes worst-case execution times into the `work` statements of a design that name them.

    wcet.py TIMES DESIGN

TIMES is a file of comma-separated values, as a tool for worst-case execution times exports it or a script makes it of its report. Its first line is
`object,operation,ticks`, or with a unit in place of `ticks`: `ns`, `us`, `ms` or `s`. A thread has the operation `thread`. Times in a unit may have
decimals; they become ticks of the design's TICK, rounded up. A statement names its time in the comment after it on its line:

    work (12);      -- wcet gyro.thread

and gets the number of that row; the rest of the file stays as it is, byte for byte. Several statements may name one row. A row that no statement
names is refused, and so is a statement whose row is missing, a time that is not 1 to 1,000,000,000 ticks, and a comment of this form on a line
without exactly one `work`.

The design is replaced at once, or not at all: the program must accept the new text (`check`), which compares the costs with each THREAD_BUDGET.
The rows are taken as they are: whether they are worst cases is for the tool that measured them. PROGRAM is the path of the program, and the proved
program of this repository if it isn't set. This script claims no proof. The status is 0 if the file is written or has these numbers already, 1 if the
program refuses the new text, and 2 for input that doesn't fit, with its file and line, and for other words.
"""

from __future__ import annotations

import os
import re
import subprocess
import sys
import tempfile
from fractions import Fraction
from typing import Dict, List, Tuple

TOP = os.path.dirname(os.path.dirname(os.path.dirname(os.path.abspath(__file__))))
NANOSECONDS = {'ns': 1, 'us': 1000, 'ms': 1000000, 's': 1000000000}
NAME = re.compile(r'[a-z][a-z0-9_]*')
TIME = re.compile(r'\d{1,19}(\.\d{1,9})?')
TICK = re.compile(r'\btick\s*=\s*(\d{1,10})\s*(us|ms|s)\s*;', re.IGNORECASE)
WORK = re.compile(r'\bwork\s*\(\s*(\d+)\s*\)\s*;', re.IGNORECASE)
MARK = re.compile(r'\s*wcet\s+([a-z]\w*)\s*\.\s*([a-z]\w*)\s*$', re.IGNORECASE)
MARK_BEGUN = re.compile(r'\s*wcet\b', re.IGNORECASE)
MOST_TICKS = 1000000000

Row = Tuple[int, int]   # ticks, and the number of the line


class Fault(Exception):
    """Input that doesn't fit, with its place."""


class Refused(Exception):
    """The program's line for the new text."""


def text_of(file: str) -> str:
    """The text of a file, with its ends of lines."""
    try:
        with open(file, encoding='utf-8', newline='') as stream:
            return stream.read()
    except (OSError, UnicodeDecodeError) as error:
        raise Fault(f'{file}: {getattr(error, "strerror", None) or "not UTF-8"}') from error


def tick_of(design: str) -> int | None:
    """The tick of a design in nanoseconds, if it has TICK."""
    found = TICK.search(re.sub('--[^\n]*', '', design))
    return int(found[1]) * NANOSECONDS[found[2].lower()] if found else None


def rows_of(file: str, text: str, tick: int | None) -> Dict[Tuple[str, str], Row]:
    """The times of a file, by object and operation."""
    lines = text.lstrip('\ufeff').splitlines()
    head = [cell.strip().lower() for cell in lines[0].split(',')] if lines else []
    if head[:2] != ['object', 'operation'] or head[2:] not in [['ticks'], *([unit] for unit in NANOSECONDS)]:
        first = lines[0].strip() if lines else ''
        raise Fault(f'{file}:1: the first line is not object,operation,ticks, or with ns, us, ms or s for ticks: {first}'.rstrip(': '))
    if head[2] != 'ticks' and not tick:
        raise Fault(f'{file}:1: the times are in {head[2]}, and the design has no TICK')
    rows: Dict[Tuple[str, str], Row] = {}
    for number, line in enumerate(lines[1:], 2):
        if not line.strip():
            continue
        cells = [cell.strip().lower() for cell in line.split(',')]
        if len(cells) != 3 or not NAME.fullmatch(cells[0]) or not NAME.fullmatch(cells[1]) or not TIME.fullmatch(cells[2]):
            raise Fault(f'{file}:{number}: not a name, a name and a time: {line.strip()}')
        if (cells[0], cells[1]) in rows:
            raise Fault(f'{file}:{number}: {cells[0]}.{cells[1]} is in line {rows[cells[0], cells[1]][1]} too')
        time = Fraction(cells[2])
        if head[2] == 'ticks' and time.denominator != 1:
            raise Fault(f'{file}:{number}: {cells[2]} is not a whole number of ticks')
        ticks = int(time) if head[2] == 'ticks' or tick is None else int(-(-time * NANOSECONDS[head[2]] // tick))
        if not 1 <= ticks <= MOST_TICKS:
            raise Fault(f'{file}:{number}: {cells[2]} {head[2]} is not 1 to 1,000,000,000 ticks')
        rows[cells[0], cells[1]] = (ticks, number)
    return rows


def replaced(file: str, text: str, times: str, rows: Dict[Tuple[str, str], Row]) -> Tuple[str, List[str]]:
    """The text with the numbers of these rows, and a line for each number that is another one."""
    lines, named = text.split('\n'), set()
    changes: List[str] = []
    for number, line in enumerate(lines, 1):
        code, dashes, comment = line.partition('--')
        if not dashes or not MARK_BEGUN.match(comment):
            continue
        mark, works = MARK.match(comment), list(WORK.finditer(code))
        if not mark:
            raise Fault(f'{file}:{number}: not `-- wcet OBJECT.OPERATION`')
        key = (mark[1].lower(), mark[2].lower())
        if len(works) != 1:
            raise Fault(f'{file}:{number}: {len(works)} statements of work on the line that names {".".join(key)}')
        if key not in rows:
            raise Fault(f'{file}:{number}: {times} has no row {",".join(key)}')
        named.add(key)
        now, ticks = works[0], rows[key][0]
        if int(now[1]) != ticks:
            changes.append(f'{file}:{number}: {".".join(key)}: work ({now[1]}) becomes work ({ticks})')
            lines[number - 1] = code[:now.start(1)] + str(ticks) + code[now.end(1):] + dashes + comment
    for key, (_, number) in rows.items():
        if key not in named:
            raise Fault(f'{times}:{number}: no statement of {file} names {".".join(key)}')
    return '\n'.join(lines), changes


def write(file: str, text: str) -> None:
    """Replaces a file by a text that the program accepts, with the rights of the file. Nothing else of its folder is changed."""
    program = os.path.abspath(os.environ.get('PROGRAM', os.path.join(TOP, 'crates', 'hrthood', 'out', 'hrthood')))
    if not os.access(program, os.X_OK):
        raise Refused(f'there is no program {program}; tools/gate/prove_program.sh makes it, or set PROGRAM to tools/hrthood.mjs')
    real = os.path.realpath(file)
    handle, new = tempfile.mkstemp(prefix='.wcet_', dir=os.path.dirname(real))
    try:
        with os.fdopen(handle, 'w', encoding='utf-8', newline='') as stream:
            stream.write(text)
            stream.flush()
            os.fsync(stream.fileno())
        done = subprocess.run([program, 'check', new], capture_output=True, text=True, stdin=subprocess.DEVNULL)
        if done.returncode != 0:
            lines = [line for line in done.stderr.splitlines() if not line.startswith('hrthood: ')]
            raise Refused(f'{file}: with these times: {lines[-1] if lines else f"status {done.returncode}"}')
        os.chmod(new, os.stat(real).st_mode & 0o7777)
        os.replace(new, real)
    except BaseException:
        os.unlink(new)
        raise


def main() -> None:
    """Writes the times of one file into the other."""
    words = sys.argv[1:]
    if words == ['--help']:
        print(__doc__)
        return
    if len(words) != 2 or any(word.startswith('-') for word in words):
        print(__doc__, file=sys.stderr)
        sys.exit(2)
    times, design = words
    try:
        text = text_of(design)
        new, changes = replaced(design, text, times, rows_of(times, text_of(times), tick_of(text)))
        if changes:
            write(design, new)
    except Refused as line:
        sys.exit(f'wcet.py: {line}')
    except Fault as fault:
        print(f'wcet.py: {fault}', file=sys.stderr)
        sys.exit(2)
    except OSError as error:
        print(f'wcet.py: {design}: {error.strerror}', file=sys.stderr)
        sys.exit(2)
    print('\n'.join(changes) if changes else f'{design}: all numbers are those of {times}')


if __name__ == '__main__':
    main()
