#!/usr/bin/env python3
"""Count the instructions that small runs of the program take, so that none becomes slower unseen.

    count_instructions.py           compare with bench/instructions.csv; fail if a case takes over 5 % more
    count_instructions.py --write   keep the counts of this program in bench/instructions.csv

Each case is a run of one verb over a file of examples/ or one that is made here. valgrind counts instructions of the same program, words and
files alike whatever else the machine does. A case that takes over 5 % fewer is told, so that the kept count is made anew. The program is the
one in PROGRAM, or crates/hrthood/out/hrthood.
"""
from __future__ import annotations

import csv
import os
import re
import shutil
import subprocess
import sys
import tempfile

TOP = os.path.dirname(os.path.dirname(os.path.dirname(os.path.abspath(__file__))))
KEPT = os.environ.get('INSTRUCTIONS') or os.path.join(TOP, 'bench', 'instructions.csv')
MORE_PERCENT = 5
COLLECTED = re.compile(r'Collected : (\d+)')
COSTS = 'COSTS ASSIGN = 1; TEST = 1; TURN = 1; CALL = 1; NULL = 1; PUT = 1; FINISH = 1; END COSTS;\n'


def cyclic(name: str, period: int, needs: str, block: str, variables: str = '') -> str:
    """Return a cyclic object whose deadline is its period."""
    return (f'OBJECT {name} IS CYCLIC ATTRIBUTES PERIOD = {period}; DEADLINE = {period}; THREAD_BUDGET = {period};{needs}{variables}\n'
            f'THREAD\n{block}\nEND THREAD; END {name};\n')


def design(name: str, objects: list[str]) -> str:
    """Return a design with these objects in an active one."""
    return f'DESIGN {name} IS\n{COSTS}OBJECT w IS ACTIVE\nOBJECTS\n{"".join(objects)}END w;\nEND {name};\n'


def statements() -> str:
    """Return a design of one thread with 3,000 statements of several kinds."""
    each = ('x := x + 1;\nif x < 7 then y := (x * 3) mod 5; end if;\n'
            'for i in word range 1 .. 2 loop x := y + i; end loop;\nnull;\nput (x);\nwork (2);\n')
    return design('statements', [cyclic('t', 1000000, '', each * 500, ' DATA x : word := 0; y : word := 1;')])


def names() -> str:
    """Return a design of 40 passive objects with 50 operations each, of which a thread calls one each."""

    def passive(k: int) -> str:
        ops = [f'operation_{n}_of_{k}' for n in range(50)]
        bodies = '\n'.join(f'OPERATION {op} IS BEGIN null; END {op};' for op in ops)
        return f'OBJECT passive_{k} IS PASSIVE PROVIDES {" ".join(op + ";" for op in ops)}\n{bodies}\nEND passive_{k};\n'
    calls = [f'passive_{k}.operation_7_of_{k};' for k in range(40)]
    return design('names', [passive(k) for k in range(40)] + [cyclic('t', 100000, f' REQUIRES {" ".join(calls)}', '\n'.join(calls))])


def threads() -> str:
    """Return a design of 30 threads, each of which calls two of 60 protected objects."""

    def protected(k: int) -> str:
        return f'OBJECT q{k} IS PROTECTED PROVIDES set PAER;\nOPERATION set IS BEGIN work ({1 + k % 4}); END set;\nEND q{k};\n'

    def thread(k: int) -> str:
        calls = f'q{k}.set; q{k + 30}.set;'
        return cyclic(f't{k}', 2000 + 100 * k, f' REQUIRES {calls}', f'{calls} work ({5 + k});')
    return design('threads', [protected(k) for k in range(60)] + [thread(k) for k in range(30)])


def run(program: str, words: list[str], folder: str) -> bytes:
    """Return what a run of the program in a folder writes; exit if it is not done."""
    made = subprocess.run([program, *words], cwd=folder, stdout=subprocess.PIPE, stderr=subprocess.PIPE)
    if made.returncode != 0:
        raise SystemExit(f'count_instructions.py: {" ".join(words)}: {made.stderr.decode()}')
    return made.stdout


def write(folder: str, name: str, data: bytes) -> str:
    """Write a file, and return its name."""
    with open(os.path.join(folder, name), 'wb') as file:
        file.write(data)
    return name


def make_cases(program: str, folder: str) -> dict[str, list[str]]:
    """Write the files of all cases, and return the words of each case."""
    for name, text in (('statements', statements()), ('names', names()), ('threads', threads())):
        write(folder, f'{name}.design', text.encode())
    for name in ('data_handling.design', 'data_handling.arrivals'):
        shutil.copy(os.path.join(TOP, 'examples', name), folder)
    run_files = ['data_handling.design', 'data_handling.arrivals']
    write(folder, 'text.ada', run(program, ['generate', 'data_handling.design'], folder))
    write(folder, 'trace', run(program, ['replay', 'text.ada', 'data_handling.arrivals'], folder))
    return {
        'check of 3,000 statements': ['check', 'statements.design'],
        'format of 3,000 statements': ['format', 'statements.design'],
        'generate of 3,000 statements': ['generate', 'statements.design'],
        'check of 2,000 operations': ['check', 'names.design'],
        'analyse of 30 threads': ['analyse', 'threads.design'],
        'explain of 30 threads': ['explain', 'threads.design'],
        'search of 30 threads': ['search', 'threads.design'],
        'scale of 30 threads': ['scale', 'threads.design'],
        'verify of data handling': ['verify', *run_files],
        'replay of data handling': ['replay', 'text.ada', 'data_handling.arrivals'],
        'accepts of data handling': ['accepts', *run_files, 'trace'],
    }


def count(program: str, words: list[str], folder: str) -> int:
    """Return the instructions of a run in a folder; exit if it is not done."""
    made = subprocess.run(['valgrind', '--tool=callgrind', '--callgrind-out-file=/dev/null', program, *words], cwd=folder,
                          stdout=subprocess.DEVNULL, stderr=subprocess.PIPE, env={'PATH': os.environ.get('PATH', '')})
    told = COLLECTED.search(made.stderr.decode())
    if made.returncode != 0 or told is None:
        raise SystemExit(f'count_instructions.py: {" ".join(words)}: {made.stderr.decode()[-300:]}')
    return int(told.group(1))


def read_kept() -> dict[str, int]:
    """Return the kept counts by case."""
    if not os.path.exists(KEPT):
        return {}
    with open(KEPT, encoding='utf-8', newline='') as text:
        return {row['case']: int(row['instructions']) for row in csv.DictReader(text)}


def write_kept(counts: dict[str, int]) -> None:
    """Write the counts."""
    with open(KEPT, 'w', encoding='utf-8', newline='') as text:
        writer = csv.writer(text, lineterminator='\n')
        writer.writerow(['case', 'instructions'])
        writer.writerows(counts.items())


def compare(kept: dict[str, int], counts: dict[str, int]) -> tuple[list[str], list[str]]:
    """Return what to tell of cases with another count, and of those that make the comparison fail."""
    told: list[str] = []
    failed = [f'{case}: no longer a case' for case in kept if case not in counts]
    for case, now in counts.items():
        if case not in kept:
            failed.append(f'{case}: no count is kept')
            continue
        percent = 100 * (now - kept[case]) / kept[case]
        line = f'{case}: {now:,} instructions, {percent:+.1f} %'
        if percent > MORE_PERCENT:
            failed.append(line)
        elif percent < -MORE_PERCENT:
            told.append(f'{line}: run count_instructions.py --write')
    return told, failed


def main() -> int:
    """Count; return the exit status."""
    if shutil.which('valgrind') is None:
        print('count_instructions.py: there is no valgrind, so no instructions are counted')
        return 0
    program = os.path.abspath(os.environ.get('PROGRAM') or os.path.join(TOP, 'crates', 'hrthood', 'out', 'hrthood'))
    with tempfile.TemporaryDirectory() as folder:
        counts = {case: count(program, words, folder) for case, words in make_cases(program, folder).items()}
    if sys.argv[1:] == ['--write']:
        write_kept(counts)
        return 0
    told, failed = compare(read_kept(), counts)
    print('\n'.join(told + failed + [f'{len(counts)} runs counted, {len(failed)} with too many instructions']))
    return 1 if failed else 0


if __name__ == '__main__':
    sys.exit(main())
