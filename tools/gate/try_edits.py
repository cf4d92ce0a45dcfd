#!/usr/bin/env python3
"""Try the wrong bodies of docs/gate/edits.csv, each by a check of the function that it changes: the prover must refuse each.

    try_edits.py                    try those that the list has for the gate; fail if one is not refused
    try_edits.py --all              try all
    try_edits.py CRATE[/EDIT] ..    try those alone
    try_edits.py --jobs N ..        try N at a time (default: one for each processor)
    try_edits.py --times ..         write the seconds that each took into docs/gate/edits.csv

`rt ci` tries the edits of must-fail/ by a check of their whole crate; a check of one function, with all that it calls, costs less. The list has
the wrong bodies that a reader thinks of first (docs/assurance/wrong_bodies.csv); the gate tries those that are `yes` in its column in_gate, behind
`rt ci`, since the libraries below must be built.
"""
from __future__ import annotations

import argparse
import concurrent.futures
import csv
import functools
import importlib.machinery
import importlib.util
import os
import re
import shutil
import sys
import time
import types
from typing import Any

TOP = os.environ.get('GATE_TOP') or os.path.dirname(os.path.dirname(os.path.dirname(os.path.abspath(__file__))))
LIST = os.path.join(TOP, 'docs', 'gate', 'edits.csv')
FUNCTION = re.compile(r'^(\s*)(?:pub(?:\([^)]*\))? )?(?:const )?fn (\w+)')
IMPL = re.compile(r'^impl\b(?:<[^{]*?>)?\s*(?:\w+(?:<[^{]*>)? for )?(\w+)')

Row = dict[str, str]


def read_rows() -> list[Row]:
    """Return the rows of the list."""
    with open(LIST, encoding='utf-8', newline='') as text:
        return list(csv.DictReader(text))


def write_rows(rows: list[Row]) -> None:
    """Write the rows of the list."""
    with open(LIST, 'w', encoding='utf-8', newline='') as text:
        out = csv.DictWriter(text, ['crate', 'edit', 'in_gate', 'seconds'], lineterminator='\n')
        out.writeheader()
        out.writerows(rows)


def edit_path(row: Row) -> str:
    """Return the path of an edit, in must-fail/ or more-edits/ of its crate; say so if there is none."""
    for folder in ('must-fail', 'more-edits'):
        path = os.path.join(TOP, 'crates', row['crate'], folder, row['edit'] + '.edit')
        if os.path.isfile(path):
            return path
    sys.exit(f"try_edits: {row['crate']} has no edit {row['edit']}")


def changed_places(edit: str) -> list[tuple[str, str]]:
    """Return the file and the old text of each change of an edit."""
    places, file = [], ''
    for line in edit.split('\n'):
        if line.startswith('file: '):
            file = line[len('file: '):].strip()
        elif line.startswith('old: '):
            places.append((file, line[len('old: '):]))
    return places


def function_at(crate: str, file: str, text: str, at: int) -> str:
    """Return the path of the function in which an offset of a file of src/ stands, or that of its module if it stands before all functions."""
    module = [] if file in ('src/lib.rt', 'src/main.rt') else file[len('src/'):-len('.rt')].split('/')
    if module[-1:] == ['mod']:
        module.pop()
    owner, name = '', ''
    for line in text[:at + 1].split('\n')[:-1] + [text[text.rfind('\n', 0, at) + 1:].split('\n', 1)[0]]:
        if line.startswith('impl'):
            found = IMPL.match(line)
            owner = found[1] if found else ''
        function = FUNCTION.match(line)
        if function:
            name = function[2]
            if not function[1]:
                owner = ''
    return '::'.join([crate, *module, *([owner] if owner and name else []), *([name] if name else [])])


def functions_of(crate: str, edit: str) -> list[str]:
    """Return the paths of the functions that an edit changes, each once."""
    paths: list[str] = []
    for file, old in changed_places(edit):
        with open(os.path.join(TOP, 'crates', crate, file), encoding='utf-8') as source:
            text = source.read()
        found = function_at(crate, file, text, text.find(old)) if file.startswith('src/') else ''
        if found and found not in paths:
            paths.append(found)
    return paths


def load_kit() -> Any:
    """Return the kit's command `rt` as a module: it applies edits and checks a copy of a crate."""
    path = os.path.realpath(shutil.which('rt') or sys.exit('try_edits: there is no rt'))
    sys.path.insert(0, os.path.dirname(path))
    loader = importlib.machinery.SourceFileLoader('rt_command', path)
    spec = importlib.util.spec_from_loader('rt_command', loader)
    assert spec
    module = importlib.util.module_from_spec(spec)
    loader.exec_module(module)
    # Each sum is asked for by all crates above, and nothing changes meanwhile.
    module.rtlib.Crate.stamp = functools.cache(module.rtlib.Crate.stamp)
    return module


def verdict_of(status: int, said: str) -> str:
    """Return what a check of functions of a changed crate says of the change: refused, missed, or why it says nothing."""
    lines = said.rstrip('\n').split('\n')
    if status == 0:
        return 'NOT REFUSED: each function that it changes is still proved'
    if status == 1 and any(re.match(r'(fn|impl) \S+: (not proved|no proof)', line) for line in lines):
        return 'refused'
    first = next((line for line in lines if 'error' in line), lines[0])
    return f'NOT TRIED: status {status}: {first[:200]}'


def try_one(kit: Any, crate: Any, row: Row) -> tuple[str, int]:
    """Return the verdict on an edit, and the seconds that it took."""
    begun = time.monotonic()
    path = edit_path(row)
    texts, why = kit.read_edit(path, crate.folder)
    if why:
        return f'BAD EDIT: {why}', 0
    with open(path, encoding='utf-8') as text:
        functions = functions_of(row['crate'], text.read())
    if not functions:
        return 'BAD EDIT: it changes no function', 0
    flags = ['--jobs', '1', *(word for name in functions for word in ('--only', name))]
    ran = kit.checked(crate, texts, flags, None)
    bad = next((line for line in ran.stdout.split('\n') if kit.unread(line, texts)), '')
    verdict = f'BAD EDIT: the prover cannot read it: {bad[:200]}' if bad and ran.returncode == 1 else verdict_of(ran.returncode, ran.stdout)
    return verdict, round(time.monotonic() - begun)


def is_asked(row: Row, names: list[str], is_all: bool) -> bool:
    """Return whether a row is among the names, each a crate or CRATE/EDIT; if there are none, whether it is for the gate or all are asked for."""
    if not names:
        return is_all or row['in_gate'] == 'yes'
    return row['crate'] in names or f"{row['crate']}/{row['edit']}" in names


def main() -> None:
    """Try the edits, report each, and exit with 1 if one is not refused."""
    parser = argparse.ArgumentParser(description=__doc__, formatter_class=argparse.RawDescriptionHelpFormatter)
    parser.add_argument('names', nargs='*', metavar='CRATE[/EDIT]')
    parser.add_argument('--jobs', type=int, default=os.cpu_count() or 1)
    parser.add_argument('--times', action='store_true')
    parser.add_argument('--all', action='store_true')
    asked = parser.parse_args()
    rows = read_rows()
    chosen = [row for row in rows if is_asked(row, asked.names, asked.all)]
    if not chosen:
        sys.exit('try_edits: there is no such edit in docs/gate/edits.csv')
    kit = load_kit()
    os.chdir(TOP)
    kit.rtlib.guarded()
    crates: dict[str, types.SimpleNamespace] = {crate.name: crate for crate in kit.rtlib.crates_below(TOP)}
    lost = 0
    with concurrent.futures.ThreadPoolExecutor(asked.jobs) as pool:
        tries = [(row, pool.submit(try_one, kit, crates[row['crate']], row)) for row in chosen]
        for row, tried in tries:
            verdict, seconds = tried.result()
            print(f"try_edits: {row['crate']}/{row['edit']}: {verdict} ({seconds} s)", flush=True)
            lost += verdict != 'refused'
            row['seconds'] = str(seconds)
    if asked.times:
        write_rows(rows)
    print(f'try_edits: {len(chosen) - lost} refused, {lost} not')
    sys.exit(1 if lost else 0)


if __name__ == '__main__':
    main()
