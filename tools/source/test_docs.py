#!/usr/bin/env python3
"""Run the commands that the pages show, and compare what they write with the lines below them.

    test_docs.py [--update] [PAGE ..]

Pages are Markdown files, by default README.md and docs/*.md. In a fenced block without a language each line that begins with `$ ` is a
command, and the lines up to the next one are what it must write, on standard output and standard error together; a line `...` matches any
lines. A block after a line "The file `NAME`:" is the text of that file. A block with a language, as ```sh, is not run, nor one after a
comment `<!-- not run: REASON -->`, for example because its output differs from host to host.

Each page has its own folder, with links to `hrthood`, `examples`, `tools` and the like, in which its blocks run from the first to the last.
PROGRAM is the path of the program, by default the proved program of this repository. With --update the pages get the new output, except
where lines are left out. Not part of the gate. The exit status is 1 if something differs, and 2 if there is no program.
"""
from __future__ import annotations

import os
import re
import subprocess
import sys
import tempfile
from typing import Optional

TOP = os.path.dirname(os.path.dirname(os.path.dirname(os.path.abspath(__file__))))
LINKS = ('examples', 'tools', 'completion', 'man', 'docs', 'crates', 'crates.txt', 'README.md')


def blocks_of(lines: list[str]) -> list[tuple[Optional[str], bool, int, int]]:
    """Return the fenced blocks of a page: the file whose text it is (if any), whether it may be run, and where its lines begin and end."""
    found: list[tuple[Optional[str], bool, int, int]] = []
    named: Optional[str] = None
    is_run = True
    place = 0
    while place < len(lines):
        line = lines[place]
        file = re.fullmatch(r'The file `(\S+)`:', line)
        fence = re.fullmatch(r'```(\w*)', line)
        if re.fullmatch(r'<!-- not run: .* -->', line.strip()):
            is_run = False
        elif file:
            named = file[1]
        elif fence:
            end = place + 1
            while end < len(lines) and lines[end] != '```':
                end += 1
            found.append((named, is_run and not fence[1], place + 1, end))
            named, is_run = None, True
            place = end
        elif line.strip():
            named, is_run = None, True
        place += 1
    return found


def commands_of(lines: list[str]) -> list[tuple[list[str], list[str]]]:
    """Return the commands of a block: the lines of each, and the lines that it must write."""
    commands = []
    place = 0
    while place < len(lines):
        if not lines[place].startswith('$ '):
            raise ValueError(f'a line before the first command: {lines[place]}')
        typed = [lines[place][2:]]
        place += 1
        while typed[-1].endswith('\\') and place < len(lines):
            typed.append(lines[place])
            place += 1
        wanted = []
        while place < len(lines) and not lines[place].startswith('$ '):
            wanted.append(lines[place])
            place += 1
        commands.append((typed, wanted))
    return commands


def fits(wanted: list[str], written: list[str]) -> bool:
    """Return whether the lines match, where `...` matches any lines."""
    pattern = ''.join('(?:.*\n)*' if line == '...' else re.escape(line) + '\n' for line in wanted)
    return re.fullmatch(pattern, ''.join(line + '\n' for line in written)) is not None


def run(typed: list[str], room: str) -> list[str]:
    """Return the lines that a command writes."""
    done = subprocess.run(['bash', '-c', '\n'.join(typed)], cwd=room, stdin=subprocess.DEVNULL, stdout=subprocess.PIPE,
                          stderr=subprocess.STDOUT, timeout=600)
    return done.stdout.decode(errors='replace').splitlines()


def find_program() -> str:
    """Return the path of the program, which scripts find in PROGRAM too. A run without proof would take a minute for each command."""
    program = os.path.abspath(os.environ.get('PROGRAM', os.path.join(TOP, 'crates', 'hrthood', 'out', 'hrthood')))
    if not os.access(program, os.X_OK):
        print(f'test_docs.py: there is no program {program}: run tools/gate/prove_program.sh, or set PROGRAM', file=sys.stderr)
        sys.exit(2)
    os.environ['PROGRAM'] = program
    return program


def make_room(room: str) -> None:
    """Link what commands use into a folder."""
    os.symlink(os.environ['PROGRAM'], os.path.join(room, 'hrthood'))
    for name in LINKS:
        if os.path.exists(os.path.join(TOP, name)):
            os.symlink(os.path.join(TOP, name), os.path.join(room, name))


def try_block(lines: list[str], room: str, page: str, begin: int) -> tuple[list[str], int, int]:
    """Return the lines of a block with what its commands write, how many commands it has, and how many of them differ."""
    out: list[str] = []
    wrong = 0
    commands = commands_of(lines)
    for typed, wanted in commands:
        written = run(typed, room)
        same = fits(wanted, written)
        if not same:
            wrong += 1
            print(f'{page}:{begin + 1 + len(out)}: {typed[0]}: other lines than wanted', *written, sep='\n', file=sys.stderr)
        out.append('$ ' + typed[0])
        out.extend(typed[1:])
        out.extend(wanted if same or '...' in wanted else written)
    return out, len(commands), wrong


def try_page(page: str, update: bool) -> tuple[int, int, int, int]:
    """Return how many commands of a page were run, how many differ, how many files it gives, and how many blocks were not run."""
    with open(page) as text:
        lines = text.read().split('\n')
    ran = wrong = files = left = grown = 0
    with tempfile.TemporaryDirectory() as room:
        make_room(room)
        for named, is_run, begin, end in blocks_of(lines[:]):
            block = lines[begin + grown:end + grown]
            if named:
                files += 1
                with open(os.path.join(room, named), 'w') as text:
                    text.write('\n'.join(block) + '\n')
            elif not is_run or not any(line.startswith('$ ') for line in block):
                left += 1
            else:
                out, count, differ = try_block(block, room, page, begin)
                ran += count
                wrong += differ
                lines[begin + grown:end + grown] = out
                grown += len(out) - len(block)
    if update and wrong:
        with open(page, 'w') as text:
            text.write('\n'.join(lines))
    return ran, wrong, files, left


def main() -> None:
    """Run the pages; exit with 1 if something differs."""
    words = sys.argv[1:]
    update = '--update' in words
    pages = [word for word in words if word != '--update']
    if not pages:
        folder = os.path.join(TOP, 'docs')
        pages = [os.path.join(TOP, 'README.md')] + sorted(os.path.join(folder, name) for name in os.listdir(folder) if name.endswith('.md'))
    find_program()
    whole = 0
    for page in pages:
        ran, wrong, files, left = try_page(page, update)
        whole += wrong
        print(f'{os.path.relpath(page, TOP)}: {ran} commands, {wrong} differ, {files} files, {left} blocks not run')
    sys.exit(1 if whole else 0)


if __name__ == '__main__':
    main()
