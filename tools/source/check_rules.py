#!/usr/bin/env python3
"""Check that what the pages say of rules and of names in the crates is there.

Reports

- a crate without a row in docs/ARCHITECTURE.md;
- a code of the definitions of messages (hrthood_top/specs/Messages, Searches and Acceptances) without a row in docs/RULES.md, or that
  docs/REFUSALS.md does not mention;
- a definition, a function or a file that a page of PAGES names and that does not exist;
- a test of a row of RULES.md that does not have the row's code.

The exit status is 1 if something was reported.
"""
from __future__ import annotations

import os
import re
import sys
from typing import Iterator, Optional

TOP = os.path.dirname(os.path.dirname(os.path.dirname(os.path.abspath(__file__))))
CRATES = os.path.join(TOP, 'crates')
TESTS = os.path.join(CRATES, 'hrthood', 'src', 'tests')
PAGES = ('README.md', 'docs/RULES.md', 'docs/CHANGING.md', 'docs/ARCHITECTURE.md', 'docs/GUARANTEE.md', 'docs/TESTED.md', 'docs/DECISIONS.md',
         'docs/GATE.md', 'docs/PAGE.md', 'docs/assurance/README.md', 'bench/README.md', 'web/README.md')
CODE = r'[A-Z]\d{1,2}'


def read(*path: str) -> str:
    """Return the text of a file."""
    with open(os.path.join(*path)) as text:
        return text.read()


def codes_told() -> set[str]:
    """Return the codes that messages begin with, or have as the code of a limit, a rule or a body."""
    texts = [read(CRATES, 'hrthood_top', 'specs', module) for module in ('Messages.antt', 'Searches.antt', 'Acceptances.antt')]
    return set(re.findall(rf'codes "(?:refused )? ?({CODE})\b', '\n'.join(texts))) | {'C1'}


def sources(crate: str) -> Iterator[str]:
    """Yield the texts of the code of a crate."""
    for folder, _, files in os.walk(os.path.join(CRATES, crate, 'src')):
        for file in files:
            if file.endswith('.rt'):
                yield read(folder, file)


def is_there(span: str) -> Optional[bool]:
    """Return whether what a span of a page names exists, and None if it names nothing of the repository."""
    definition = re.fullmatch(r'([a-z0-9_]+)\.([A-Z]\w*)(?:\.(\w+))?', span)
    call = re.fullmatch(r'([a-z0-9_]+)::(?:[A-Z]\w*::)?([a-z]\w*)', span)
    file = re.fullmatch(r'([a-z0-9_]+)/(\w+/[\w/]+\.\w+)', span)
    if definition:
        crate, module, name = definition.groups()
        path = os.path.join(CRATES, crate, 'specs', module + '.antt')
        if not os.path.exists(path):
            return False
        return name is None or re.search(rf'^ *(?:abbrev )?(?:pub )?(?:data |record )?{name}\b', read(path), re.M) is not None
    if call:
        return any(re.search(rf'\bfn {call[2]}\b', text) for text in sources(call[1]))
    if re.fullmatch(r'(?:docs|tools|web|bench|man|completion)/[\w./-]+', span):
        return os.path.exists(os.path.join(TOP, span))
    if file and file[1] != 'out':
        return os.path.exists(os.path.join(CRATES, file[1], file[2])) or os.path.exists(os.path.join(TOP, span))
    return None


def row_faults(number: int, line: str, seen: set[str]) -> Iterator[str]:
    """Yield what is wrong with a row, and add its code to `seen`."""
    code = re.match(rf'\| ({CODE})\b', line)
    if not code:
        return
    seen.add(code[1])
    for test in re.findall(r'`(\w+\.rt)`', line):
        path = os.path.join(TESTS, test)
        if not os.path.exists(path):
            yield f'RULES.md:{number}: there is no test {test}'
        elif not re.search(rf'refused (?:\w+ )*{code[1]}\b|refused .* {code[1]}\b', read(path)):
            yield f'RULES.md:{number}: {test} has no row with {code[1]}'


def crate_faults() -> Iterator[str]:
    """Yield crates without a row in the table of docs/ARCHITECTURE.md, and rows without a crate."""
    crates = {line.partition(':')[0].split()[0] for line in read(TOP, 'crates.txt').split('\n') if re.match(r'\w', line)}
    table = read(TOP, 'docs', 'ARCHITECTURE.md').partition('| Crate | Has | Public interface |')[2].partition('\n\n')[0]
    rows = set(re.findall(r'^\| (\w+) \|', table, re.M))
    for crate in sorted(crates - rows):
        yield f'docs/ARCHITECTURE.md: {crate} has no row'
    for crate in sorted(rows - crates):
        yield f'docs/ARCHITECTURE.md: there is no crate {crate}'


def faults() -> Iterator[str]:
    """Yield a line for each fault."""
    yield from crate_faults()
    told = codes_told()
    seen: set[str] = set()
    for page in PAGES:
        for number, line in enumerate(read(TOP, page).split('\n'), 1):
            for span in re.findall(r'`([^`]+)`', line):
                if is_there(span) is False:
                    yield f'{page}:{number}: {span} is not there'
            if page == 'docs/RULES.md':
                yield from row_faults(number, line, seen)
    for code in sorted(told - seen):
        yield f'RULES.md: {code} has no row'
    for code in sorted(seen - told):
        yield f'RULES.md: {code} is told by no message'
    page = read(TOP, 'docs', 'REFUSALS.md')
    covered = set(re.findall(rf'\b{CODE}\b', page))
    for first, last in re.findall(r'`?B(\d)`? ?\.\. `?B(\d)`?', page):
        covered |= {f'B{n}' for n in range(int(first), int(last) + 1)}
    for code in sorted(told - covered):
        yield f'REFUSALS.md: nothing of {code}'


def main() -> None:
    """Print the faults; exit with 1 if there is one."""
    found = list(faults())
    for fault in found:
        print(fault)
    if not found:
        print(f'{len(codes_told())} codes, each with its row')
    sys.exit(1 if found else 0)


if __name__ == '__main__':
    main()
