#!/usr/bin/env python3
"""Count phrases that docs/STYLE.md replaces, and fail if a count has grown.

    check_words.py           compare the counts with docs/words.csv; fail if one is greater, or if a phrase of NEVER is in a page
    check_words.py --write   write the counts into docs/words.csv
    check_words.py --list    print each line with such a phrase as FILE:LINE: text

Pages are README.md, docs/*.md and the README.md of other folders; comments are those
of the .rt and .antt files below crates/, except proofs. docs/STYLE.md quotes the phrases and is not counted.
"""
from __future__ import annotations

import argparse
import csv
import glob
import os
import re
import sys
from typing import Iterator

TOP = os.environ.get('WORDS_TOP') or os.path.dirname(os.path.dirname(os.path.dirname(os.path.abspath(__file__))))
KEPT = os.path.join(TOP, 'docs', 'words.csv')
PHRASES = {
    'tells, is told': r'\btells?\b|\btold\b',
    'behind': r'\bbehind\b',
    'stands': r'\bstands?\b',
    'where there is one': r'where (?:there|it|they) (?:is|has|are|have) (?:one|none|some)',
    'want of memory': r'want of memory|memory (?:is|was) wanted|wants memory',
    'hands in, out, on': r'\bhand(?:s|ed)? (?:in|out|on|over)\b',
    'worked out': r'\bwork(?:s|ed) out\b',
    'room': r'\brooms?\b',
}
NEVER = ('where there is one', 'want of memory', 'hands in, out, on', 'worked out')
FOLDERS = ('docs', 'docs/assurance', 'bench', 'web', 'examples')
COMMENT = re.compile(r'\s*(?:///?|//!|--)\s?(.*)')


def pages() -> list[str]:
    """Return the paths of all pages."""
    return [os.path.join(TOP, 'README.md'), *(path for folder in FOLDERS for path in sorted(glob.glob(os.path.join(TOP, folder, '*.md'))))]


def lines() -> Iterator[tuple[str, str, int, str]]:
    """Yield each line to look at: 'pages' or 'comments', its file, its number and its text."""
    for path in pages():
        if path.endswith('STYLE.md'):
            continue
        with open(path, encoding='utf-8') as text:
            for number, line in enumerate(text, 1):
                yield 'pages', path, number, line
    for folder, _, files in os.walk(os.path.join(TOP, 'crates')):
        if f'{os.sep}proofs' in folder or f'{os.sep}out' in folder:
            continue
        for file in sorted(files):
            if file.endswith(('.rt', '.antt')):
                path = os.path.join(folder, file)
                with open(path, encoding='utf-8') as text:
                    for number, line in enumerate(text, 1):
                        comment = COMMENT.match(line)
                        if comment:
                            yield 'comments', path, number, comment.group(1)


def counts() -> dict[tuple[str, str], int]:
    """Return how often each phrase occurs, in pages and in comments."""
    found = {(phrase, part): 0 for phrase in PHRASES for part in ('pages', 'comments')}
    for part, _, _, line in lines():
        for phrase, pattern in PHRASES.items():
            found[phrase, part] += len(re.findall(pattern, line))
    return found


def never_right() -> list[str]:
    """Return a message for each phrase of NEVER in a line of a page."""
    return [f'{os.path.relpath(path, TOP)}:{number}: "{phrase}" is never right in a page: see docs/STYLE.md'
            for part, path, number, line in lines() if part == 'pages'
            for phrase in NEVER if re.search(PHRASES[phrase], line)]


def list_all() -> None:
    """Print each line with one of the phrases."""
    for _, path, number, line in lines():
        if any(re.search(pattern, line) for pattern in PHRASES.values()):
            print(f'{os.path.relpath(path, TOP)}:{number}: {line.strip()}')


def read_kept() -> dict[tuple[str, str], int]:
    """Return the counts of docs/words.csv."""
    with open(KEPT, encoding='utf-8', newline='') as text:
        return {(row['phrase'], row['part']): int(row['count']) for row in csv.DictReader(text)}


def main() -> int:
    """Compare, write or list; return the exit status."""
    parser = argparse.ArgumentParser(description=__doc__, formatter_class=argparse.RawDescriptionHelpFormatter)
    parser.add_argument('--write', action='store_true')
    parser.add_argument('--list', action='store_true')
    given = parser.parse_args()
    if given.list:
        list_all()
        return 0
    now = counts()
    if given.write:
        with open(KEPT, 'w', encoding='utf-8', newline='') as text:
            writer = csv.writer(text, lineterminator='\n')
            writer.writerow(['phrase', 'part', 'count'])
            writer.writerows([phrase, part, count] for (phrase, part), count in now.items())
        return 0
    grown = [key for key, count in read_kept().items() if now.get(key, 0) > count]
    for phrase, part in grown:
        print(f'"{phrase}" has become more frequent in {part}: {now[phrase, part]}; see docs/STYLE.md and check_words.py --list')
    wrong = never_right()
    for line in wrong:
        print(line)
    return int(bool(grown or wrong))


if __name__ == '__main__':
    sys.exit(main())
