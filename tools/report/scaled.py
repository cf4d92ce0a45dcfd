#!/usr/bin/env python3
"""The text of a design with all its `work` at so many per mille, and each THREAD_BUDGET the greatest.

    scaled.py PER_MILLE DESIGN

The per mille is from 1 to 1,000,000. Ticks of `work` are rounded up, and at most 1,000,000,000; a budget is 1,000,000,000 ticks. All else of the
text stays, its comments and its layout too. So `generate` takes the text at what `hrthood scale` reports of the design, if the Ada text is within its
limit, and refuses it for its bounds at one per mille more if the second line reports a value over a limit.

The status is 0 if the text is written, 1 if the design can't be read, and 2 for other words.

What is proved: that the scaled design meets the rules if the design does and no body or thread is too dear (`scaled_designs_meet_the_rules` of
`law_scaled_designs`), and that what runs of it is the flat design with its `work` so scaled (`scaled_designs_run_scaled`). Not proved: this script,
which changes the numbers in the text; it reads words, numbers and comments, and no more of a design.
"""

from __future__ import annotations

import re
import sys
from typing import Iterator

MOST_TICKS = 1000000000
MOST_PER_MILLE = 1000000
TOKEN = re.compile(r'(?P<space>\s+|--[^\n]*)|(?P<word>[A-Za-z]\w*)|(?P<number>\d[\d_]*)|(?P<mark>.)', re.ASCII | re.DOTALL)
WORK = ['work', '(', None, ')', ';']
BUDGET = ['thread_budget', '=', None]


def scaled_ticks(per_mille: int, ticks: int) -> int:
    """Ticks at so many per mille, rounded up, at most 1,000,000,000."""
    return min(MOST_TICKS, -(-ticks * per_mille // 1000))


class Text:
    """The tokens of a text, and where each stands."""

    def __init__(self, text: str) -> None:
        self.text = text
        found = [token for token in TOKEN.finditer(text) if token.lastgroup != 'space']
        self.tokens = [token[0].lower() for token in found]
        self.places = [token.span() for token in found]

    def stands(self, at: int, wanted: list[str | None]) -> bool:
        """Whether these tokens stand here, where None is a number."""
        here = self.tokens[at:at + len(wanted)]
        return len(here) == len(wanted) and all(token[0].isdigit() if want is None else token == want for token, want in zip(here, wanted))

    def changes(self, per_mille: int) -> Iterator[tuple[int, int, int]]:
        """The parts of the text that change, in order: where each begins and ends, and the ticks in its place."""
        for at, token in enumerate(self.tokens):
            before = self.tokens[at - 1] if at else ''
            if token == 'work' and before != '.' and self.stands(at, WORK):
                first, end = self.places[at + 2]
                yield first, end, scaled_ticks(per_mille, int(self.tokens[at + 2]))
            elif token == 'thread_budget' and before in ('attributes', ';') and self.stands(at, BUDGET):
                first, end = self.places[at + 2]
                if self.tokens[at + 3:at + 4] != [';']:
                    end = self.places[at + 3][1]
                yield first, end, MOST_TICKS

    def scaled(self, per_mille: int) -> str:
        """The text with these changes."""
        parts, done = [], 0
        for first, end, ticks in self.changes(per_mille):
            parts += [self.text[done:first], str(ticks)]
            done = end
        return ''.join([*parts, self.text[done:]])


def main() -> None:
    """Writes the scaled text."""
    words = sys.argv[1:]
    if words == ['--help']:
        print(__doc__)
        return
    if len(words) != 2 or not re.fullmatch(r'[0-9]{1,7}', words[0]) or not 1 <= int(words[0]) <= MOST_PER_MILLE:
        print(__doc__, file=sys.stderr)
        sys.exit(2)
    try:
        with open(words[1], encoding='ascii', newline='') as file:
            text = file.read()
    except (OSError, UnicodeDecodeError) as cause:
        sys.exit(f'scaled.py: {words[1]}: {cause}')
    sys.stdout.write(Text(text).scaled(int(words[0])))


if __name__ == '__main__':
    main()
