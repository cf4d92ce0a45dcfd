#!/usr/bin/env python3
"""check_memory.py [FOLDER]: checks that code answers `NoMemory` where an allocation failed, and nowhere else.

An answer of `NoMemory` is a way out that no clause limits, so a limit that is told so would be proved whatever it is. It comes from a failed
allocation by `?` and `From<AllocError>`. This script lists every other place of crates/*/src where code makes one: the places in ALLOWED, each with
its reason, and any new one. Exit status 1 where a place is new or an allowed one is not there.

A place is none where code hands an answer on: a match arm whose pattern or guard names `NoMemory`, or `OutOfMemory`, which the kit's files answer, a
branch for which `is_memory()` holds, and the bodies of `impl From<AllocError>`, `impl From<AllocFailed<..>>` and `impl From<NoMemory>`. Declarations,
types, clauses, comments and tests are no places."""
import pathlib
import re
import sys

Place = tuple[str, str]

# Places that make the answer without a `?`, by file and line of code, each with its reason.
FAILED = "an allocation failed here, and the error is of another type"
HANDED = "hands on the answer of what was called"
LIMIT = "a limit of numbers of 32 bits, which no text within its limit of bytes reaches"
NEVER = "never comes, by the sizes; not proved"
ALLOWED: dict[Place, str] = {
    ("crates/background/src/making.rt", "Err(_) => BackgroundRefusal::NoMemory,"): FAILED,
    ("crates/ceil_runtime/src/objects.rt", "return Err(NoMemory);"): LIMIT,
    ("crates/ceil_runtime/src/processor.rt", "return Err(NoMemory);"): FAILED,
    ("crates/design_accepts/src/units.rt", "Err(NoMemory)"): NEVER,
    ("crates/design_bounds/src/analysing.rt", "Err(_) => NoBounds::NoMemory,"): FAILED,
    ("crates/hood_io/src/arguments.rt", "Err(_) => Err(NoMemory),"): FAILED,
    ("crates/hood_io/src/mem_shelf.rt", "return Fetched::NoMemory;"): FAILED,
    ("crates/hood_io/src/mem_shelf.rt", "if answer == Fetched::NoMemory {"): HANDED,
    ("crates/hrthood_top/src/finish.rt", "tell(err, &Message::NoMemory);"): HANDED,
    ("crates/hrthood_top/src/finish.rt", "Status::NoMemory"): HANDED,
    ("crates/hrthood_words/src/reading.rt", "Some(_) => Unread::NoMemory,"): FAILED,
    ("crates/linker/src/expressions.rt", "return Err(NoMemory);"): LIMIT,
    ("crates/linker/src/body.rt", "let end = start.checked_add(count).ok_or(NoMemory)?;"): LIMIT,
    ("crates/linker/src/fill.rt", "end.checked_sub(1).ok_or(NoMemory)"): NEVER,
    ("crates/linker/src/fill.rt", "at.checked_add(1).ok_or(NoMemory)"): LIMIT,
    ("crates/linker/src/fill.rt", "u32::try_from(len).map_err(|_| NoMemory)"): LIMIT,
    ("crates/linker/src/fill.rt", "Err(NoMemory)"): NEVER,
    ("crates/linker/src/size.rt", "first.checked_add(second).ok_or(NoMemory)"): LIMIT,
    ("crates/linker/src/tables.rt", "count.checked_add(1).ok_or(NoMemory)"): NEVER,
    ("crates/rt_block/src/causes.rt", "return Err(NoMemory);"): LIMIT,
    ("crates/trace_read/src/gather.rt", "return Err(Unread::NoMemory);"): LIMIT,
    ("crates/trace_read/src/table.rt", "return Err(NoMemory);"): LIMIT,
    ("crates/trace_scripts/src/insides.rt", "return Err(NoMemory);"): NEVER,
    ("crates/trace_scripts/src/progress.rt", "a.checked_add(u128::from(b)).ok_or(NoMemory)"): NEVER,
    ("crates/trace_scripts/src/progress.rt", "return Err(NoMemory);"): NEVER,
}
# How often a line of code is such a place, where it is more than once.
COUNTS: dict[Place, int] = {
    ("crates/hood_io/src/mem_shelf.rt", "return Fetched::NoMemory;"): 3,
    ("crates/trace_read/src/table.rt", "return Err(NoMemory);"): 2,
}

HANDS_ON = re.compile(r"\bimpl\s*(?:<[^{};]*?>)?\s*From<\s*(?:\w+::)*(?:AllocError|AllocFailed<\s*\w+\s*>|NoMemory)\s*>\s*for\b[^{]*\{")
BLOCKS = re.compile(r"\b(?:requires|ensures)\*?(?:\s+\w+)?\s*\{|\bghost\b[^;={}]*[:=]?\s*\{|\benum\s+\w+[^{;]*\{|#\[cfg\(test\)\]\s*mod\s+\w+\s*\{")
WORD = re.compile(r"\bNoMemory\b")
WANTED = re.compile(r"\b(?:NoMemory|OutOfMemory)\b")
IS_MEMORY = re.compile(r"\bif\s+[\w.]+\.is_memory\(\)\s*$")


def blank(text: str, start: int, end: int) -> str:
    """Returns the text with blanks in the place of a part of it; lines stay where they are."""
    return text[:start] + re.sub(r"[^\n]", " ", text[start:end]) + text[end:]


def closing(text: str, at: int) -> int:
    """Returns the place behind the brace that closes the one at `at`."""
    depth = 0
    for place in range(at, len(text)):
        if text[place] == "{":
            depth += 1
        elif text[place] == "}":
            depth -= 1
            if depth == 0:
                return place + 1
    return len(text)


def code_of(text: str) -> str:
    """Returns the code of a source without comments, strings, clauses, declarations and the conversions of failed allocations."""
    for marks in (r"//[^\n]*", r'b?"(?:\\.|[^"\\])*"'):
        text = re.sub(marks, lambda found: " " * len(found.group()), text)
    for pattern in (BLOCKS, HANDS_ON):
        at = 0
        while found := pattern.search(text, at):
            end = closing(text, found.end() - 1)
            text = blank(text, found.start(), end)
            at = end
    names = r"(?m)^[ \t]*(?:pub\s*(?:\([^)]*\)\s*)?)?(?:use\b[^;]*;|(?:struct|mod)\b[^;{]*[;{])"
    return re.sub(names, lambda found: re.sub(r"[^\n]", " ", found.group()), text)


def is_type(text: str, start: int, end: int) -> bool:
    """Returns whether the word at this place is a type: an argument of one, or that of a parameter."""
    before, behind = text[:start].rstrip(), text[end:].lstrip()
    before = re.sub(r"(?:\w+::)+$", "", before).rstrip()
    return behind.startswith(">") and before.endswith((",", "<")) or before.endswith("<") or bool(re.search(r"[\w)]\s*:$", before))


def is_pattern(text: str, end: int) -> bool:
    """Returns whether the word that ends here stands in a pattern: of a match arm, or of a `let`."""
    return bool(re.match(r"[^;{}]*?(?:=>|(?<![=<>!+\-*/])=(?![=>]))", text[end:])) and not re.match(r"[\s)]*(?:[,;}]|\?)", text[end:])


def arm_of(text: str, start: int) -> str:
    """Returns the pattern of the match arm in whose answer this place stands, or ''."""
    depth, comma = 0, False
    for place in range(start - 1, 0, -1):
        mark = text[place]
        if mark in ")]}":
            depth += 1
        elif mark in "([{" and depth:
            depth -= 1
        elif mark == "{" and not text[:place].rstrip().endswith("=>"):
            return ""
        elif mark in "([{":
            comma = False
        elif mark == "," and depth == 0:
            comma = True
        elif text[place - 1:place + 1] == "=>" and depth == 0:
            front = text[:place - 1]
            return "" if comma else front[max(front.rfind(mark) for mark in ("{", "}", ";", "=>", ",")) + 1:]
    return ""


def is_branch_of_memory(text: str, start: int) -> bool:
    """Returns whether the word at this place stands in a branch for which `is_memory()` holds."""
    depth = 0
    for place in range(start - 1, 0, -1):
        if text[place] == "}":
            depth += 1
        elif text[place] == "{" and depth == 0:
            return bool(IS_MEMORY.search(text[:place]))
        elif text[place] == "{":
            depth -= 1
    return False


def places(text: str) -> list[tuple[int, str]]:
    """Returns the lines, from 1, on which code makes the answer, each with its code."""
    code, lines = code_of(text), text.split("\n")
    found = []
    for word in WORD.finditer(code):
        start, end = word.span()
        if is_type(code, start, end) or is_pattern(code, end):
            continue
        if WANTED.search(arm_of(code, start)) or is_branch_of_memory(code, start):
            continue
        line = code.count("\n", 0, start)
        found.append((line + 1, lines[line].strip()))
    return found


def judged(top: pathlib.Path, allowed: dict[Place, str], counts: dict[Place, int]) -> tuple[list[str], list[str], list[str]]:
    """Returns what is allowed, what is new and what is gone below a folder, as lines to tell."""
    known: list[str] = []
    new: list[str] = []
    seen: dict[Place, int] = {}
    for path in sorted(top.glob("crates/*/src/**/*.rt")):
        name = str(path.relative_to(top))
        if "tests" in path.relative_to(top).parts or path.name == "tests.rt":
            continue
        for line, code in places(path.read_text(encoding="utf-8")):
            seen[name, code] = seen.get((name, code), 0) + 1
            if (name, code) in allowed and seen[name, code] <= counts.get((name, code), 1):
                known.append(f"{name}:{line}: {code} ({allowed[name, code]})")
            else:
                new.append(f"{name}:{line}: {code} (no allocation fails here)")
    gone = [f"{name}: {code} (allowed, and not there)" for name, code in sorted(allowed) if seen.get((name, code), 0) < counts.get((name, code), 1)]
    return known, new, gone


def main(top: pathlib.Path) -> int:
    """Prints what is allowed and what is not, and returns the exit status."""
    known, new, gone = judged(top, ALLOWED, COUNTS)
    for line in known:
        print(line)
    for line in new + gone:
        print(line, file=sys.stderr)
    print(f"places: {len(known)} allowed, {len(new)} new, {len(gone)} gone")
    return 1 if new or gone else 0


if __name__ == "__main__":
    if len(sys.argv) > 2:
        sys.exit(__doc__)
    sys.exit(main(pathlib.Path(sys.argv[1]) if len(sys.argv) == 2 else pathlib.Path(__file__).resolve().parents[2]))
