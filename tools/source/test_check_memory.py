#!/usr/bin/env python3
"""test_check_memory.py: tries check_memory.py on small sources: which lines are places that answer `NoMemory` without a failed allocation."""
import pathlib
import sys
import tempfile

sys.path.insert(0, str(pathlib.Path(__file__).resolve().parent))
import check_memory  # noqa: E402

# Each source, with the lines that are places.
CASES: list[tuple[str, str, list[int]]] = [
    ("an answer by a question mark is none", "fn f() -> Result<u8, NoMemory> {\n    let x = g()?;\n    Ok(x)\n}\n", []),
    ("an answer of its own is one",
     "fn f(n: usize) -> Result<u8, NoMemory> {\n    if n > 9 {\n        return Err(NoMemory);\n    }\n    Ok(1)\n}\n", [3]),
    ("so is one in a closure", "fn f(n: u8) -> Result<u8, NoMemory> {\n    n.checked_add(1).ok_or(NoMemory)\n}\n", [2]),
    ("an arm that hands it on is none",
     "fn f() {\n    match g() {\n        Err(A::NoMemory) => Err(B::NoMemory),\n        Ok(x) => h(x),\n    }\n}\n", []),
    ("nor one with a block or a call", "fn f() {\n    match g() {\n        Err(NoMemory) => {\n            tell(err, B::<C>::NoMemory)\n        }\n"
     "        Err(D::NoMemory) => tell(err, &B::NoMemory),\n    }\n}\n", []),
    ("an arm for all else is one", "fn f() {\n    match g() {\n        Ok(x) => h(x),\n        Err(_) => Err(B::NoMemory),\n    }\n}\n", [4]),
    ("the arm behind one that hands it on is one",
     "fn f() {\n    match g() {\n        Err(NoMemory) => A::NoMemory,\n        Ok(_) => A::NoMemory,\n    }\n}\n", [4]),
    ("a conversion of a failed allocation is none",
     "impl From<AllocError> for A {\n    fn from(_e: AllocError) -> A {\n        A::NoMemory\n    }\n}\n"
     "impl<T: Drop> From<AllocFailed<T>> for A {\n    fn from(_e: AllocFailed<T>) -> A {\n        A::NoMemory\n    }\n}\n"
     "impl<'a> From<seq_tree::NoMemory> for A<'a> {\n    fn from(_e: seq_tree::NoMemory) -> A<'a> {\n        A::NoMemory\n    }\n}\n", []),
    ("a conversion of anything else is one", "impl From<Other> for A {\n    fn from(_e: Other) -> A {\n        A::NoMemory\n    }\n}\n", [3]),
    ("declarations, clauses, comments and texts are none", "use a::{B, NoMemory};\npub struct NoMemory;\nenum A {\n    NoMemory,\n}\n/// NoMemory\n"
     "fn f(x: NoMemory) -> Result<u8, NoMemory>\n    ensures { result ≡ Err A.NoMemory }\n{\n    g(\"NoMemory\")\n}\n", []),
    ("an arm for a file that wants memory is none",
     "fn f() {\n    match g() {\n        Err(e) if e.kind() == OutOfMemory => A::NoMemory,\n        Err(_) => A::NoMemory,\n    }\n}\n", [4]),
    ("a branch for want of memory hands it on, and the other does not",
     "fn f() {\n    if broken.is_memory() {\n        A::NoMemory\n    } else {\n        A::NoMemory\n    }\n}\n", [5]),
    ("a branch for anything else is one", "fn f() {\n    if !broken.is_memory() {\n        return A::NoMemory;\n    }\n}\n", [3]),
    ("a pattern is none", "fn f() {\n    let Err(A::NoMemory) = g() else {\n        return;\n    };\n}\n", []),
]


def main() -> int:
    """Tries all cases, and returns the exit status."""
    wrong = 0
    for name, source, wanted in CASES:
        found = [line for line, _ in check_memory.places(source)]
        if found != wanted:
            wrong += 1
            print(f"{name}: lines {found} and not {wanted}", file=sys.stderr)
    with tempfile.TemporaryDirectory() as folder:
        room = pathlib.Path(folder) / "crates" / "a" / "src"
        room.mkdir(parents=True)
        (room / "lib.rt").write_text(CASES[1][1], encoding="utf-8")
        line = ("crates/a/src/lib.rt", "return Err(NoMemory);")
        tried: list[tuple[dict[check_memory.Place, str], dict[check_memory.Place, int], list[int]]] = [
            ({}, {}, [0, 1, 0]), ({line: "a reason"}, {}, [1, 0, 0]), ({line: "a reason"}, {line: 2}, [1, 0, 1])]
        for allowed, counts, sizes in tried:
            kinds = [len(lines) for lines in check_memory.judged(pathlib.Path(folder), allowed, counts)]
            if kinds != sizes:
                wrong += 1
                print(f"allowed {allowed}, counts {counts}: {kinds} and not {sizes}", file=sys.stderr)
    print(f"tried {len(CASES) + 3}, {wrong} failed")
    return 1 if wrong else 0


if __name__ == "__main__":
    sys.exit(main())
