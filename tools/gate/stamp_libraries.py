#!/usr/bin/env python3
"""Lets `rt lib` and `rt check` use the libraries that a passed gate run proved and left in this clone.

    stamp_libraries.py BEGUN

BEGUN is a file that was made right before `rt ci` began here, and `rt ci` has passed since. `rt ci` proves each library, or finds that it
proved the same files before, and leaves it in crates/NAME/out/rlib without a stamp, so that `rt lib` proves and builds it once more. A stamp
is a sum of the kit, of the crate's own files and of those of all crates below. This script writes it where, and only where

- no file of the crate or of one below, no folder of such files, and not crates.txt has changed since BEGUN, by the time of its content or by
  that at which it was put there;
- the library was made since BEGUN, and is whole as far as its `format` is there;
- no stamp is there: one of an earlier run, of other sources maybe, stays as it is, and `rt` judges it;
- all that holds of each library below it too, or that has a stamp of what is there now.

It can be fooled by a clock that was set back, and by who hands it a file that was made at another time.

.ci/run calls it behind `rt ci`. Exit status 0 tells that every library of this clone can be used now, 1 that some can't, which is told.
"""

from __future__ import annotations

import functools
import os
import shutil
import sys
from typing import Any

TOP = os.path.dirname(os.path.dirname(os.path.dirname(os.path.abspath(__file__))))
sys.path.insert(0, os.path.dirname(os.path.realpath(shutil.which('rt') or sys.exit('stamp_libraries: there is no rt'))))
import rtlib  # noqa: E402  the kit's own module, which tells the crates and their stamps

PARTS = ('src', 'specs', 'proofs')
# Each sum is asked for by all crates above, and nothing changes meanwhile.
rtlib.Crate.stamp = functools.cache(rtlib.Crate.stamp)


@functools.cache
def has_changed(crate: Any, begun: int) -> bool:
    """Whether a file of the crate, or a folder of them, is newer than that time, in nanoseconds."""
    places = [os.path.join(TOP, 'crates.txt')]
    for part in PARTS:
        for folder, _, files in os.walk(os.path.join(crate.folder, part)):
            places += [folder, *(os.path.join(folder, file) for file in files)]
    return any(max(told.st_mtime_ns, told.st_ctime_ns) > begun for told in map(os.lstat, places))


def is_made_since(crate: Any, begun: int) -> bool:
    """Whether the library is there and was made since that time."""
    return os.path.isfile(os.path.join(crate.rlib, 'format')) and bool(os.stat(crate.rlib).st_mtime_ns >= begun)


def main() -> int:
    if len(sys.argv) != 2:
        sys.exit(__doc__)
    begun = os.stat(sys.argv[1]).st_mtime_ns
    os.chdir(TOP)
    libraries = [crate for crate in rtlib.crates_below(TOP) if crate.makes_rlib()]
    made, lacking = 0, []
    for crate in libraries:
        stamp = os.path.join(os.path.dirname(crate.rlib), 'stamp')
        if crate.is_built():
            continue
        is_over_such = any(one.name in lacking for one in crate.below())
        if is_over_such or has_changed(crate, begun) or os.path.exists(stamp) or not is_made_since(crate, begun):
            lacking.append(crate.name)
            continue
        with open(stamp, 'w', encoding='utf-8') as text:
            text.write(crate.stamp())
        made += 1
    print(f'stamp_libraries: {len(libraries)} libraries, {made} stamped now', end='')
    print(f', and {len(lacking)} that can not be used: {" ".join(lacking)}' if lacking else '')
    return 1 if lacking else 0


if __name__ == '__main__':
    sys.exit(main())
