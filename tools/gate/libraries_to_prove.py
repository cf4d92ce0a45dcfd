#!/usr/bin/env python3
"""Prints the libraries below a crate that `rt` proves before it, as they have no stamp of what is there now, in the order of their proofs.

    libraries_to_prove.py CRATE
"""
import functools
import os
import shutil
import sys

TOP = os.path.dirname(os.path.dirname(os.path.dirname(os.path.abspath(__file__))))


def main() -> None:
    if len(sys.argv) != 2:
        sys.exit(__doc__)
    rt = shutil.which('rt') or sys.exit('libraries_to_prove: there is no rt')
    sys.path.insert(0, os.path.dirname(os.path.realpath(rt)))
    import rtlib  # the kit's own module, which tells the crates and their stamps
    # Each sum is asked for by all crates above, and nothing changes meanwhile.
    rtlib.Crate.stamp = functools.cache(rtlib.Crate.stamp)
    os.chdir(TOP)
    for crate in rtlib.crates_below(TOP):
        if crate.name == sys.argv[1]:
            for library in crate.below():
                if not library.is_built():
                    print(library.name)
            return
    sys.exit(f'libraries_to_prove: there is no crate {sys.argv[1]}')


if __name__ == '__main__':
    main()
