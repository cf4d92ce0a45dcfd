#!/usr/bin/env python3
"""Writes a root file system of one program, for the kernel of an emulated machine.

    initramfs.py PROGRAM >ARCHIVE

The archive is a cpio archive of format newc. It contains /hrt_run, which is PROGRAM, and the device /dev/console.
"""

from __future__ import annotations

import sys

DIRECTORY, CHARACTERS, EXECUTABLE = 0o040755, 0o020600, 0o100755    # modes: kinds of files, and rights
CONSOLE = (5, 1)                                                    # the numbers of the device


def padded(data: bytes) -> bytes:
    """Returns the bytes, up to a multiple of four."""
    return data + bytes(-len(data) % 4)


def entry(number: int, name: str, mode: int, data: bytes = b'', device: tuple[int, int] = (0, 0)) -> bytes:
    """Returns a file of an archive: its head, its name and its content."""
    fields = (number, mode, 0, 0, 1, 0, len(data), 0, 0, *device, len(name) + 1, 0)
    head = b'070701' + b''.join(b'%08X' % field for field in fields) + name.encode() + b'\0'
    return padded(head) + padded(data)


def archive(program: bytes) -> bytes:
    """Returns the archive of a program."""
    return b''.join((entry(1, 'dev', DIRECTORY), entry(2, 'dev/console', CHARACTERS, device=CONSOLE),
                     entry(3, 'hrt_run', EXECUTABLE, program), entry(0, 'TRAILER!!!', 0)))


if __name__ == '__main__':
    with open(sys.argv[1], 'rb') as given:
        sys.stdout.buffer.write(archive(given.read()))
