#!/usr/bin/env python3
"""Whether the program `mark` writes its line at once: what it writes to a socket that keeps each write apart is one message, the whole line.
A line that is written in parts has others' output in between where several programs write to one place, and half of it where a write fails.

usage: one_write.py
"""
import socket
import subprocess
import sys
from pathlib import Path

TOP = Path(__file__).resolve().parent.parent
PROGRAM = TOP / 'crates/mark/out/mark'


def sheets(*names):
    return b''.join((TOP / 'examples' / name).read_bytes() for name in names)


LINES = [
    (sheets('tank.model', 'tank.certificate'), b'SAFE 3\n'),
    (sheets('unsafe-tank.model', 'unsafe-tank.run'), b'UNSAFE 1\n'),
    (sheets('unsafe-tank.model', 'tank.certificate'), b'REFUSED 11 1 34 2 67\n'),
    (b'', b'REFUSED 1 0 0 0 0\n'),
]


def writes(data):
    """What the program writes for an input, write by write."""
    ours, its = socket.socketpair(socket.AF_UNIX, socket.SOCK_SEQPACKET)
    with ours:
        with its:
            subprocess.run([PROGRAM], input=data, stdout=its, check=True, timeout=60)
        return list(iter(lambda: ours.recv(4096), b''))


def main():
    wrong = [(line, found) for data, line in LINES if (found := writes(data)) != [line]]
    for line, found in wrong:
        print(f'{line} was to be one write, and was {found}')
    return 1 if wrong else 0


if __name__ == '__main__':
    sys.exit(main())
