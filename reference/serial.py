#!/usr/bin/env python3
"""A shuffled stream in which guests access their ports: for bin/serial and for naive.py
serial, which have `read`, `write` and `reset` beside a runner's records.

    serial.py SEED        (build.sh first)

Guests poll and read some bytes after most commits and now and then after any record;
they write to all registers, set bit 7 of offset 3 and clear it again, write the divisor
and look at it later; the host resets a port now and then. Callers and offsets are 0 to
9, now and then one far above. At the end each port reads on for a while, one of them
from the start and mostly to the end.
"""
import os
import random
import re
import subprocess
import sys

base = os.path.dirname(os.path.abspath(__file__))
PLAIN = re.compile(rb'[a-zA-Z0-9,]*')
BEYOND = [15, 16, 255, 256, 4294967295]
VALUES = [0, 1, 2, 4, 31, 32, 96, 127, 128, 129, 254, 255]


def number(rng):
    """A caller, an offset or a port."""
    return rng.choice(BEYOND) if rng.random() < 0.02 else rng.randrange(10)


def burst(rng):
    """One guest reads: polled, by the interrupt or just so, and at times to the divisor."""
    guest, bytes_read = rng.randrange(8), rng.choice([1, 2, 5, 20, 60, 200])
    before = rng.choice([[], [], ['read,%d,5'], ['read,%d,2'], ['write,%d,1,1', 'read,%d,2']])
    shown = rng.choice([[], ['write,%d,3,0']])
    return [line % guest for line in shown + before + ['read,%d,0'] * bytes_read + ['read,%d,5']]


def divisor(rng):
    """One guest writes the divisor, goes on, at times past a reset, and looks at it again."""
    guest, low, high = rng.randrange(8), rng.randrange(256), rng.randrange(256)
    lines = ['write,%d,3,131', 'write,%d,0,' + str(low), 'write,%d,1,' + str(high), 'write,%d,3,3', 'read,%d,1', 'read,%d,0']
    lines += rng.choice([[], [], ['reset,%d']]) + ['write,%d,3,128', 'read,%d,0', 'read,%d,1', 'write,%d,3,0']
    return [line % guest for line in lines]


def access(rng):
    kind = rng.randrange(21)
    if kind == 20:
        return divisor(rng)
    if kind == 0:
        return ['reset,%d' % number(rng)]
    if kind < 9:
        value = rng.choice(VALUES) if rng.random() < 0.8 else rng.randrange(256)
        return ['write,%d,%d,%d' % (number(rng), number(rng), value)]
    if kind < 15:
        return ['read,%d,%d' % (number(rng), number(rng))]
    return burst(rng)


def all_registers(guest):
    return ['read,%d,%d' % (guest, offset) for offset in range(1, 9)]


def main():
    rng = random.Random(int(sys.argv[1]))
    stream = subprocess.run([os.path.join(base, 'bin', 'shuffle'), sys.argv[1]], capture_output=True).stdout
    lines = ['read,3,0', 'read,8,0', 'read,8,8', 'write,3,8,1', 'reset,7', 'reset,8']
    for record in stream.split(b'\r\n'):
        if not PLAIN.fullmatch(record):
            continue
        lines.append(record.decode())
        name = record.split(b',')[0]
        if rng.random() < {b'commit': 0.7, b'open': 0.5, b'chain': 0.5}.get(name, 0.08):
            for _ in range(rng.randint(1, 4)):
                lines += access(rng)
        if rng.random() < 0.01:
            lines += all_registers(rng.randrange(8))
    for guest in range(8):
        lines += all_registers(guest) + ['write,%d,3,0' % guest] + ['read,%d,0' % guest] * 50
    lines += ['reset,5', 'chain'] + ['read,5,0'] * 3000 + ['read,5,5']
    sys.stdout.write(''.join(line + '\n' for line in lines))


main()
