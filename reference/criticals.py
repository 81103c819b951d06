#!/usr/bin/env python3
"""A shuffled stream in which maintenance asks, again and again, which
certificates a commit hangs on: for bin/criticals and for naive.py criticals,
which have `critical` and a number of words beside a runner's records.

    criticals.py SEED        (build.sh first)

Before each commit and after most accepts there is a list, now and then after
any record; mostly into one with room, at times into one that is just long
enough, a word, a place or some places short, or empty. Of the commits one in
five is left out.
"""
import os
import random
import re
import subprocess
import sys

base = os.path.dirname(os.path.abspath(__file__))
PLAIN = re.compile(rb'[a-zA-Z0-9,]*')


def ask(rng):
    """A list; 32 places of two words are enough."""
    near = [64, 64, 65, 66, 63, 62, 61, 60, 48, 33, 32, 31, 2, 1, 0]
    return 'critical,%d' % (96 if rng.random() < 0.8 else rng.choice(near))


def main():
    rng = random.Random(int(sys.argv[1]))
    stream = subprocess.run([os.path.join(base, 'bin', 'shuffle'), sys.argv[1]], capture_output=True).stdout
    lines = ['critical,64', 'critical,0']
    for record in stream.split(b'\r\n'):
        if not PLAIN.fullmatch(record):
            continue
        record = record.decode()
        name = record.split(',')[0]
        if name == 'commit':
            lines += [ask(rng) for _ in range(2)]
            if rng.random() < 0.2:
                continue
        lines.append(record)
        if rng.random() < {'commit': 0.9, 'accept': 0.8, 'certify': 0.8, 'advance': 0.5}.get(name, 0.1):
            lines.append(ask(rng))
    lines += ['critical,64', 'chain']
    sys.stdout.write(''.join(line + '\n' for line in lines))


main()
