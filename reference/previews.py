#!/usr/bin/env python3
"""A shuffled stream in which shift leads ask, again and again, what a commit
would do: for bin/previews and for naive.py previews, which have `preview` and a
number of words beside a runner's records.

    previews.py SEED        (build.sh first)

Before each commit and after most accepts and advances there is a preview, now
and then after any record; mostly into a list with room, at times into one that
is just long enough, one place or some words short, or empty. Of the commits one
in five is left out, so that more blocks wait.
"""
import os
import random
import re
import subprocess
import sys

base = os.path.dirname(os.path.abspath(__file__))
PLAIN = re.compile(rb'[a-zA-Z0-9,]*')
OPEN = re.compile(r'open,[0-9]+,[0-9]*,([0-9]+),.*')


def words(rng, ceiling):
    """The length of a list; 16 places of three words for each round."""
    just = 48 * ceiling
    near = [just, just, just - 1, just - 2, just - 3, just + 1, just + 2, just + 48, 45 * ceiling, 16 * ceiling, 3, 0]
    return 48 * 64 if rng.random() < 0.8 else rng.choice(near)


def main():
    rng = random.Random(int(sys.argv[1]))
    stream = subprocess.run([os.path.join(base, 'bin', 'shuffle'), sys.argv[1]], capture_output=True).stdout
    lines, ceiling = ['preview,3072', 'preview,0'], 64
    for record in stream.split(b'\r\n'):
        if not PLAIN.fullmatch(record):
            continue
        record = record.decode()
        opened = OPEN.fullmatch(record)
        if opened and 3 <= int(opened[1]) <= 64:
            ceiling = int(opened[1])
        name = record.split(',')[0]
        if name == 'commit':
            lines += ['preview,%d' % words(rng, ceiling) for _ in range(2)]
            if rng.random() < 0.2:
                continue
        lines.append(record)
        if rng.random() < {'commit': 0.9, 'accept': 0.4, 'certify': 0.5, 'advance': 0.8}.get(name, 0.1):
            lines.append('preview,%d' % words(rng, ceiling))
    lines += ['preview,3072', 'chain']
    sys.stdout.write(''.join(line + '\n' for line in lines))


main()
