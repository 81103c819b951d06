#!/usr/bin/env python3
"""A shuffled stream whose proposals are drawn from queues: for bin/queues and for
naive.py queues, which have `enqueue`, `draw` and `waiting` beside a runner's
records.

    queues.py SEED        (build.sh first)

Guests add transactions between the records, busy ones more than others; some
are out of range, some cannot be read, some are of a guest above 7. In some
stretches all are quiet, so that nothing is left to draw. Most proposes become
draws, the others stay; now and then there is a draw more.
"""
import os
import random
import re
import subprocess
import sys

base = os.path.dirname(os.path.abspath(__file__))
PLAIN = re.compile(rb'[a-zA-Z0-9,]*')
# How often a guest adds something between two records.
BUSY = [0, 0, 0.002, 0.01, 0.03, 0.2]
QUIET = [0, 0, 0, 0.001, 0.002, 0.005]
PROPOSE = re.compile(r'propose,([0-9]+)(?:,[BUE],[0-9]+,[0-9]+)*')


def triple(rng):
    member, amount = rng.randrange(16), rng.choice([1, 2, 999, 1000])
    some = ['E,%d,0' % rng.randrange(1000)] * 6 + ['B,%d,%d' % (member, amount), 'U,%d,0' % member]
    odd = ['B,%d,0' % member, 'B,%d,1001' % member, 'B,16,%d' % amount, 'U,16,0', 'U,3,1', 'E,3,1', 'F,3,0',
           'E,4294967295,0', 'E,4294967296,0', 'E,3']
    return rng.choice(odd if rng.random() < 0.06 else some)


def added(rng, rates):
    """What guests add between two records."""
    lines = ['enqueue,%d,%s' % (guest, triple(rng)) for guest, rate in enumerate(rates) if rng.random() < rate]
    if rng.random() < 0.02:
        lines.append('enqueue,%d,%s' % (rng.choice([8, 9, 4294967295]), triple(rng)))
    return lines


def main():
    rng = random.Random(int(sys.argv[1]))
    stream = subprocess.run([os.path.join(base, 'bin', 'shuffle'), sys.argv[1]], capture_output=True).stdout
    lines, rates = [], []
    for record in stream.split(b'\r\n'):
        if not PLAIN.fullmatch(record):
            continue
        record = record.decode()
        if record.startswith('open') or not rates:
            some = QUIET if rng.random() < 0.3 else BUSY
            rates = [rng.choice(some) for _ in range(8)]
        lines += added(rng, rates)
        propose = PROPOSE.fullmatch(record)
        if propose and rng.random() < 0.85:
            record = 'draw,' + propose[1]
        if rng.random() < 0.02:
            lines.append('draw,%d' % rng.choice([0, 1, 7, 15, 65535, 65536]))
        lines += [record] + (['waiting'] if record.startswith('draw') else [])
    lines += ['waiting', 'chain']
    sys.stdout.write(''.join(line + '\n' for line in lines))


main()
