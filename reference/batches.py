#!/usr/bin/env python3
"""A shuffled stream whose accepts come by the row: for bin/batches and for
naive.py batches, which have `offer` and `batch` beside a runner's records.

    batches.py SEED        (build.sh first)

A row is what came to be accepted between some other records: newest first,
shuffled, or as it came; some certificates twice, some with a field spoilt, most
of these in the row as they should be too. What is over 64 comes again by 64.
Mostly a row is handed over before an advance, which asks for a quorum; where
it is not, the member tries again once it is.
"""
import os
import random
import re
import subprocess
import sys

base = os.path.dirname(os.path.abspath(__file__))
PLAIN = re.compile(rb'[a-zA-Z0-9,]*')


def spoilt(rng, record):
    fields = record.split(',')
    fields[rng.randrange(1, len(fields))] = rng.choice(['', '0', '1', '15', '16', '65535', '65536', '4294967295'])
    return ','.join(fields)


def copies(rng, one):
    """A certificate as often as it stands in the row."""
    if rng.random() < 0.05:
        return [spoilt(rng, one)] + [one] * (rng.random() < 0.97)
    return [one] * (1 + (rng.random() < 0.1))


def handed_over(rng, row):
    """The lines of a row."""
    row = [copy for one in row for copy in copies(rng, one)]
    order = rng.random()
    if order < 0.8:
        rng.shuffle(row)
    if order < 0.5:
        row.sort(key=lambda one: -int(one.split(',')[2] or 0))
    rows = [row] + [row[i:i + 64] for i in range(0, len(row), 64) if len(row) > 64]
    return [line for row in rows for line in ['offer' + one[len('accept'):] for one in row] + ['batch']]


def main():
    seed = int(sys.argv[1])
    rng = random.Random(seed)
    stream = subprocess.run([os.path.join(base, 'bin', 'shuffle'), str(seed)], capture_output=True).stdout
    lines, row, early = [], [], False
    often = rng.choice([0.3, 0.3, 0.02])
    for record in stream.split(b'\r\n'):
        if not PLAIN.fullmatch(record):
            continue
        record = record.decode()
        if re.fullmatch(r'accept(,[0-9]+){4}(,[BUE],[0-9]+,[0-9]+)*', record):
            row.append(record)
        else:
            if row and rng.random() < (0.85 if record == 'advance' else often):
                lines += handed_over(rng, row) + ['advance'] * early
                row, early = [], False
            lines.append(record)
            early = early or (record == 'advance' and bool(row))
    lines += handed_over(rng, row) + ['chain']
    sys.stdout.write(''.join(line + '\n' for line in lines))


main()
