#!/usr/bin/env python3
"""A shuffled stream in which engineers ask, again and again, how far a bond moves the
shares: for bin/effects and for naive.py effects, which have `effect`, a member, a
round and an amount beside a runner's records.

    effects.py SEED        (build.sh first)

After commits and now and then after any record there are some reads, mostly of
rounds that are known and of amounts in range. Then come opens of committees made for
the purpose: shares that are exact halves before the bond, after it or both, a member
who joins, a sole member, weights and amounts one beside that. Last come a committee
that a block has emptied, and one that a bond of the same block has filled again, each
with every argument at its edges.
"""
import os
import random
import re
import subprocess
import sys
from math import gcd

base = os.path.dirname(os.path.abspath(__file__))
PLAIN = re.compile(rb'[a-zA-Z0-9,]*')
BEYOND = 4294967295


def some_amount(rng):
    return rng.choice([1, 2, 16, 999, 1000, rng.randint(1, 1000)] * 4 + [0, 1001, BEYOND])


def ask(rng):
    member = rng.choice([16, BEYOND]) if rng.random() < 0.03 else rng.randrange(16)
    rounds = [rng.randint(1, 6), rng.randint(1, 30), rng.randint(1, 64)] * 4 + [0, 65, BEYOND]
    return 'effect,%d,%d,%d' % (member, rng.choice(rounds), some_amount(rng))


def shuffled(rng, seed):
    """A shuffled stream with reads between its records."""
    stream = subprocess.run([os.path.join(base, 'bin', 'shuffle'), seed], capture_output=True).stdout
    lines = [ask(rng)]
    for record in stream.split(b'\r\n'):
        if PLAIN.fullmatch(record):
            lines.append(record.decode())
            if rng.random() < {b'commit': 0.8, b'open': 0.8}.get(record.split(b',')[0], 0.05):
                lines += [ask(rng) for _ in range(rng.randint(1, 4))]
    return lines + [ask(rng)]


def half_of(rng, n):
    """A weight whose share of n, a multiple of 16, is an exact half."""
    step = n // gcd(n, 2000)
    return step * rng.randrange(1, n // step + 1, 2)


def made(rng):
    """Sixteen weights, a member and an amount."""
    n = 16 * rng.randint(1, rng.choice([1, 3, 20, 125, 1000, 60000]))
    k = 16 * rng.randint(1, 62) if rng.random() < 0.8 else rng.randint(1, 1000)
    halves = lambda: [half_of(rng, n), half_of(rng, (n + k) // 16 * 16 or 16), rng.randint(0, n)]
    members = rng.sample(range(16), 16)
    # The first one bonds: it joins, has a half before or has one after.
    first = rng.choice([0, n] + halves() + [halves()[1] - k] * 2)
    weights, rest = [0] * 16, n
    for i, m in enumerate(members[:rng.randint(2, 16)]):
        weight = first if i == 0 else rng.choice(halves())
        if 0 <= weight <= rest:
            weights[m], rest = weight, rest - weight
    if rest:
        weights[members[15]] += rest
    return weights, members[0], k


def opened(weights):
    return 'open,0,1,64,,' + ','.join(map(str, weights))


def committees(rng):
    lines = []
    for _ in range(60):
        weights, member, k = made(rng)
        if rng.random() < 0.2:
            weights[rng.randrange(16)] += 1
        lines.append(opened(weights))
        for amount in (k, k, k + 1, k - 1, some_amount(rng)):
            lines.append('effect,%d,%d,%d' % (rng.choice([member] * 3 + [rng.randrange(16)]), rng.randint(1, 3), amount))
    return lines


def emptied(rng, last):
    """Member 0 alone leaves in the block of round 2, which counts from round 4 on."""
    run = ['propose,0,U,0,0' + last, 'certify,0', 'advance', 'propose,1', 'certify,0', 'advance', 'propose,1', 'certify,0', 'commit']
    edges = ['effect,%d,%d,%d' % (member, r, amount) for member in (0, 7, 15, 16) for r in (0, 1, 3, 4, 5, 6, 64, 65)
             for amount in (0, 1, 1000, 1001)]
    return [opened([rng.choice([1, 5, 1000000])] + [0] * 15)] + run + edges


def main():
    rng = random.Random(int(sys.argv[1]))
    lines = shuffled(rng, sys.argv[1]) + committees(rng) + emptied(rng, '') + emptied(rng, ',B,7,16')
    sys.stdout.write(''.join(line + '\n' for line in lines))


main()
