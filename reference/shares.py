#!/usr/bin/env python3
"""Pairs of weight and total: for bin/shares and for naive.py shares.

    shares.py N [SEED]   every pair up to total N; then as many by chance, up to
                         the largest total there is, in four parts: any; exact
                         halves; a weight one beside a half; a total one beside
"""
import random
import sys
from math import gcd

LARGEST = 81536000


def half(chance):
    """A pair whose share is an exact half: odd / 2000, in lower terms, times t."""
    odd = chance.randrange(1, 2000, 2)
    weight, n = odd // gcd(odd, 2000), 2000 // gcd(odd, 2000)
    t = chance.randint(1, chance.choice([10, 1000, LARGEST]) // n + 1)
    t = min(t, LARGEST // n)
    return weight * t, n * t


def main():
    most, chance = int(sys.argv[1]), random.Random(int(sys.argv[2]) if len(sys.argv) > 2 else 1)
    pairs = [(w, n) for n in range(1, most + 1) for w in range(1, n + 1)]
    for i in range(len(pairs)):
        if i % 4 == 0:
            n = chance.randint(1, chance.choice([5000, 1000000, 16000000, LARGEST]))
            w = chance.randint(1, n)
        else:
            w, n = half(chance)
            step = chance.choice([-1, 1])
            if i % 4 == 2:
                w += step
            if i % 4 == 3:
                n += step
        if 1 <= w <= n <= LARGEST:
            pairs.append((w, n))
    print('\n'.join('%d %d' % pair for pair in pairs))


main()
