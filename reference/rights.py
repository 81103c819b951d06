#!/usr/bin/env python3
"""A shuffled stream in which guests call too: for bin/rights and for naive.py
rights, which have `rights`, `guest`, `host`, `offer` and `waiting` beside a runner's
records.

    rights.py SEED        (build.sh first)

Before each open rights are given: to nobody, to all, to one, or by chance. Of the
records many are a guest's call; where that guest lacks the right the host makes the
call after it, so that the run goes on. Between them guests and the host read, add to
queues, draw, hand over batches and ask for lists; guests access their ports, and the
host resets some. Callers are 0 to 9, now and then one far above; some calls cannot be
read.
"""
import os
import random
import re
import subprocess
import sys

base = os.path.dirname(os.path.abspath(__file__))
PLAIN = re.compile(rb'[a-zA-Z0-9,]*')
NAMES = ('propose', 'endorse', 'certify', 'accept', 'advance', 'commit')
# Which of the four sets of callers a record needs.
SET_OF = {'propose': 0, 'endorse': 1, 'certify': 1, 'accept': 1, 'advance': 2, 'commit': 2}


def run(program, *arguments, given=b''):
    command = [os.path.join(base, 'bin', program), *arguments]
    return subprocess.run(command, input=given, capture_output=True).stdout


def some_rights(rng):
    return rng.choice([
        [0] * 4,
        [255] * 4,
        [rng.choice([0, 1 << rng.randrange(8)]) for _ in range(4)],
        [rng.randrange(256) for _ in range(4)],
        [255 ^ (1 << rng.randrange(8)) for _ in range(4)],
    ])


def some_caller(rng):
    return rng.choice([15, 16, 31, 32, 255, 4294967295]) if rng.random() < 0.03 else rng.randrange(10)


def triple(rng):
    member, amount = rng.randrange(16), rng.choice([1, 2, 999, 1000])
    return rng.choice(['E,%d,0' % rng.randrange(1000)] * 6 + ['B,%d,%d' % (member, amount), 'U,%d,0' % member,
                      'B,16,1', 'B,3,0', 'U,16,0', 'U,3,1', 'F,3,0', 'E,3'])


def port_call(rng, by):
    """An access of a guest's, of the host's a reset."""
    if by == 'host,':
        return 'port_reset,%d' % rng.randrange(10)
    offset = rng.choice([0, 0, 0, 1, 2, 3, 4, 5, 5, 6, 7, 8, 9])
    value = rng.choice([0, 1, 3, 31, 128, 255, 256])
    return rng.choice(['port_read,%d' % offset] * 3 + ['port_write,%d,%d' % (offset, value)] * 2 + ['port_read'])


def asked(rng, by, accepts):
    """A call that is no record; `by` begins its line."""
    kind = rng.randrange(12)
    if kind >= 10:
        return [by + port_call(rng, by)]
    if kind == 0:
        some = [rng.choice(accepts) for _ in range(rng.randrange(6))] if accepts else []
        return ['offer' + accept[len('accept'):] for accept in some] + [by + 'batch']
    if kind in (1, 2, 3):
        return [by + 'enqueue,' + ('%d,' % rng.randrange(9) if by == 'host,' else '') + triple(rng)]
    return [by + rng.choice([
        'draw,%d' % rng.choice([0, 1, 3, 7, 15, 65535, 65536]),
        'draw,0',
        'committee,%d' % rng.randrange(70),
        'share,%d,%d' % (rng.randrange(18), rng.randrange(30)),
        'certificate,%d,%d' % (rng.randrange(17), rng.randrange(12)),
        'certificate,3',
        'block,%d' % rng.randrange(6),
        'preview,%d' % rng.choice([48 * 64, 48 * 64, 48 * 64, 5]),
        'critical,%d' % rng.choice([64, 64, 64, 63]),
        'effect,%d,%d,%d' % (rng.randrange(17), rng.randrange(30), rng.choice([0, 1, 7, 1000, 1001])),
        'effect,3,1',
        'endorse,1,1',
    ])]


def main():
    rng = random.Random(int(sys.argv[1]))
    stream = run('shuffle', sys.argv[1])
    # One for each record; lines of a chain begin with a number.
    answers = [line for line in run('runner_ref', given=stream).split(b'\r\n') if line[:1] in (b'o', b'r')]
    lines, rights, accepts = ['guest,3,commit', 'guest,8,commit', 'host,commit'], [0] * 4, []
    lines += ['host,port_reset,7', 'host,port_reset,8', 'guest,3,port_read,8', 'guest,8,port_read,8']
    for record, answer in zip(stream.split(b'\r\n'), answers):
        if not PLAIN.fullmatch(record):
            continue
        record = record.decode()
        name = record.split(',')[0]
        if name == 'open':
            given = some_rights(rng)
            lines.append('rights,%d,%d,%d,%d' % tuple(given))
            if answer == b'ok':
                rights, accepts = given, []
        if name == 'accept':
            accepts = accepts[-20:] + [record]
        if name in NAMES and rng.random() < 0.4:
            caller = some_caller(rng)
            lines.append('guest,%d,%s' % (caller, record))
            if caller < 8 and rights[SET_OF[name]] >> caller & 1:
                continue
        lines.append(record)
        if rng.random() < 0.3:
            lines += asked(rng, rng.choice(['host,'] + ['guest,%d,' % some_caller(rng)] * 3), accepts)
        if rng.random() < 0.05:
            lines.append('waiting')
    lines += ['waiting', 'chain']
    sys.stdout.write(''.join(line + '\n' for line in lines))


main()
