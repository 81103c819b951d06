#!/usr/bin/env python3
"""owners.py RUNNER READER COUNT [FIRST [REGISTER]]: the register of plant owners against reads of committees.

Shuffled streams of seeds FIRST (1 if not given) to FIRST + COUNT - 1, each ended by a chain, and the
example. RUNNER answers them; tools/register (or REGISTER, another one) makes its table of stream and
answers, and, a second time, of the listing and the sheet alone. READER (bin/committees, or the one
that tests/hosts/package.sh builds on the library) tells of the chain that the same stream leaves the
weights of the committee from which on each block counts. Block by block the total must be theirs, with
--members the weight of each member, and in the end starting weights plus bonded less released. Where a
block counts above the ceiling only, bin/committees tells the reference's own committee; the library has
no read of it, and the register is compared with its own sums alone. Then answers that are not those to
the stream, and listings that are damaged or in no order that a chain has, which the register must
refuse with a line of its own. Stops at the first difference; says how much was compared."""
import os
import random
import subprocess
import sys
import tempfile
from itertools import groupby

base = os.path.dirname(os.path.abspath(__file__))
TOOL = os.path.join(base, '..', 'tools', 'register', 'register.py')


def said(command, given=b''):
    return subprocess.run(command, input=given, stdout=subprocess.PIPE, check=True).stdout


def tables(text):
    """Each table of a register: a list of rows, each a dictionary by heading; cells stand right below their headings."""
    found = []
    for part in text.split('\n\n'):
        heading, *rows = part.rstrip('\n').split('\n')
        ends, at = [], 0
        for name in heading.replace('counts from', 'counts_from').split():
            at = heading.index(name.replace('_', ' '), at) + len(name)
            ends.append((name, at))
        starts = [0] + [end for _, end in ends[:-1]]
        found.append([{name: row[start:end].strip().replace(',', '') for start, (name, end) in zip(starts, ends)} for row in rows])
    return found


class Owners:
    def __init__(self, runner, reader, tool, folder):
        self.runner, self.reader, self.tool, self.folder = runner, reader, tool, folder
        self.streams = self.blocks = self.above = self.members = self.bonded = self.released = self.refused = 0

    def register(self, *arguments, files):
        """What the register says of these files, and its status."""
        paths = []
        for name, text in files:
            paths.append(os.path.join(self.folder, name))
            with open(paths[-1], 'wb') as file:
                file.write(text)
        done = subprocess.run([sys.executable, '-S', self.tool, *arguments, *paths], capture_output=True, text=True)
        return done.returncode, done.stdout, done.stderr

    def one(self, name, stream, rng):
        stream += b'' if stream.endswith(b'\r\n') else b'\r\n'
        stream += b'chain\r\n'
        answers = said([self.runner], stream)
        status, text, why = self.register('--members', files=[('stream', stream), ('answers', answers)])
        read = [[int(field) for field in line.split(',')] for line in said([self.reader], stream).decode().splitlines()]
        lines = answers.decode().split('\r\n')
        if lines[-2] != 'ok':           # no open was accepted
            self.must_refuse(name, status, why)
            return
        if status != 0:
            sys.exit(f'{name}: the register says: {why}')
        weights, lookback = self.compare(name, text, read, stream, answers)
        self.alone(name, text, weights, lookback, lines, rng)
        self.wrong(name, stream, answers, rng)
        self.streams += 1

    def compare(self, name, text, read, stream, answers):
        """The tables with the weights read after each block; starting weights and lookback of the last accepted open."""
        by_block, by_member, by_both = (tables(text) + [[]])[:3]
        opened = last_open(stream, answers)
        weights = [int(field) if field else int(member < 4) for member, field in enumerate(opened[4:20])]
        lookback, now = int(opened[1] or 20), list(weights)
        for number, round, *after in read:
            for row in by_both:
                if int(row['block']) == number:
                    member = int(row['member'])
                    now[member] += int(row['bonded']) - int(row['released'])
                    if now[member] != int(row['weight']):
                        sys.exit(f'{name}, block {number}, member {member}: {row}')
                    self.members += 1
            row = by_block[number]
            if [int(row['block']), int(row['round']), int(row['counts_from'])] != [number, round, lookback + round + 1]:
                sys.exit(f'{name}, block {number}: {row}')
            if after and (now != after or int(row['total']) != sum(after)):
                sys.exit(f'{name}, block {number}: read {after}, the register has {now}, total {row["total"]}')
            if int(row['total']) != sum(now):
                sys.exit(f'{name}, block {number}: members weigh {sum(now)}, total {row["total"]}')
            self.blocks += 1
            self.above += not after
        if len(by_block) != len(read) + 2 or int(by_block[0]['total']) != sum(weights):
            sys.exit(f'{name}: {len(by_block)} lines for {len(read)} blocks, or another start')
        self.adds_up(name, by_member, by_block[-1], weights, now)
        return weights, lookback

    def adds_up(self, name, by_member, end, weights, now):
        """The table of members with weights at the start and now, and with the last line of that of blocks."""
        movers = {row['member']: row for row in by_member}
        for member in range(16):
            row = movers.get(str(member), {'starting': weights[member], 'bonded': 0, 'released': 0, 'weight': weights[member]})
            if int(row['starting']) != weights[member] or int(row['weight']) != now[member]:
                sys.exit(f'{name}, member {member}: {row}, weighs {now[member]}')
        for row in by_member:
            if int(row['starting']) + int(row['bonded']) - int(row['released']) != int(row['weight']):
                sys.exit(f'{name}: does not add up: {row}')
        whole = movers['all']
        if [whole[column] for column in ('bonded', 'released', 'weight')] != [end['bonded'], end['released'], end['total']]:
            sys.exit(f'{name}: {whole}, {end}')
        if int(whole['weight']) != sum(now):
            sys.exit(f'{name}: {whole}, members weigh {sum(now)}')
        for column in ('starting', 'bonded', 'released', 'weight'):
            if sum(int(row[column]) for row in by_member[:-1]) != int(whole[column]):
                sys.exit(f'{name}: the column {column} does not add up')
        self.bonded += int(whole['bonded'])
        self.released += int(whole['released'])

    def alone(self, name, text, weights, lookback, lines, rng):
        """The same table of the listing alone; damaged, the listing is refused."""
        listing = last_listing(lines)
        options = ['--members', '--lookback', str(lookback), '--weights']
        sheet, whole = ','.join(map(str, weights)), listing + ['ok', '']
        if self.register(*options, sheet, files=[('listing', '\n'.join(whole).encode())])[:2] != (0, text):
            sys.exit(f'{name}: of the listing alone the register is another one')
        if rng.random() < 0.2:
            tried = [(sheet, damaged) for damaged in [*damages(listing, rng), *disorders(listing, rng)]]
            for other, damaged in tried + [('0,0,0,0', whole), ('x\ny', whole), (',' * 16, whole)]:
                status, _, why = self.register(*options, other, files=[('listing', '\n'.join(damaged).encode())])
                self.must_refuse(f'{name}, {other!r}, {damaged}', status, why)

    def wrong(self, name, stream, answers, rng):
        """Answers of another stream, or to records that do not end in CRLF, or that lack a block; a call after the listing."""
        if rng.random() < 0.1:
            tried = [(stream, other) for other in wrong_answers(answers)]
            tried += [(stream.replace(b'\r\n', b'\n'), answers), (stream + b'advance\r\n', answers + b'ok\r\n'),
                      (b'open,0,,64' + b',' * 17 + b'\r\nchain\r\n', b'ok\r\nok,3\r\n')]
            for given, other in tried:
                status, _, why = self.register(files=[('stream', given), ('answers', other)])
                self.must_refuse(f'{name}, other answers', status, why)

    def must_refuse(self, name, status, why):
        if status != 1 or not why.startswith('register.py: ') or why.count('\n') != 1:
            sys.exit(f'{name}: not refused plainly: {status}, {why}')
        self.refused += 1


def last_open(stream, answers):
    """The fields of the last accepted open."""
    replies = [line for line in answers.decode().split('\r\n') if line[:1] in ('o', 'r')]
    records = stream.split(b'\r\n')[:-1]
    return [record.decode().split(',')[1:] for record, reply in zip(records, replies) if record.startswith(b'open,') and reply == 'ok'][-1]


def last_listing(lines):
    """What the chain at the end listed."""
    first = len(lines) - 2
    while first > 0 and lines[first - 1][:1].isdigit():
        first -= 1
    return lines[first:-2]


def wrong_answers(answers):
    yield from (answers[:-4], answers + b'ok\r\n', answers[:-4] + b'1,2,2,0\r\nrefused,1\r\n', b'', b'\xff' + answers)
    lines = answers.decode().split('\r\n')
    listing = last_listing(lines)
    before = lines[:len(lines) - 2 - len(listing)]
    yield '\r\n'.join(before + ['ok,3', '']).encode()
    if listing:         # without its last block; without any
        last = listing[-1].split(',')[0] + ','
        for fewer in ([line for line in listing if not line.startswith(last)], []):
            yield '\r\n'.join(before + fewer + ['ok', '']).encode()


def damages(listing, rng):
    """Listings with a line that no runner gives."""
    yield listing
    yield listing + ['ok', 'ok', '']
    if listing:
        at = rng.randrange(len(listing))
        line = listing[at]
        fields = line.split(',')
        other = lambda *texts: listing[:at] + list(texts) + listing[at + 1:] + ['ok', '']
        yield other(line, line)
        yield other(line + ',B,1')
        yield other(line + ',B,16,1')
        yield other(line + ',B,1,0')
        yield other(line + ',B,1,1001')
        yield other(line + ',U,1,1')
        yield other(line + ',X,1,1')
        yield other(line.replace(',', ';', 1))
        yield other(','.join([fields[0], str(int(fields[1]) + 1)] + fields[2:]))
        yield other(','.join(fields[:3] + ['16'] + fields[4:]))
        yield other(','.join(fields[:2] + ['0' + fields[2]] + fields[3:]))
        yield other(','.join(fields[:4] + ['E', '1', '0'] * 5))
        yield other('')
        yield list(reversed(listing)) + ['ok', '']


def disorders(listing, rng):
    """Listings of lines that can be read, in no order or of no blocks that a chain has."""
    blocks = [list(lines) for _, lines in groupby((line.split(',') for line in listing), key=lambda line: line[0])]
    if blocks:
        for damaged in [*wrong_blocks(blocks, rng), *wrong_orders(blocks)]:
            yield [','.join(line) for block in damaged for line in block] + ['ok', '']


def wrong_blocks(blocks, rng):
    at = rng.randrange(len(blocks))
    *below, anchor = blocks[at]
    other = lambda *lines: blocks[:at] + [list(lines)] + blocks[at + 1:]
    second = anchor[:3] + [str((int(anchor[3]) + 1) % 16)]
    odd = str(int(anchor[1]) + 1)
    yield other(*below)                         # lacks its anchor
    yield other(*below, anchor, second)         # two of its own round
    yield other(*below, second, anchor)
    yield other(*below[:-1], anchor, below[-1])
    yield other(*[[line[0], odd, *line[2:]] for line in below], [anchor[0], odd, odd, *anchor[3:]])
    if at + 1 < len(blocks):                    # left out
        yield blocks[:at] + blocks[at + 1:]
    number, round, author = str(len(blocks) + 1), blocks[-1][-1][1], blocks[-1][-1][3]
    beside = [round, round, str((int(author) + 1) % 16)]
    yield blocks[:-1] + [blocks[-1] + [blocks[-1][-1][:1] + beside]]    # two of the last round, which no other block has
    yield blocks + [[[number, *beside]]]
    yield blocks + [[[number, '1024', '1024', '0']]]


def wrong_orders(blocks):
    """Two certificates of a round exchanged; one in two blocks; rising numbers where the leader's order is another one."""
    for at, block in enumerate(blocks):
        exchanged = [i for i in range(len(block) - 1) if block[i][2] == block[i + 1][2]][:1]
        for i in exchanged:
            yield blocks[:at] + [block[:i] + [block[i + 1], block[i]] + block[i + 2:]] + blocks[at + 1:]
        rising = sorted(block, key=lambda line: (int(line[2]), int(line[3])))
        if rising != block:
            yield blocks[:at] + [rising] + blocks[at + 1:]
        if exchanged or rising != block:
            break
    if len(blocks) > 1:
        first = int(blocks[-1][-1][3])
        again = blocks[-1] + [blocks[-1][0][:2] + blocks[0][0][2:]]
        yield blocks[:-1] + [sorted(again, key=lambda line: (int(line[2]), (int(line[3]) - first) % 16))]


def main():
    if len(sys.argv) < 4:
        sys.exit(__doc__)
    count, first = int(sys.argv[3]), int(sys.argv[4]) if len(sys.argv) > 4 else 1
    tool = sys.argv[5] if len(sys.argv) > 5 else TOOL
    with tempfile.TemporaryDirectory() as folder:
        owners = Owners(os.path.abspath(sys.argv[1]), os.path.abspath(sys.argv[2]), os.path.abspath(tool), folder)
        with open(os.path.join(base, 'example.stream'), 'rb') as example:
            owners.one('example', example.read(), random.Random(0))
        for seed in range(first, first + count):
            owners.one(f'seed {seed}', said([os.path.join(base, 'bin', 'shuffle'), str(seed)]), random.Random(seed))
    print(f'the same: registers of {owners.streams} streams, {owners.blocks} blocks, '
          f'{owners.above} of them above the ceiling with no committee to compare, {owners.members} times a member in a block; {owners.bonded} bonded, {owners.released} released; '
          f'{owners.refused} listings and answers that cannot be read, refused')


main()
