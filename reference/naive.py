#!/usr/bin/env python3
"""A reading of its own: the rules and the runner (docs/RULES.md) written a second
time, as a check on the first. No caches, everything worked out from the state each
time it is asked, dictionaries and sets throughout. Slow on purpose. The order inside a block starts with the author of its anchor here,
with the leader of its round in the first writing; a draw goes from transaction
to transaction here, lap by lap there; a preview is told from histories here, by
a commit on a copy there; what a commit hangs on by the votes that remain here,
by taking each certificate away there; a quorum by what is left out of it here,
by what is in it there; rights are pairs of a caller and a word here, a table there;
what a bond does to the shares by fractions here, by cross multiplication there; a port
has the text that it has given here, a count there.

    naive.py < stream > answers
    naive.py shares < pairs > shares      (no record reads a share)
    naive.py batches < rows > answers     (no record is a batch)
    naive.py queues < stream > answers    (no record adds to a queue or draws)
    naive.py previews < stream > answers  (no record is a preview)
    naive.py criticals < stream > answers (no record lists what a commit hangs on)
    naive.py rights < stream > answers    (no record is a guest's)
    naive.py effects < stream > answers   (no record tells what a bond does)
    naive.py serial < stream > answers    (no record accesses a port)
"""
import re
import sys
from fractions import Fraction
from itertools import zip_longest
from math import ceil, floor

RANGES = [(1, 1000, 20), (3, 1024, 1024), (0, 4, 4)] + \
         [(0, 1000000, 1)] * 4 + [(0, 1000000, 0)] * 12 + [(3, 5, 3)]


# The calls that need each right.
NEED = {'propose': {'propose', 'draw', 'enqueue'},
        'sign': {'endorse', 'certify', 'accept', 'batch'},
        'drive': {'advance', 'commit'},
        'read': {'committee', 'share', 'certificate', 'block', 'preview', 'critical',
                 'effect', 'port_read', 'port_write'}}

# What is kept of a byte that is written, by whether it is a divisor byte and its offset.
KEPT = {(True, 0): 255, (True, 1): 255, (False, 1): 1, (False, 3): 255, (False, 4): 31, (False, 7): 255}


class Refused(Exception):
    pass


def refuse_if(condition, number):
    if condition:
        raise Refused(number)


def in_range(kind, number, amount):
    if kind == 'B':
        return number <= 15 and 1 <= amount <= 1000
    return number <= 15 if kind == 'U' else True


def bits(n):
    return {i for i in range(16) if n & (1 << i)}


class Port:
    """What was written to it, as far as it is kept, and what it has given of the listing."""

    def __init__(self):
        self.held, self.given = {}, ''

    def where(self, offset):
        return offset < 2 and self.held.get((False, 3), 0) >= 128, offset

    def write(self, offset, value):
        where = self.where(offset)
        if where in KEPT:
            self.held[where] = value & KEPT[where]

    def read(self, offset, listing):
        assert listing.startswith(self.given), 'no prefix of the listing'
        waiting = listing[len(self.given):]
        where = self.where(offset)
        if where in KEPT:
            return self.held.get(where, 0)
        if offset == 0:
            self.given += waiting[:1]
            return ord(waiting[0]) if waiting else 0
        interrupts = waiting and self.held.get((False, 1))
        return {2: 4 if interrupts else 1, 5: 0x61 if waiting else 0x60, 6: 0}[offset]


class Engine:
    def __init__(self, own, sheet):
        refuse_if(own > 15, 4)
        filled = []
        for written, (low, high, blank) in zip_longest(sheet, RANGES):
            value = blank if written is None else written
            refuse_if(not low <= value <= high, 2)
            filled.append(value)
        self.lookback, self.ceiling, self.allowance, *weights, self.margin = filled
        self.start = {m: w for m, w in enumerate(weights) if w > 0}
        refuse_if(not self.start, 3)
        refuse_if(self.ceiling > 64, 1)
        self.own, self.round, self.proposal = own, 1, None
        self.held = {}       # (author, round) -> (previous, transactions)
        self.endorsed = set()
        self.blocks = []     # (round, [(certificate round, author)]), in order
        self.queues = {guest: [] for guest in range(8)}     # the oldest first
        self.served = None   # the guest served last
        self.rights = set()  # (caller, right)
        self.ports = [Port() for guest in range(8)]

    # committees
    def last(self):
        return self.blocks[-1][0] if self.blocks else 0

    def known(self, r):
        return r <= self.lookback or r - self.lookback <= self.last() + 2

    def committee(self, r):
        weights = dict(self.start)
        if r > self.lookback:
            for block_round, certificates in self.blocks:
                if block_round < r - self.lookback:
                    for cr, author in certificates:
                        for kind, number, amount in self.held[author, cr][1]:
                            if kind == 'B':
                                weights[number] = weights.get(number, 0) + amount
                            if kind == 'U':
                                weights.pop(number, None)
        return weights

    def bound(self, committee):
        """The most that is less than the total divided by the margin; 0 of nothing."""
        return max(0, ceil(Fraction(sum(committee.values()), self.margin)) - 1)

    def quorum(self, members, committee):
        """Inside, and what is left out weighs no more than the bound."""
        left_out = sum(weight for m, weight in committee.items() if m not in members)
        return members <= set(committee) and left_out <= self.bound(committee)

    def anchor(self, r):
        ordered = sorted(self.committee(r))
        if not ordered:
            return None
        who = ordered[(r // 2) % len(ordered)]
        return (who, r) if (who, r) in self.held else None

    def history(self, place):
        found, todo = set(), [place]
        while todo:
            author, r = todo.pop()
            if (author, r) in self.held and (author, r) not in found:
                found.add((author, r))
                todo += [(a, r - 1) for a in self.held[author, r][0]]
        return found

    # shared checks
    def fit(self, transactions):
        refuse_if(len(transactions) > self.allowance or
                  not all(in_range(*t) for t in transactions), 6)

    def shape(self, author, r, previous, transactions):
        refuse_if(author > 15, 4)
        refuse_if(r == 0 or r > self.ceiling, 5)
        self.fit(transactions)
        refuse_if(bool(previous) == (r == 1), 7)

    def names_held(self, r, previous):
        refuse_if(any((a, r - 1) not in self.held for a in previous), 11)

    # calls
    def propose(self, previous, transactions):
        r = self.round
        self.fit(transactions)
        refuse_if(bool(previous) == (r == 1), 7)
        refuse_if(self.proposal is not None or (self.own, r) in self.held, 10)
        refuse_if(not self.known(r), 8)
        refuse_if(self.own not in self.committee(r), 9)
        if r > 1:
            self.names_held(r, previous)
            refuse_if(not self.quorum(previous, self.committee(r - 1)), 12)
        self.proposal = (previous, transactions)

    def enqueue(self, guest, transaction):
        refuse_if(guest > 7, 26)
        refuse_if(not in_range(*transaction), 6)
        refuse_if(len(self.queues[guest]) == 8, 27)
        self.queues[guest].append(transaction)

    def draw(self, previous):
        queues = {guest: list(queue) for guest, queue in self.queues.items()}
        served, drawn = self.served, []
        while len(drawn) < self.allowance and any(queues.values()):
            served = 0 if served is None else (served + 1) % 8
            while not queues[served]:
                served = (served + 1) % 8
            drawn.append(queues[served].pop(0))
        self.propose(previous, drawn)
        self.queues, self.served = queues, served
        return drawn

    def endorse(self, author, r, previous, transactions):
        self.shape(author, r, previous, transactions)
        refuse_if(author == self.own, 14)
        refuse_if((author, r) in self.held or (author, r) in self.endorsed, 10)
        if r > 1:
            refuse_if(not self.known(r - 1), 8)
            self.names_held(r, previous)
            refuse_if(not self.quorum(previous, self.committee(r - 1)), 12)
        self.endorsed.add((author, r))

    def certify(self, endorsers):
        r = self.round
        refuse_if(self.proposal is None, 15)
        refuse_if((self.own, r) in self.held, 10)
        refuse_if(self.own in endorsers, 14)
        refuse_if(not self.known(r), 8)
        self.sign(r, endorsers | {self.own})
        self.held[self.own, r] = self.proposal

    def sign(self, r, signers):
        committee = self.committee(r)
        refuse_if(not signers <= set(committee), 9)
        refuse_if(not self.quorum(signers, committee), 13)

    def accept(self, author, r, previous, endorsers, transactions):
        self.shape(author, r, previous, transactions)
        refuse_if(author in endorsers, 14)
        if (author, r) in self.held:
            refuse_if(self.held[author, r] == (previous, transactions), 16)
            refuse_if(True, 17)
        refuse_if(not self.known(r), 8)
        self.sign(r, endorsers | {author})
        self.names_held(r, previous)
        self.held[author, r] = (previous, transactions)
        self.endorsed.discard((author, r))

    def batch(self, row):
        """What each of the row gets; None stands for one that cannot be read."""
        refuse_if(len(row) > 64, 25)
        got = [1] * len(row)
        for _, _, place in sorted((c[1], c[0], i) for i, c in enumerate(row) if c):
            try:
                self.accept(*row[place])
                got[place] = 0
            except Refused as refusal:
                got[place] = refusal.args[0]
        return got

    def advance(self):
        refuse_if(self.round == self.ceiling, 18)
        refuse_if(not self.known(self.round), 8)
        authors = {author for author, r in self.held if r == self.round}
        refuse_if(not self.quorum(authors, self.committee(self.round)), 28)
        self.round += 1
        self.proposal = None

    def final_anchor(self):
        """The anchor whose votes let a commit go."""
        r = self.round
        refuse_if(r == 1 or r % 2 == 0, 19)
        refuse_if(self.last() >= r - 1, 20)
        refuse_if(not self.known(r), 8)
        anchor = self.anchor(r - 1)
        refuse_if(anchor is None, 21)
        committee = self.committee(r)
        votes = sum(committee.get(a, 0) for (a, cr), (previous, _) in self.held.items()
                    if cr == r and anchor[0] in previous)
        refuse_if(not votes > self.bound(committee), 22)
        return anchor

    def commit(self):
        taken = [self.final_anchor()]
        for even in range(self.round - 3, self.last(), -2):
            older = self.anchor(even)
            if older is not None and older in self.history(taken[-1]):
                taken.append(older)
        for place in reversed(taken):
            used = {c for _, certificates in self.blocks for c in certificates}
            fresh = {(cr, a) for a, cr in self.history(place)} - used
            turn = [(place[0] + i) % 16 for i in range(16)]
            self.blocks.append((place[1], [(cr, a) for cr in range(1, place[1] + 1)
                                           for a in turn if (cr, a) in fresh]))
        return len(taken)

    def preview(self, words):
        """What a commit would add, without one. Each anchor that it takes is in
        the history of every later one, so a certificate goes to the oldest whose
        history has it."""
        refuse_if(words // 3 < 16 * self.ceiling, 25)
        newest = self.final_anchor()
        histories = {newest: self.history(newest)}
        oldest = newest
        for even in range(newest[1] - 2, self.last(), -2):
            anchor = self.anchor(even)
            if anchor in histories[oldest]:
                histories[anchor] = self.history(anchor)
                oldest = anchor
        old = {(a, cr) for _, certificates in self.blocks for cr, a in certificates}
        numbered = list(enumerate(sorted(histories, key=lambda place: place[1]), len(self.blocks) + 1))
        entries = []
        for author, cr in histories[newest] - old:
            number, anchor = min(one for one in numbered if (author, cr) in histories[one[1]])
            entries.append((number, cr, (author - anchor[0]) % 16, author))
        return [(number, cr, author) for number, cr, _, author in sorted(entries)]

    def critical(self, words):
        """The anchor, and each vote for it without which the others weigh no more
        than the bound: so it is in every state that a run reaches."""
        refuse_if(words // 2 < 32, 25)
        anchor, before = self.final_anchor()
        committee = self.committee(self.round)
        votes = {a: committee.get(a, 0) for (a, cr), (previous, _) in self.held.items()
                 if cr == self.round and anchor in previous}
        pivotal = [a for a in sorted(votes)
                   if sum(weight for b, weight in votes.items() if b != a) <= self.bound(committee)]
        return [(before, anchor)] + [(self.round, a) for a in pivotal]

    # reads
    def read_committee(self, r):
        refuse_if(r == 0 or r > self.ceiling, 5)
        refuse_if(not self.known(r), 8)
        return [self.committee(r).get(m, 0) for m in range(16)]

    def read_share(self, member, r):
        refuse_if(member > 15, 4)
        weights = self.read_committee(r)
        refuse_if(weights[member] == 0, 9)
        return [share(weights[member], sum(weights))]

    def read_effect(self, member, r, amount):
        """All shares before a bond and after it, and the largest difference."""
        refuse_if(member > 15, 4)
        refuse_if(r == 0 or r > self.ceiling, 5)
        refuse_if(not 1 <= amount <= 1000, 6)
        refuse_if(not self.known(r), 8)
        before = self.committee(r)
        refuse_if(not before, 30)
        after = {**before, member: before.get(member, 0) + amount}
        shares = [[share(weights.get(m, 0), sum(weights.values())) for m in range(16)] for weights in (before, after)]
        largest = max(abs(one - other) for one, other in zip(*shares))
        assert largest <= 1 + floor(Fraction(1000 * amount, sum(after.values()))), (before, member, amount)
        return sum(shares, []) + [largest]

    def read_certificate(self, author, r):
        """Previous set, number of its block, triples."""
        refuse_if(author > 15, 4)
        refuse_if(r == 0 or r > self.ceiling, 5)
        refuse_if((author, r) not in self.held, 23)
        previous, transactions = self.held[author, r]
        block = [n for n, (_, certificates) in enumerate(self.blocks, 1) if (r, author) in certificates]
        return [sum(1 << m for m in previous)] + (block or [0]) + [field for triple in transactions for field in triple]

    def read_block(self, n):
        refuse_if(not 1 <= n <= len(self.blocks), 23)
        return [self.blocks[n - 1][0]]

    # ports
    def port_read(self, guest, offset):
        refuse_if(offset > 7, 31)
        return [self.ports[guest].read(offset, ''.join(line + '\r\n' for line in self.chain()))]

    def port_write(self, guest, offset, value):
        refuse_if(offset > 7, 31)
        self.ports[guest].write(offset, value)
        return []

    def port_reset(self, port):
        self.ports[port] = Port()

    def chain(self):
        lines = []
        for number, (block_round, certificates) in enumerate(self.blocks, 1):
            for cr, author in certificates:
                fields = [number, block_round, cr, author]
                for triple in self.held[author, cr][1]:
                    fields += triple
                lines.append(','.join(map(str, fields)))
        return lines


class Unreadable(Exception):
    pass


def number(field):
    if not re.fullmatch(r'0|[1-9][0-9]{0,9}', field, re.ASCII) or int(field) >= 2 ** 32:
        raise Unreadable
    return int(field)


def member_set(field):
    n = number(field)
    if n >= 2 ** 16:
        raise Unreadable
    return bits(n)


def triples(fields):
    found = []
    if len(fields) % 3:
        raise Unreadable
    for i in range(0, len(fields), 3):
        kind, n, amount = fields[i], number(fields[i + 1]), number(fields[i + 2])
        if kind not in ('B', 'U', 'E') or (kind != 'B' and amount != 0):
            raise Unreadable
        found.append((kind, n, amount))
    return found


def call(record):
    """The name of the call and its values."""
    if len(record) + 2 > 1024 or any(c in record for c in '"\r\n'):
        raise Unreadable
    name, *f = record.split(',')
    if name == 'open' and len(f) - 1 in (len(RANGES) - 1, len(RANGES)):
        return name, [number(f[0]), [None if x == '' else number(x) for x in f[1:]]]
    if name == 'propose' and len(f) >= 1:
        return name, [member_set(f[0]), triples(f[1:])]
    if name == 'endorse' and len(f) >= 3:
        return name, [number(f[0]), number(f[1]), member_set(f[2]), triples(f[3:])]
    if name == 'certify' and len(f) == 1:
        return name, [member_set(f[0])]
    if name == 'accept' and len(f) >= 4:
        return name, [number(f[0]), number(f[1]), member_set(f[2]), member_set(f[3]),
                      triples(f[4:])]
    if name in ('advance', 'commit', 'chain') and not f:
        return name, []
    raise Unreadable


def answered(engine, text):
    """The engine after a record, and its lines."""
    try:
        name, values = call(text)
        if name == 'open':
            return Engine(*values), ['ok']
        refuse_if(engine is None, 1)
        result = getattr(engine, name)(*values)
        lines = result if name == 'chain' else []
        return engine, lines + ['ok,%d' % result if name == 'commit' else 'ok']
    except Unreadable:
        return engine, ['refused,24']
    except Refused as refusal:
        return engine, ['refused,%d' % refusal.args[0]]


def main():
    data = sys.stdin.buffer.read().decode('latin-1')
    *records, rest = data.split('\r\n')
    out, engine = [], None
    for text in records:
        engine, lines = answered(engine, text)
        out += lines
    if rest:
        out.append('refused,24')
    sys.stdout.buffer.write(''.join(line + '\r\n' for line in out).encode('latin-1'))


def share(weight, n):
    """round goes to the even one of two that are equally near."""
    return round(Fraction(1000 * weight, n))


def shares():
    for line in sys.stdin:
        print(share(*map(int, line.split())))


def offered(text):
    """The values of an offer, which are an accept's; None where it cannot be read."""
    try:
        return call('accept' + text[len('offer'):])[1]
    except Unreadable:
        return None


def batches():
    engine, row = None, []
    for line in sys.stdin:
        text = line.rstrip('\n')
        if text.startswith('offer'):
            row.append(offered(text))
            continue
        if text == 'batch':
            try:
                refuse_if(engine is None, 1)
                lines = [','.join(['ok'] + list(map(str, engine.batch(row))))]
            except Refused as refusal:
                lines = ['refused,%d' % refusal.args[0]]
            row = []
        else:
            engine, lines = answered(engine, text)
        print(*lines, sep='\n')


def queue_call(engine, name, fields):
    """The line of a call on queues; what cannot be read gets 1."""
    refuse_if(engine is None, 1)
    if name == 'waiting':
        served = 'none' if engine.served is None else engine.served
        return [len(engine.queues[guest]) for guest in range(8)] + [served]
    try:
        if name == 'enqueue':
            guest, [transaction] = number(fields[0]), triples(fields[1:])
        else:
            [field] = fields
            previous = member_set(field)
    except (Unreadable, ValueError):
        raise Refused(1)
    if name == 'enqueue':
        engine.enqueue(guest, transaction)
        return []
    return [field for triple in engine.draw(previous) for field in triple]


def queues():
    engine = None
    for line in sys.stdin:
        name, *fields = line.rstrip('\n').split(',')
        if name not in ('enqueue', 'draw', 'waiting'):
            engine, lines = answered(engine, line.rstrip('\n'))
        else:
            try:
                lines = [','.join(['ok'] + list(map(str, queue_call(engine, name, fields))))]
            except Refused as refusal:
                lines = ['refused,%d' % refusal.args[0]]
        print(*lines, sep='\n')


def asking(name, told):
    """Streams in which something is asked for that is no record; `told` gives its values."""
    engine = None
    for line in sys.stdin:
        asked, *fields = line.rstrip('\n').split(',')
        if asked != name:
            engine, lines = answered(engine, line.rstrip('\n'))
        else:
            try:
                refuse_if(engine is None, 1)
                lines = [','.join(map(str, ['ok'] + told(engine, *map(int, fields))))]
            except Refused as refusal:
                lines = ['refused,%d' % refusal.args[0]]
        print(*lines, sep='\n')


def listed(engine, name, words):
    """The count and the places of a list: a preview, or what a commit hangs on."""
    entries = getattr(engine, name)(words)
    return [len(entries)] + [word for entry in entries for word in entry]


def port_reset(engine, port):
    refuse_if(port > 7, 26)
    refuse_if(engine is None, 1)
    engine.port_reset(port)
    return []


def port_access(engine, caller, name, fields):
    """What cannot be read gets 1."""
    values = [number(field) for field in fields]
    if len(values) != (1 if name == 'port_read' else 2) or values[1:] and values[1] > 255:
        raise Unreadable
    return getattr(engine, name)(caller, *values)


def values_of(engine, caller, name, fields, row):
    """What a call gives; of no caller it is the host's. What cannot be read gets 1."""
    if name == 'port_reset':
        return port_reset(engine, *map(int, fields))
    refuse_if(engine is None, 1)
    try:
        if name in ('port_read', 'port_write'):
            return port_access(engine, caller, name, fields)
        if name == 'enqueue' and caller is not None:
            fields = [str(caller)] + fields
        if name in ('enqueue', 'draw'):
            return queue_call(engine, name, fields)
        if name == 'batch':
            return engine.batch(row)
        if name in ('preview', 'critical'):
            return listed(engine, name, *map(number, fields))
        if name in NEED['read']:
            return getattr(engine, 'read_' + name)(*map(number, fields))
        _, values = call(','.join([name] + fields))
    except (Unreadable, TypeError):
        raise Refused(1)
    count = getattr(engine, name)(*values)
    return [] if count is None else [count]


def guests_values(engine, caller, name, fields, row):
    """26, then 29, then what the host would get."""
    refuse_if(caller > 7, 26)
    [right] = [right for right in NEED if name in NEED[right]]
    refuse_if(engine is None or (caller, right) not in engine.rights, 29)
    return values_of(engine, caller, name, fields, row)


def serial():
    """All guests may read; before an open nobody has a right."""
    engine, row = None, []
    for line in sys.stdin:
        name, *fields = line.rstrip('\n').split(',')
        if name not in ('read', 'write', 'reset'):
            engine, lines = answered(engine, line.rstrip('\n'))
            if engine is not None:
                engine.rights = {(caller, 'read') for caller in range(8)}
        else:
            try:
                if name == 'reset':
                    values = port_reset(engine, int(fields[0]))
                else:
                    values = guests_values(engine, int(fields[0]), 'port_' + name, fields[1:], row)
                lines = [','.join(map(str, ['ok'] + values))]
            except Refused as refusal:
                lines = ['refused,%d' % refusal.args[0]]
        print(*lines, sep='\n')


def rights():
    engine, given, row = None, set(), []
    for line in sys.stdin:
        who, *fields = line.rstrip('\n').split(',')
        if who == 'rights':
            given = {(caller, right) for right, field in zip(('propose', 'sign', 'drive', 'read'), fields)
                     for caller in bits(int(field))}
            continue
        if who == 'offer':
            row.append(offered(line.rstrip('\n')))
            continue
        try:
            if who == 'guest':
                values = guests_values(engine, int(fields[0]), fields[1], fields[2:], row)
            elif who == 'host':
                values = values_of(engine, None, fields[0], fields[1:], row)
            elif who == 'waiting':
                refuse_if(engine is None, 1)
                values = [len(engine.queues[guest]) for guest in range(8)]
            else:
                before = engine
                engine, lines = answered(engine, line.rstrip('\n'))
                if engine is not before:
                    engine.rights = given
                print(*lines, sep='\n')
                continue
            print(*['ok'] + values, sep=',')
        except Refused as refusal:
            print('refused,%d' % refusal.args[0])
        if 'batch' in fields:
            row = []


if sys.argv[1:] == ['shares']:
    shares()
elif sys.argv[1:] == ['batches']:
    batches()
elif sys.argv[1:] == ['queues']:
    queues()
elif sys.argv[1:] == ['previews']:
    asking('preview', lambda engine, words: listed(engine, 'preview', words))
elif sys.argv[1:] == ['criticals']:
    asking('critical', lambda engine, words: listed(engine, 'critical', words))
elif sys.argv[1:] == ['rights']:
    rights()
elif sys.argv[1:] == ['effects']:
    asking('effect', Engine.read_effect)
elif sys.argv[1:] == ['serial']:
    serial()
else:
    main()
