#!/usr/bin/env python3
"""margins.py [write]: members whose margins differ part, though all of them are correct.

Two small runs, told in margins/README.md. Nobody is faulty, and all settings but the margin
are equal: every certificate is proposed, endorsed and certified by calls of the run. With
`write` the stream of each member and what the reference answers go to margins/. Then, with
runner_ref and with naive.py:

- the stored streams are those of the runs, and the stored answers are given;
- with the margins of the run two of its chains part: neither is a prefix of the other;
- with margin 3 for all, and with margin 5 for all, the same calls give chains that do not
  part. A certificate that is not made there is not handed on either.

Says the rounds of the blocks of each chain. (build.sh first)"""
import itertools
import os
import subprocess
import sys

HERE = os.path.dirname(os.path.abspath(__file__))
RUNNERS = [[HERE + "/bin/runner_ref"], [sys.executable, HERE + "/naive.py"]]


def number(members):
    return sum(1 << member for member in members)


class Run:
    """A list of calls, each of one member, in the order in which they are made."""

    def __init__(self, name, weights, margins):
        self.name, self.weights, self.margins = name, weights, margins
        self.members = range(len(margins))
        self.calls, self.made = [], {}

    def call(self, member, record):
        self.calls.append((member, record))

    def make(self, author, round_number, previous, endorsers):
        """The author proposes, the endorsers endorse, the author certifies."""
        names = number(previous)
        self.made[author, round_number] = (names, number(endorsers))
        self.call(author, f"propose,{names}")
        for member in sorted(endorsers):
            self.call(member, f"endorse,{author},{round_number},{names}")
        self.call(author, f"certify,{number(endorsers)}")

    def reaches(self, author, round_number, members):
        """A certificate that was made comes to these members."""
        names, endorsers = self.made[author, round_number]
        for member in sorted(members):
            self.call(member, f"accept,{author},{round_number},{names},{endorsers}")

    def round(self, round_number, authors, previous):
        """Each of the authors makes a certificate, with the others; it reaches them."""
        for author in sorted(authors):
            self.make(author, round_number, previous, authors - {author})
            self.reaches(author, round_number, authors - {author})

    def all(self, members, record):
        for member in sorted(members):
            self.call(member, record)

    def open(self, member, margins):
        weights = ",".join(self.weights + [""] * (16 - len(self.weights)))
        return f"open,{member},,64,,{weights},{margins[member]}"

    def stream(self, member, margins, left_out=()):
        own = [record for at, (who, record) in enumerate(self.calls) if who == member and at not in left_out]
        return [self.open(member, margins)] + own + ["chain"]


def four():
    """Four members of weight 1, the second with margin 5. What it certifies comes late."""
    run = Run("four", [], [3, 5, 3, 3])
    everybody, slow, others = {0, 1, 2, 3}, 1, {0, 2, 3}
    run.round(1, everybody, set())
    run.all(everybody, "advance")
    for author in sorted(everybody):
        run.make(author, 2, everybody, everybody - {author})
    for author in sorted(others):
        run.reaches(author, 2, everybody - {author})
    run.all(everybody, "advance")
    run.round(3, others, others)
    run.reaches(slow, 2, others)
    run.make(slow, 3, everybody, others)
    run.call(slow, "commit")
    run.all(others, "advance")
    run.round(4, others, others)
    run.reaches(slow, 3, others)
    run.all(others, "advance")
    run.round(5, others, others)
    run.all(others, "commit")
    for round_number in (3, 4, 5):
        for author in sorted(others):
            run.reaches(author, round_number, {slow})
        if round_number < 5:
            run.call(slow, "advance")
    run.call(slow, "commit")
    return run, {"mixed": [[4], [2], [4], [4]], 3: [[4]] * 4, 5: [[2]] * 4}


def three():
    """Members of weights 1, 1 and 5, the first with margin 5. Nothing is refused that tells of it."""
    run = Run("three", ["1", "1", "5", "0"], [5, 3, 3])
    everybody = {0, 1, 2}
    run.round(1, everybody, set())
    run.all(everybody, "advance")
    for author in sorted(everybody):
        run.make(author, 2, everybody, everybody - {author})
    run.reaches(0, 2, {1, 2})
    run.reaches(1, 2, {0})
    run.reaches(2, 2, {0, 1})
    run.all(everybody, "advance")
    run.make(2, 3, {0, 2}, {0, 1})
    run.reaches(2, 3, {0, 1})
    run.reaches(1, 2, {2})
    run.make(0, 3, everybody, {1, 2})
    run.reaches(0, 3, {1})
    run.make(1, 3, everybody, {0, 2})
    run.reaches(1, 3, {0})
    run.all({0, 1}, "commit")
    run.call(2, "advance")
    run.make(2, 4, {2}, {1})
    run.reaches(2, 4, {0, 1})
    run.reaches(0, 3, {2})
    run.reaches(1, 3, {2})
    run.all({0, 1}, "advance")
    for author in (0, 1):
        run.make(author, 4, everybody, everybody - {author})
        run.reaches(author, 4, everybody - {author})
    run.all(everybody, "advance")
    run.round(5, everybody, everybody)
    run.all(everybody, "commit")
    return run, {"mixed": [[2, 4], [4], [4]], 3: [[4]] * 3, 5: [[2], [2], []]}


# ---- answers

def answers(runner, records):
    given = "".join(record + "\r\n" for record in records).encode("ascii")
    said = subprocess.run(runner, input=given, stdout=subprocess.PIPE, check=True).stdout.decode("ascii")
    return said


def unmade(run, left_out, said):
    """The first call that takes in a certificate which is not made: its author has no accepted
    propose of it, or an endorser no accepted endorse."""
    lines = {member: iter(said[member].split("\r\n")[1:]) for member in run.members}
    rounds, proposals, endorsed = dict.fromkeys(run.members, 1), {}, set()
    for at, (member, record) in enumerate(run.calls):
        if at in left_out:
            continue
        name, *fields = record.split(",")
        if next(lines[member]).split(",")[0] != "ok":
            continue
        fields = list(map(int, fields))
        if name == "propose":
            proposals[member, rounds[member]] = fields[0]
        elif name == "endorse":
            endorsed.add((member, *fields))
        elif name == "advance":
            rounds[member] += 1
        elif name in ("certify", "accept"):
            if name == "certify":
                author, round_number, endorsers = member, rounds[member], fields[0]
                names = proposals[member, round_number]
            else:
                author, round_number, names, endorsers = fields
            signed = all((one, author, round_number, names) in endorsed
                         for one in run.members if endorsers >> one & 1)
            if proposals.get((author, round_number)) != names or not signed:
                return at
    return None


def played(runner, run, margins):
    """What each member is answered, and the calls left out for want of a certificate."""
    left_out = set()
    while True:
        said = [answers(runner, run.stream(member, margins, left_out)) for member in run.members]
        at = unmade(run, left_out, said)
        if at is None:
            return said, left_out
        left_out.add(at)


def blocks(said):
    """The listing, block by block; nothing else is a line of numbers."""
    listing = [line for line in said.split("\r\n") if line[:1].isdigit()]
    return [list(lines) for _, lines in itertools.groupby(listing, key=lambda line: line.split(",")[0])]


def part(one, other):
    return any(mine != theirs for mine, theirs in zip(one, other))


def rounds_of(chain):
    return [int(block[0].split(",")[1]) for block in chain]


# ---- the checks

def path(run, member, kind):
    return f"{HERE}/margins/{run.name}-{member}.{kind}"


def write(run):
    for member in run.members:
        records = run.stream(member, run.margins)
        with open(path(run, member, "stream"), "w", newline="") as file:
            file.write("".join(record + "\r\n" for record in records))
        with open(path(run, member, "expected"), "w", newline="") as file:
            file.write(answers(RUNNERS[0], records))


def stored(run, member, kind):
    with open(path(run, member, kind), newline="") as file:
        return file.read()


def check(runner, run, expected):
    said, left_out = played(runner, run, run.margins)
    if left_out:
        sys.exit(f"{run.name}: calls take in certificates that are not made: {sorted(left_out)}")
    for member in run.members:
        records = "".join(record + "\r\n" for record in run.stream(member, run.margins))
        if (stored(run, member, "stream"), stored(run, member, "expected")) != (records, said[member]):
            sys.exit(f"{run.name}: member {member}: other than the stored ones")
    cases = {"mixed": said}
    for margin in (3, 5):
        cases[margin] = played(runner, run, [margin] * len(run.margins))[0]
    for case, answered in cases.items():
        chains = [blocks(one) for one in answered]
        parted = [pair for pair in itertools.combinations(run.members, 2) if part(*(chains[m] for m in pair))]
        if bool(parted) != (case == "mixed") or [rounds_of(chain) for chain in chains] != expected[case]:
            sys.exit(f"{run.name}, margins {case}: {[rounds_of(chain) for chain in chains]}, parted {parted}")
        yield case, chains, parted


def main():
    os.makedirs(HERE + "/margins", exist_ok=True)
    for run, expected in (four(), three()):
        if sys.argv[1:] == ["write"]:
            write(run)
        found = [list(check(runner, run, expected)) for runner in RUNNERS]
        if any(other != found[0] for other in found):
            sys.exit(f"{run.name}: the two writings differ")
        for case, chains, parted in found[0]:
            margins = run.margins if case == "mixed" else [case] * len(run.margins)
            rounds = "; ".join(f"member {m}: {' '.join(map(str, rounds_of(chain))) or 'none'}"
                               for m, chain in enumerate(chains))
            print(f"{run.name}, margins {margins}: block rounds {rounds}: "
                  + (f"parted: {', '.join(f'{a} and {b}' for a, b in parted)}" if parted else "none part"))


main()
