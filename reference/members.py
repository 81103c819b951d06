#!/usr/bin/env python3
"""members.py RUNNER COUNT [FIRST]: chains of shuffled members compared pairwise.

From seed FIRST (1 if not given) on, COUNT shuffled runs of several members in which the
promise is due: no forged signatures, faulty members within the fault bound, and the settings
of all members equal once filled. RUNNER is given what each correct member was called with. Of
the last listings of any two members of a run one must be a prefix of the other: as many blocks
or more and, block by block, the same lines. Stops at the first pair that parts and leaves the
two streams in parted-1.stream and parted-2.stream; says how much was compared, and how many
runs each margin had."""
import collections
import itertools
import os
import shutil
import subprocess
import sys
import tempfile


def last_listing(answers):
    """The blocks of the last listing, each a list of lines."""
    lines = answers.decode("ascii").split("\r\n")
    if lines[-2:] != ["ok", ""]:
        raise ValueError("a stream must end in an accepted chain")
    blocks = []
    for line in reversed(lines[:-2]):
        if not line[:1].isdigit():
            break
        number = int(line.split(",", 1)[0])
        if not blocks or blocks[0][0] != number:
            blocks.insert(0, (number, []))
        blocks[0][1].insert(0, line)
    if [number for number, _ in blocks] != list(range(1, len(blocks) + 1)):
        raise ValueError("blocks are not numbered from 1")
    return [lines for _, lines in blocks]


BLANKS = [20, 1024, 4] + [1] * 4 + [0] * 12 + [3]


def filled_settings(stream):
    """Those of the open that the stream begins with, the margin last."""
    with open(stream, "rb") as file:
        name, _, *fields = file.readline().decode("ascii").rstrip("\r\n").split(",")
    if name != "open" or len(fields) not in (len(BLANKS) - 1, len(BLANKS)):
        raise ValueError("a stream must begin with an open")
    fields += [""] * (len(BLANKS) - len(fields))
    return [int(field) if field else blank for field, blank in zip(fields, BLANKS)]


def by_round_then_author(block):
    places = [tuple(map(int, line.split(",")[2:4])) for line in block]
    return places == sorted(places)


class Members:
    def __init__(self, runner, folder):
        self.runner, self.folder = runner, folder
        self.shuffle = os.path.join(os.path.dirname(os.path.abspath(__file__)), "bin", "shuffle")
        self.members = self.pairs = self.equal = self.blocks = self.turned = self.void = 0
        self.margins = collections.Counter()

    def streams(self, seed):
        """The streams of a run's correct members, none where the promise is not due."""
        for name in os.listdir(self.folder):
            os.remove(os.path.join(self.folder, name))
        said = subprocess.run([self.shuffle, str(seed), "members", self.folder],
                              capture_output=True, check=True).stdout.strip()
        if said == b"void":
            return None
        return sorted(os.path.join(self.folder, name) for name in os.listdir(self.folder))

    def chain(self, stream):
        with open(stream, "rb") as file:
            done = subprocess.run([self.runner], stdin=file, capture_output=True, check=True)
        return last_listing(done.stdout)

    def run(self, seed):
        """One seed; whether the promise is due there."""
        streams = self.streams(seed)
        if streams is None:
            self.void += 1
            return False
        settings = [filled_settings(stream) for stream in streams]
        if any(other != settings[0] for other in settings):
            sys.exit(f"seed {seed}: members with settings that differ")
        self.margins[settings[0][-1]] += 1
        chains = [(self.chain(stream), stream) for stream in streams]
        self.members += len(chains)
        longest = max((chain for chain, _ in chains), key=len)
        self.blocks += len(longest)
        self.turned += sum(not by_round_then_author(block) for block in longest)
        for (one, stream), (other, beside) in itertools.combinations(chains, 2):
            self.pairs += 1
            self.equal += len(one) == len(other)
            if any(mine != theirs for mine, theirs in zip(one, other)):
                shutil.copy(stream, "parted-1.stream")
                shutil.copy(beside, "parted-2.stream")
                sys.exit(f"parted: seed {seed}, {os.path.basename(stream)} and {os.path.basename(beside)}")
        return True


def main():
    if len(sys.argv) < 3:
        sys.exit(__doc__)
    count, seed = int(sys.argv[2]), int(sys.argv[3]) if len(sys.argv) > 3 else 1
    with tempfile.TemporaryDirectory() as folder:
        members, due = Members(os.path.abspath(sys.argv[1]), folder), 0
        while due < count:
            due += members.run(seed)
            seed += 1
    print(f"none parted: {due} runs, {members.members} members, {members.pairs} pairs of chains, "
          f"{members.equal} of them equally long; {members.blocks} blocks, {members.turned} of them "
          f"not by round, then author; {members.void} runs passed over, where the promise is not due; "
          f"runs by margin: {', '.join(f'{margin}: {runs}' for margin, runs in sorted(members.margins.items()))}")


main()
