"""register.py [--members] STREAM ANSWERS, or register.py [--members] [--lookback L] --weights W,W,... LISTING:
the register of weights of a chain, as plant owners keep it.

STREAM is what a runner was given, its records ended by CRLF, ANSWERS what it said. The stream ends in
an accepted `chain`; only records that were refused may follow. Starting weights and lookback are those
of its last accepted open, and all blocks that commits made since must be listed. Or LISTING is a
listing alone, up to its `ok`, and the weights are those of the sheet, member 0 first; blank or left out
they are what a blank means. Whether it has all blocks cannot be told then.
First a line for each block: what it bonds, what it releases, the total after it, and the round from
which on it counts: committees have that total from there on until the next one counts. Starting weights
count from round 1. Then a line for each member whose weight was bonded to or released.
--members: also what each block bonds to and releases of each member.
An unbond releases the member's bonds since its previous unbond, plus its starting weight if there was
no previous one. That is told from the transactions in their order, and from no committee.
What cannot be read, or is in no order that a chain has, is told with its line or block; status 1.
"""
import argparse
import re
import sys
from collections import namedtuple

BLANK_WEIGHTS, BLANK_LOOKBACK = [1] * 4 + [0] * 12, 20
NUMBER = re.compile(r"0|[1-9][0-9]{0,9}")
Block = namedtuple("Block", "number round places transactions")
Movement = namedtuple("Movement", "bonded released")


def number_of(field, low, high, what):
    if not NUMBER.fullmatch(field) or not low <= int(field) <= high:
        raise ValueError(f"{what} is {field!r}, not a number from {low} to {high}")
    return int(field)


# ---- reading

def transaction_of(kind, number, amount):
    """Kind, member or number, amount."""
    if kind == "B":
        return kind, number_of(number, 0, 15, "a bond's member"), number_of(amount, 1, 1000, "a bond's amount")
    if kind == "U":
        return kind, number_of(number, 0, 15, "an unbond's member"), number_of(amount, 0, 0, "an unbond's amount")
    if kind == "E":
        return kind, number_of(number, 0, 2**32 - 1, "an entry"), number_of(amount, 0, 0, "an entry's amount")
    raise ValueError(f"{kind!r} is neither B, U nor E")


def take_line(blocks, line):
    """A line of a listing, onto the blocks before it; its round and author."""
    fields = line.split(",")
    if len(fields) < 4 or len(fields) % 3 != 1:
        raise ValueError("not a certificate of a listing: block, block round, round, author, triples")
    if len(fields) > 16:
        raise ValueError("a certificate has four transactions at most")
    number = number_of(fields[0], 1, 511, "the block")
    block_round = number_of(fields[1], 2, 1022, "the block's round")
    place = number_of(fields[2], 1, block_round, "the round"), number_of(fields[3], 0, 15, "the author")
    transactions = [transaction_of(*fields[at:at + 3]) for at in range(4, len(fields), 3)]
    last = blocks[-1] if blocks else Block(0, 0, [], [])
    if number == last.number + 1:
        if block_round % 2 or block_round <= last.round:
            raise ValueError(f"block {number} of round {block_round} after one of round {last.round}: block rounds are even and rise")
        blocks.append(Block(number, block_round, [place], transactions))
    elif blocks and number == last.number:
        if block_round != last.round:
            raise ValueError(f"block {number} has round {last.round} and round {block_round}")
        last.places.append(place)
        last.transactions.extend(transactions)
    else:
        raise ValueError(f"block {number} after block {last.number}")
    return place


def see_order(block):
    """In order: rounds rise, within a round numbers rise from the author of the anchor, with 0 after 15. The anchor is the
    one certificate of the block's round, so it is the last."""
    anchors = [author for round, author in block.places if round == block.round]
    if len(anchors) != 1:
        raise ValueError(f"block {block.number} has {len(anchors)} certificates of its own round, {block.round}; one, the anchor, is right")
    turns = [(round, (author - anchors[0]) % 16) for round, author in block.places]
    if turns != sorted(turns):
        raise ValueError(f"block {block.number} is not in the order of a chain")


def blocks_of(lines):
    """The blocks of a listing, (line number, line) each."""
    blocks, seen = [], {}
    for at, line in lines:
        try:
            place = take_line(blocks, line)
            if place in seen:
                raise ValueError(f"author {place[1]} has its certificate of round {place[0]} in line {seen[place]} already")
        except ValueError as error:
            raise ValueError(f"line {at}: {error}") from None
        seen[place] = at
    for block in blocks:
        see_order(block)
    return blocks


def lines_of(text):
    """(line number, line), whether they end in CRLF or in LF."""
    try:
        lines = text.decode("ascii").replace("\r\n", "\n").split("\n")
    except UnicodeDecodeError:
        raise ValueError("not a runner's lines: a byte that is not ASCII") from None
    return list(enumerate(lines[:-1] if lines[-1] == "" else lines, 1))


def listing_of(text):
    """The lines of a listing alone."""
    lines = lines_of(text)
    if not lines or lines[-1][1] != "ok":
        raise ValueError("a listing ends in ok")
    return lines[:-1]


def weights_of(fields):
    fields = list(fields) + [""] * (16 - len(fields))
    if len(fields) > 16:
        raise ValueError("there are sixteen weights at most")
    weights = [number_of(field, 0, 1000000, f"the weight of member {member}") if field else BLANK_WEIGHTS[member]
               for member, field in enumerate(fields)]
    if not any(weights):
        raise ValueError("the weights are all 0: no such sheet is opened")
    return weights


def lookback_of(field):
    return number_of(field, 1, 1000, "the lookback") if field else BLANK_LOOKBACK


def answered(records, answers):
    """Each record, the lines that it listed, its answer. Only chain lists, and only commit is told a number."""
    lines = iter(lines_of(answers))
    for record in records:
        listed = []
        for at, line in lines:
            if re.fullmatch(r"ok(,[1-9][0-9]{0,2})?|refused,[0-9]+", line):
                break
            listed.append((at, line))
        else:
            raise ValueError("fewer answers than records: the answers are not those to this stream")
        if listed and (record != b"chain" or line != "ok"):
            raise ValueError(f"line {listed[0][0]}: listed by a record that is not an accepted chain, or no answer of a runner")
        if line.startswith("ok") and ("," in line) != (record == b"commit"):
            raise ValueError(f"line {at}: {line} is no answer to {record[:20].decode('latin-1')!r}")
        yield record, listed, line
    if next(lines, None):
        raise ValueError("more answers than records: the answers are not those to this stream")


def run_of(stream, answers):
    """Starting weights, lookback and the blocks of a stream that ends in an accepted chain."""
    if b"\r\n" not in stream:
        raise ValueError("records end in CRLF, and in the stream there is none")
    records = stream.split(b"\r\n")
    opened, listing, made = None, None, 0
    for record, listed, answer in answered(records[:-1] if records[-1] == b"" else records, answers):
        if answer.startswith("refused"):
            continue
        name, *fields = record.decode("latin-1").split(",")
        if name == "open":
            opened, made = fields, 0
        elif name == "commit":
            made += int(answer[3:])
        listing = listed if name == "chain" else None
    if opened is None or listing is None:
        raise ValueError("the stream must end in an accepted chain")
    if len(opened) not in (20, 21):
        raise ValueError("the last accepted open is no record of one")
    blocks = blocks_of(listing)
    if len(blocks) != made:
        raise ValueError(f"not the whole chain: {len(blocks)} blocks are listed, commits since the last accepted open made {made}")
    return weights_of(opened[4:20]), lookback_of(opened[1]), blocks


# ---- the register

class Register:
    """Starting weights, and what each block bonds to each member and releases of it."""

    def __init__(self, starting, blocks):
        self.starting, self.blocks = starting, blocks
        self.since = {}         # of a member with an unbond: its bonds since the last one
        self.bonds = {}         # of a member without: its bonds
        self.moves = [self.moves_of(block.transactions) for block in blocks]

    def releases(self, member):
        """What an unbond releases at this place in the chain."""
        if member in self.since:
            return self.since[member]
        return self.starting[member] + self.bonds.get(member, 0)

    def moves_of(self, transactions):
        moves = {}
        for kind, member, amount in transactions:
            if kind == "E":
                continue
            before = moves.get(member, Movement(0, 0))
            if kind == "B":
                kept = self.since if member in self.since else self.bonds
                kept[member] = kept.get(member, 0) + amount
                moves[member] = Movement(before.bonded + amount, before.released)
            else:
                moves[member] = Movement(before.bonded, before.released + self.releases(member))
                self.since[member] = 0
        return moves

    def moved(self, member=None, blocks=None):
        """All that the first blocks, or all of them, bond and release, of one member or of all."""
        some = [move for moves in self.moves[:blocks] for one, move in moves.items() if member in (None, one)]
        return Movement(sum(move.bonded for move in some), sum(move.released for move in some))

    def weight(self, member, blocks=None):
        """After the first blocks: the starting weight plus all bonded less all released."""
        bonded, released = self.moved(member, blocks)
        return self.starting[member] + bonded - released

    def total(self, blocks=None):
        bonded, released = self.moved(None, blocks)
        return sum(self.starting) + bonded - released

    def movers(self):
        return [member for member in range(16) if any(self.moved(member))]


def table(heading, rows):
    rows = [heading] + [[f"{cell:,}" if isinstance(cell, int) else cell for cell in row] for row in rows]
    widths = [max(len(row[column]) for row in rows) for column in range(len(heading))]
    return "".join("  ".join(cell.rjust(width) for cell, width in zip(row, widths)).rstrip() + "\n" for row in rows)


def by_block(register, lookback):
    rows = [["start", "", "", "", sum(register.starting), 1]]
    for at, (block, moves) in enumerate(zip(register.blocks, register.moves), 1):
        bonded, released = (sum(part) for part in zip(Movement(0, 0), *moves.values()))
        rows.append([block.number, block.round, bonded, released, register.total(at), lookback + block.round + 1])
    rows.append(["all", "", *register.moved(), register.total(), ""])
    return table(["block", "round", "bonded", "released", "total", "counts from"], rows)


def by_member(register):
    movers = register.movers()
    rows = [[member, register.starting[member], *register.moved(member), register.weight(member)] for member in movers]
    others = sum(weight for member, weight in enumerate(register.starting) if member not in movers)
    rows += [["others", others, 0, 0, others], ["all", sum(register.starting), *register.moved(), register.total()]]
    return table(["member", "starting", "bonded", "released", "weight"], rows)


def by_both(register):
    rows = [[block.number, block.round, member, *move, register.weight(member, at)]
            for at, (block, moves) in enumerate(zip(register.blocks, register.moves), 1)
            for member, move in sorted(moves.items()) if any(move)]
    return table(["block", "round", "member", "bonded", "released", "weight"], rows)


def main():
    parser = argparse.ArgumentParser(description=__doc__, formatter_class=argparse.RawDescriptionHelpFormatter, usage=argparse.SUPPRESS)
    parser.add_argument("--members", action="store_true")
    parser.add_argument("--weights", metavar="W,W,...")
    parser.add_argument("--lookback", default="", metavar="L")
    parser.add_argument("paths", nargs="*")
    options = parser.parse_args()
    alone = options.weights is not None
    if len(options.paths) != (1 if alone else 2) or options.lookback and not alone:
        sys.exit(__doc__)
    try:
        texts = [open(path, "rb").read() for path in options.paths]
        if alone:
            run = weights_of(options.weights.split(",")), lookback_of(options.lookback), blocks_of(listing_of(*texts))
        else:
            run = run_of(*texts)
    except (ValueError, OSError) as error:
        sys.exit(f"register.py: {error}")
    starting, lookback, blocks = run
    register = Register(starting, blocks)
    parts = [by_block(register, lookback), by_member(register)] + ([by_both(register)] if options.members else [])
    sys.stdout.write("\n".join(parts))


if __name__ == "__main__":
    main()
