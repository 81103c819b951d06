#!/usr/bin/env python3
"""pieces.py RUNNER [late] [SEED...]: the same lines however the input is cut, and each in time.

The example, the edges, records about as long as may be, and for each SEED (1 to 10 if none is given)
a shuffled stream, damaged stretches of it and stretches that end within a record. RUNNER is given
each of them whole, record by record, in random pieces, with each CR in one piece and its LF in the
next, and, but for most of the stretches, byte by byte. The next piece is given when the runner has
taken in the one before, and only after the lines of all records that have ended by then have come:
a runner that keeps lines back is found out. The rules do not say when lines come: with `late` they
may come at any time. What is expected is written by hand (example, edges) or comes from the reference.
Stops at the first difference and leaves that stream in a file of the system's folder for such, which it names;
says how much was compared, and meanwhile, on standard error, how far it is."""
import fcntl
import glob
import itertools
import os
import random
import re
import select
import subprocess
import sys
import termios
import time
from bisect import bisect_right

sys.dont_write_bytecode = True

from damaged import damage
from telling import Progress, left, number_in, runner_at

HERE = os.path.dirname(os.path.abspath(__file__))
LONGEST = 1024          # bytes of a record, with its CRLF
PATIENCE = 10           # seconds until lines are taken as kept back
DAMAGED, ENDING = 8, 8  # stretches of each seed
OPEN = b"open,0,,64,,1,0,0,0,,,,,,,,,,,,\r\n"


class Different(Exception):
    pass


class Stream:
    """A stream, the lines expected, and where records and their answers end."""

    def __init__(self, name, given, expected=None):
        self.name, self.given = name, given
        self.expected = by_reference(given) if expected is None else expected
        self.ends = [match.end() for match in re.finditer(b"\r\n", given)]
        self.answers = [0] + [match.end() for match in re.finditer(rb"^(ok|refused)[^\n]*\n", self.expected, re.M)]
        self.records = len(self.ends) + (0 if given.endswith(b"\r\n") or not given else 1)
        if self.records != len(self.answers) - 1:
            sys.exit(f"{name}: {self.records} records, {len(self.answers) - 1} answers expected")

    def due(self, at):
        """How many bytes must have come when so many were given, and how many may have."""
        ended = bisect_right(self.ends, at)
        begun = ended + (at > (self.ends[ended - 1] if ended else 0))
        return self.answers[ended], self.answers[begun]


def by_reference(given):
    return subprocess.run([HERE + "/bin/runner_ref"], input=given, stdout=subprocess.PIPE, check=True).stdout


class Runner:
    """A running runner."""

    def __init__(self, program):
        self.process = subprocess.Popen([program], stdin=subprocess.PIPE, stdout=subprocess.PIPE, bufsize=0)
        self.into, self.out_of = self.process.stdin.fileno(), self.process.stdout.fileno()
        os.set_blocking(self.into, False)
        os.set_blocking(self.out_of, False)
        self.came, self.over = bytearray(), False

    def read(self):
        """Takes what lines there are; whether anything happened."""
        try:
            some = os.read(self.out_of, 1 << 16)
        except BlockingIOError:
            return False
        self.came += some
        self.over = self.over or not some
        return True

    def waiting(self):
        """Bytes given that the runner has not taken in."""
        return int.from_bytes(fcntl.ioctl(self.into, termios.FIONREAD, b"\0\0\0\0"), sys.byteorder)

    def give(self, piece, due):
        """Ends once the piece is taken in and so many bytes have come; says what is wrong, if anything."""
        idle, since = 0, time.monotonic()
        while piece or len(self.came) < due or self.waiting():
            moved = len(self.came) < due and self.read()
            if piece:
                try:
                    written = os.write(self.into, piece)
                    piece, moved = piece[written:], True
                except BlockingIOError:
                    pass
                except BrokenPipeError:
                    return "the runner ended before its input"
            if self.over:
                return "the output ended before the input"
            if moved:
                idle, since = 0, time.monotonic()
                continue
            idle += 1
            os.sched_yield()
            if idle > 300:
                self.read()
                select.select([self.out_of], [self.into] if piece else [], [], 0.001)
                if time.monotonic() > since + PATIENCE:
                    return "the input is not taken in" if piece or self.waiting() else "lines are kept back"
        self.read()
        return None

    def end(self):
        """Ends the input; the status."""
        self.process.stdin.close()
        since = time.monotonic()
        while not self.over:
            select.select([self.out_of], [], [], 0.1)
            self.read()
            if time.monotonic() > since + PATIENCE:
                raise Different("the output does not end")
        return self.process.wait(PATIENCE)

    def stop(self):
        """Lets go of a runner; one that goes on is ended."""
        if self.process.poll() is None:
            self.process.kill()
            self.process.wait()
        self.process.stdin.close()
        self.process.stdout.close()


class Comparison:
    def __init__(self, program, late):
        self.program, self.late = program, late
        self.streams = self.runs = self.pieces = self.records = self.given = 0
        self.progress = Progress("pieces.py")

    def feed(self, runner, stream, cuts):
        at = compared = 0
        for cut in [*cuts, len(stream.given)]:
            due, most = stream.due(cut)
            failure = runner.give(stream.given[at:cut], 0 if self.late else due)
            at, came = cut, len(runner.came)
            if runner.came[compared:] != stream.expected[compared:came]:
                failure = "other lines"
            elif came > most:
                failure = "an answer before its record"
            if failure:
                raise Different(f"{failure}, {at} bytes given")
            compared = came
        status = runner.end()
        if runner.came != stream.expected:
            raise Different("other lines at the end of the input")
        if status != 0:
            raise Different(f"status {status}")

    def compare(self, stream, ways):
        self.streams += 1
        for way, cuts in ways:
            cuts = sorted({cut for cut in cuts if 0 < cut < len(stream.given)})
            runner = Runner(self.program)
            try:
                self.feed(runner, stream, cuts)
            except Different as difference:
                path = left(stream.given, "pieces")
                sys.exit(f"differs: {stream.name}, {way}: {difference}; the stream is left in {path}")
            finally:
                runner.stop()
            self.runs += 1
            self.pieces += len(cuts) + 1
            self.records += stream.records
            self.given += len(stream.given)
            self.progress.tell(f"{self.runs:,} ways, now {stream.name}")


# ---- where streams are cut

def by_chance(chance, size):
    """Cuts into pieces of lengths by chance, from one byte to more than a runner's buffer may hold."""
    cuts, at = [], 0
    most = chance.choice([2, 40, 1500, 5000, 100_000])
    while at < size:
        at += chance.randint(1, most if chance.random() < 0.9 else 2)
        cuts.append(at)
    return cuts


def ways(stream, chance, bytewise):
    size = len(stream.given)
    yield "whole", []
    yield "record by record", stream.ends
    yield "CR and LF apart", [end - 1 for end in stream.ends]
    yield "about each CRLF", [end - back for end in stream.ends for back in (0, 1, 2) if chance.random() < 0.6]
    for number in (1, 2, 3):
        yield f"random pieces {number}", by_chance(chance, size)
    if bytewise:
        yield "byte by byte", range(1, size)


# ---- the streams

def stored():
    for name in ["example"] + sorted(path[len(HERE) + 1:-7] for path in glob.glob(HERE + "/edges/*.stream")):
        with open(f"{HERE}/{name}.stream", "rb") as given, open(f"{HERE}/{name}.expected", "rb") as expected:
            yield Stream(name, given.read(), expected.read())


def records_of(length):
    """Records of a length with their CRLF: readable but for it, and spoilt towards the end."""
    triples = b"propose,0" + b",E,1,0" * ((length - 19) // 6)
    readable = triples + b",E," + b"1" * (length - len(triples) - 7) + b",0"
    for text in (readable, readable[:-1] + b"\r", readable[:-1] + b"\n", readable[:-1] + b'"', readable[:-3] + b"\r\r\r"):
        yield text + b"\r\n"


def longest():
    """Records of about the longest, each with every choice of cuts about its CRLF and about the bound."""
    given, cuts = OPEN, [len(OPEN)]
    for length in [*range(LONGEST - 2, LONGEST + 4), 2 * LONGEST - 1, 2 * LONGEST, 2 * LONGEST + 1]:
        places = sorted({length - 2, length - 1, LONGEST - 1, LONGEST, LONGEST + 1})
        for record in records_of(length):
            for chosen in itertools.product([False, True], repeat=len(places)):
                cuts += [len(given) + place for place, cut in zip(places, chosen) if cut and place <= length]
                given += record
                cuts += [len(given)] if chosen[0] else []
    return Stream("longest records", given), [("cuts about CRLF and bound", cuts)]


def unended():
    """Input that ends within a record of about the longest, with and without a cut just before the end."""
    for length in range(LONGEST - 2, LONGEST + 4):
        for record, back in itertools.product(records_of(length), (1, 2, 3)):
            stream = Stream(f"{length} bytes, the last {back} not given", OPEN + record[:-back])
            yield stream, [("whole", []), ("a cut before the end", [len(OPEN), len(stream.given) - 1])]


def of_seed(seed, chance):
    """(stream, whether it is given byte by byte too)."""
    shuffled = subprocess.run([HERE + "/bin/shuffle", str(seed)], stdout=subprocess.PIPE, check=True).stdout
    yield Stream(f"seed {seed}", shuffled), True
    opens = [match.start() for match in re.finditer(rb"^open,", shuffled, re.M)] or [0]
    for number in range(DAMAGED):
        start = chance.choice(opens)
        stretch = shuffled[start:start + chance.randrange(200, 8000)]
        yield Stream(f"seed {seed}, damaged {number}", damage(stretch, chance)), number < 2
    ends = [match.end() for match in re.finditer(b"\r\n", shuffled)]
    for number in range(ENDING):
        end = chance.choice(ends[:400])
        stop = end - (1 + number % 2) if number < ENDING // 2 else end + chance.randrange(1, 20)
        yield Stream(f"seed {seed}, ended at {stop}", shuffled[:stop]), number == 0


def main():
    if len(sys.argv) < 2:
        sys.exit(__doc__)
    words = sys.argv[2:]
    seeds = [number_in(word, "SEED") for word in words if word != "late"] or list(range(1, 11))
    if not os.path.exists(HERE + "/bin/runner_ref"):
        subprocess.run(["sh", HERE + "/build.sh"], check=True)
    comparison = Comparison(runner_at(sys.argv[1]), "late" in words)
    chance = random.Random(seeds[0])
    for stream in stored():
        comparison.compare(stream, ways(stream, chance, True))
    comparison.compare(*longest())
    for stream, cuts in unended():
        comparison.compare(stream, cuts)
    for seed in seeds:
        chance = random.Random(seed)
        for stream, bytewise in of_seed(seed, chance):
            comparison.compare(stream, ways(stream, chance, bytewise))
    print(f"the same: {comparison.streams} streams given in {comparison.runs} ways, {comparison.pieces} pieces, "
          f"{comparison.records} records, {comparison.given} bytes in"
          + ("" if comparison.late else "; each record answered before more was given"))


if __name__ == "__main__":
    main()
