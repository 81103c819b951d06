#!/usr/bin/env python3
"""damaged.py RUNNER COUNT [SEED]: compares RUNNER with the reference on COUNT damaged streams.

Each is a stretch of a shuffled stream, from an open on, in which bytes are changed, taken
out or put in, or pieces of it repeated: records that are nearly readable. Stops at the first
difference and leaves that stream in a file of the system's folder for such, which it names; says how much was
compared, and meanwhile, on standard error, how far it is."""
import os
import random
import subprocess
import sys

sys.dont_write_bytecode = True

from telling import Progress, left, number_in, runner_at

PIECES = [
    b",", b"\r\n", b"\r", b"\n", b'"', b" ", b"\x00", b"\xff", b"0", b"00", b"-1", b"+1",
    b"64", b"65", b"1000", b"1001", b"65535", b"65536", b"4294967295", b"4294967296",
    b"B", b"U", b"E", b",B,1,5", b",U,3,0", b",U,3,1", b",E,9,0",
    b"open,", b"propose,", b"endorse,", b"certify,", b"accept,",
    b"advance\r\n", b"commit\r\n", b"chain\r\n", b"\r\r\n", b"\n\r\n", b"x" * 1100,
]


def damage(stretch, chance=random):
    """The stretch with up to a hundred small damages."""
    stream = bytearray(stretch)
    for _ in range(chance.choice([0, 1, 2, 5, 20, 100])):
        at = chance.randrange(len(stream) + 1)
        way = chance.random()
        if way < 0.3:
            stream[at:at + 1] = bytes([chance.randrange(256)])
        elif way < 0.5:
            del stream[at:at + chance.randrange(1, 9)]
        elif way < 0.9:
            stream[at:at] = chance.choice(PIECES)
        else:
            start = chance.randrange(len(stream) + 1)
            stream[at:at] = stream[start:start + chance.randrange(1, 1500)]
    return bytes(stream)


def answers(program, stream):
    done = subprocess.run([program], input=stream, capture_output=True)
    return done.returncode, done.stdout


def main():
    if len(sys.argv) < 3:
        sys.exit(__doc__)
    here = os.path.dirname(os.path.abspath(__file__))
    runner, count = runner_at(sys.argv[1]), number_in(sys.argv[2], "COUNT")
    random.seed(number_in(sys.argv[3], "SEED") if len(sys.argv) > 3 else 1)
    if not os.path.exists(here + "/bin/runner_ref"):
        subprocess.run(["sh", here + "/build.sh"], check=True)
    progress = Progress("damaged.py")
    whole = b"".join(
        subprocess.run([here + "/bin/shuffle", str(seed)], capture_output=True).stdout + b"\r\n"
        for seed in range(1, 101)
    )
    compared = 0
    for number in range(count):
        start = whole.rfind(b"\r\nopen", 0, random.randrange(10, len(whole))) + 2
        stream = damage(whole[start:start + random.randrange(200, 20000)])
        if answers(runner, stream) != answers(here + "/bin/runner_ref", stream):
            kept = left(stream, "damaged")
            sys.exit(f"differs: stream {number}, left in {kept}; in words:\n"
                     f"    forgelilac diff {runner} {here}/bin/runner_ref {kept}")
        compared += len(stream)
        progress.tell(f"{number + 1:,} of {count:,} streams")
    print(f"the same: {count} streams, {compared} bytes in")


if __name__ == "__main__":
    main()
