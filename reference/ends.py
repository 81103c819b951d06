#!/usr/bin/env python3
"""ends.py RUNNER: how a runner ends where it cannot go on: its status, and its line on standard error.

RUNNER is given a directory as its input, a closed input, one that would have to wait and may not, a full disk (/dev/full) as its
output, a closed output, and a reader that goes away; and, once, an input that comes to its end. Each run must end within some
seconds, with status 1 (0 at the end of the input), with the line that docs/SECOND-SUPPLIER.md has for it ("When lines come, and
how a run ends"), and with no answer but a first part of those that were due: of the first three runs all that were due.
Says how many runs ended so; exits 1 where one did not."""
import os
import re
import subprocess
import sys
import tempfile

PAGE = os.path.join(os.path.dirname(os.path.abspath(__file__)), "..", "docs", "SECOND-SUPPLIER.md")
ROW = re.compile(r"^ *\| (the [^|]*?) \| [^|]* \| `(Error: [^`]*)` \|$", re.M)
PATIENCE = 20           # seconds until a run is taken as one without an end
RECORD, ANSWER = b"advance\r\n", b"refused,1\r\n"       # of a member that is not open
MANY = 400_000          # records whose answers fill every buffer on their way


class Run:
    """A runner with these as its input and output; without one of them it is closed."""

    def __init__(self, program, given, taken):
        closed = [number for number, one in enumerate((given, taken)) if one is None]
        self.process = subprocess.Popen([program], stdin=given, stdout=taken, stderr=subprocess.PIPE,
                                        preexec_fn=lambda: [os.close(number) for number in closed])

    def ended(self):
        """Its status, and what it said on standard error."""
        try:
            _, said = self.process.communicate(timeout=PATIENCE)
        except subprocess.TimeoutExpired:
            self.process.kill()
            self.process.communicate()
            return None, b""
        return self.process.returncode, said


def file_of(folder, records):
    path = os.path.join(folder, "input")
    with open(path, "wb") as file:
        file.write(RECORD * records)
    return open(path, "rb")


def written(program, given, folder):
    """Status, what was said and what was written, of a run into a file."""
    with open(os.path.join(folder, "output"), "w+b") as taken:
        status, said = Run(program, given, taken).ended()
        taken.seek(0)
        return status, said, taken.read()


def at_the_end(program, folder):
    with file_of(folder, 3) as given:
        return *written(program, given, folder), ANSWER * 3


def of_a_directory(program, folder):
    given = os.open(folder, os.O_RDONLY)
    try:
        return *written(program, given, folder), b""
    finally:
        os.close(given)


def of_no_input(program, folder):
    return *written(program, None, folder), b""


def that_would_wait(program, folder):
    """A pipe with a record in it, held open, that does not let its reader wait."""
    given, giving = os.pipe()
    os.set_blocking(given, False)
    os.write(giving, RECORD)
    try:
        return *written(program, given, folder), ANSWER
    finally:
        os.close(given)
        os.close(giving)


def into_a_full_disk(program, folder):
    with file_of(folder, 3) as given, open("/dev/full", "wb") as taken:
        return *Run(program, given, taken).ended(), b"", b""


def into_nothing(program, folder):
    with file_of(folder, 3) as given:
        return *Run(program, given, None).ended(), b"", b""


def to_a_reader_that_goes(program, folder):
    with file_of(folder, MANY) as given:
        run = Run(program, given, subprocess.PIPE)
        came = os.read(run.process.stdout.fileno(), 1)
        run.process.stdout.close()
        run.process.stdout = None
        return *run.ended(), came, ANSWER[:1]


CASES = {
    "the input is a directory": of_a_directory,
    "the input is closed": of_no_input,
    "the input would have to wait, and may not": that_would_wait,
    "the output is a full disk": into_a_full_disk,
    "the output is closed": into_nothing,
    "the reader has gone": to_a_reader_that_goes,
}


def failures(name, expected, found):
    """What is other than the page has it: expected is its line on standard error, none where all is well."""
    status, said, came, due = found
    if status is None:
        yield f"{name}: no end within {PATIENCE} seconds"
        return
    if status != (1 if expected else 0):
        yield f"{name}: status {status}"
    if said.decode(errors="replace") != (expected + "\n" if expected else ""):
        yield f"{name}: standard error has {said!r}, and not {expected!r}"
    if came != due:
        yield f"{name}: {len(came)} bytes came, and not the {len(due)} that were due: {came[:60]!r}"


def main(arguments):
    if len(arguments) != 1:
        print(__doc__.strip())
        return 2
    program = os.path.abspath(arguments[0])
    with open(PAGE, encoding="utf-8") as file:
        lines = dict(ROW.findall(file.read()))
    if lines.keys() != CASES.keys():
        sys.exit(f"ends.py: docs/SECOND-SUPPLIER.md has lines for {', '.join(sorted(lines))}, and there are runs for {', '.join(sorted(CASES))}")
    wrong = []
    with tempfile.TemporaryDirectory() as folder:
        wrong += failures("the input comes to its end", "", at_the_end(program, folder))
        for name, run in CASES.items():
            wrong += failures(name, lines[name], run(program, folder))
    for one in wrong:
        print(f"ends.py: {one}")
    if wrong:
        return 1
    print(f"{1 + len(CASES)} runs, each with its status and its line on standard error")
    return 0


if __name__ == "__main__":
    sys.exit(main(sys.argv[1:]))
