"""What a comparison tells while it runs, and where it leaves what differs."""
import os
import sys
import tempfile
import time

PAUSE = 2       # seconds between two lines, and until the first


class Progress:
    """Lines on standard error of what is done so far, now and then: a short run says nothing."""

    def __init__(self, what):
        self.what, self.told = what, time.monotonic()

    def tell(self, done):
        if time.monotonic() - self.told >= PAUSE:
            self.told = time.monotonic()
            print(f"{self.what}: {done}", file=sys.stderr, flush=True)


def left(data, name):
    """Leaves bytes in a new file of the system's folder for such, and gives its path."""
    handle, path = tempfile.mkstemp(prefix=f"{name}-", suffix=".stream")
    with os.fdopen(handle, "wb") as file:
        file.write(data)
    return path


def runner_at(path):
    """The whole path of a runner that is there; else the program ends and says what to do."""
    if not (os.path.isfile(path) and os.access(path, os.X_OK)):
        sys.exit(f"{os.path.basename(sys.argv[0])}: there is no runner {path}: make it by 'cd crates/runner && rt run < /dev/null'")
    return os.path.abspath(path)


def number_in(word, what):
    """A number that an argument is; else the program ends and says so."""
    if not (word.isascii() and word.isdigit()):
        sys.exit(f"{os.path.basename(sys.argv[0])}: {what} is to be a number, and is {word}")
    return int(word)
