"""damaged.py TOOL COUNT [SEED]: of COUNT damaged streams, the records that `TOOL check` tells to be unreadable are those
that the reference answers 24. The streams are those of reference/damaged.py."""
import os
import random
import re
import subprocess
import sys
import tempfile

sys.dont_write_bytecode = True      # leave no folder beside the sources
TOP = os.path.normpath(os.path.join(os.path.dirname(os.path.abspath(__file__)), "..", "..", ".."))
sys.path.insert(0, os.path.join(TOP, "reference"))

from damaged import damage


def said(*words, stream=b""):
    return subprocess.run(words, input=stream, capture_output=True).stdout


def main():
    tool, count = sys.argv[1], int(sys.argv[2])
    random.seed(int(sys.argv[3]) if len(sys.argv) > 3 else 1)
    shuffle, reference = (os.path.join(TOP, "reference", "bin", name) for name in ("shuffle", "runner_ref"))
    whole = b"".join(said(shuffle, str(seed)) + b"\r\n" for seed in range(1, 21))
    unreadable = 0
    with tempfile.TemporaryDirectory() as folder:
        for number in range(count):
            start = whole.rfind(b"\r\nopen", 0, random.randrange(10, len(whole))) + 2
            stream = damage(whole[start:start + random.randrange(200, 20000)])
            path = os.path.join(folder, "stream")
            with open(path, "wb") as file:
                file.write(stream)
            told = re.findall(r"^record (\d+) \(.*\) cannot be read: ", said(tool, "check", path).decode("latin-1"), re.M)
            answers = [line for line in said(reference, stream=stream).split(b"\r\n") if line.startswith((b"ok", b"refused"))]
            wanted = [str(at) for at, answer in enumerate(answers, 1) if answer == b"refused,24"]
            if told != wanted:
                sys.exit(f"stream {number}: told are {told}, and the reference answers 24 to {wanted}")
            unreadable += len(told)
    print(f"tool: of {count} damaged streams it tells the {unreadable} records that the reference answers 24")


if __name__ == "__main__":
    main()
