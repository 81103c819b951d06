#!/usr/bin/env python3
"""seeds.py [ARCHIVE [COUNT]]: plays COUNT seeds (10,000) of each kind of docs/PLANT.md over the static library
(crates/host/out/libhost.a where none is given), COUNT / 50 of kind beyond, and a million steps of kind all, and writes
what came of them to plant/FIGURES.md, from which scripts/figures.py makes the numbers of pages.

Members, ceilings and all else of a run go by its seed: no option fixes them. The kinds are played by turns, in pieces
of 100 seeds, and the page is written after each piece: where this is stopped, it goes on from there the next time,
with the same archive and the same sources. What each piece printed is added to plant/target/seeds/KIND.txt.
Ends with 1 where a run inside the bound failed, or one beyond it without a fork.
"""
import hashlib
import os
import pathlib
import re
import resource
import subprocess
import sys

TOP = pathlib.Path(__file__).resolve().parent.parent
PAGE = TOP / "plant/FIGURES.md"
KINDS = ["beyond", "lossy", "partitions", "crashes", "equivocation", "weights", "guests", "all"]
PIECE = 100
MILLION = "run --kind all --seed 1 --steps 1000000"
COLUMNS = ["kind", "seeds", "failed", "forks", "steps to a failure", "members", "ceilings", "steps",
           "processor seconds", "blocks", "at the ceiling", "most rounds between two blocks", "power failures",
           "places signed twice"]
SAID = re.compile(
    r"^(?P<kind>\w+): (?P<seeds>\d+) runs, (?P<failed>\d+) failed"
    r"(?:, (?P<forks>\d+) by a fork, after (?P<until>\d+ to \d+) steps)?\n"
    r"(?P<members>\d+ to \d+) members, ceilings (?P<ceilings>\d+ to \d+)\n"
    r"(?P<steps>\d+) steps in .*\n"
    r"(?P<blocks>\d+) blocks, .*; (?P<finished>\d+) runs came to the ceiling.*; at most (?P<widest>\d+) rounds .*\n"
    r"(?P<power>\d+) power failures; (?P<split>\d+) places .*\n", re.MULTILINE)


def digest(*paths):
    """The first 8 digits of the sha256 of these files, one after another."""
    return hashlib.sha256(b"".join(path.read_bytes() for path in paths)).hexdigest()[:8]


def sources():
    """The plant's and the package's files, and the engine's version."""
    files = [path for folder in ("plant/src", "bindings/rust/src") for path in (TOP / folder).rglob("*.rs")]
    version = re.search(r'"(.+)"', (TOP / "bindings/rust/src/version.rs").read_text(encoding="utf-8"))
    return digest(*sorted(files)), version[1]


def wider(one, other):
    """Two ranges as one; either may be nothing."""
    ends = [int(end) for text in (one, other) if text for end in text.split(" to ")]
    return f"{min(ends)} to {max(ends)}" if ends else ""


def added(row, piece):
    """A kind's row with a piece's numbers."""
    for name in ("seeds", "failed", "forks", "steps", "blocks", "finished", "power", "split"):
        row[name] = row.get(name, 0) + int(piece[name] or 0)
    for name in ("until", "members", "ceilings"):
        row[name] = wider(row.get(name, ""), piece[name])
    row["widest"] = max(row.get("widest", 0), int(piece["widest"]))
    row["seconds"] = row.get("seconds", 0.0) + piece["seconds"]


ORDER = ["seeds", "failed", "forks", "until", "members", "ceilings", "steps", "seconds", "blocks", "finished", "widest",
         "power", "split"]


def written(head, rows):
    """The page."""
    lines = ["# Runs by seed", "", "By `python3 scripts/seeds.py`: kinds of docs/PLANT.md, seeds from 1 on, no options.",
             "", head, ""]
    lines += ["| " + " | ".join(COLUMNS) + " |", "|---|" + "---:|" * (len(COLUMNS) - 1)]
    for kind, row in rows.items():
        cells = [f"{row[name]:.2f}" if name == "seconds" else str(row[name]) for name in ORDER]
        lines.append("| " + " | ".join([kind, *cells]) + " |")
    PAGE.write_text("\n".join(lines) + "\n", encoding="utf-8")


def read(head):
    """The rows of the page, where it has this head; else none."""
    text = PAGE.read_text(encoding="utf-8") if PAGE.exists() else ""
    if head not in text.splitlines():
        return {}
    cells = [[cell.strip() for cell in line[1:-1].split("|")] for line in text.splitlines() if line.startswith("| ")]
    rows = {}
    for kind, *values in cells[1:]:
        pairs = zip(ORDER, values)
        rows[kind] = {name: value if name in ("until", "members", "ceilings") else
                      float(value) if name == "seconds" else int(value) for name, value in pairs}
    return rows


def play(plant, words):
    """What the plant prints, and the seconds that its process took of a processor."""
    before = resource.getrusage(resource.RUSAGE_CHILDREN)
    said = subprocess.run([plant, *words.split()], stdout=subprocess.PIPE, stderr=subprocess.DEVNULL, text=True, check=False)
    after = resource.getrusage(resource.RUSAGE_CHILDREN)
    seconds = after.ru_utime + after.ru_stime - before.ru_utime - before.ru_stime
    found = SAID.search(said.stdout)
    if not found:
        sys.exit(f"seeds: plant {words} ended with {said.returncode}:\n{said.stdout}")
    return said.stdout, {**found.groupdict(), "seconds": seconds}


def main():
    archive = pathlib.Path(sys.argv[1] if len(sys.argv) > 1 else TOP / "crates/host/out/libhost.a").resolve()
    count = int(sys.argv[2]) if len(sys.argv) > 2 else 10_000
    if not archive.is_file():
        sys.exit(f"seeds: no archive {archive}: run 'cd crates/host && rt lib'")
    target = pathlib.Path(os.environ.get("CARGO_TARGET_DIR", TOP / "plant/target"))
    environment = {**os.environ, "FORGELILAC_ARCHIVE": str(archive), "CARGO_NET_OFFLINE": "true"}
    subprocess.run(["cargo", "build", "-q", "--release", "--locked", "--manifest-path", TOP / "plant/Cargo.toml"],
                   env=environment, check=True)
    plant = str(target / "release/plant")
    digits, version = sources()
    head = f"Archive {digest(archive)} (sha256, the first 8 digits) of version {version}; sources {digits}."
    rows = read(head)
    said = target / "seeds"
    said.mkdir(parents=True, exist_ok=True)
    for old in said.glob("*.txt") if not rows else ():
        old.unlink()
    todo = {kind: count // 50 if kind == "beyond" else count for kind in KINDS}
    while left := [kind for kind in KINDS if rows.get(kind, {}).get("seeds", 0) < todo[kind]]:
        for kind in left:
            row = rows.setdefault(kind, {})
            first = row.get("seeds", 0) + 1
            size = min(PIECE, todo[kind] - first + 1)
            text, piece = play(plant, f"seeds --kind {kind} --from {first} --count {size}")
            with open(said / f"{kind}.txt", "a", encoding="utf-8") as file:
                file.write(f"seeds {first} to {first + size - 1}\n{text}")
            added(row, piece)
            written(head, rows)
        if "a million steps" not in rows:
            added(rows.setdefault("a million steps", {}), play(plant, MILLION)[1])
            written(head, rows)
    wrong = [kind for kind, row in rows.items()
             if (row["forks"] < row["seeds"] if kind == "beyond" else row["failed"] > 0)]
    print(f"seeds: {sum(rows[kind]['seeds'] for kind in KINDS)} runs, wrong in {', '.join(wrong) or 'no kind'}")
    return 1 if wrong else 0


if __name__ == "__main__":
    sys.exit(main())
