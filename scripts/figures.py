#!/usr/bin/env python3
"""figures.py [--write]: the numbers that pages tell, made from what they are numbers of.

Each entry of PAGES is a piece of a page's text with its numbers as expressions in braces. Without --write it says which
piece is not on its page as it would be made today, and ends with 1; with --write it puts the numbers there.
Times come of bench/FIGURES.md, which `sh bench/run.sh` writes, and runs of whole plants of plant/FIGURES.md, which
`python3 scripts/seeds.py` writes; counts and lengths of the code itself.
What scripts/pages.py runs, docs/TRUST.md and README.md's lines of specs/ (tools/trust) have commands of their own.
"""
import pathlib
import re
import statistics
import sys

TOP = pathlib.Path(__file__).resolve().parent.parent
WORDS = ("none one two three four five six seven eight nine ten eleven twelve thirteen fourteen fifteen sixteen seventeen "
         "eighteen nineteen twenty").split()


def text(path):
    return (TOP / path).read_text(encoding="utf-8")


# ---- bench/FIGURES.md


def tables():
    """Each section's rows, as a list of cells."""
    found, section = {}, None
    for line in text("bench/FIGURES.md").splitlines():
        if line.startswith("## "):
            section = found.setdefault(line[3:], [])
        elif line.startswith("| ") and section is not None:
            section.append([cell.strip() for cell in line.strip("| \n").split("|")])
    return found


FIGURES = tables()


def row(section, *first):
    """The row of a section whose cells have these at their places: (place, text) each."""
    fits = [cells for cells in FIGURES[section] if all(cells[at] == said for at, said in first)]
    if len(fits) != 1:
        sys.exit(f"figures: bench/FIGURES.md, {section}: {len(fits)} rows of {first}")
    return fits[0]


def by_call(call, state, ceiling):
    return row(f"Ceiling {ceiling}", (0, call), (1, state))


def rounded(number, small=1):
    """Three digits at most: 2.5, 10, 166."""
    return f"{number:.{small}f}" if number < 10 else f"{number:,.0f}"


def span(numbers, small=1):
    """One number, or the least and the largest of several."""
    least, most = rounded(min(numbers), small), rounded(max(numbers), small)
    return least if least == most else f"{least} to {most}"


def us(calls, ceiling, state="full"):
    """Microseconds of these calls of the engine, the least and the most."""
    return span([int(by_call(call, state, ceiling)[4]) / 1000 for call in calls.split("; ")])


def times_plain(calls, state="full"):
    """How many times plain Rust these calls take, over all ceilings."""
    return span([int(cells[4]) / int(cells[5]) for ceiling in (64, 256, 1024)
                 for call in calls.split("; ") for cells in [by_call(call, state, ceiling)]])


def batch(ceiling, by, column, state="full"):
    """Of 64 certificates: 4 is one batch, 5 the accepts, both in microseconds."""
    cells = row("64 certificates, one batch or 64 accepts", (0, str(ceiling)), (1, state), (3, by))
    return float(cells[column])


def batch_ms(ceiling, by):
    return f"{batch(ceiling, by, 5) / 1000:.1f}"


def batch_times(ceiling):
    return f"{batch(ceiling, 'engine', 5) / batch(ceiling, 'engine', 4):.0f}"


def growth(calls):
    """What one more held certificate adds, in nanoseconds."""
    return span([float(row("Growth with held certificates, ceiling 1024", (0, call), (1, "engine"))[7])
                 for call in calls.split("; ")], 0)


def round_of_sixteen(ceiling):
    """A propose, 15 endorses, a certify, 15 accepts, an advance and half a commit, in milliseconds."""
    ns = lambda call: int(by_call(call, "full", ceiling)[4])
    whole = ns("propose") + 15 * ns("endorse") + ns("certify") + 15 * ns("accept") + ns("advance") + ns("commit, one block") / 2
    return rounded(whole / 1_000_000)


def owners(ceiling):
    """The rows of a ceiling under "Owner's calls", by call and state."""
    found, inside = {}, False
    for line in text("bench/FIGURES.md").splitlines():
        if line.startswith("#"):
            inside = line == f"### Ceiling {ceiling}"
        elif inside and line.startswith("| "):
            cells = [cell.strip() for cell in line.strip("| \n").split("|")]
            found[cells[0], cells[1]] = cells
    return found


OWNERS = owners(1024)


def owned(calls, by=3):
    """Nanoseconds of these calls of an owner on a full state of ceiling 1,024: 3 by the engine, 4 by plain Rust."""
    numbers = [int(OWNERS[call, "full"][by]) for call in calls.split("; ")]
    least, most = f"{min(numbers):,}", f"{max(numbers):,}"
    return least if least == most else f"{least} to {most}"


def owners_line(name, calls):
    """A line of docs/PERFORMANCE.md's table of owner's calls."""
    return ("docs/PERFORMANCE.md", f"| {name} | {{owned({calls!r})}} | {{owned({calls!r}, 4)}} |")


def quarters(call):
    """Nanoseconds of an owner's call in each quarter of a whole run."""
    numbers = [int(cells[2]) for cells in FIGURES["Owner's calls"] if cells[0] == call and " to " in cells[1]]
    return f"{min(numbers):,} to {max(numbers):,}"


def least_to_most(numbers, digits):
    """One number, or two, of so many digits behind the point."""
    least, most = f"{min(numbers):,.{digits}f}", f"{max(numbers):,.{digits}f}"
    return least if least == most else f"{least} to {most}"


def ratios(calls, state, over=5, digits=2):
    """How many times plain Rust (5) or the floor (6) these calls take, over all ceilings."""
    return least_to_most([int(cells[4]) / int(cells[over]) for ceiling in (64, 256, 1024)
                          for call in calls.split("; ") for cells in [by_call(call, state, ceiling)]], digits)


def chosen(section, column, digits, **first):
    """The numbers of a column in the rows of a section that have these words at these places (`c1` is the second)."""
    places = [(int(place[1:]), said) for place, said in first.items()]
    return least_to_most([float(cells[column]) for cells in FIGURES[section][2:]
                          if all(cells[at] == said for at, said in places)], digits)


def on_empty():
    """Microseconds of all calls but open on an empty state, over all ceilings."""
    return span([int(cells[4]) / 1000 for ceiling in (64, 256, 1024) for cells in FIGURES[f"Ceiling {ceiling}"][2:]
                 if cells[1] == "empty" and cells[0] != "open"])


def more_on_empty(call, than):
    """Microseconds that one call takes more than another on an empty state of ceiling 64."""
    return f"{(int(by_call(call, 'empty', 64)[4]) - int(by_call(than, 'empty', 64)[4])) / 1000:.1f}"


def ports_in_use(of=1):
    """Microseconds that eight ports in use cost, or one of them (8), where eight rounds are held: the median of all calls."""
    numbers = [float(cells[5]) for cells in FIGURES["Calls with ports in use"][2:] if cells[2] == "8 rounds"]
    return f"{statistics.median(numbers) / 1000 / of:.2f}"


def batch_to_plain(ceiling, state="full"):
    """How many times plain Rust one batch takes."""
    return f"{batch(ceiling, 'engine', 4, state) / batch(ceiling, 'plain', 4, state):.1f}"


def public():
    """Nanoseconds of the public calls beside owner's calls on a full state of ceiling 1,024, to a thousand."""
    numbers = [round(int(cells[5]), -3) for (_, state), cells in OWNERS.items()
               if state == "full" and cells[5].isdigit() and "many blocks" not in cells[0] and "block rows" not in cells[0]]
    return f"{min(numbers):,} to {max(numbers):,}"


def stored(by, ceiling):
    """Milliseconds of a store (2), a load (3), a CRC-32C by a table (4) and bit by bit (5)."""
    return f"{int(row('Stores and loads', (0, str(ceiling)))[by]) / 1000:.{2 if ceiling == 64 else 1}f}"


def store_and_load(ceiling):
    """Milliseconds of either, one number where they are alike."""
    store, load = stored(2, ceiling), stored(3, ceiling)
    return store if store == load else f"{min(store, load, key=float)} to {max(store, load, key=float)}"


def digested():
    """Megabytes a second of a store at the highest ceiling."""
    cells = row("Stores and loads", (0, "1024"))
    return f"{int(cells[1]) / int(cells[2]):.0f}"


def records(program):
    """Records a second of the engine's runner or of the reference."""
    return f"{int(row('The runner', (0, program))[2]):,}"


# ---- plant/FIGURES.md


def plant_rows():
    """Each kind's cells by the column's name."""
    lines = [line for line in text("plant/FIGURES.md").splitlines() if line.startswith("| ")]
    names, *rows = [[cell.strip() for cell in line.strip("| \n").split("|")] for line in lines]
    return {cells[0]: dict(zip(names, cells)) for cells in rows}


PLANT = plant_rows()
KINDS = ["lossy", "partitions", "crashes", "equivocation", "weights", "guests", "all"]


def played(kind, column):
    """A cell of a kind's row, a number of it with its commas."""
    return re.sub(r"\d{4,}(?!\.)", lambda digits: f"{int(digits[0]):,}", PLANT[kind][column])


def all_played(column):
    """The kinds inside the bound together: their sum, or the one number that all have."""
    return f"{sum(int(PLANT[kind][column]) for kind in KINDS):,}"


def processor(kind):
    """Seconds that the process took."""
    return rounded(float(PLANT[kind]["processor seconds"]))


def to_a_fork():
    """Steps to a fork, beyond the bound, on the average."""
    return f"{int(PLANT['beyond']['steps']) / int(PLANT['beyond']['forks']):,.0f}"


def archive():
    """The first digits of the archive's sum."""
    return re.search(r"^Archive (\w{8}) ", text("plant/FIGURES.md"), re.MULTILINE)[1]


# ---- the code


def exported(guests=False):
    """The functions that hosts link, or the guests' forms among them, without owner's calls."""
    names = [name for path in (TOP / "crates/host/src").glob("*.rt")
             for name in re.findall(r'extern "C" fn (forgelilac_\w+)', path.read_text(encoding="utf-8"))]
    plain = [name for name in names if not name.startswith("forgelilac_owned_")]
    return len([name for name in plain if "_guest_" in name]) if guests else len(plain)


def table_words(ceiling):
    return 272 * ceiling + 272


PUT = {"us": us, "times_plain": times_plain, "batch": batch, "batch_ms": batch_ms, "batch_times": batch_times,
       "growth": growth, "round_of_sixteen": round_of_sixteen, "exported": exported, "table_words": table_words,
       "by_call": by_call, "WORDS": WORDS, "rounded": rounded, "played": played, "all_played": all_played,
       "processor": processor, "to_a_fork": to_a_fork, "archive": archive, "owned": owned,
       "quarters": quarters, "stored": stored, "store_and_load": store_and_load, "digested": digested,
       "records": records, "ratios": ratios, "chosen": chosen, "on_empty": on_empty, "more_on_empty": more_on_empty,
       "ports_in_use": ports_in_use, "batch_to_plain": batch_to_plain, "public": public}

READS = "'read certificate; read block; enqueue'"
STANDING = "'advance; read committee; read share'"
SIGNING = "'propose; endorse; certify; accept; draw of 4'"
COMMIT = "'commit, one block; preview, one block'"
WALKING = "'propose; endorse; certify; accept; advance; commit, one block; preview, one block; critical; read committee; read share'"
COPIES = "'Preview, commit, and commit on a copy'"
HANGS = "'What a commit hangs on, and a commit\\'s checks'"


def table_row(name, calls):
    """A line of docs/PERFORMANCE.md's table of calls."""
    return ("docs/PERFORMANCE.md", f"| {name} | {{us({calls}, 64)}} | {{us({calls}, 256)}} | {{us({calls}, 1024)}} | "
            f"{{times_plain({calls})}} |")


PLANT_COLUMNS = ["seeds", "failed", "members", "ceilings", "steps", "at the ceiling", "most rounds between two blocks",
                 "power failures", "places signed twice"]


def plant_row(kind):
    """A line of docs/PLANT.md's table of runs."""
    cells = [f"{{played('{kind}', '{column}')}}" for column in PLANT_COLUMNS] + [f"{{processor('{kind}')}}"]
    return ("docs/PLANT.md", f"| `{kind}` | " + " | ".join(cells) + " |")


MILLION = "'a million steps'"

PAGES = [
    *[plant_row(kind) for kind in KINDS],
    ("docs/PLANT.md", "with the archive whose sha256 begins with {archive()},"),
    ("docs/PLANT.md", "{all_played('seeds')} runs of {all_played('steps')} steps, {all_played('failed')} failed."),
    ("docs/PLANT.md", "a fork in {played('beyond', 'forks')} of {played('beyond', 'seeds')} runs, after "
     "{played('beyond', 'steps to a failure')} steps, {to_a_fork()} on the average (`plant seeds --kind beyond --from 1 --count {played('beyond', 'seeds')}`)"),
    ("docs/PLANT.md", f"`plant run --kind all --seed 1 --steps 1000000`, take {{processor({MILLION})}} seconds of a processor"),
    ("README.md", f"looked at after each | {{processor({MILLION})}} seconds of a processor and the build"),
    table_row("open", "'open'"),
    table_row("read certificate, read block, enqueue", READS),
    table_row("advance, read committee, read share", STANDING),
    table_row("propose, endorse, certify, accept, draw", SIGNING),
    table_row("commit that adds one block, its preview", COMMIT),
    table_row("its preview", "'preview, many blocks'"),
    owners_line("propose, endorse, certify, accept, advance", "propose; endorse; certify; accept; advance"),
    owners_line("accept of what is held already", "accept, held already"),
    owners_line("draw of 4", "draw of 4"),
    owners_line("read committee, read share", "read committee; read share"),
    owners_line("read certificate", "read certificate"),
    owners_line("enqueue, read block, port write", "enqueue; read block; port write"),
    owners_line("bond effect", "bond effect"),
    owners_line("commit of one block", "commit, one block"),
    owners_line("preview of one block", "preview, one block"),
    owners_line("critical", "critical"),
    owners_line("commit of 499 blocks", "commit, many blocks"),
    owners_line("preview of 499 blocks", "preview, many blocks"),
    owners_line("batch of 64, all held but two", "batch of 64"),
    owners_line("batch of 64, four rounds to hold", "batch of 64, four rounds to hold"),
    owners_line("port read in a line", "port read in a line"),
    owners_line("port read at a line's end", "port read at a line's end"),
    ("docs/PERFORMANCE.md", "each of its four quarters: accept {quarters('accept')}, advance {quarters('advance')}, "
                            "propose {quarters('propose')}, certify {quarters('certify')}, commit {quarters('commit')} "),
    ("docs/PERFORMANCE.md", "take {rounded(batch(1024, 'engine', 4))} us at a full ceiling of 1,024 "
     "(16 authors, the last four rounds, newest first) where 64 accepts in order take {batch_ms(1024, 'engine')} ms: "
     "{batch_times(1024)} times less"),
    ("docs/PERFORMANCE.md", "At ceiling 64 it is {rounded(batch(64, 'engine', 4))} us against "
     "{rounded(batch(64, 'engine', 5))}, {batch_times(64)} times less. Plain Rust takes "
     "{rounded(batch(1024, 'plain', 4))} us and {batch_ms(1024, 'plain')} ms at 1,024, "
     "{rounded(batch(64, 'plain', 4))} us and {rounded(batch(64, 'plain', 5))} at 64."),
    ("docs/PERFORMANCE.md", "One more held certificate adds about {growth('read certificate; read block')} ns to read "
     "certificate and read block, {growth('propose; certify; read committee')} ns to calls that work out a committee."),
    ("docs/PERFORMANCE.md", "This is added up from the table"),
    ("docs/PERFORMANCE.md", "comes to {round_of_sixteen(64)} ms at a full ceiling of 64 and to {round_of_sixteen(1024)} ms "
     "at 1,024."),
    ("docs/PERFORMANCE.md", f"In the table of previews it takes {{chosen({COPIES}, 5, 0, c0='1024', c1='full', c2='499', c4='engine')}} us where a commit "
     f"of 499 blocks at a full ceiling of 1,024 takes {{chosen({COPIES}, 6, 0, c0='1024', c1='full', c2='499', c4='engine')}}. "
     f"Copying the table, committing there and listing take {{chosen({COPIES}, 9, 1, c1='full', c4='engine')}} times a preview."),
    ("docs/PERFORMANCE.md", f"a commit's checks cost: {{chosen({HANGS}, 7, 2, c1='full', c3='engine')}} times a commit that is refused "
     f"for one vote too few, on full states of every ceiling, and {{chosen({HANGS}, 7, 1, c1='full, many blocks', c3='engine')}} "
     "times where many blocks wait."),
    ("docs/PERFORMANCE.md", "{more_on_empty('bond effect', 'read committee')} us more than read committee on an empty state, and on a "
     "full one what a share read takes ({us('bond effect', 64)} us at a ceiling of 64, {us('bond effect', 256)} at 256, "
     "{us('bond effect', 1024)} at 1,024)"),
    ("docs/PERFORMANCE.md", "some {ports_in_use(8)} us a port, {ports_in_use()} us for eight."),
    ("docs/PERFORMANCE.md", "On an empty state calls take {on_empty()} us, by the ceiling"),
    ("docs/PERFORMANCE.md", "beside which the public calls took {public()}."),
    ("docs/PERFORMANCE.md", f"- Calls that work out a committee are {{ratios({WALKING}, 'full')}} times plain on full states, and "
     f"{{ratios({WALKING}, 'half')}} on half full ones."),
    ("docs/PERFORMANCE.md", "- A batch is {batch_to_plain(64, 'half')} times plain on half a state of ceiling 64, and "
     "{batch_to_plain(64)} on a full one; at 1,024 it is {batch_to_plain(1024, 'half')} and {batch_to_plain(1024)} times."),
    ("docs/PERFORMANCE.md", "The scan alone is {ratios('read block', 'full', 6, 1)} times the floor"),
    ("docs/PERFORMANCE.md", "take {store_and_load(64)} ms at ceiling 64, {store_and_load(256)} at 256 and "
     "{store_and_load(1024)} at 1,024, each: nearly all of it is the SHA-256 over the bytes, {digested()} MB a second. "
     "A CRC-32C over the same bytes would take {stored(4, 1024)} ms at 1,024 by a table and {stored(5, 1024)} bit by bit"),
    ("docs/PERFORMANCE.md", "{records('runner')} records a second, against {records('runner_ref')} of the reference in plain Rust"),
    ("README.md", "the library for hosts, {exported()} functions, {WORDS[exported(True)]} of them guests' forms"),
    ("docs/PROMISES.md", "the {exported()} functions of `host` that hosts link, {WORDS[exported(True)]} of them guests' forms"),
    ("docs/TABLES.md", "| 3 | {table_words(3):,} | {4 * table_words(3):,} |"),
    ("docs/TABLES.md", "| 1,024 | {table_words(1024):,} | {4 * table_words(1024):,} |"),
    ("docs/INTEGRATORS.md", "the table, 272 × ceiling + 272 words for each engine: {4 * table_words(64):,} bytes at 64, "
     "{4 * table_words(1024):,} at 1,024"),
]

NUMBER = r"(?:[0-9a-f]{8}|[a-z]+|[\d.,]*\d(?: to [\d.,]*\d)?)"


def made(piece):
    """The piece with its numbers, and the expression of it with any numbers."""
    parts = re.split(r"\{([^{}]*)\}", piece)
    said, any_numbers = "", ""
    for at, part in enumerate(parts):
        if at % 2:
            expression, _, form = part.partition(":") if part.endswith(":,") else (part, "", "")
            said += format(eval(expression, dict(PUT)), form)
            any_numbers += NUMBER
        else:
            said += part
            any_numbers += re.escape(part)
    return said, any_numbers


def main():
    is_write, wrong = "--write" in sys.argv[1:], 0
    for page, piece in PAGES:
        said, any_numbers = made(piece)
        now = text(page)
        if said in now:
            continue
        found = re.findall(any_numbers, now)
        if is_write and len(found) == 1:
            (TOP / page).write_text(now.replace(found[0], said), encoding="utf-8")
            print(f"figures: {page}: {said}")
        else:
            wrong += 1
            print(f"figures: {page} has not: {said}" + "".join(f"\n    but: {it}" for it in found))
    print(f"figures: {len(PAGES)} pieces of {len({page for page, _ in PAGES})} pages, {wrong} wrong")
    return 1 if wrong else 0


if __name__ == "__main__":
    sys.exit(main())
