"""trust.py: the definitions that a reader must believe, found from the sources.

They are what these unfold to, types as well as bodies:
  - the contracts of the functions that hosts link (marked #[unsafe(no_mangle)]),
  - the contracts of the runner that say which bytes are read, and which are written for them (RUNNER),
  - the contracts of the theorems: the functions that take nothing and do nothing, and those of RUNS.
A law is never followed: whatever it says is proved. How laws are told from definitions stands in tree.py.

The list is in reading order, bottom up: files in the order in which they use one another, each file from top to bottom,
so that whatever a definition uses stands above it.

  trust.py               the list, with files, lines and first lines
  trust.py --page        writes docs/TRUST.md
  trust.py --check       exits 1 where docs/TRUST.md is not what --page would write, README.md has other sizes of specs/,
                         a law stands in specs/ or a definition of the list in proofs/, or a page claims what only a law says (claims.py)
  trust.py --where       definitions of the list that stand in a file named ..Laws or in proofs/
  trust.py --mixed       for each file of specs/: definitions of the list, other definitions, laws
  trust.py --items CRATE for each file of specs/ of a crate, its items: a row each, with tabs between
                         file, kind, first line (with its comment), last line, where it is needed (listed; cited by another contract; -),
                         names, names used of this file, lines of the sections and opens around it
  trust.py --why NAME    a chain of uses from a root to a definition of the list
  trust.py --for NAME    the list for one function alone, a theorem or one that hosts link, with file and line of its contract, and about
                         how long it takes to read; NAME may be CRATE::NAME. With --near behind it, only what its contract names, what
                         that uses of its own files, and what these name in others. With --text the contract and the definitions whole
"""
import os
import re
import sys
from pathlib import Path

sys.dont_write_bytecode = True
sys.path.insert(0, str(Path(__file__).resolve().parent))
import antt
import claims
import rt as source
import tree

HOST = "unsafe(no_mangle)"
RUNNER = ["serving::serve_streams", "stream::run::run"]
RUNS = ["runs::make", "runs::run", "replaying::replay", "replaying::serve", "host::runs::make", "host::runs::run"]  # theorems on code: their contracts are read with those of the theorems
PAGE = "docs/TRUST.md"
README = "README.md"
HEADER = "include/forgelilac.h"
PACKAGE = "bindings/rust/src"
CLAIM, STATEMENT, THEORY = "nonforking::chains_never_fork", "crates/nonforking/specs/Statement.antt", "agreement::never_fork"
PACE = 12   # lines of definitions that a reader takes in a minute, as readers who were new to them did
# Whose sizes the page has, with what each says.
ALONE = {"agreement::never_fork": "the theory alone, over abstract rules", "nonforking::chains_never_fork": "chains never fork, over calls",
         "library::chains_never_fork_over_words": "the same over words, as hosts keep them", "host::forgelilac_certify": "one call, as hosts link it",
         "serving::serve_streams": "the runner"}
KIT = "rattle-kit-13f, whose logic has the sum dac8208d650f15bf"

HEAD = """# What to believe

Made by `tools/trust/trust.py --page`; `scripts/pages.sh` checks that it is current.

A proof says that code does what a definition says. Whether the definition says what is wanted, only a reader can tell. This page lists every definition that must be read for that, and no other: what the contracts of the library, of the runner and of the theorems unfold to.

## In an hour

To see that all of it is proved, start `bash .ci/run` before you read: it takes about as long, somewhat over an hour from nothing (README.md, "Commands"), and its last line is 'N passed, M failed'. It needs the kit; to read, python3 is enough.

Definitions are written in Rattle's logic:

| written | read |
|---|---|
| `A → B`, `(x : A) → B` | if A, then B; for every x of A, B |
| `A × B`, `(x : A) × B` | A and B; there is an x of A for which B |
| `A ⊎ B`, `⊥`, `Unit` | A or B; never so; always so |
| `a ≡ b`, `a ≢ b`, `λ x. e`, `f x y` | equal; not equal; the function that gives e for x; f of x and y |
| `[]`, `x ∷ l`, `l ++ m` | the empty list; x, then the list l; l, then m |
| `e.f`, `record { f = a }`, `e.0`, `module _ (X : A) where` | field f of e; a record; its field without a name; what is indented below is said of every X of A |
| `ℕ`, `zero`, `suc n`, `a - b`, `a / b` | the whole numbers from 0 on; 0; n + 1; a less b, 0 where b is larger; the whole part |
| `a == b`, `nat_lt a b`, `nat_le a b`, `s && t`, `not s` | each gives `true` or `false`: equal; less; at most; both; not |
| `use F.{a, b}`, `open X use {f}` | names of another file, fields of X, which stand alone from there on; `◌` in such a name is where an argument stands |

What ends in `: Type 0` is such a statement, or a set of values: a `record` is all of its fields, a `data` one of its cases. An argument in braces, as `{B}`, follows from the others. `pub`, `abbrev` and `unfoldable` change nothing of what is said.

In this order:

| minutes | read | you know then |
|---:|---|---|
| 5 | docs/RULES.md, "What is claimed of runs" | the claim in words |
| 10 | crates/nonforking/specs/Statement.antt | the claim as definitions, clause by clause. At `sheet` and `equal`: rights are part of a sheet and are not compared, since `filled` leaves them out |
| 10 | docs/PROMISES.md, "What is claimed of runs", and on top of that page how to read a row | how the two belong together, sentence by sentence |
| 5 | docs/AGREEMENT.md, "Reading the claim" | which claim stands where, of calls, of requests and of words |
| 10 | this page from here down to "How to read the list", but what it says of the runner | what is proved, what is assumed, and what is neither |
| {near_minutes} | what Statement.antt names in other files, {near}: `python3 tools/trust/trust.py --for nonforking::chains_never_fork --near --text`, which shows those of Statement.antt again behind them | what the words of the claim mean, one step down |
| 10 | crates/library/specs/Hosts.antt, and `chains_never_fork_over_words` in crates/library/src/lib.rt | the claim over the words of the library that you link. The field `accepted` of `members` is a proof, and need not be read |

After the hour: what this page says of the runner, the rest of the definitions of `chains_never_fork`, those of a call that you link, and the rest of the list. Why it is so, which need not be believed: docs/AGREEMENT.md, "Why chains never part", in 15 minutes. The theory behind it is `agreement::never_fork`, of whose {theory} definitions the claim over calls uses {shared}.

## One theorem alone

`python3 tools/trust/trust.py --for NAME` lists the definitions of one function alone, a theorem or one that hosts link, in reading order, each with its file, line and length. It says in which file and line the contract stands, and how long the definitions take to read (about {pace} lines a minute). With `--near` behind the name it lists only what the contract names, what that uses in its own files, and what these name in others; with `--text` it shows the contract and the definitions whole. `--why NAME` shows how a definition of the list is reached.

{alone}

## What is proved

A theorem is a function that takes nothing and does nothing: its clauses are all that it is. Theorems stand in src/theorems.rt of the crates that they speak of, in src/lib.rt of `kept` and `library`, in src/heads.rt of `replaying`, and in src/ of `wordclaims`. Names in brackets are definitions of the list below.

**The library.** Each function that a host links, on any words and lengths: its answer and every word that it leaves are those of its contract (`Done`, hosting/specs/Calls). The length of a table is a number alone. Owner's functions have one premise, that their words are as calls left them (`Owned`, owned/specs/Owned), and promise the same and that premise again. `forgelilac_owned_resume` has no premise: it promises when it answers 0 (`Resumable`), the premise then, and else that the kept committees are as they were (`Filled`).

**The runner, of every peer** (stream/specs/Talk). Each step of a run is one that may come there (`Follows`): more is read only where all that can be answered is written and flushed (`MayRead`), nothing but answers ever goes out (`Partly`), and nothing comes after a write that failed. How it ended fits its last step, and the engine that it left (`Ends`): at the end of the input it is the engine after every record that was read (`Done`), else after the first ones of them (`Reached`).

**The runner, of a reader and a writer whose bytes are known.** However a run ended, what it added to the one is a first part of the answers to what it took from the other (`AddsPart`, stream/specs/Known). Where the input came to its end it is the output for the whole input (`output`, serving/specs/Streams; `serve_streams`, its clause `whole`).

**The runner in one function.** `serve_streams` of serving is all of this from a member that is not open on, over any reader and any writer of std, in their own bytes, and with what the program ends with: where all is well the input came to its end. That a run ends well wherever the input did, and that a read or a write that failed is told as it failed, is promised of `run` and `told` over any peer (`Ran`, stream/specs/Talk; `Tells`, stream/specs/Ended).

**The theorems**, each in its own words at its function. Over every list of calls, of calls and batches, of requests of hosts and guests, and of the library's calls over words, chains never fork (`chains_never_fork`, `chains_never_fork_with_batches`, `chains_never_fork_with_guests`, `chains_never_fork_over_words`), and so on for the others; "Roots" has all of them. `run` of crate `runs` makes a list of calls on several members' engines, and its contract says that their chains never fork; `run` of `host::runs` does and says so of the library's calls on several members' words; `serve` of `replaying` reads such a list from bytes, and tells what came of it (docs/PLANT.md).

## What the proofs assume

- The prover (of {kit}), and the compilers' back ends.
- Rattle's standard library where it calls the C library. It does so in `Stdin` and `Stdout` of `std::io`: a read answers an error or at most as many bytes as it was lent, and so does a write. The operating system delivers what they pass on. The library for hosts calls neither.
- `memcpy` and `memset`, which your C library gives the archive.
- **Where chains never fork**: signatures are genuine (`Signed` in `Fair`); in every committee that a correct member knows, faulty members weigh at most the fault bound (`WithinBound`).

## Not proved on the way to a host

Between a proved function and your program stands code that no contract speaks of. It is tested (`sh scripts/hosts.sh`, `sh scripts/pages.sh`), and it is to be read:

- **The header's own functions**, which your compiler builds: the {inline_count} of include/forgelilac.h that are `static inline`, {inline_lines} lines: {inline}. They make sheets and bodies and take answers apart; they decide nothing of the rules. `forgelilac_chain` and `forgelilac_guest_chain` are `forgelilac_block_rows`, which is proved, with three words kept of each row; `forgelilac_leader` and `forgelilac_is_well_formed` are one call each; `forgelilac_may`, `forgelilac_waiting` and `forgelilac_own_proposal` read words.
- **Its declarations, macros and the numbers in them**: lengths, places of words, refusals. `scripts/signatures.py` compares each function's parameters, and the record of a batch, with the code's.
- **The Rust package**, bindings/rust/src, {package_lines} lines without tests: what turns values into words and words into bytes and back, what holds state and table. Its chain is the rows of all blocks by `forgelilac_block_rows`, and its `leader` is `forgelilac_leader_of`. It calls the library by `unsafe` in {unsafe}.
- **What builds and finds the archive**: Makefile, forgelilac.pc.in, bindings/rust/build.rs, and the linker.
- **Your host**: signatures, storage, and which calls it makes (docs/HOSTS.md, "What the promise asks of you"). And how it lends words: of stretches that overlap, or that something else writes while a call runs, contracts say nothing (docs/HOSTS.md, "Threads and stack").

## On trust in the runner

No contract of this language can say what is outside: that std's `Stdin` gives the bytes of standard input, and its `Stdout` writes bytes to standard output, in their order and once each; that `main` hands these two, as a `Tied`, to `serve_streams` of serving, ends with what that gives, and does nothing else. Besides the memory that it lends it is that one call.

What the two have left and what they hold is not known to a contract, so the clauses on known bytes say nothing of them. But `serve_streams` is one function for every reader and writer, and can do with them only what std's `Read` and `Write` offer: what is proved of it is so of the code that runs. Neither can bytes be made up there, nor lost, nor told as written where they were not. The three lines of `Tied` that say what a talk is need not be believed, since `run` of `Tied` (stream::tied) and `serve_streams` speak of the bytes of reader and writer in std's own words (stream/nothing_written_and_nothing_known, an edit of crates/stream/must-fail that is refused). Inside, `run` of stream can do with its peer only what a `Peer` offers: a step of a talk, `came`, `went`, `flushed` or one that failed, is had only by the call that made it, so no failure and no flush can be made up there.

**What cannot be refused** is in five short functions: `read`, `write` and `flush` of `Tied`, which ask std's reader and writer, and `run` of `Tied` and `serve_streams`, of one line and two, which might also end at once and tell of a failure that was none. After an error std says of these only that their bytes are as before. So:

- each may tell a failure that did not happen, or another than the one that did;
- `read` and `write` may keep a failure back, which is to ask again after it, without end, as they do where a signal broke in (that they never tell of a signal is proved, their clause `retried`), and `write` may so ask a writer that takes nothing: on a full disk such a runner would not end;
- a `flush` may tell of one that was not made, or that one was made which failed, for std promises of a flush only that no byte is lost by it.

These five are to be read. `reference/ends.py` has the runner end by a full disk, a closed input and output, a directory, and a reader that goes.

## On trust in the replayer

`main` of the replayer hands std's `Stdin` and `Stdout` to `serve` of replaying; where that fails it writes one line to standard error, and ends with status 1. Of these two the same is believed as in the runner, and `serve` too is one function for every reader and writer. **What cannot be refused**: a body that says that memory is wanting, or that a read or a write failed, where none was or did; that tells another failure than the one that came; that does not flush; that wrote anything where it says that a read or a write failed over a list that is made again, since std says of a `write_all` that failed nothing. `main` and `serve` are to be read, fifteen lines; for memory, each place that gives `Memory`.

## How to read the list

{specs}

The list is bottom up: whatever a definition uses stands above it, in its own file or in one above. To read top down, start at the roots and look each name up. Behind a name stands the number of its lines without comments; `(h)`, `(r)` and `(t)` say that the host's contracts, the runner's, or the theorems unfold to it. A file under `src/` has types and constants that the code declares; contracts see types as records and cases, and of constants the numbers (crate `constants` says them again, as theorems).

Not listed are laws, since whatever they say is proved; definitions that only proofs use; and Rattle's libraries, of which the last section lists the names used.
"""


class List:
    def __init__(self, forest):
        self.tree = forest
        self.items, self.marks, self.why, self.laws, self.library = {}, {}, {}, {}, {}
        self.theorems = {crate: self.theorem_roots(crate) for crate in self.tree.crates}
        self.roots = {"h": self.host_roots(), "r": self.runner_roots(), "t": [root for roots in self.theorems.values() for root in roots]}
        for mark, roots in self.roots.items():
            for name, found in roots:
                self.follow(found, mark, name)

    def cited(self):
        """What the contracts of all functions unfold to."""
        every = self.contracts([(file, function) for file in self.tree.codes.values() for function in file.functions], "no function")
        return {id(item): item for item in self.walked(every)}

    # ---- roots

    def host_roots(self):
        return self.contracts([(file, function) for file in self.tree.codes.values() for function in file.functions
                               if HOST in function.attributes], "no function is marked " + HOST)

    def runner_roots(self):
        return self.roots_named(RUNNER)

    def roots_named(self, names):
        roots = []
        for root in names:
            crate, *parts, name = root.split("::")
            roots += self.contracts([(file, function) for (owner, where), file in self.tree.codes.items() for function in file.functions
                                     if owner == crate and function.name == name and (where == tuple(parts) or not parts)], root + " is not there")
        return roots

    def contracts(self, functions, otherwise):
        if not functions:
            sys.exit(f"trust.py: {otherwise}: mend the roots at the top")
        roots = []
        for file, function in functions:
            found = {}
            for tokens in function.contract:
                antt.walk(tokens, {name: () for name in function.names}, found, self.tree.is_constructor(file))
            here = [self.tree.lookup(file, parts) for parts in found] + [self.tree.type_at(file, path) for path in function.types]
            roots += [(f"{file.crate}::{function.name}", item) for item in here if item is not None]
        return roots

    def theorem_roots(self, crate):
        """Of the theorems of a crate, those on code among them."""
        functions = [(file, function) for (owner, _), file in self.tree.codes.items() if owner == crate for function in file.functions if function.is_theorem]
        roots = self.contracts(functions, "") if functions else []
        roots += self.roots_named([root for root in RUNS if root.split("::")[0] == crate])
        return roots

    def walked(self, roots, near=False):
        """All that roots unfold to; near them, only what these name, within the files of the roots and one step beyond."""
        seen, todo = {}, [found for _, found in roots]
        homes = {self.path(found) for found in todo if isinstance(found, antt.Item)}
        while todo:
            item = todo.pop()
            if isinstance(item, (antt.Item, source.Declared)) and id(item) not in seen and self.tree.kind(item) != "law":
                seen[id(item)] = item
                todo += self.below(item) if not near or self.path(item) in homes else []
        return list(seen.values())

    # ---- what roots unfold to

    def unfolded(self, roots):
        """To how many definitions of specs/."""
        return sum(len(item.names) for item in self.walked(roots) if isinstance(item, antt.Item))

    def follow(self, found, mark, why):
        todo = [(found, why)]
        while todo:
            item, why = todo.pop()
            if isinstance(item, tree.Library):
                self.library.setdefault(".".join(item.path), {})[item.name] = True
            elif isinstance(item, antt.Item) and self.tree.kind(item) == "law":
                self.laws[id(item)] = item
            elif item is not None and mark not in self.marks.get(id(item), ""):
                self.items[id(item)] = item
                self.marks[id(item)] = self.marks.get(id(item), "") + mark
                self.why.setdefault(id(item), why)
                todo += [(next_item, item) for next_item in self.below(item)]

    def below(self, item):
        home = self.tree.home[id(item)]
        if isinstance(item, source.Declared):
            return [found for path in item.types if (found := self.tree.type_at(home, path)) is not item]
        used = self.tree.used(item)
        return [self.tree.lookup(home, parts) or tree.Library(("Prim",), parts[0]) for parts in {**used.type, **used.body}]

    # ---- reading order

    def files(self, chosen=None):
        """(path, file, items) in reading order, of all items or of those chosen."""
        by_file, chosen = {}, self.items if chosen is None else chosen
        for item in chosen.values():
            by_file.setdefault(self.path(item), []).append(item)
        needs = {path: {self.path(found) for item in items for found in self.below(item) if id(found) in chosen} - {path}
                 for path, items in by_file.items()}
        waiting, done, ordered = sorted(by_file, key=self.rank), set(), []
        while waiting:
            path = next((path for path in waiting if needs[path] <= done), waiting[0])
            waiting.remove(path)
            done.add(path)
            ordered.append(path)
        return [(path, self.tree.home[id(by_file[path][0])], sorted(by_file[path], key=lambda item: item.start)) for path in ordered]

    def path(self, item):
        return self.tree.home[id(item)].path

    def rank(self, path):
        """Crates bottom to top, src before specs, files as Lib has them."""
        _, crate, folder, *parts = Path(path).with_suffix("").parts
        lib = self.tree.module(crate, folder, ("Lib",)) if folder == "specs" else None
        mods = lib.mods if lib else []
        return (self.tree.crates.index(crate), ["src", "specs", "proofs"].index(folder),
                mods.index(parts[0]) if parts[0] in mods else len(mods), path)

    # ---- counts

    def lines(self, item):
        """Lines without comments and blanks."""
        lines = self.tree.home[id(item)].lines[item.start - 1:item.last]
        return sum(1 for line in lines if line.strip() and not line.lstrip().startswith(("--", "//")))

    def totals(self):
        specs = [item for item in self.items.values() if isinstance(item, antt.Item)]
        declared = [item for item in self.items.values() if not isinstance(item, antt.Item)]
        whole = sum(map(text_lines, specs))
        every = sum(len(module.lines) - (module.lines[-1] == "") for module in self.specs())
        return {"definitions": sum(len(item.names) for item in specs), "lines": sum(map(self.lines, specs)), "with comments": whole,
                "every": every, "share": 100 * whole / every,
                "declared": len(declared), "declared lines": sum(map(self.lines, declared)),
                **{mark: sum(len(item.names) for item in specs if mark in self.marks[id(item)]) for mark in self.roots}}

    def specs(self):
        return self.tree.specs()

    def others(self):
        """The items of specs/ that are not in the list: those that contracts cite, and the rest."""
        cited = self.cited()
        rest = [item for module in self.specs() for item in module.items if id(item) not in self.items]
        return [item for item in rest if id(item) in cited], [item for item in rest if id(item) not in cited]

    def laws_in_specs(self):
        """Without those by which an impl of the code proves the laws of its trait: code names only what stands in specs/."""
        of_impls = self.laws_of_impls()
        return [item for module in self.specs() for item in module.items if self.tree.kind(item) == "law" and id(item) not in of_impls]

    def laws_of_impls(self):
        """What the ghost members of the code's impls name, and what that stands on."""
        todo = []
        for path in Path("crates").glob("*/src/**/*.rt"):
            named = set(re.findall(r"\w+", " ".join(re.findall(r"\bghost \w+ = \{(.*)\};", path.read_text(encoding="utf-8")))))
            todo += [item for module in self.specs() if module.path.split("/")[1] == path.parts[1] for item in module.items if named & set(item.names)]
        seen = {}
        while todo:
            item = todo.pop()
            if isinstance(item, antt.Item) and id(item) not in seen:
                seen[id(item)] = item
                todo += [self.tree.lookup(self.tree.home[id(item)], parts) for parts in self.tree.used(item).all()]
        return seen


def text_lines(item):
    """Lines with comments."""
    return len(item.text.split("\n"))


def described(item):
    """The value of a constant, and the comment."""
    short = getattr(item, "form", "") == "const" and len(item.variants[0]) < 60
    value = f" is `{item.variants[0]}`" if short else ""
    return value + (f": {item.comment}" if item.comment else "")


def roughly(lines):
    return f"about {round(lines, -2):,}"


def sizes(totals):
    """What README.md says of specs/."""
    return f"{roughly(totals['every'])} lines, {roughly(totals['with comments'])} of them"


def specs_held(listing):
    """What the lines of specs/ are."""
    totals, (cited, rest) = listing.totals(), listing.others()
    laws = len(listing.laws_in_specs())
    of_impls = sum(listing.tree.kind(item) == "law" for item in listing.laws_of_impls().values())
    kinds = [f"{totals['with comments']:,} are the {totals['definitions']} definitions of this list",
             f"{sum(map(text_lines, cited)):,} the {sum(len(item.names) for item in cited)} that contracts of inner functions cite besides",
             f"{sum(map(text_lines, rest)):,} the {sum(len(item.names) for item in rest)} of the theory, of what is claimed beside those, of the table of cases by numbers, and helpers that only laws use"]
    return (f"The folders specs/ have {totals['every']:,} lines. With their comments " + ", ".join(kinds[:2]) + " and " + kinds[2] +
            "; the others are imports, heads of files and blank lines. " + (f"{laws} laws stand there." if laws else f"No law stands there but {of_impls} by which impls of the code prove what their traits ask." if of_impls else "No law stands there."))


def summary(totals):
    return [f"{totals['definitions']} definitions, {totals['lines']} lines ({totals['with comments']} with their comments): "
            f"{totals['share']:.0f} % of the lines of specs/ ({roughly(totals['every'])}).",
            f"{totals['declared']} types that the code declares, {totals['declared lines']} lines.",
            f"Of the definitions the host's contracts unfold to {totals['h']}, the runner's to {totals['r']}, the theorems to {totals['t']}."]


def printed(listing):
    for path, _, items in listing.files():
        print(path)
        for item in items:
            print(f"  {item.start:4} {listing.lines(item):3}  ({', '.join(sorted(listing.marks[id(item)], key=list(listing.roots).index))}) "
                  f"{', '.join(item.names)}{described(item)}")
    print()
    print("\n".join(summary(listing.totals())))


def listed(roots):
    return ", ".join(f"`{name}`" for name in dict.fromkeys(name for name, _ in roots))


def filled(head, listing):
    """The head of the page with what is counted in it."""
    inline, lines = header_functions()
    package, unsafe = rust_package()
    counted = {"specs": specs_held(listing), "kit": KIT, "pace": str(PACE), "alone": alone(listing), "inline": ", ".join(f"`{name}`" for name in inline),
               "inline_count": str(len(inline)), "inline_lines": str(lines), "package_lines": f"{package:,}", "unsafe": unsafe, **in_an_hour(listing)}
    for name, text in counted.items():
        head = head.replace("{" + name + "}", text)
    return head


def in_an_hour(listing):
    """What the way through the claim says of sizes: what the claim names outside its own file, and what it uses of the theory."""
    claim, theory = roots_for(listing, CLAIM), listing.walked(roots_for(listing, THEORY))
    named = [item for item in listing.walked(claim, near=True) if listing.path(item) != STATEMENT]
    definitions, types, lines, minutes = sizes_for(named, listing)
    used = {id(item) for item in listing.walked(claim)}
    return {"near": f"{definitions} definitions and {types} types of the code, {lines} lines", "near_minutes": str(minutes),
            "theory": str(sum(len(item.names) for item in theory)), "shared": str(sum(len(item.names) for item in theory if id(item) in used))}


def rust_package():
    """How many lines the Rust package has without tests, and which of its files have unsafe code."""
    source = {path: path.read_text(encoding="utf-8") for path in sorted(Path(PACKAGE).rglob("*.rs")) if not {"tests.rs", "tests"} & set(path.parts)}
    names = [f"`{path.stem}`" for path, text in source.items() if re.search(r"\bunsafe (?:\{|extern)", text)]
    return sum(len(text.splitlines()) for text in source.values()), f"{len(names)} files, {', '.join(names[:-1])} and {names[-1]}"


def header_functions():
    """The functions that the header itself has, and how many lines they are."""
    found = re.findall(r"^static inline (?:[^;{]*?)\b(forgelilac_\w+)\(.*?^}", Path(HEADER).read_text(encoding="utf-8"), re.M | re.S)
    bodies = re.finditer(r"^static inline .*?^}", Path(HEADER).read_text(encoding="utf-8"), re.M | re.S)
    return found, sum(body[0].count("\n") + 1 for body in bodies)


def alone(listing):
    """What one function alone unfolds to, of a few."""
    rows = ["| name | definitions | lines | minutes |", "|---|---:|---:|---:|"]
    for name, what in ALONE.items():
        definitions, _, lines, minutes = sizes_for(listing.walked(roots_for(listing, name)), listing)
        rows.append(f"| `{name}`: {what} | {definitions} | {lines:,} | {minutes} |")
    return "\n".join(rows)


def page(listing):
    text = [filled(HEAD, listing), "## Roots\n"]
    for mark, what in (("h", "the host's contracts"), ("r", "the runner's contracts")):
        text.append(f"- ({mark}) {what}: {listed(listing.roots[mark])}")
    text.append("- (t) the theorems, and how many definitions those of a crate unfold to:")
    for crate, roots in listing.theorems.items():
        if roots:
            text.append(f"  - {crate}, {listing.unfolded(roots)}: {listed(roots)}")
    text.append("")
    crate = None
    for path, file, items in listing.files():
        if path.split("/")[1] != crate:
            crate = path.split("/")[1]
            text.append(f"## {crate}\n")
        about = getattr(file, "comment", "")
        text.append(f"### {path}\n" + (f"\n{about}\n" if about else ""))
        for item in items:
            marks = " ".join(f"({mark})" for mark in listing.roots if mark in listing.marks[id(item)])
            names = ", ".join(f"`{name}`" for name in item.names)
            text.append(f"- {names} {listing.lines(item)} {marks}{described(item)}")
        text.append("")
    text.append("## Totals\n")
    text += [f"- {line}" for line in summary(listing.totals())]
    text.append("\n## Names of the libraries\n")
    for module, names in sorted(listing.library.items()):
        text.append(f"- {module}: {', '.join(f'`{name}`' for name in sorted(names))}")
    return "\n".join(text) + "\n"


def misplaced(listing):
    return [(path, item) for path, _, items in listing.files() for item in items
            if re.search(r"\wLaws$", Path(path).stem) or path.split("/")[2] == "proofs"]


def wrong(listing):
    """What is not as it should be."""
    there = Path(PAGE).read_text(encoding="utf-8") if Path(PAGE).exists() else ""
    if there != page(listing):
        yield f"{PAGE} is not current: python3 tools/trust/trust.py --page"
    if sizes(listing.totals()) not in Path(README).read_text(encoding="utf-8"):
        yield f"{README} does not say of specs/: {sizes(listing.totals())}"
    for path, item in misplaced(listing):
        yield f"{path}:{item.start}: {' '.join(item.names)} is a definition of the list, and belongs in specs/"
    for item in listing.laws_in_specs():
        yield f"{listing.path(item)}:{item.start}: {' '.join(item.names)} is a law, and belongs in proofs/"
    yield from claims.wrong(listing.tree)


def mixed(listing):
    print("listed  other  laws")
    counts = []
    for module in listing.specs():
        listed = [item for item in module.items if id(item) in listing.items]
        laws = [item for item in module.items if listing.tree.kind(item) == "law"]
        other = len(module.items) - len(listed) - len(laws)
        if module.items:
            counts.append((len(listed), other, len(laws)))
            print(f"{len(listed):6} {other:6} {len(laws):5}  {module.path}")
    print(f"{sum(c[0] for c in counts):6} {sum(c[1] for c in counts):6} {sum(c[2] for c in counts):5}  {len(counts)} files; "
          f"{sum(1 for c in counts if c[2] and c[0] + c[1])} have definitions and laws, {sum(1 for c in counts if c[2] and c[0])} laws and definitions of the list")


def items_of(listing, crate):
    cited = listing.cited()
    for module in listing.tree.specs(crate):
        for item in module.items:
            own = {}
            for parts in listing.tree.used(item).all():
                found = listing.tree.lookup(module, parts)
                if isinstance(found, antt.Item) and listing.tree.home[id(found)] is module and found is not item:
                    own.update({name: True for name in found.names[:1]})
            around = [f"{part.first}-{part.where}" if isinstance(part, antt.Params) else f"{part.line}" for part in item.context]
            needed = "listed" if id(item) in listing.items else "cited" if id(item) in cited else "-"
            print("\t".join([module.path, listing.tree.kind(item), str(item.first), str(item.last), needed, " ".join(item.names), " ".join(own) or "-", " ".join(around) or "-"]))


def why(listing, name):
    for item in listing.items.values():
        if name in item.names:
            chain = [f"{name} ({listing.path(item)})"]
            while not isinstance(item := listing.why[id(item)], str):
                chain.append(item.names[0])
            print(" < ".join(chain + [item]))


def functions_for(listing, name):
    """The functions of that name, with their files."""
    *crate, function = name.split("::")
    return [(file, one) for file in listing.tree.codes.values() for one in file.functions
            if one.name == function and crate[:1] in ([], [file.crate])]


def roots_for(listing, name):
    return listing.contracts(functions_for(listing, name), f"there is no function {name} with a contract")


def sizes_for(items, listing):
    """Definitions, types of the code, lines, and about how many minutes they take."""
    lines = sum(listing.lines(item) for item in items)
    return (sum(len(item.names) for item in items if isinstance(item, antt.Item)), sum(isinstance(item, source.Declared) for item in items),
            lines, max(5, round(lines / PACE / 5) * 5))


def told_for(listing, name, near=False, text=False):
    chosen = {id(item): item for item in listing.walked(roots_for(listing, name), near)}
    for file, function in functions_for(listing, name):
        print(f"{file.path}:{function.line}: {function.name}")
        if text:
            print("\n".join(contract_lines(file, function)) + "\n")
    for path, file, items in listing.files(chosen):
        print(path)
        shown = set()
        for item in items:
            if text:
                print("\n".join(heads(file, item, shown) + file.lines[item.first - 1:item.last]) + "\n")
            else:
                print(f"  {item.start:4} {listing.lines(item):3}  {', '.join(item.names)}{described(item)}")
    definitions, types, lines, minutes = sizes_for(chosen.values(), listing)
    print(f"{'' if text else chr(10)}{definitions} definitions and {types} types of the code, {lines} lines: about {minutes} minutes to read")


def heads(file, item, shown):
    """The heads of the modules that it stands in, and what they open, where they were not shown yet."""
    found = []
    for part in getattr(item, "context", []):
        first, last = (part.first, part.where) if isinstance(part, antt.Params) else (part.line, part.line)
        if first not in shown:
            shown.add(first)
            found += file.lines[first - 1:last]
    return found


def contract_lines(file, function):
    """A function from its comment on, without its body."""
    first = last = function.line - 1
    while first > 0 and file.lines[first - 1].lstrip().startswith(("///", "#[")):
        first -= 1
    while last + 1 < len(file.lines) and not file.lines[last + 1].startswith("{"):
        last += 1
    return file.lines[first:last + 1]


def main(arguments):
    root = Path(__file__).resolve().parents[2]
    os.chdir(root)
    listing = List(tree.Tree("."))
    option = arguments[0] if arguments else ""
    if option == "--page":
        Path(PAGE).write_text(page(listing), encoding="utf-8")
    elif option == "--check":
        found = list(wrong(listing))
        for one in found:
            print(f"trust.py: {one}")
        return 1 if found else 0
    elif option == "--where":
        for path, item in misplaced(listing):
            print(f"{path}:{item.start} {' '.join(item.names)}")
    elif option == "--mixed":
        mixed(listing)
    elif option == "--items" and len(arguments) == 2:
        items_of(listing, arguments[1])
    elif option == "--why" and len(arguments) == 2:
        why(listing, arguments[1])
    elif option == "--for" and len(arguments) >= 2 and set(arguments[2:]) <= {"--near", "--text"}:
        told_for(listing, arguments[1], "--near" in arguments, "--text" in arguments)
    elif option:
        print(__doc__.strip())
        return 2
    else:
        printed(listing)
    return 0


if __name__ == "__main__":
    sys.exit(main(sys.argv[1:]))
