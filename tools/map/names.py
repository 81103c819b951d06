"""Whether a page names only what is there.

In backticks: a crate, a file or a folder; a function, a type or a clause of the code; a definition, a law, or a field or case of one;
an edit. A word of Rattle and what is no name (`[u64; 16]`) may stand there too. A file of a crate is crate/specs/File, of
src or proofs likewise, src/file one that some crate has, an edit crate/edit, with backticks or without.
Names that stand before or behind a file or crate like this must be declared there; File alone is such a file of any crate:
    `name`, `name` (crate/specs/File ..)    `name` (crate)    `name` (crate::module)    `name` (File)    `crate/specs/File` (`name`, `name`)
    | `crate` | `name`, `name` |            | `crate::module` | `name`, `name` |
"""
import os
import re
import sys
from glob import glob

sys.path.insert(1, os.path.join(os.path.dirname(os.path.abspath(__file__)), "..", "trust"))

import antt

NAME = re.compile(r"`([^`]+)`")
LISTED = r"`[^`]+`(?:(?:, (?:and )?| and )`[^`]+`)*"
ROW = re.compile(rf"\| `(\w+(?:::\w+)*)` \| ({LISTED}) \|")
BEFORE = re.compile(rf"({LISTED}) \((?!\d+\))([\w.]+(?:(?:(?:/[\w.]+)+|(?:::\w+)+)(?=[),:;])|(?=\))))")     # names, and where they are
BEHIND = re.compile(rf"`([\w.]+(?:/[\w.]+)+)` \(({LISTED})\)")       # a file, and names in it
PLACE = re.compile(r"(?<![\w/.-])(\w+)/([\w./-]*\w)(?![\w/*-])")   # a folder, a file or an edit
WORD = re.compile(r"[\w./-]+(?:::[\w-]+)*")
BUILT = "out"       # a folder of a crate that is there after a check only
RATTLE = {"requires", "ensures", "pub", "std", "io", "Read", "Write", "match", "Option", "Result", "PartialEq", "tactic", "auto", "using", "unfolding", "impl"}
CODE = re.compile(r"\b(?:fn|struct|enum|trait|mod|const) (\w+)|\bensures (\w+) {")       # what is declared, and the names of clauses
FOLDERS = {"src", "specs", "proofs"}      # of a crate


def text_of(path):
    with open(path, encoding="utf-8") as file:
        return file.read()


class Names:
    def __init__(self, top, crates):
        self.top, self.crates, self.found = top, crates, {}
        edits = glob(os.path.join(top, "crates", "*", "must-fail", "*.edit"))
        self.everywhere = set().union(RATTLE, crates, (os.path.basename(edit)[:-5] for edit in edits), *(self.declared(crate) for crate in crates))

    def paths(self, name):
        """Files and folders of a name, from the top or from crates/ on; of crate::module, those of the module."""
        crate, _, module = name.partition("::")
        if module:
            name = "/".join([crate, "src", *module.split("::")])
        places = ["", "crates"] + ([] if "/" in name else ["crates/*/specs", "crates/*/proofs"])
        return [path for place in places for end in ("", ".antt", ".rt") for path in glob(os.path.join(self.top, place, name + end))]

    def in_file(self, path):
        """What a file declares."""
        if path not in self.found:
            if path.endswith(".antt"):
                items = antt.parse_file(path).items
                self.found[path] = {name for item in items for name in [*item.names, *item.members]}
            elif path.endswith(".rt"):
                self.found[path] = {name for names in CODE.findall(text_of(path)) for name in names if name}
            else:
                self.found[path] = set(re.findall(r"\w+", text_of(path)))
        return self.found[path]

    def declared(self, place):
        """What a file, a folder or a crate declares."""
        files = [one for path in self.paths(place) for one in
                 ([path] if os.path.isfile(path) else glob(os.path.join(path, "**", "*.antt"), recursive=True) + glob(os.path.join(path, "**", "*.rt"), recursive=True))]
        return set().union(*(self.in_file(file) for file in files))

    def places(self, line):
        """Crates' files and edits in a line that are not there."""
        for crate, rest in PLACE.findall(line):
            if crate in FOLDERS and glob(os.path.join(self.top, "crates", "*", crate, rest)):
                continue
            if BUILT not in rest.split("/") and not (self.paths(f"{crate}/{rest}") or self.paths(f"crates/{crate}/must-fail/{rest}.edit")):
                yield f"{crate}/{rest}"

    def missing(self, line):
        """The names of a line that are not there."""
        yield from self.places(line)
        pairs = BEFORE.findall(line) + [(names, place) for place, names in BEHIND.findall(line)]
        row = ROW.match(line)
        pairs += [(row[2], row[1])] if row else []
        inside = set()
        for names, place in pairs:
            inside |= set(NAME.findall(names))
            yield from (f"{one} in {place}" for one in NAME.findall(names) if last(one) not in self.declared(place))
        for one in NAME.findall(line):
            if WORD.fullmatch(one) and not (one in inside or last(one) in self.everywhere or self.paths(one) or PLACE.fullmatch(one)):
                yield one


def last(name):
    return name.rpartition("::")[2]


def missing_names(top, page, names):
    """A message for each name on the page that is not there."""
    shown = os.path.relpath(page, top)
    for number, line in enumerate(text_of(page).splitlines(), 1):
        for one in names.missing(line):
            yield f"{shown}:{number}: there is no {one}"


def wrong_rooms(top, page, rooms):
    """A message for each room of which the page's table has no row, or a row with other crates or in another place."""
    shown, wanted = os.path.relpath(page, top), [(room.name, [crate.name for crate in room.crates]) for room in rooms]
    table = text_of(page).partition("| room |")[2].partition("\n\n")[0]
    rows = [line.strip("| ").split(" | ") for line in table.splitlines()[2:]]
    found = [(row[0], NAME.findall(row[-1])) for row in rows]
    if [name for name, _ in found] != [name for name, _ in wanted]:
        yield f"{shown}: the rooms of the table are {', '.join(name for name, _ in found)}, those of crates.txt {', '.join(name for name, _ in wanted)}"
    for name, crates in wanted:
        for row, named in found:
            if row == name and sorted(named) != sorted(crates):
                yield f"{shown}: the row of {name} has not the crates of crates.txt: {', '.join(sorted(set(named) ^ set(crates)))}"
