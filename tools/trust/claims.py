"""claims.py: whether the pages that claim something rest each claim on what the gate proves.

A law is proved, but no contract needs its type: emptied, it would be proved too, and nothing would notice. So the pages of PAGES
name no law. What they name in backticks is a function or a theorem with a contract, a definition, a clause, a type, a crate, an
edit, a file or a test; never a name, nor a file, that stands in proofs/ alone. They may in a part whose heading says that it is
about laws, and all other pages may anywhere: docs/ARCHITECTURE.md, docs/DECISIONS.md, docs/PORT.md and docs/changes/ tell how a
thing is proved, and claim nothing by it.

A name of PAGES that stands nowhere is wrong too; tools/map looks up those of most pages, and this those of ALONE.
What docs/PROMISES.md quotes of docs/RULES.md, and the functions with their clauses, promises.py looks up.

  claims.py     exits 1 where a page of PAGES names a law, or a function that has no contract, with page, line and name,
                or where promises.py finds something
"""
import os
import re
import sys
from pathlib import Path

sys.dont_write_bytecode = True
sys.path[:0] = [str(Path(__file__).resolve().parent), str(Path(__file__).resolve().parents[1] / "map")]
import promises
import tree
from names import BEFORE, BEHIND, CODE, NAME, PLACE, RATTLE

PAGES = ["README.md", "docs/PROMISES.md", "docs/RULES.md", "docs/RECIPES.md", "docs/AGREEMENT.md"]
ALONE = ["docs/RULES.md", "docs/RECIPES.md"]
WORD = re.compile(r"[\w./-]+(?:(?:::|\.)[\w-]+)*")
IDENTIFIER = re.compile(r"[a-z]\w*_\w+")
HEADING = re.compile(r"(#+) (.*)")
OF_LAWS = re.compile(r"\blaws?\b", re.I)


class Claims:
    def __init__(self, forest):
        self.tree = forest
        self.proved, self.bare, self.said, self.laws = set(), set(), set(forest.crates) | RATTLE, {}
        for (crate, _), file in forest.codes.items():
            for function in file.functions:
                # A program's functions are run by the gate, and main can have no contract.
                told = function.contract or (crate, ("main",)) in forest.codes
                (self.proved if told else self.bare).add(function.name)
            functions = {function.name for function in file.functions}
            self.said |= {name for names in CODE.findall("\n".join(file.lines)) for name in names if name} - functions
            self.said |= {name for declared in file.types for name in [declared.name, *declared.variants]}
        for crate in forest.crates:
            self.said |= {path.stem for path in Path("crates", crate, "must-fail").glob("*.edit")}
            for folder in ("specs", "proofs"):
                top = Path("crates", crate, folder)
                for path in sorted(top.rglob("*.antt")):
                    self.read(forest.module(crate, folder, path.relative_to(top).with_suffix("").parts), folder)

    def read(self, module, folder):
        for item in module.items:
            if folder == "proofs" or self.tree.kind(item) == "law":
                for name in [*item.names, *item.members]:
                    self.laws.setdefault(name, f"{module.path}:{item.start}")
            else:
                self.said |= {*item.names, *item.members}

    def wrong_name(self, name, known=True):
        """What is wrong with a name, where something is; also that it is nowhere, where it is not known to be there."""
        if name in self.said or name in self.proved:
            return None
        if name in self.laws:
            return f"{name} is a law alone ({self.laws[name]}): no contract says it"
        if name in self.bare:
            return f"{name} is a function without a contract"
        return None if known or not IDENTIFIER.fullmatch(name) else f"there is no {name}"

    def wrong_in(self, line, known=True):
        """Of a line: names that stand where a law does, files of proofs/, names that are laws alone."""
        told, places = set(), set()
        for names, place in BEFORE.findall(line) + [(names, place) for place, names in BEHIND.findall(line)]:
            if "proofs" in place.split("/"):
                places.add(place)
                for name in NAME.findall(names):
                    told.add(name)
                    yield f"{name} is a law ({place}): no contract says it"
        for crate, rest in PLACE.findall(line):
            place = f"{crate}/{rest}"
            if "proofs" in place.split("/") and os.path.exists(f"crates/{crate}") and place not in places:
                yield f"{place} holds laws: no contract says what they say"
        for name in NAME.findall(line):
            if name not in told and WORD.fullmatch(name) and "/" not in name:
                found = self.wrong_name(re.split(r"::|\.", name)[-1], known)
                if found:
                    yield found


def claiming(text):
    """The lines of a page, with their numbers, but for those of parts about laws."""
    headings = []
    for number, line in enumerate(text.splitlines(), 1):
        heading = HEADING.match(line)
        if heading:
            headings = headings[:len(heading[1]) - 1] + [""] * (len(heading[1]) - 1 - len(headings)) + [heading[2]]
        if not any(OF_LAWS.search(one) for one in headings):
            yield number, line


def wrong(forest):
    """A message for each name that a page of PAGES may not give."""
    claims = Claims(forest)
    for page in PAGES:
        for number, line in claiming(Path(page).read_text(encoding="utf-8")):
            for found in dict.fromkeys(claims.wrong_in(line, page not in ALONE)):
                yield f"{page}:{number}: {found}"
    yield from promises.wrong(forest)


def main():
    os.chdir(Path(__file__).resolve().parents[2])
    found = list(wrong(tree.Tree(".")))
    for one in found:
        print(f"claims.py: {one}")
    return 1 if found else 0


if __name__ == "__main__":
    sys.exit(main())
