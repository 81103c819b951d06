"""promises.py: whether docs/PROMISES.md has docs/RULES.md, sentence by sentence.

A section of PROMISES that is named as one of RULES quotes it: in the first column of its tables, and in a line that begins with NO_ROW.
Quotes stand word for word, without ** and `, with " · " between them. A row of a table of RULES is its cells with ": " between them.
"A .." is the sentence that begins with A, "A .. B" all from the one that begins with A to the one that ends with B.

  promises.py   exits 1 where a quote is not in its section of RULES, where a sentence of RULES is in no quote (but for the parts
                EXAMPLES), or where a function, crate::module::name, has no contract, or lacks a clause that is named behind it
"""
import os
import re
import sys
from pathlib import Path

sys.dont_write_bytecode = True
sys.path.insert(0, str(Path(__file__).resolve().parent))
import tree

RULES, PROMISES = "docs/RULES.md", "docs/PROMISES.md"
EXAMPLES = ["A run, worked out", "Slips that this run shows"]
NO_ROW = "No row, since nothing is to be proved: "
BETWEEN, CUT = " · ", " .."
HEADING = re.compile(r"#+ (.*)")
RULE = re.compile(r"\|[\s:|-]+\|")       # the line beneath a table's head
ITEM = re.compile(r"^\s*(?:[-*]|\d+\.)\s+")
END = re.compile(r"(?<=[.?!])\s+(?=[A-Z(\"0-9])")
FUNCTION = re.compile(r"`([a-z]\w*(?:::\w+)+)`(?: \(((?:`\w+`(?:, )?)+)\))?")
CLAUSE = re.compile(r"\bensures (\w+) \{")


def plain(text):
    return " ".join(text.replace("**", "").replace("`", "").split())


def cells_of(line):
    return [cell.strip() for cell in line.strip().strip("|").split("|")]


def sentences(path):
    """Of a page, by heading: its sentences, without what stands in fences and the heads of tables."""
    found, heading, fenced = {}, "", False
    lines = Path(path).read_text(encoding="utf-8").splitlines()
    for line, below in zip(lines, lines[1:] + [""]):
        named = HEADING.match(line)
        if line.startswith("```"):
            fenced = not fenced
        elif fenced or not line.strip() or RULE.fullmatch(line) or RULE.fullmatch(below):
            continue
        elif named:
            heading = named[1]
        elif line.startswith("|"):
            found.setdefault(heading, []).append(": ".join(plain(cell) for cell in cells_of(line) if cell))
        else:
            found.setdefault(heading, []).extend(END.split(plain(ITEM.sub("", line, count=1))))
    return found


def quotes(path):
    """Of a page: (line, heading, quote)."""
    heading, lines = "", Path(path).read_text(encoding="utf-8").splitlines()
    for number, (line, below) in enumerate(zip(lines, lines[1:] + [""]), 1):
        named = HEADING.match(line)
        if named:
            heading = named[1]
        elif line.startswith("|") and not RULE.fullmatch(line) and not RULE.fullmatch(below):
            yield from ((number, heading, quote) for quote in cells_of(line)[0].split(BETWEEN))
        elif line.startswith(NO_ROW):
            yield from ((number, heading, quote) for quote in line[len(NO_ROW):].split(BETWEEN))


class Section:
    """The sentences of a section, and what of each was quoted."""

    def __init__(self, texts):
        self.texts = texts
        self.left = [[character.isalnum() for character in text] for text in texts]

    def cover(self, at, start, stop):
        self.left[at][start:stop] = [False] * (stop - start)

    def quote(self, quote):
        """Whether it is there."""
        places = [(at, text.find(quote)) for at, text in enumerate(self.texts) if quote in text]
        for at, start in places:
            self.cover(at, start, start + len(quote))
        if places or CUT not in quote + " ":
            return bool(places)
        begins, _, ends = quote.partition(CUT)
        begins, ends = begins.strip(), ends.strip()
        for first, text in enumerate(self.texts):
            if text.startswith(begins):
                last = next((at for at in range(first, len(self.texts)) if self.texts[at].endswith(ends)), None)
                for at in range(first, first if last is None else last + 1):
                    self.cover(at, 0, len(self.texts[at]))
                if last is not None:
                    return True
        return False

    def unquoted(self):
        return [text for text, left in zip(self.texts, self.left) if any(left)]


def functions_of(forest):
    """By crate::module::name: the names of its clauses; nothing where it has no contract."""
    found = {}
    for (crate, parts), file in forest.codes.items():
        module = [crate, *(() if parts in (("lib",), ("main",)) else parts)]
        ends = [function.line - 1 for function in file.functions[1:]] + [len(file.lines)]
        for function, end in zip(file.functions, ends):
            clauses = CLAUSE.findall("\n".join(file.lines[function.line - 1:end]))
            found.setdefault("::".join([*module, function.name]), []).append(clauses if function.contract else None)
    return found


def wrong_functions(forest):
    known = functions_of(forest)
    modules = {path.rpartition("::")[0] for path in known}
    for number, line in enumerate(Path(PROMISES).read_text(encoding="utf-8").splitlines(), 1):
        for path, clauses in FUNCTION.findall(line):
            told = [one for one in known.get(path, []) if one is not None]
            if not told and path not in modules:
                yield f"{PROMISES}:{number}: {path} is no function with a contract"
            for clause in re.findall(r"\w+", clauses):
                if told and not any(clause in one for one in told):
                    yield f"{PROMISES}:{number}: {path} has no clause {clause}"


def wrong(forest):
    sections = {heading: Section(texts) for heading, texts in sentences(RULES).items()}
    for number, heading, quote in quotes(PROMISES):
        if heading in sections and not sections[heading].quote(quote):
            yield f"{PROMISES}:{number}: not in {RULES}, \"{heading}\": {quote}"
    for heading, section in sections.items():
        if heading not in EXAMPLES:
            yield from (f"{RULES}, \"{heading}\": not in {PROMISES}: {text}" for text in section.unquoted())
    yield from wrong_functions(forest)


def main():
    os.chdir(Path(__file__).resolve().parents[2])
    found = list(wrong(tree.Tree(".")))
    for one in found:
        print(f"promises.py: {one}")
    return 1 if found else 0


if __name__ == "__main__":
    sys.exit(main())
