"""Files of src/, read: `use` lines, functions with their contracts, declared types.

    file = parse_code(path)
    file.uses       the `ghost use` lines, as antt.Use
    file.paths      local name to path, of the other `use` lines
    file.functions  Function(name, attributes, line, types, names, contract, is_theorem)
    file.types      Declared(name, form, first, start, last, comment, variants, types)
    file.constants  the same of each const, with its value as the one variant
`types` are the paths of the types that stand in a signature or a declaration: ("state", "State").
"""
import re
from dataclasses import dataclass, field

import antt

DECLARED = re.compile(r"^(?:pub(?:\([^)]*\))? )?(struct|enum) (\w+)", re.M)
CONSTANT = re.compile(r"^(?:pub(?:\([^)]*\))? )?(?:const|static) (\w+):[^=;]*=\s*([^;]+);", re.M)
FUNCTION = re.compile(r"^[ \t]*(?:pub(?:\([^)]*\))? )?(?:const )?(?:unsafe )?(?:extern \"C\" )?fn (\w+)", re.M)
CLAUSE = re.compile(r"\s*(requires|ensures)\b([^{]*)\{")
PATH = re.compile(r"(?:[A-Za-z_]\w*::)*[A-Za-z_]\w*")


@dataclass
class Function:
    name: str
    attributes: list
    line: int
    types: list
    names: list  # of the parameters
    contract: list  # tokens of each clause
    is_theorem: bool  # it takes nothing and does nothing, so that its clauses are all that it is


@dataclass
class Declared:
    path: str
    name: str
    form: str
    first: int
    start: int
    last: int
    comment: str
    variants: list
    types: list
    kind: str = "declared"

    @property
    def names(self):
        return [self.name]


@dataclass
class Code:
    path: str
    lines: list
    uses: list = field(default_factory=list)
    paths: dict = field(default_factory=dict)
    functions: list = field(default_factory=list)
    types: list = field(default_factory=list)
    constants: list = field(default_factory=list)


def balanced(text, i):
    """Where the bracket at i closes."""
    depth = 0
    while i < len(text):
        depth += (text[i] in "({[") - (text[i] in ")}]")
        if depth == 0:
            return i
        i += 1
    return len(text) - 1


def paths_in(text):
    return [tuple(path.split("::")) for path in PATH.findall(text)]


def above(lines, row):
    """Attributes and comment right above a line (from 0), and the first line of them."""
    attributes, comments, first = [], [], row
    while first > 0 and lines[first - 1].strip().startswith(("#[", "//")):
        first -= 1
        text = lines[first].strip()
        if text.startswith("#["):
            attributes.insert(0, text[2:-1])
        else:
            comments.insert(0, text.lstrip("/").strip())
    return attributes, " ".join(comments), first


def parse_code(path):
    with open(path, encoding="utf-8") as file:
        whole = file.read()
    text = re.sub(r"//[^\n]*", lambda m: " " * len(m[0]), whole)
    code = Code(str(path), whole.split("\n"))

    def row(at):
        return text.count("\n", 0, at)

    for match in re.finditer(r"^[ \t]*(ghost )?(?:pub )?use ([^;]+);", text, re.M):
        if match[1]:
            code.uses.append(antt.read_use(antt.tokens_of([(row(match.start()) + 1, match[2].replace("\n", " "))]), set()))
        else:
            for whole_path in rust_uses(match[2]):
                target, _, local = whole_path.partition(" as ")
                parts = tuple(target.strip().split("::"))
                code.paths[local.strip() or parts[-1]] = parts
    for match in DECLARED.finditer(text):
        end = min(i for i in (text.find(c, match.end()) for c in "({;") if i >= 0)
        stop = balanced(text, end) if text[end] != ";" else end
        inner = text[end + 1:stop]
        variants, types = [], []
        if match[1] == "enum":
            for variant in re.finditer(r"(\w+)\s*(\([^)]*\)|\{[^}]*\})?\s*(?:,|$)", inner):
                variants.append(variant[1])
                types += paths_in(re.sub(r"\w+:(?!:)", "", variant[2] or ""))
        else:
            types = paths_in(re.sub(r"\bpub\b|\w+\s*:(?!:)", " ", inner))
        start = row(match.start())
        _, comment, first = above(code.lines, start)
        code.types.append(Declared(code.path, match[2], match[1], first + 1, start + 1, row(stop) + 1, comment, variants, types))
    for match in CONSTANT.finditer(text):
        start = row(match.start())
        _, comment, first = above(code.lines, start)
        value = " ".join(match[2].split())
        code.constants.append(Declared(code.path, match[1], "const", first + 1, start + 1, row(match.end()) + 1, comment, [value], []))
    for match in FUNCTION.finditer(text):
        start = row(match.start())
        opening = text.index("(", match.end())
        end = balanced(text, opening)
        parameters = text[opening + 1:end]
        names = re.findall(r"(\w+)\s*:(?!:)", parameters)
        types = paths_in(re.sub(r"\w+\s*:(?!:)", " ", parameters))
        result = re.compile(r"\s*->\s*([^{]*?)(?=\s*(?:\b(?:requires|ensures)\b|\{))").match(text, end + 1)
        at = end + 1
        if result:
            types += paths_in(result[1])
            at = result.end()
        contract = []
        while clause := CLAUSE.match(text, at):
            stop = balanced(text, clause.end() - 1)
            contract.append(antt.tokens_of([(row(clause.start()) + 1, text[clause.end():stop].replace("\n", " "))]))
            at = stop + 1
        body = text.find("{", at)
        does_nothing = body >= 0 and not text[body + 1:balanced(text, body)].strip()
        is_theorem = bool(contract) and not parameters.strip() and not result and does_nothing
        code.functions.append(Function(match[1], above(code.lines, start)[0], start + 1, types, names, contract, is_theorem))
    return code


def rust_uses(text):
    """a::{b, c::d} as a::b and a::c::d."""
    group = re.match(r"(.*?)\{(.*)\}$", text.strip(), re.S)
    if not group:
        return [text.strip()]
    return [group[1].strip() + part.strip() for part in group[2].split(",") if part.strip()]
