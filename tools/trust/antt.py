"""Files of specs/ and proofs/, read: the header, the top-level items, and the names that each item uses.

    module = parse_file(path)
    module.comment   the file's first comment
    module.uses      the `use` lines: Use(line, path, names [(name, local name)], alias, public)
    module.mods      the `mod` lines, in order
    module.items     the items, those of `module _` blocks among them: Item, below

    item.names       what it declares; item.members its constructors or fields
    item.kind        record, data, definition, law: by its marks alone (see guess); tree.py tells it from the type
    item.first       its first line with the comment above; item.start without; item.last its last line; item.text first to last
    item.used        the names that it uses: Used(type, body, unfolding), names as tuples of parts; used.all() is all three

Which names of a pattern are constructors cannot be told from one file: `is_constructor` of Module.used_by says (tree.py
knows all files); without it imported names and this file's constructors are.
Scopes are kept: binders, patterns, `let`, `where`, section parameters and opened fields hide what they spell.
"""
import re
from dataclasses import dataclass, field

MARKS = {"pub", "abbrev", "unfoldable", "axiom"}
KEYWORDS = {"data", "record", "deriving", "module", "where", "use", "mod", "pub", "package", "open", "as", "unfoldable",
            "abbrev", "axiom", "unfold", "unfolding", "ruleset", "mutual", "infix", "infixl", "infixr", "elim", "let", "in", "do",
            "λ", "∀", "Type", "=", ":", "→", "×", "|", "↦", "←", "_", "↔", "[", "]"}
TOKEN = re.compile(r'--[^\n]*|\{-.*?-\}|"(?:[^"\\]|\\.)*"|«[^»]*»|[(){};,@.]|[^\s(){}.;,@"«»]+', re.S)


@dataclass
class Token:
    kind: str  # name, open, close, mark (; , @), dot, field (.x), text
    text: str
    line: int
    parts: tuple = ()  # of a name: a.b.c


@dataclass
class Use:
    line: int
    path: tuple
    names: list
    alias: str
    public: bool = False
    glob: bool = False


@dataclass
class Item:
    names: list
    form: str  # function, record, data, mutual, axiom, ruleset
    marks: set
    first: int  # with the comment above
    start: int
    last: int
    text: str = ""  # of first to last
    comment: str = ""
    context: list = field(default_factory=list)  # what it stands in: Params and Open, outermost first
    members: list = field(default_factory=list)  # constructors or fields
    head: list = field(default_factory=list)  # tokens of the type
    fields: list = field(default_factory=list)  # (name, tokens of its type)
    clauses: list = field(default_factory=list)  # (left, right, items of its where)
    unfolding: list = field(default_factory=list)
    parts: list = field(default_factory=list)  # items of a mutual block
    kind: str = ""
    module: object = field(default=None, repr=False)

    @property
    def used(self):
        return self.module.used_by(self)


@dataclass
class Params:
    first: int
    where: int  # the last line of its head
    last: int
    tokens: list


@dataclass
class Open:
    line: int
    value: list
    names: list  # (field, local name)


@dataclass
class Used:
    type: dict = field(default_factory=dict)  # names as tuples of parts, in order; of records and data all names
    body: dict = field(default_factory=dict)
    unfolding: dict = field(default_factory=dict)

    def all(self):
        return {**self.type, **self.body, **self.unfolding}


@dataclass
class Module:
    path: str
    lines: list
    comment: str = ""
    uses: list = field(default_factory=list)
    mods: list = field(default_factory=list)
    items: list = field(default_factory=list)

    def own(self):
        """Name to item, constructors too."""
        return {name: item for item in self.items for name in item.members * (item.form == "data") + item.names}

    def used_by(self, item, is_constructor=None):
        if is_constructor is None:
            known = {local for use in self.uses for _, local in use.names}
            known |= {name for other in self.items if other.form == "data" for name in other.members}
            known |= {part for name in known for part in operator_parts(name)}
            is_constructor = known.__contains__
        return used_by(item, {}, is_constructor)


# ---- tokens

def tokens_of(lines):
    """Tokens of (number, text) lines."""
    raw = []
    text = "\n".join(line for _, line in lines)
    numbers = [number for number, _ in lines]
    at, row = 0, 0
    for match in TOKEN.finditer(text):
        row += text.count("\n", at, match.start())
        at = match.start()
        if not match[0].startswith(("--", "{-")):
            raw.append((match[0], match.start(), match.end(), numbers[row]))
    tokens, i = [], 0
    while i < len(raw):
        text, start, end, line = raw[i]
        if text == ".":
            if i + 1 < len(raw) and raw[i + 1][1] == end and is_word(raw[i + 1][0]):
                i += 1
                tokens.append(Token("field", raw[i][0], line))
            else:
                tokens.append(Token("dot", text, line))
        elif text in "({":
            tokens.append(Token("open", text, line))
        elif text in ")}":
            tokens.append(Token("close", text, line))
        elif text in ";,@":
            tokens.append(Token("mark", text, line))
        elif text.startswith('"'):
            tokens.append(Token("text", text, line))
        else:
            parts = [text]
            while i + 2 < len(raw) and raw[i + 1][0] == "." and raw[i + 1][1] == raw[i][2] and raw[i + 2][1] == raw[i + 1][2] and is_word(raw[i + 2][0]):
                parts.append(raw[i + 2][0])
                i += 2
            tokens.append(Token("name", ".".join(parts), line, tuple(parts)))
        i += 1
    return tokens


def is_word(text):
    return text[0] not in '(){}.;,@"'


def operator_parts(name):
    """Of ◌≼◌: ≼. Of a plain name: nothing."""
    return [part for part in name.split("◌") if part] if "◌" in name and not name.startswith("«") else []


def closing(tokens, i):
    """Where the bracket that opens at i closes."""
    depth = 0
    while i < len(tokens):
        depth += (tokens[i].kind == "open") - (tokens[i].kind == "close")
        if depth == 0:
            return i
        i += 1
    return len(tokens) - 1


def find(tokens, texts, start=0):
    """The first of these words outside brackets, or the end."""
    i = start
    while i < len(tokens):
        if tokens[i].kind == "open":
            i = closing(tokens, i)
        elif tokens[i].text in texts and tokens[i].kind == "name":
            return i
        i += 1
    return len(tokens)


# ---- names in terms

def bind(scope, name, why=()):
    scope[name] = why
    for part in operator_parts(name):
        scope[part] = why


def note(token, scope, found):
    """A name that stands in a term."""
    head = token.parts[0]
    if head in KEYWORDS and len(token.parts) == 1 or head[0].isdigit():
        return
    if head in scope:
        for path in scope[head]:
            found[path] = True
    else:
        found[token.parts] = True


def typed_names(tokens, i):
    """Of a group (x y : A) that opens at i: x y and where the type starts; else nothing."""
    j, names = i + 1, []
    while j < len(tokens) and tokens[j].kind == "name" and len(tokens[j].parts) == 1:
        if tokens[j].text == ":":
            return (names, j + 1) if names else ([], 0)
        if tokens[j].text in KEYWORDS:
            break
        names.append(tokens[j].text)
        j += 1
    return [], 0


def is_label(tokens, i):
    """The x of { x = e; .. }."""
    return (i > 0 and tokens[i - 1].text in ("{", ";") and tokens[i].kind == "name"
            and i + 1 < len(tokens) and tokens[i + 1].text in ("=", ":"))


def bind_pattern(tokens, scope, found, is_constructor):
    """Variables of a pattern are bound; its constructors are found. Bound only when all is read."""
    bound = []
    i = 0
    while i < len(tokens):
        token = tokens[i]
        names, after = typed_names(tokens, i) if token.kind == "open" else ([], 0)
        if names:
            end = closing(tokens, i)
            walk(tokens[after:end], dict(scope), found, is_constructor)
            bound += names
            i = end
        elif token.kind == "name" and not (is_label(tokens, i) and tokens[i + 1].text == "="):
            if len(token.parts) > 1 or is_constructor(token.text):
                found[token.parts] = True
            elif token.text not in KEYWORDS and not token.text[0].isdigit():
                bound.append(token.text)
        i += 1
    for name in bound:
        bind(scope, name)


def walk(tokens, scope, found, is_constructor):
    """Finds the names that the tokens use; what they bind to their right is bound in scope."""
    outer, base, lets = [], dict(scope), []
    here, i = scope, 0
    while i < len(tokens):
        token = tokens[i]
        if token.kind == "open":
            names, after = typed_names(tokens, i)
            if i > 0 and tokens[i - 1].text == "record":
                names, after = [], 0
            outer.append((here, base, names))
            here = dict(here)
            base = dict(here)
            if names:
                i = after
                continue
        elif token.kind == "close" and outer:
            here, base, names = outer.pop()
            for name in names:
                bind(here, name)
        elif token.kind == "mark" and outer:
            here = dict(base)
        elif token.kind == "name":
            if is_label(tokens, i):
                if tokens[i + 1].text == ":":
                    bind(here, token.text)
                    bind(base, token.text)
                i += 2
                continue
            if token.text in ("λ", "∀"):
                end = i + 1
                while end < len(tokens) and tokens[end].kind != "dot":
                    end = closing(tokens, end) + 1 if tokens[end].kind == "open" else end + 1
                bind_pattern(tokens[i + 1:end], here, found, is_constructor)
                i = end
            elif token.text == "let":
                end = find(tokens, {"=", ":"}, i + 1)
                pending = {}
                bind_pattern(tokens[i + 1:end], pending, found, is_constructor)
                lets.append(pending)
                i = end
            elif token.text == "unfold":
                lets.append({})
            elif token.text == "in" and lets:
                here.update(lets.pop())
            else:
                note(token, here, found)
        i += 1


def used_by(item, scope, is_constructor):
    used, scope = Used(), dict(scope)
    for around in item.context:
        if isinstance(around, Params):
            walk(around.tokens, scope, used.type, is_constructor)
        else:
            why = {}
            walk(around.value, dict(scope), why, is_constructor)
            for _, local in around.names:
                bind(scope, local, tuple(why))
    for name in item.names:
        bind(scope, name)
    if item.form == "mutual":
        for part in item.parts:
            add(used, used_by(part, scope, is_constructor))
        return used
    inner = dict(scope)
    walk(item.head, inner, used.type, is_constructor)
    for name, tokens in item.fields:
        walk(tokens, dict(inner), used.type, is_constructor)
        if item.form == "record":
            bind(inner, name)
    for left, right, helpers in item.clauses:
        here = dict(scope)
        own = set(item.names) | {part for name in item.names for part in operator_parts(name)}
        bind_pattern([t for t in left if t.text not in own], here, used.body, is_constructor)
        for helper in helpers:
            for name in helper.names + helper.members * (helper.form == "data"):
                bind(here, name)
        for helper in helpers:
            inside = used_by(helper, here, is_constructor)
            used.body.update(inside.type)
            used.body.update(inside.body)
            used.unfolding.update(inside.unfolding)
        walk(right, here, used.body, is_constructor)
    for token in item.unfolding:
        note(token, {}, used.unfolding)
    return used


def add(used, more):
    used.type.update(more.type)
    used.body.update(more.body)
    used.unfolding.update(more.unfolding)


# ---- files

def indent_of(line):
    return len(line) - len(line.lstrip(" "))


def is_comment(line):
    return line.lstrip().startswith("--")


def chunks_of(lines, level):
    """(comment lines, lines) of each declaration or clause at an indent; deeper lines go on with it."""
    chunks, comments, current = [], [], None
    for number, line in lines:
        if not line.strip():
            comments = []
        elif indent_of(line) > level and current is not None:
            current += comments + [(number, line)]
            comments = []
        elif is_comment(line):
            if line.strip().startswith("-- --"):
                comments = []
            else:
                comments.append((number, line))
        else:
            current = [(number, line)]
            chunks.append((comments, current))
            comments = []
    return chunks


def after_line(lines, number):
    return [(n, line) for n, line in lines if n > number]


def level_of(lines):
    return min((indent_of(line) for _, line in lines if line.strip() and not is_comment(line)), default=0)


def words_of(comments):
    return " ".join(line.strip().lstrip("-").strip() for _, line in comments if is_comment(line))


def split_marks(tokens):
    i = 0
    while i < len(tokens) and tokens[i].text in MARKS:
        i += 1
    return {token.text for token in tokens[:i]}, tokens[i:]


def read_use(tokens, marks):
    path, names, alias, glob = [], [], "", False
    i = 0
    while i < len(tokens):
        token = tokens[i]
        if token.kind == "name" and token.text == "as":
            alias = tokens[i + 1].text
            i += 1
        elif token.kind in ("name", "field"):
            path += list(token.parts or (token.text,))
        elif token.kind == "open":
            end = closing(tokens, i)
            inner, j = tokens[i + 1:end], 0
            while j < len(inner):
                if inner[j].kind == "name":
                    name = local = inner[j].text
                    if j + 2 < len(inner) and inner[j + 1].text == "as":
                        local = inner[j + 2].text
                        j += 2
                    names.append((name, local.split(".")[-1]))
                j += 1
            i = end
        i += 1
    if path and path[-1] == "*":
        path, glob = path[:-1], True
    if path and path[0] == "package":
        path = path[1:]
    return Use(tokens[0].line if tokens else 0, tuple(path), names, alias, "pub" in marks, glob)


def read_open(tokens, line):
    use = find(tokens, {"use"})
    names, inner, j = [], tokens[use + 2:-1], 0
    while j < len(inner):
        if inner[j].kind == "name":
            name = local = inner[j].text
            if j + 2 < len(inner) and inner[j + 1].text == "as":
                local = inner[j + 2].text
                j += 2
            names.append((name, local))
        j += 1
    return Open(line, tokens[:use], names)


def read_block(module, lines, context):
    """The items of a block."""
    items, item, lead = [], None, []
    context = list(context)
    for comments, chunk in chunks_of(lines, level_of(lines)):
        tokens = tokens_of(chunk)
        if not tokens:
            continue
        start, last = chunk[0][0], chunk[-1][0]
        marks, rest = split_marks(tokens)
        word = rest[0].text if rest else ""
        comments, lead = lead + comments, []
        if word == "use":
            module.uses.append(read_use(rest[1:], marks))
        elif word == "mod":
            module.mods.append(rest[1].text)
        elif word in ("infix", "infixl", "infixr"):
            lead = comments + chunk
        elif word == "open":
            context = context + [read_open(rest[1:], start)]
        elif word == "module":
            where = find(rest, {"where"})
            end = rest[min(where, len(rest) - 1)].line
            inside = after_line(chunk, end)
            params = Params(start, end, last, rest[2:where])
            items += read_block(module, inside, context + [params])
            item = None
        elif word == "unfolding":
            if item:
                item.unfolding += rest[1:]
                item.last = last
        elif is_declaration(word, rest):
            first = comments[0][0] if comments else start
            item = Item([rest[0].text], "function", marks, first, start, last, comment=words_of(comments), context=context)
            if word in ("record", "data"):
                read_type(module, item, word, rest, chunk)
            elif word == "mutual":
                inside = after_line(chunk, start)
                item.form, item.parts = "mutual", read_block(module, inside, [])
                item.names = [name for part in item.parts for name in part.names]
            elif word == "ruleset":
                item.form, item.names = "ruleset", [rest[1].text]
                item.clauses = [([], rest[2:], [])]
            else:
                item.form = "axiom" if "axiom" in marks else "function"
                item.head = rest[find(rest, {":"}) + 1:]
            items.append(item)
        elif item:
            read_clause(module, item, chunk)
            item.last = last
    for item in items:
        item.text = "\n".join(module.lines[item.first - 1:item.last])
    return items


def is_declaration(word, rest):
    if word in ("record", "data", "mutual", "ruleset"):
        return True
    i = 1
    if i < len(rest) and rest[i].text == "{":
        i = closing(rest, i) + 1
    return rest[0].kind == "name" and i < len(rest) and rest[i].text == ":"


def read_type(module, item, word, rest, chunk):
    where = find(rest, {"where"})
    item.form, item.names, item.head = word, [rest[1].text], rest[2:where]
    if where < len(rest):
        inside = after_line(chunk, rest[where].line)
        for _, lines in chunks_of(inside, level_of(inside)):
            _, tokens = split_marks(tokens_of(lines))
            if tokens and find(tokens, {":"}) == 1:
                item.members.append(tokens[0].text)
                item.fields.append((tokens[0].text, tokens[2:]))


def read_clause(module, item, chunk):
    at = next((i for i, (_, line) in enumerate(chunk) if not is_comment(line) and re.search(r"(^|\s)where\s*$", line)), None)
    helpers = []
    if at is not None:
        helpers = read_block(module, chunk[at + 1:], [])
        chunk = chunk[:at] + [(chunk[at][0], re.sub(r"where\s*$", "", chunk[at][1]))]
    tokens = tokens_of(chunk)
    equals = find(tokens, {"="})
    item.clauses.append((tokens[:equals], tokens[equals + 1:], helpers))


def parse_file(path):
    with open(path, encoding="utf-8") as file:
        lines = file.read().split("\n")
    module = Module(str(path), lines)
    numbered = list(enumerate(lines, 1))
    top = []
    for line in lines:
        if not is_comment(line):
            break
        top.append(line.strip().lstrip("-").strip())
    module.comment = " ".join(top)
    module.items = read_block(module, numbered, [])
    for item in module.items:
        item.module, item.kind = module, guess(item)
    return module


def guess(item):
    """A law is neither a type nor marked abbrev or unfoldable, and its name has no capital letter."""
    if item.form in ("record", "data"):
        return item.form
    return "definition" if item.marks & {"abbrev", "unfoldable"} or item.names[0] != item.names[0].lower() else "law"
