"""All crates read: what a name in a file means, and of what kind an item is.

Nothing here knows a crate by name. A path is read so, X being a crate of crates/:
    Rattle.X.F.A.B.{n}                  crates/X/F/A/B.antt (F: specs, proofs)
    Rattle.X.F.declared.a.T.{T}         the struct or enum T of crates/X/src/a.rt; without a, of any file of crates/X/src
    Rattle.X.F.declared.T.TheVariants   its variants
Every other path is a library's.

Kinds. A record or data declaration is `record` or `data`. Of any other item the final codomain of its type decides:
    Type                                           definition (of a type or a proposition)
    ≡ ≢ ≤ < ¬ ↔ ⊥, or a record, × or ⊎ of such      law
    data with indices                              law (a proposition by its cases)
    a record (or data) with propositions and data  instance where it is marked abbrev or unfoldable, else law: its data stay shut
    data of this tree, ℕ, Bool, List, Option       definition
    anything else                                  definition where it is marked or has a capital letter in its name, else law
An abbreviation for a proposition is looked through.
"""
import re
from pathlib import Path

import antt
import rt as source

PLAIN = {"ℕ", "Bool", "List", "Option"}
PROPOSITIONS = {"≡", "≢", "≤", "<", "≥", ">", "¬", "↔", "⊥", "Unit", "∈", "∉"}
DATA, PROPOSITION, MIXED, TYPE, UNKNOWN = "data", "proposition", "mixed", "type", "unknown"


class Library:
    """A name of a library: not of this tree."""

    def __init__(self, path, name):
        self.path, self.name = path, name


class Tree:
    """Files are read when they are asked for."""

    def __init__(self, root="."):
        self.root = Path(root)
        self.modules, self.codes = {}, {}  # (crate, folder, parts), (crate, parts)
        self.home, self.types, self.sorts, self.uses, self.kinds = {}, {}, {}, {}, {}
        self.crates = self.crates_in_order()
        for crate in self.crates:
            source_folder = self.root / "crates" / crate / "src"
            for path in sorted(source_folder.rglob("*.rt")):
                parts = path.relative_to(source_folder).with_suffix("").parts
                file = source.parse_code(path)
                file.path = str(path.relative_to(self.root))
                file.crate = crate
                self.codes[(crate, parts)] = file
                for declared in file.types:
                    declared.path = file.path
                    self.home[id(declared)] = file
                    self.types.setdefault((crate, declared.name), []).append((parts, declared))
                for constant in file.constants:
                    constant.path = file.path
                    self.home[id(constant)] = file
                    module = parts if parts not in (("lib",), ("main",)) else ()
                    self.types.setdefault((crate, constant.name), []).append((module + ("TheConstants",), constant))

    def crates_in_order(self):
        """Bottom to top, as crates.txt has them."""
        there = sorted(path.name for path in (self.root / "crates").iterdir() if path.is_dir())
        listed = self.root / "crates.txt"
        order = re.findall(r"^(\w+)\b[^:#\n]*:", listed.read_text(), re.M) if listed.exists() else []
        return [crate for crate in order if crate in there] + [crate for crate in there if crate not in order]

    def module(self, crate, folder, parts):
        """The module of a file, or nothing."""
        key = (crate, folder, tuple(parts))
        if key not in self.modules:
            path = self.root.joinpath("crates", crate, folder, *parts).with_suffix(".antt")
            module = None
            if parts and path.is_file():
                module = antt.parse_file(path)
                module.path = str(path.relative_to(self.root))
                module.key, module.table = key, module.own()
                for item in module.items:
                    self.home[id(item)] = module
            self.modules[key] = module
        return self.modules[key]

    def specs(self, crate=None):
        """The modules of specs/, of one crate or of all, each crate's in the order of its Lib."""
        found = []
        for name in self.crates if crate is None else [crate]:
            folder = self.root / "crates" / name / "specs"
            keys = [path.relative_to(folder).with_suffix("").parts for path in folder.rglob("*.antt")]
            lib = self.module(name, "specs", ("Lib",))
            order = ["Lib"] + (lib.mods if lib else [])
            keys.sort(key=lambda key: (order.index(key[0]) if key[0] in order else len(order), key))
            found += [self.module(name, "specs", key) for key in keys]
        return found

    # ---- names

    def is_ours(self, path):
        """Whether a path leads into a crate of this tree."""
        return path[0] == "Rattle" and path[1:2] and path[1] in self.crates

    def module_at(self, path):
        """The module that a path names, and what is left of the path: (module, rest), (declared, rest) or nothing."""
        if not self.is_ours(path) or len(path) < 3:
            return None
        crate, folder, rest = path[1], path[2], path[3:]
        if rest[:1] == ("declared",):
            return self.declared_at(crate, rest[1:])
        for k in range(len(rest), 0, -1):
            module = self.module(crate, folder, rest[:k])
            if module:
                return module, rest[k:]
        return None

    def declared_at(self, crate, parts):
        for k, name in enumerate(parts):
            found = self.types.get((crate, name))
            if found:
                exact = [d for where, d in found if where == parts[:k]]
                roots = [d for where, d in found if where in (("lib",), ("main",))]
                return (exact or roots or [d for _, d in found])[0], parts[k + 1:]
        return None

    def at(self, path, depth=0):
        """What a whole path means: an item, a declared type or a library's name."""
        found = self.module_at(path)
        if found is None:
            return None if self.is_ours(path) else Library(path[:-1], path[-1])
        where, rest = found
        if isinstance(where, source.Declared):
            return where
        return self.lookup(where, rest, depth + 1) if rest else None

    def lookup(self, file, parts, depth=0):
        """What a name means in a file of specs, proofs or src."""
        if depth > 20:
            return None
        head = parts[0]
        own = getattr(file, "table", {})
        if head in own:
            return own[head]
        for use in file.uses:
            for name, local in use.names:
                if local == head or head in antt.operator_parts(local) or "◌" in head and head.strip("◌") in antt.operator_parts(local):
                    return self.at(use.path + tuple(name.split(".")), depth + 1)
        for name in own:
            if head in antt.operator_parts(name) or "◌" in head and head.strip("◌") in antt.operator_parts(name):
                return own[name]
        if len(parts) > 1:
            for use in file.uses:
                if not use.names and (use.alias or use.path[-1]) == head:
                    return self.at(use.path + parts[1:], depth + 1)
        if head == "Rattle":
            return self.at(parts, depth + 1)
        for use in file.uses:
            if use.glob and hasattr(file, "key"):
                crate, folder, own_parts = file.key
                below = self.module(crate, folder, own_parts + use.path)
                if below and head in below.table:
                    return below.table[head]
        return None

    def is_constructor(self, file):
        def test(name):
            found = self.lookup(file, (name,))
            if isinstance(found, antt.Item):
                return found.form == "data" and (name in found.members or any(name in antt.operator_parts(m) for m in found.members))
            if isinstance(found, source.Declared):
                return name in found.variants
            return found is not None or name in ("yes", "no", "refl", "tt")
        return test

    def used(self, item):
        """antt.Used of an item."""
        if id(item) not in self.uses:
            module = self.home[id(item)]
            self.uses[id(item)] = module.used_by(item, self.is_constructor(module))
        return self.uses[id(item)]

    # ---- types of src

    def type_at(self, file, path):
        """The declared type that a path of src names, or nothing."""
        path = tuple(part for part in path if part not in ("self", "super"))
        if not path:
            return None
        if len(path) == 1:
            own = [d for d in file.types if d.name == path[0]]
            if own:
                return own[0]
            target = file.paths.get(path[0])
            return self.type_at(file, target) if target and target != path else None
        head, rest = path[0], path[1:]
        if head == "crate":
            head, rest = file.crate, path[1:]
        elif head in file.paths and len(file.paths[head]) > 1 and file.paths[head][0] != head:
            return self.type_at(file, file.paths[head] + rest)
        elif (file.crate, (head,)) in self.codes or not any(crate == head for crate, _ in self.codes):
            head, rest = file.crate, path
        found = self.declared_at(head, rest)
        return found[0] if found else None

    # ---- kinds

    def kind(self, item):
        """definition, law, record, data, instance; of a type of src, declared."""
        if id(item) not in self.kinds:
            self.kinds[id(item)] = item.kind = self.kind_of(item)
        return self.kinds[id(item)]

    def kind_of(self, item):
        if isinstance(item, source.Declared):
            return "declared"
        if item.form in ("record", "data"):
            return item.form
        module = self.home[id(item)]
        kinds = [self.kind_by(part, module, item.marks) for part in item.parts or [item]]
        return kinds[0] if len(set(kinds)) == 1 else "definition"

    def kind_by(self, item, module, marks):
        sort = self.sort_of(item.head, module, bound_by(item))
        shut = not marks & {"abbrev", "unfoldable"}
        if sort == UNKNOWN:
            sort = PROPOSITION if shut and item.names[0] == item.names[0].lower() else DATA
        if sort == MIXED:
            return "law" if shut else "instance"
        return "law" if sort == PROPOSITION else "definition"

    def sort_of(self, tokens, module, bound=frozenset(), depth=0):
        """Of what sort the values of a type are, by its final codomain."""
        tokens = codomain(tokens)
        while tokens and tokens[0].kind == "open" and antt.closing(tokens, 0) == len(tokens) - 1 and not antt.typed_names(tokens, 0)[0]:
            tokens = codomain(tokens[1:-1])
        if not tokens or depth > 12:
            return UNKNOWN
        for operator in ("×", "⊎"):
            parts = split(tokens, operator)
            if len(parts) > 1:
                sorts = [DATA if part[0].kind == "open" and antt.typed_names(part, 0)[0] and antt.closing(part, 0) == len(part) - 1
                         else self.sort_of(part, module, bound, depth + 1) for part in parts if part]
                sorts = [sort for sort in sorts if sort != UNKNOWN]
                if not sorts:
                    return UNKNOWN
                # that there is a value with a property is a law too
                return DATA if all(sort == DATA for sort in sorts) else PROPOSITION
        i = 0
        while i < len(tokens):
            if tokens[i].kind == "open":
                i = antt.closing(tokens, i)
            elif tokens[i].kind == "name" and tokens[i].text.strip("◌") in PROPOSITIONS:
                return PROPOSITION
            elif tokens[i].kind == "name" and i and self.operator_sort(tokens[i], module, depth) == PROPOSITION:
                return PROPOSITION
            i += 1
        head = tokens[0]
        if head.kind != "name":
            return UNKNOWN
        if head.text == "Type":
            return TYPE
        if head.text == "unfold":
            return self.sort_of(tokens[antt.find(tokens, {"in"}) + 1:], module, bound, depth + 1)
        if head.text == "record" and len(tokens) > 1:
            return MIXED
        if head.parts[0] in bound:
            return UNKNOWN
        return self.sort_of_name(self.lookup(module, head.parts), depth)

    def operator_sort(self, token, module, depth):
        found = self.lookup(module, token.parts)
        if isinstance(found, antt.Item) and token.text not in found.names and any(token.text in antt.operator_parts(n) for n in found.names):
            return self.sort_of_name(found, depth)
        return UNKNOWN

    def sort_of_name(self, found, depth):
        """Of what sort the values of a named type are."""
        if isinstance(found, Library):
            return DATA if found.name in PLAIN else UNKNOWN
        if isinstance(found, source.Declared):
            return DATA
        if not isinstance(found, antt.Item):
            return UNKNOWN
        if id(found) in self.sorts:
            return self.sorts[id(found)]
        self.sorts[id(found)] = UNKNOWN  # while it is looked at
        module, sort = self.home[id(found)], UNKNOWN
        if found.form == "data":
            colon = antt.find(found.head, {":"})
            arguments = {self.sort_of(inner(part), module, bound_by(found), depth + 1) for _, tokens in found.fields for part in split(tokens, "→")[:-1]}
            sort = PROPOSITION if antt.find(found.head, {"→"}, colon) < len(found.head) else MIXED if PROPOSITION in arguments else DATA
        elif found.form == "record":
            bound = bound_by(found) | set(found.members)
            sorts = {self.sort_of(tokens, module, bound, depth + 1) for _, tokens in found.fields}
            if PROPOSITION in sorts:
                sort = PROPOSITION if sorts <= {PROPOSITION, UNKNOWN} else MIXED
            else:
                sort = MIXED if MIXED in sorts else DATA
        elif found.form == "function":
            sorts = {self.sort_of(right, module, bound_by(found), depth + 1) for _, right, _ in found.clauses} - {UNKNOWN}
            sort = PROPOSITION if PROPOSITION in sorts else MIXED if MIXED in sorts else DATA if DATA in sorts else UNKNOWN
        self.sorts[id(found)] = sort
        return sort


def bound_by(item):
    """Names that section parameters and binders of an item's type bind, and opened fields."""
    bound = set()
    for around in item.context:
        if isinstance(around, antt.Open):
            bound |= {local for _, local in around.names}
    for tokens in [around.tokens for around in item.context if isinstance(around, antt.Params)] + [item.head]:
        for i, token in enumerate(tokens):
            if token.kind == "open":
                bound |= set(antt.typed_names(tokens, i)[0])
    for left, _, _ in item.clauses:
        bound |= {token.text for token in left if token.kind == "name" and token.text not in item.names}
    return bound


def split(tokens, operator):
    """The parts between an operator outside brackets."""
    parts, start, at = [], 0, antt.find(tokens, {operator})
    while at < len(tokens):
        parts.append(tokens[start:at])
        start, at = at + 1, antt.find(tokens, {operator}, at + 1)
    return parts + [tokens[start:]]


def inner(tokens):
    """The type of a binder, or the type itself."""
    names, after = antt.typed_names(tokens, 0) if tokens and tokens[0].kind == "open" else ([], 0)
    return tokens[after:antt.closing(tokens, 0)] if names else tokens


def codomain(tokens):
    """What stands behind the last arrow, and behind binders."""
    tokens = split(tokens, "→")[-1]
    while tokens and tokens[0].text == "{":
        tokens = tokens[antt.closing(tokens, 0) + 1:]
    return tokens
