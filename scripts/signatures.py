"""signatures.py: the functions that hosts link and the record that they lend, compared in the three places that write them out;
and the version, in all places that have it.

A contract speaks of a function's parameters by their names; that a host hands them in the same order, and lays a record out
in the same way, no contract says. So this compares
  - the exported functions of CRATES, `#[unsafe(no_mangle)] pub extern "C" fn`,
  - the header, include/forgelilac.h,
  - the Rust package, the modules `abi` of bindings/rust/src/lent.rs and, of owner's calls, of bindings/rust/src/owner.rs:
the same names, of each the same parameters in the same order by name and type, and the same result. A stretch is two
parameters for a host: `x: &[u32]` is `const uint32_t *x, size_t x_words`, `&mut` not const, and a row of records
`row: &[CertificateRecord]` is `const struct forgelilac_certificate *row, size_t row_count`, bytes `bytes: &[u8]` likewise. The record has the same fields in
the same order, of the same type and at the same offset, and is laid out as C does (`repr(C)`).

In the header each of these declarations begins with what its parameters ask for, so that a compiler tells a host's mistakes:
FORGELILAC_CHECKED, then for each stretch FORGELILAC_READS where it is const, else FORGELILAC_CHANGES, or FORGELILAC_WRITES where
it is not read before. And each function that answers a value and a refusal has its line behind FORGELILAC_ANSWERS.

The version of header and archive stands in the header as text, FORGELILAC_VERSION, from which the Makefile takes it, and as
three parts; in the archive as a number, the constant VERSION of crates/host; in the package as the one that it is made for,
ENGINE_VERSION; and as a heading of CHANGELOG.md, the newest that is not the package's. The format stands in the header, the
archive, the package and docs/TABLES.md, and in the name of a function that the header calls, forgelilac_format_3. The package's own stands in Cargo.toml, in Cargo.lock, and as a heading of CHANGELOG.md. Each is the same.

It exits 1 at the first difference, in words; else it says how many functions agree, and the version.
"""
import os
import re
import sys
from pathlib import Path

CRATES = ["host"]
HEADER = "include/forgelilac.h"
PACKAGE = "bindings/rust/src/lent.rs"
OWNER = "bindings/rust/src/owner.rs"
LAYOUT = "bindings/rust/src/layout.rs"
VERSION = "bindings/rust/src/version.rs"
ARCHIVE = "crates/host/src/versions.rt"
STORED = "crates/storing/src/stored.rt"
RECORD = "crates/batching/src/rows.rt"
RECORDS = {"CertificateRecord": "struct forgelilac_certificate"}       # the types of Rattle and of Rust, and C's name of each
COMPUTED = {"forgelilac_table_words", "forgelilac_stored_bytes"}       # the package has them as constant functions, and does not link them
PLAIN = {"forgelilac_table_words", "forgelilac_stored_bytes"}       # answer a number of 64 bits, and no refusal
VERSIONS = [        # each place that has the header's version, and the lines that have it: one, or one for each of its parts
    (HEADER, [r'^#define FORGELILAC_VERSION "(.*)"$']),
    (HEADER, [rf"^#define FORGELILAC_VERSION_{part} (\d+)$" for part in ("MAJOR", "MINOR", "PATCH")]),
    (VERSION, [r'^pub const ENGINE_VERSION: &str = "(.*)";$']),
    ("CHANGELOG.md", [r"^## (\d+\.\d+\.\d+)(?! of the Rust package)\b"]),
]
PACKAGE_VERSIONS = [        # the same of the Rust package, which has a version of its own
    ("bindings/rust/Cargo.toml", [r'^version = "(.*)"$']),
    ("bindings/rust/Cargo.lock", [r'^name = "forgelilac"\nversion = "(.*)"$']),
    ("CHANGELOG.md", [r"^## (\d+\.\d+\.\d+) of the Rust package\b"]),
]
FORMATS = [        # the same of the format
    (HEADER, [r"^#define FORGELILAC_FORMAT (\d+)$"]),
    (HEADER, [r"return forgelilac_format_(\d+)\(\) == FORGELILAC_FORMAT$"]),
    (STORED, [r"^pub const FORMAT: u32 = (\d+);$"]),
    (ARCHIVE, [r'^pub extern "C" fn forgelilac_format_(\d+)\(\)']),
    (LAYOUT, [r"^pub const FORMAT: u32 = (\d+);$"]),
    ("bindings/rust/build.rs", [r'^const FORMAT: &str = "forgelilac_format_(\d+)";$']),
    ("docs/TABLES.md", [r"^The format of these words has a number: \*\*(\d+)\*\* today"]),
]
SIZES = {"uint8_t": 1, "uint16_t": 2, "uint32_t": 4, "uint64_t": 8}
WORDS = {"u8": "uint8_t", "u16": "uint16_t", "u32": "uint32_t", "u64": "uint64_t", "usize": "size_t"}


class Different(Exception):
    pass


def text_of(path):
    return Path(path).read_text(encoding="utf-8")


def bare(text):
    """C or Rust without its comments, each line where it was."""
    text = re.sub(r"/\*.*?\*/", lambda found: "\n" * found[0].count("\n"), text, flags=re.S)
    return re.sub(r"//[^\n]*", "", text)


def line_of(text, place):
    return text.count("\n", 0, place) + 1


def parts(text):
    """What commas part."""
    return [part for part in (" ".join(one.split()) for one in text.split(",")) if part]


def shown(parameter):
    kind, name = parameter
    return f"`{kind}{'' if kind.endswith('*') else ' '}{name}`"


class Function:
    """A function as C sees it: its parameters, each a type and a name, and its result."""

    def __init__(self, name, parameters, result, place, marks=""):
        self.name, self.parameters, self.result, self.place, self.marks = name, parameters, result, place, marks

    def wanted_marks(self):
        """What the header's declaration begins with: each alternative of a stretch that is written."""
        wanted = ["FORGELILAC_CHECKED"]
        for number, (kind, _) in enumerate(self.parameters, 1):
            if kind.endswith("*"):
                form = "READS" if kind.startswith("const ") else "(?:CHANGES|WRITES)"
                wanted.append(rf"FORGELILAC_{form}\({number}, {number + 1}\)")
        return " ".join(wanted)


def in_words(kind, place):
    """A type of Rust's that holds no pointer, as C's."""
    if kind in WORDS:
        return WORDS[kind]
    if kind in RECORDS:
        return RECORDS[kind]
    raise Different(f"{place}: no type of C is known for {kind}")


def of_rattle(parameter, place):
    """The parameters that a host hands for one of Rattle's."""
    name, kind = (part.strip() for part in parameter.split(":", 1))
    stretch = re.fullmatch(r"&(mut )?\[(\w+)\]", kind)
    if not stretch:
        return [(in_words(kind, place), name)]
    length = f"{name}_words" if stretch[2] in ("u32", "u64") else f"{name}_count"
    return [(f"{'' if stretch[1] else 'const '}{in_words(stretch[2], place)} *", name), ("size_t", length)]


def of_rust(parameter, place):
    name, kind = (part.strip() for part in parameter.split(":", 1))
    pointer = re.fullmatch(r"\*(const|mut) (\w+)", kind)
    if not pointer:
        return in_words(kind, place), name
    return f"{'const ' if pointer[1] == 'const' else ''}{in_words(pointer[2], place)} *", name


def of_c(parameter, place):
    kind, name = re.fullmatch(r"(.*?)\s*(\w+)", parameter).groups()
    return re.sub(r"\s*\*\s*", " *", kind), name


EXPORT = re.compile(r'#\[unsafe\(no_mangle\)\]\s*(?:#\[.*\]\s*)*pub extern "C" fn (\w+)\(([^)]*)\)(?:\s*->\s*(\w+))?')
MARK = r"FORGELILAC_[A-Z]+(?:\(\d+, \d+\))?"
DECLARED = re.compile(rf"^((?:{MARK}\s+)*)(?!static\b|FORGELILAC)(\w+(?:\s+\w+)*?)\s+(forgelilac_\w+)\(([^)]*)\);", re.M)
LINKED = re.compile(r"pub fn (\w+)\(([^)]*)\)(?:\s*->\s*(\w+))?;")


def exported(crates):
    functions = {}
    for crate in crates:
        for path in sorted(Path("crates", crate, "src").rglob("*.rt")):
            text = bare(text_of(path))
            found = list(EXPORT.finditer(text))
            if len(found) != text.count("no_mangle"):
                raise Different(f"{path}: {text.count('no_mangle')} functions are marked no_mangle, and {len(found)} can be read")
            for one in found:
                place = f"{path}:{line_of(text, one.start(1))}"
                parameters = [made for parameter in parts(one[2]) for made in of_rattle(parameter, place)]
                functions[one[1]] = Function(one[1], parameters, in_words(one[3], place) if one[3] else "void", place)
    return functions


def offered():
    """By the header: a function without a body."""
    text = re.sub(r"^#[^\n]*(?:\\\n[^\n]*)*", lambda found: "\n" * found[0].count("\n"), bare(text_of(HEADER)), flags=re.M)
    functions = {}
    for one in DECLARED.finditer(text):
        place = f"{HEADER}:{line_of(text, one.start(3))}"
        parameters = [of_c(parameter, place) for parameter in parts(one[4]) if parameter != "void"]
        functions[one[3]] = Function(one[3], parameters, one[2], place, " ".join(one[1].split()))
    return functions


def marked(functions):
    """The first declaration of the header without the marks of its parameters, or without its line for answers."""
    answers = set(re.findall(r"^#define (forgelilac_\w+)\(\.\.\.\) forgelilac_answer_of\(\1\(__VA_ARGS__\)\)$", text_of(HEADER), re.M))
    for name, function in functions.items():
        wanted = function.wanted_marks()
        if not re.fullmatch(wanted, function.marks):
            readable = wanted.replace("\\", "").replace("(?:CHANGES|WRITES)", "CHANGES")
            raise Different(f"{function.place}: {name} is to begin with {readable}, CHANGES or WRITES where it writes, and begins with "
                            f"{function.marks or 'nothing'}")
        if function.result == "uint64_t" and name not in PLAIN | answers:
            raise Different(f"{function.place}: {name} has no line behind FORGELILAC_ANSWERS")


def linked():
    """By the Rust package."""
    functions = {}
    for path in (PACKAGE, OWNER):
        text = bare(text_of(path))
        block = re.search(r'unsafe extern "C" \{(.*?)\n    \}', text, re.S)
        for one in LINKED.finditer(text, block.start(1), block.end(1)):
            place = f"{path}:{line_of(text, one.start(1))}"
            functions[one[1]] = Function(one[1], [of_rust(parameter, place) for parameter in parts(one[2])], in_words(one[3], place) if one[3] else "void", place)
    return functions


def same_functions(engine, other, where, left_out=frozenset()):
    """The first difference between the engine's functions and those of another place."""
    for name in engine:
        if name not in other and name not in left_out:
            raise Different(f"{engine[name].place}: {name} is exported, and {where} has none of that name")
    for name, function in other.items():
        if name not in engine:
            raise Different(f"{function.place}: there is no exported function {name}")
        same_function(engine[name], function)


def same_function(one, other):
    for number, pair in enumerate(zip(one.parameters, other.parameters), 1):
        if pair[0] != pair[1]:
            raise Different(f"{one.name}: parameter {number} is {shown(pair[0])} by {one.place}, and {shown(pair[1])} at {other.place}")
    if len(one.parameters) != len(other.parameters):
        raise Different(f"{one.name}: {len(one.parameters)} parameters by {one.place}, and {len(other.parameters)} at {other.place}")
    if one.result != other.result:
        raise Different(f"{one.name}: its result is {one.result} by {one.place}, and {other.result} at {other.place}")


# ---- the record


def number_in(word, constants, place):
    if word.isdigit():
        return int(word)
    if word not in constants:
        raise Different(f"{place}: {word} is no number that is known")
    return constants[word]


def laid_out(fields):
    """Each field with its offset, as C lays them out."""
    at, found = 0, []
    for name, kind, count in fields:
        at = -(-at // SIZES[kind]) * SIZES[kind]
        found.append((name, kind, count, at))
        at += SIZES[kind] * count
    return found


def of_struct(path, constants):
    """The record of Rattle or of Rust."""
    text = bare(text_of(path))
    found = re.search(r"((?:#\[[^\n]*\]\s*)*)pub struct CertificateRecord \{(.*?)\n\}", text, re.S)
    place = f"{path}:{line_of(text, found.start(2))}"
    if "#[repr(C)]" not in found[1]:
        raise Different(f"{place}: CertificateRecord is not laid out as C does: repr(C) is not there")
    fields = []
    for name, array, count, plain in re.findall(r"(?:pub )?(\w+): (?:\[(\w+); (\w+)\]|(\w+)),", found[2]):
        fields.append((name, in_words(array or plain, place), number_in(count, constants, place) if array else 1))
    return laid_out(fields), place


def of_header():
    text = bare(text_of(HEADER))
    constants = {name: int(value) for name, value in re.findall(r"^#define (FORGELILAC_\w+) (\d+)\s*$", text, re.M)}
    found = re.search(RECORDS["CertificateRecord"] + r" \{(.*?)\n\};", text, re.S)
    place = f"{HEADER}:{line_of(text, found.start(1))}"
    fields = []
    for kind, names in re.findall(r"(\w+) ([^;]*);", found[1]):
        for name, count in re.findall(r"(\w+)(?:\[(\w+)\])?", re.sub(r"\s", "", names)):
            fields.append((name, kind, number_in(count, constants, place) if count else 1))
    return laid_out(fields), place


def same_record(one, other):
    (fields, place), (others, there) = one, other
    for number, pair in enumerate(zip(fields, others), 1):
        if pair[0] != pair[1]:
            told = ["{0}: {1}, {2} of them, at byte {3}".format(*field) for field in pair]
            raise Different(f"CertificateRecord: field {number} is {told[0]} by {place}, and {told[1]} at {there}")
    if len(fields) != len(others):
        raise Different(f"CertificateRecord: {len(fields)} fields by {place}, and {len(others)} at {there}")


# ---- the version


def same_version(versions, what="version"):
    """The version, or what else it is, where each place has the same."""
    told = []
    for path, forms in versions:
        text = text_of(path)
        found = [re.search(form, text, re.M) for form in forms]
        if None in found:
            raise Different(f"{path}: no line is {forms[found.index(None)]}")
        told.append((".".join(one[1] for one in found), f"{path}:{line_of(text, found[0].start(1))}"))
    (version, place), *others = told
    for other, there in others:
        if other != version:
            raise Different(f"the {what} is {version} by {place}, and {other} by {there}")
    return version


def same_number(version):
    """The number that the archive tells is that of the version."""
    told = re.search(r"^const VERSION: u32 = (\d+);$", text_of(ARCHIVE), re.M)
    major, minor, patch = map(int, version.split("."))
    number = 1_000_000 * major + 1_000 * minor + patch
    if not told or int(told[1]) != number:
        raise Different(f"{ARCHIVE}: VERSION is {told[1] if told else 'not there'}, and that of {version} is {number}")


def main():
    os.chdir(Path(__file__).resolve().parents[1])
    try:
        engine = exported(CRATES)
        declared = offered()
        same_functions(engine, declared, HEADER)
        marked(declared)
        same_functions(engine, linked(), f"{PACKAGE} or {OWNER}", COMPUTED)
        constants = {name: int(value.replace("_", "")) for name, value in re.findall(r"^pub const (\w+): usize = ([\d_]+);", text_of(LAYOUT), re.M)}
        record = of_struct(RECORD, {})
        same_record(record, of_header())
        same_record(record, of_struct(PACKAGE, constants))
        version, package = same_version(VERSIONS), same_version(PACKAGE_VERSIONS)
        same_number(version)
        form = same_version(FORMATS, "format")
    except Different as found:
        print(f"signatures.py: {found}", file=sys.stderr)
        return 1
    print(f"signatures: {len(engine)} functions are the same in {', '.join(f'crates/{crate}' for crate in CRATES)}, the header and the Rust package, "
          f"and so is the record, {len(record[0])} fields in {sum(count for _, _, count, _ in record[0])} words; "
          f"the version is {version}, the format {form}, and the version of the package {package}")
    return 0


if __name__ == "__main__":
    sys.exit(main())
