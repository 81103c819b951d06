"""Whether the plant finds engines that are wrong: bench/plain.rs, the rules in plain Rust, spoilt in one place at a
time, in the place of the archive.

    python3 plant/tests/wrong_engines.py [SEEDS [TEXT]]

All of them stand in one archive, and the variable WRONG says which one answers. For each it tells by which kind and
after how many seeds of at most SEEDS (300) it was found, and what was said. With TEXT only those whose name holds it.
The status is 1 where one is not found, or the rules as they are fail.
"""
import os
import pathlib
import re
import subprocess
import sys
import tempfile

TOP = pathlib.Path(__file__).resolve().parents[2]
PLAIN = (TOP / "bench/plain.rs").read_text()
KINDS = ["all", "equivocation", "guests", "weights", "crashes"]

# What blocks hold, which plain.rs has no function for, by its reads.
ROWS = """
#[no_mangle]
pub unsafe extern "C" fn forgelilac_block_rows(state: *const u32, state_words: usize, table: *const u32,
        table_words: usize, known: u32, number: u32, list: *mut u32, list_words: usize) -> u64 {
    let (state, table) = (f(state, state_words), f(table, table_words));
    if block(state, table, 0) >> 32 != 23 { return 1 << 32 }
    if known + number > state[22] { return 23 << 32 }
    let mut rows = Vec::new();
    for number in known + 1..=known + number {
        let (round, mut weights) = (block(state, table, number) as u32, [0; 16]);
        committee(state, table, round, &mut weights);
        let members: Vec<u32> = (0..16).filter(|member| weights[*member as usize] > 0).collect();
        let first = members.get((round as usize / 2) % members.len().max(1)).copied().unwrap_or(0);
        for (at, key) in (1..=round).flat_map(|at| (0..16).map(move |key| (at, key))) {
            let mut held = [0; 18];
            if certificate(state, table, (key + first) % 16, at, &mut held) == 0 && held[17] == number {
                rows.extend(held);
            }
        }
    }
    m(list, list_words)[..rows.len()].copy_from_slice(&rows);
    rows.len() as u64 / 18
}
#[no_mangle]
pub unsafe extern "C" fn forgelilac_guest_block_rows(_: u32, _: *const u32, _: usize, _: *const u32, _: usize, _: u32,
        _: u32, _: *mut u32, _: usize) -> u64 { 29 << 32 }
"""

# What asks for no state.
REST = """
#[no_mangle]
pub extern "C" fn forgelilac_version() -> u32 { VERSION }
#[no_mangle]
pub extern "C" fn forgelilac_format() -> u32 { 3 }
#[no_mangle]
pub extern "C" fn forgelilac_format_3() -> u32 { 3 }
#[no_mangle]
pub unsafe extern "C" fn forgelilac_leader_of(round: u32, weights: *const u32, weights_words: usize) -> u32 {
    let members: Vec<u32> = (0..16).zip(f(weights, weights_words)).filter(|(_, weight)| **weight > 0).map(|(member, _)| member).collect();
    if round == 0 || round % 2 == 1 || members.is_empty() { return 16 }
    members[(round as usize / 2) % members.len()]
}
"""


def declared(text, kind):
    """Name, parameters and answer of each function that the package links."""
    for name, arguments, answer in re.findall(r"pub fn forgelilac_%s(\w+)\(\s*(.*?)\)\s*->\s*(u32|u64);" % kind, text, re.S):
        yield name, " ".join(arguments.split()).rstrip(",").replace("CertificateRecord", "[u32; 17]"), answer


def version():
    """The number of the version that the package is made for."""
    said = re.search(r'ENGINE_VERSION: &str = "(\d+)\.(\d+)\.(\d+)"', (TOP / "bindings/rust/src/version.rs").read_text())
    major, minor, patch = (int(part) for part in said.groups())
    return 1000000 * major + 1000 * minor + patch


def exported(count):
    """The functions that the package links, over those of so many plain.rs."""
    lent = (TOP / "bindings/rust/src/lent.rs").read_text()
    there = set(re.findall(r"^pub fn (\w+)\(", PLAIN, re.M))
    out = ["mod plain%d;" % number for number in range(count)]
    out += ["use std::slice::{from_raw_parts as f, from_raw_parts_mut as m};",
            "static WRONG: std::sync::OnceLock<usize> = std::sync::OnceLock::new();",
            "fn wrong() -> usize {",
            "    *WRONG.get_or_init(|| std::env::var(\"WRONG\").map_or(0, |number| number.parse().unwrap()))",
            "}"]

    def chosen(name, values):
        arms = ", ".join("%d => plain%d::%s(%s)" % (number, number, name, values) for number in range(count))
        return "match wrong() { %s, _ => unreachable!() }" % arms

    for name, parameters, values, answer in [
            ("block", "state: &[u32], table: &[u32], number: u32", "state, table, number", "u64"),
            ("committee", "state: &[u32], table: &[u32], round: u32, out: &mut [u32]", "state, table, round, out", "u32"),
            ("certificate", "state: &[u32], table: &[u32], author: u32, round: u32, out: &mut [u32]",
             "state, table, author, round, out", "u32")]:
        out.append("fn %s(%s) -> %s { %s }" % (name, parameters, answer, chosen(name, values)))
    here = set()
    for name, arguments, answer in declared(lent, ""):
        if name not in there:
            continue
        pairs = [argument.split(": ") for argument in arguments.split(", ")]
        passed, at = [], 0
        while at < len(pairs):
            word, sort = pairs[at]
            if sort.startswith("*"):
                passed.append("%s(%s, %s)" % ("m" if sort.startswith("*mut") else "f", word, pairs[at + 1][0]))
                at += 1
            else:
                passed.append(word)
            at += 1
        out.append('#[no_mangle] pub unsafe extern "C" fn forgelilac_%s(%s) -> %s { %s }'
                   % (name, arguments, answer, chosen(name, ", ".join(passed))))
        here.add(name)
    here |= set(re.findall(r"fn forgelilac_(\w+)\(", ROWS + REST))
    # What the plant never asks for, but the package names.
    for name, arguments, answer in declared(lent, ""):
        if name not in here:
            out.append('#[no_mangle] pub unsafe extern "C" fn forgelilac_%s(%s) -> %s { std::process::abort() }'
                       % (name, arguments, answer))
    # An owner's call is the public one: these rules look at everything each time.
    for name, arguments, answer in declared((TOP / "bindings/rust/src/owner.rs").read_text(), "owned_"):
        passed = [word for word in (argument.split(": ")[0] for argument in arguments.split(", "))
                  if word not in ("kept", "kept_words")]
        body = "forgelilac_%s(%s)" % (name, ", ".join(passed)) if name != "resume" else \
            "u32::from(block(f(state, state_words), f(table, table_words), 0) >> 32 == 1)"
        out.append('#[no_mangle] pub unsafe extern "C" fn forgelilac_owned_%s(%s) -> %s { %s }'
                   % (name, arguments, answer, body))
    return "\n".join(out) + ROWS + REST.replace("VERSION", str(version()))


# (what is wrong, text that stands once in plain.rs, what takes its place)
WRONG = [
    ("votes that weigh the bound are enough", "committee.weight(votes) <= committee.bound()",
     "committee.weight(votes) < committee.bound()"),
    ("a commit asks for no votes", "committee.weight(votes) <= committee.bound()", "false"),
    ("signers need be no quorum", "if !committee.is_enough(signers) {", "if false {"),
    ("a second proposal of a place is endorsed", "if (row[0] | row[1]) >> author", "if row[0] >> author"),
    ("a second proposal of one's own", "if s.state[PROPOSED] == 1 || s.has(s.own(), r) {", "if s.has(s.own(), r) {"),
    ("an accept clears all endorsed marks of its round", "    table[ROW * round as usize + 1] &= !(1 << author);\n",
     "    table[ROW * round as usize + 1] = 0;\n"),
    ("what a certificate names need not be held",
     "    if round > 1 && body[0] & !s.held(round - 1) != 0 {\n        return Err(11);\n    }\n", ""),
    ("an older anchor is taken without its history", "if r % 2 == 0 && history >> leader & 1 == 1 {",
     "if r % 2 == 0 && s.held(r) >> (leader & 15) & 1 == 1 && leader < 16 {"),
    ("no older anchor is taken", "            anchors[taken] = (leader, r);\n            taken += 1;\n", ""),
    ("the leader of another round", "for _ in 0..(round / 2) % left", "for _ in 0..round % left"),
    ("an unbond does nothing", "*weight = if kind == 1 { 0 } else", "*weight = if kind == 1 { *weight } else"),
    ("the block of a round counts in its bonded committee", "if block_round >= s {", "if block_round > s {"),
    ("a lookback that is one shorter", "let s = round.saturating_sub(self.survey.lookback());",
     "let s = (round + 1).saturating_sub(self.survey.lookback());"),
    ("a round is known two rounds early", "if round > self.last + 2 + self.lookback() {",
     "if round > self.last + 4 + self.lookback() {"),
    ("a draw begins with guest 0 each time", "let (mut taken, mut from) = ([0; 8], row[SERVED]);",
     "let (mut taken, mut from) = ([0; 8], 0);"),
    ("a guest without the right is let in", "rights >> self.shift >> caller & 1 == 0", "false"),
    ("a refused enqueue has written",
     "    if count >= MOST_WAITING {\n        return Err(27);\n    }\n    let at = queue(guest) + 3 * count as usize;\n",
     "    let at = queue(guest) + 3 * count.min(7) as usize;\n    if count >= MOST_WAITING {\n"
     "        table[at..at + 3].copy_from_slice(transaction);\n        return Err(27);\n    }\n"),
    ("a port leaves out a byte of a line", "if place != 0 && byte < Listed::at(table, place)?.length() {\n        return Some((place, byte + 1));",
     "if place != 0 && byte < Listed::at(table, place)?.length() {\n        return Some((place, byte + 1 + u32::from(byte == 3)));"),
]


def built(folder, sources):
    """The plant over an archive of all these."""
    for number, source in enumerate(sources):
        (folder / ("plain%d.rs" % number)).write_text(source)
    (folder / "shim.rs").write_text(exported(len(sources)))
    archive = folder / "libwrong.a"
    command = "rustc --edition 2021 -O -A warnings --crate-type staticlib -C panic=abort".split()
    subprocess.run(command + ["-o", archive, folder / "shim.rs"], check=True)
    target = pathlib.Path(os.environ.get("CARGO_TARGET_DIR", TOP / "plant/target")) / "wrong"
    settings = dict(os.environ, FORGELILAC_ARCHIVE=str(archive), CARGO_TARGET_DIR=str(target))
    command = ["cargo", "build", "-q", "-j", "1", "--bin", "plant", "--manifest-path", TOP / "plant/Cargo.toml"]
    subprocess.run(command, env=settings, check=True)
    return target / "debug/plant"


def found(program, number, seeds):
    """Kind, seed and what was said of the first failure; nothing where there is none."""
    for kind in KINDS:
        step = 25
        for first in range(1, seeds + 1, step):
            command = [program, "seeds", "--kind", kind, "--from", str(first), "--count", str(step)]
            done = subprocess.run(command, capture_output=True, text=True, env=dict(os.environ, WRONG=str(number)))
            if done.returncode != 0:
                line = done.stdout.split("\n")[0]
                seed = re.match(r"seed (\d+), ", line)
                return (kind, int(seed.group(1)), line) if seed else (kind, first, done.stderr.strip()[-200:])
    return None


def main():
    seeds = int(sys.argv[1]) if len(sys.argv) > 1 else 300
    text = sys.argv[2] if len(sys.argv) > 2 else ""
    well = True
    for name, old, _ in WRONG:
        assert PLAIN.count(old) == 1, (name, PLAIN.count(old))
    chosen = [wrong for wrong in WRONG if text in wrong[0]]
    with tempfile.TemporaryDirectory() as folder:
        program = built(pathlib.Path(folder), [PLAIN] + [PLAIN.replace(old, new) for _, old, new in chosen])
        failure = found(program, 0, 25)
        well &= failure is None
        print("the rules as they are:", failure or "no failure", flush=True)
        for number, (name, _, _) in enumerate(chosen, 1):
            failure = found(program, number, seeds)
            well &= failure is not None
            print("%s: %s" % (name, "NOT FOUND in %d seeds of each kind" % seeds if failure is None
                              else "%s, seed %d: %s" % failure), flush=True)
    sys.exit(0 if well else 1)


if __name__ == "__main__":
    main()
