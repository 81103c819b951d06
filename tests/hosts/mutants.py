"""Spoils bench/plain.rs in one place at a time and counts which of the
spoilt ones the comparison with the reference notices.

    python3 tests/hosts/mutants.py [CALLS [SEED [TEXT]]]

With TEXT only those whose old text holds it. JOBS says how many are tried at
a time. Status 1 where one is not noticed, and where one cannot be tried.
"""
import os, shutil, subprocess, sys, tempfile, threading
from concurrent.futures import ThreadPoolExecutor


def store_endorsers(how):
    """The checks of accept, after which a copy's endorsers are stored."""
    return ("    let checked = check_accept(&s, &certificate, || s.committee(certificate.round));\n"
            "    if checked == Err(16) {\n"
            "        let Certificate { author, round, endorsers, .. } = certificate;\n"
            "        table[ROW * round as usize + 19 + 16 * author as usize] %s endorsers;\n"
            "    }\n"
            "    checked?;\n" % how)


# A state and a sheet of before there was a margin, taken for ones with a blank margin.
BEFORE_STATE = ("    let mut before = [3; STATE_WORDS];\n"
                "    before[..state.len().min(37)].copy_from_slice(&state[..state.len().min(37)]);\n"
                "    let before: &[u32] = if state.len() == 37 { &*Box::leak(Box::new(before)) } else { state };\n"
                "    let state: &State = before.first_chunk().ok_or(1u32)?;\n")
BEFORE_SHEET = ("    let mut before = [0; 40];\n"
                "    before[..sheet.len().min(38)].copy_from_slice(&sheet[..sheet.len().min(38)]);\n"
                "    let sheet: &[u32; 40] = if sheet.len() == 38 { &before } else { sheet.first_chunk().ok_or(1u32)? };\n")
# A state of before there were rights, taken for one that gives nobody a right.
BEFORE_RIGHTS = BEFORE_STATE.replace("[3; STATE", "[0; STATE").replace("37", "38")

# Checks of advance.
CEILING = "    if r == s.ceiling() {\n        return Err(18);\n    }\n"
QUORUM = "!s.committee(r)?.is_quorum(s.held(r))"
THIN = "    if " + QUORUM + " {\n        return Err(28);\n    }\n"

# Of a preview: the state, its places, their number, what a commit would take, the entries.
PREVIEWED = "    let s = survey(state, table, Weights::Present, &mut room)?;\n    let places = list.as_chunks_mut::<3>()"
PLACES = "    let places = list.as_chunks_mut::<3>().0;\n"
SHORT = "    if places.len() < 16 * s.ceiling() as usize {\n        return Err(25);\n    }\n"
TAKEN = "    let mut anchors = [(0, 0); MOST_BLOCKS];\n    let taken = anchors_of_commit(&s, &mut anchors)?;\n"
LISTED = "    Ok(list_blocks(&s, &anchors[..taken], places) as u32)\n"
ENTRY = "[block, round, (first + step as u32) & 15]"
FROM_FIRST = "let from_first = (set | set << 16) >> first & 0xffff;"

# Of what a commit hangs on: the state and the places, their number, commit's checks, what is told of each
# round, those of them in no block, those in a block tried without, the place of one, the count.
HUNG = "    let s = survey(state, table, Weights::Present, &mut room)?;\n    let places = list.as_chunks_mut::<2>().0;\n"
FEW = "    if places.len() < PLACES {\n        return Err(25);\n    }\n"
CHECKED = "    check_time(&s)?;\n    let support = check_votes(&s, &mut Walk::new(&s))?;\n"
TOLD = "[(r - 1, 1 << support.anchor), (r, support.pivotal())]"
FREE = "        let mut set = told & !in_blocks;\n"
TRIED = "        if in_blocks != 0 {\n            set |= missed(state, table, round, in_blocks);\n        }\n"
PAIR = "[round, author as u32]"
COUNT = "    Ok(count as u32)\n}\n\nimpl Support"
DECIDES = "weight - self.committee.weights[*a & 15] <= bound"
CLEARED = "        table[at] = held & !(1 << a);\n"
ASKED = "        missed |= u32::from(check_commit(state, table).is_err()) << a;\n"
SET_AGAIN = "        table[at] = held;\n    }\n    missed\n"


# Of what a bond does to the shares: the out stretch and the state, the checks in their order, the bond, the
# words, a share.
STRETCH = "    let out: &mut [u32; EFFECT] = out.first_chunk_mut().ok_or(1u32)?;\n    let mut room = Links::new();\n"
OF_STATE = "    let s = survey(state, table, Weights::Of(round), &mut room)?;\n"
OF_MEMBER = "    if member > 15 {\n        return Err(4);\n    }\n"
OF_ROUND = "    if !s.in_range(round) {\n        return Err(5);\n    }\n"
OF_AMOUNT = "    if amount.wrapping_sub(1) >= 1_000 {\n        return Err(6);\n    }\n"
OF_KNOWN = "    let mut committee = s.committee(round)?;\n"
OF_NOBODY = "    if committee.total() == 0 {\n        return Err(30);\n    }\n"
BEFORE = "    let before = committee.shares();\n"
BONDED = "    committee.weights[member as usize] += amount;\n"
AFTER = "    let after = committee.shares();\n"
MOVED = "before[m].abs_diff(after[m])"
FOLDED = "    out[32] = moved.fold(0, u32::max);\n"
SHARES = "    out[..16].copy_from_slice(&before);\n    out[16..32].copy_from_slice(&after);\n"
EFFECT = (STRETCH + OF_STATE + OF_MEMBER + OF_ROUND + OF_AMOUNT + OF_KNOWN + OF_NOBODY + BEFORE + BONDED + AFTER +
          "    let moved = (0..16).map(|m| " + MOVED + ");\n" + FOLDED + SHARES)
HALVES = "let halves = 2_000 * u64::from(weight) + n;"
UPWARD = "upward - u64::from(rest == 0 && upward % 2 == 1)"
OUTSIDE = "    if committee.weights[member as usize] == 0 {\n        return Err(9);\n    }\n"


def effect(*pairs):
    """The read of what a bond does with parts of it changed."""
    changed = EFFECT
    for old, new in pairs:
        assert EFFECT.count(old) == 1, old
        changed = changed.replace(old, new)
    return EFFECT, changed


# Of ports: what a state may hold of them, the checks of a read, of a write and of a reset, a byte that is read,
# the line after one, what is written.
AT_A_BYTE = "(1..=blocks).contains(&listed.numbers[0]) && (1..=listed.length()).contains(&byte)"
IN_THE_TABLE = "if place < 16 || place >= 16 * rows.len() as u32 {"
NOWHERE = "return place == 0 && byte == 0;"
IS_HELD = "rows[place as usize / 16][0] >> (place % 16) & 1 == 1\n        && "
SEEN_TO = "    if !ports_are_fine(s.rows, table, s.blocks()) {\n        return Err(1);\n    }\n"
MOST_HELD = "[1, 255, 31, 255, 255, 255]"
OFFSET = "    if offset >= OFFSETS {\n        return Err(31);\n    }\n"
READS = "fn try_port_read(state: &[u32], table: &mut [u32], guest: u32, offset: u32) -> Result<u32, u32> {\n" + OFFSET
WRITES = "    value: u8,\n) -> Result<(), u32> {\n" + OFFSET
RESETS = "fn try_port_reset(state: &[u32], table: &mut [u32], port: u32) -> Result<(), u32> {\n"
NO_PORT = "    if port >= GUESTS {\n        return Err(26);\n    }\n"
FORMED = "    survey(state, table, Weights::None, &mut Links::new())?;\n"
CLEARED_PORT = "    table[port_start(port)..][..8].fill(0);\n"
STANDS = "                table[port_start(guest)..][..2].copy_from_slice(&[place, byte]);\n"
NEXT = "    if place != 0 && byte < Listed::at(table, place)?.length() {\n        return Some((place, byte + 1));\n    }\n"
LATER = "steps(member as u32) > steps(author)"
ABOVE_IT = "        let above = (round + 1..=s.ceiling()).find(|&round| s.in_block(block, round) != 0);\n"
LEAST = "mark > block && mark < least.0"
LEADER = "        let first = self.block_leader(table, block);\n"
ENABLED = "2 if port[ENABLE] == 1 && waits() => 4,"


# Of guests: the two checks of a caller, and where the rights stand.
ABOVE = "        if caller >= GUESTS {\n            return Err(26);\n        }\n"
RIGHTS = "state.get(RIGHTS).copied().unwrap_or(0)"
HAS_NOT = "rights >> self.shift >> caller & 1 == 0"
LACKS = "        let rights = " + RIGHTS + ";\n        if " + HAS_NOT + " {\n            return Err(29);\n        }\n"
GIVEN = "    fresh[RIGHTS] = rights;\n"

# The right that each call of a guest needs, and what its function hands on.
NEEDS = {
    "propose": ("PROPOSE", "state, table, body"),
    "draw": ("PROPOSE", "state, table, previous"),
    "enqueue": ("PROPOSE", "state, table, caller, transaction"),
    "endorse": ("SIGN", "state, table, proposal"),
    "certify": ("SIGN", "state, table, endorsers"),
    "accept": ("SIGN", "state, table, certificate"),
    "batch": ("SIGN", "state, table, row, answers"),
    "advance": ("DRIVE", "state, table"),
    "commit": ("DRIVE", "state, table"),
    "committee": ("READ", "state, table, round, out"),
    "share": ("READ", "state, table, member, round"),
    "certificate": ("READ", "state, table, author, round, out"),
    "block": ("READ", "state, table, number"),
    "preview": ("READ", "state, table, list"),
    "critical": ("READ", "state, table, list"),
    "bond_effect": ("READ", "state, table, member, round, amount, out"),
    "port_read": ("READ", "state, table, caller, offset"),
    "port_write": ("READ", "state, table, caller, offset, value"),
}


def check_of(call):
    """The check of a guest's call, and what comes after it."""
    right, values = NEEDS[call]
    return "%s.check(state, caller).and_then(|()| try_%s(%s))" % (right, call, values)


def by_other_rights(call):
    """The same call by each other right: of another byte, or of two of them."""
    right = NEEDS[call][0]
    others = [other for other in ("PROPOSE", "SIGN", "DRIVE", "READ") if other != right]
    other = others[sorted(NEEDS).index(call) % 3]
    check = right + ".check(state, caller)"
    return [(check_of(call), check_of(call).replace(right + ".", other + ".")),
            (check_of(call), check_of(call).replace(check, "%s.or_else(|_| %s.check(state, caller))" % (check, other)))]


def refused_after(call, what):
    """Where the right is missing, something is done all the same."""
    check = NEEDS[call][0] + ".check(state, caller)"
    return (check_of(call), check_of(call).replace(check, check + ".inspect_err(|_| " + what + ")"))


def asked_after(call, what):
    """Something else is asked before the right."""
    return (check_of(call), "%s.and_then(|_| %s)" % (what, check_of(call)))


WELL_FORMED = "survey(state, table, Weights::None, &mut Links::new()).map(|_| ())"


def after_listing(what):
    return "    let count = list_blocks(&s, &anchors[..taken], places);\n    %s;\n    Ok(count as u32)\n" % what


def by_3(committee):
    """A committee that weighs by the blank margin."""
    return "(Committee { margin: 3, ..%s })" % committee


# (text that stands once in plain.rs, what takes its place)
MUTANTS = [
    # states that are not well formed
    ("state[0] < 16\n", "state[0] < 17\n"),
    ("(1..=1000).contains(&state[1])", "(1..=1001).contains(&state[1])"),
    ("(3..=1024).contains(&ceiling)", "(3..=1025).contains(&ceiling)"),
    ("&& allowance <= 4\n", "&& allowance <= 5\n"),
    ("all(|&w| w <= 1_000_000)", "all(|&w| w <= 1_000_001)"),
    ("        && starting.iter().any(|&w| w > 0)\n", ""),
    ("(1..=ceiling).contains(&round)", "(1..=ceiling + 1).contains(&round)"),
    ("state[PROPOSED] <= 1\n", "state[PROPOSED] <= 2\n"),
    ("&& (state[PROPOSED] == 0\n            ||", "&& (true\n            ||"),
    ("                && (body[0] == 0) == (round == 1)\n", ""),
    ("(round % 2 != 0) | ", ""),
    ("(round <= last) | ", ""),
    (" | (round >= ceiling)", ""),
    ("(round >= ceiling)", "(round > ceiling)"),
    ("if (held | endorsed) >= 1 << 16 {", "if held >= 1 << 16 {"),
    ("if (held | endorsed) >= 1 << 16 {", "if endorsed >= 1 << 16 {"),
    ("let (least, span) = if round == 1 { (0, 0) }", "let (least, span) = if round == 1 { (0, 65_535) }"),
    ("else { (1, 65_534) }", "else { (0, 65_535) }"),
    ("else { (1, 65_534) }", "else { (1, 65_535) }"),
    ("flaws += u32::from(count > allowance);", "flaws += u32::from(count > 4);"),
    ("flaws += u32::from(mark > blocks);", ""),
    ("|= flawed_here[k]", "|= flawed_here[0]"),
    ("lane(numbers[k] < 16)", "lane(numbers[k] < 17)"),
    (".wrapping_sub(1) < 1_000)", ".wrapping_sub(1) < 1_001)"),
    (".wrapping_sub(1) < 1_000)", " < 1_001)"),
    ("| entry & none;", "| entry;"),
    ("unbond & none)", "unbond)"),
    ("&& words >= ROW", "&& words + 1 >= ROW"),
    # arguments that cannot be read
    ("    body[0] < 1 << 16\n        && body[2..]", "    body[2..]"),
    ("|| body[0] < 1 << 16\n                && ", "|| "),
    (".take(body[1].min(4) as usize)", ".take(4)"),
    ("t[0] <= 2 && t[2] == 0", "t[0] <= 3 && t[2] == 0"),
    ("t[0] <= 2 && t[2] == 0", "t[0] <= 2"),
    ("if sheet.chunks_exact(2).any(|setting| setting[0] > 1) {", "if false {"),
    ("    if endorsers >= 1 << 16 {\n        return Err(1);\n    }\n    let mut room = Links::new();\n    let s = survey(state, table, Weights::Present",
     "    let endorsers = endorsers & 0xffff;\n    let mut room = Links::new();\n    let s = survey(state, table, Weights::Present"),
    # committees
    ("self.total().saturating_sub(1) / self.margin", "self.total() / self.margin"),
    ("self.weight(set) >= self.total()", "self.weight(set) > self.total()"),
    ("for _ in 0..(round / 2) % left", "for _ in 0..round % left"),
    ("*weight = if kind == 1 { 0 } else", "*weight = if kind == 1 { *weight } else"),
    ("let s = round.saturating_sub(self.survey.lookback());", "let s = (round + 1).saturating_sub(self.survey.lookback());"),
    ("if round > self.last + 2 + self.lookback() {", "if round > self.last + 1 + self.lookback() {"),
    ("if round > self.last + 2 + self.lookback() {", "if round > self.last + 3 + self.lookback() {"),
    ("if block_round >= s {", "if block_round > s {"),
    # margins: all by 3; votes alone, signers, previous sets, thin rounds; all but votes
    ("self.total().saturating_sub(1) / self.margin", "self.total().saturating_sub(1) / 3"),
    ("committee.weight(votes) <= committee.bound()", "committee.weight(votes) <= " + by_3("committee") + ".bound()"),
    ("if !committee.is_enough(signers) {", "if !" + by_3("*committee") + ".is_enough(signers) {"),
    ("if !before.is_quorum(previous) {", "if !" + by_3("*before") + ".is_quorum(previous) {"),
    (QUORUM, "!" + by_3("s.committee(r)?") + ".is_quorum(s.held(r))"),
    ("self.weight(set) >= self.total() - self.bound()", "self.weight(set) >= self.total() - self.total().saturating_sub(1) / 3"),
    # 5 for 4, 4 for 5, 4 for 3
    ("self.total().saturating_sub(1) / self.margin", "self.total().saturating_sub(1) / (self.margin | 1)"),
    ("self.total().saturating_sub(1) / self.margin", "self.total().saturating_sub(1) / self.margin.min(4)"),
    ("self.total().saturating_sub(1) / self.margin", "self.total().saturating_sub(1) / self.margin.max(4)"),
    # the bound rounded up, to the nearest; a quorum as a part of the total, one more above margin 3
    ("self.total().saturating_sub(1) / self.margin", "self.total().saturating_sub(1).div_ceil(self.margin)"),
    ("self.total().saturating_sub(1) / self.margin", "(self.total().saturating_sub(1) + self.margin / 2) / self.margin"),
    ("self.weight(set) >= self.total() - self.bound()", "self.weight(set) >= self.total() * (self.margin - 1) / self.margin"),
    ("self.weight(set) >= self.total() - self.bound()", "self.weight(set) >= self.total() - self.bound() + u32::from(self.margin > 3)"),
    # of a state: 2 let in, 6, 0, all; 5 not, 3 not
    ("(3..=5).contains(&state[MARGIN])", "(2..=5).contains(&state[MARGIN])"),
    ("(3..=5).contains(&state[MARGIN])", "(3..=6).contains(&state[MARGIN])"),
    ("(3..=5).contains(&state[MARGIN])", "state[MARGIN] != 0"),
    ("        && (3..=5).contains(&state[MARGIN])\n", ""),
    ("(3..=5).contains(&state[MARGIN])", "(3..5).contains(&state[MARGIN])"),
    ("(3..=5).contains(&state[MARGIN])", "(4..=5).contains(&state[MARGIN])"),
    # of a sheet: 2 let in, 6; 5 not; blank 4, 5; blank for what is out of range
    ("_ => (3, 5, 3),", "_ => (2, 5, 3),"),
    ("_ => (3, 5, 3),", "_ => (3, 6, 3),"),
    ("_ => (3, 5, 3),", "_ => (3, 4, 3),"),
    ("_ => (3, 5, 3),", "_ => (3, 5, 4),"),
    ("_ => (3, 5, 3),", "_ => (3, 5, 5),"),
    ("        if value < low || value > high {\n", "        let value = if k == 19 && !(3..=5).contains(&value) { 3 } else { value };\n        if value < low || value > high {\n"),
    # read from the setting's value, blank or not; not stored; stored in the present round, in the word before, in the allowance's
    ("if setting[0] == 0 { blank }", "if setting[0] == 0 && k < 19 { blank }"),
    ("fresh[if k < 19 { 1 + k } else { MARGIN }] = value;", "fresh[if k < 19 { 1 + k } else { MARGIN }] = if k < 19 { value } else { 3 };"),
    ("fresh[if k < 19 { 1 + k } else { MARGIN }] = value;", "fresh[1 + k] = value;"),
    ("fresh[if k < 19 { 1 + k } else { MARGIN }] = value;", "fresh[if k < 19 { 1 + k } else { MARGIN - 1 }] = value;"),
    ("fresh[if k < 19 { 1 + k } else { MARGIN }] = value;", "fresh[if k < 19 { 1 + k } else { 3 }] = value;"),
    # its word read from elsewhere: the lookback, the allowance, the last of the body, a starting weight
    ("margin: self.state[MARGIN] }", "margin: self.state[1].clamp(3, 5) }"),
    ("margin: self.state[MARGIN] }", "margin: self.state[3].max(3) }"),
    ("margin: self.state[MARGIN] }", "margin: self.state[36].clamp(3, 5) }"),
    ("margin: self.state[MARGIN] }", "margin: self.state[4].clamp(3, 5) }"),
    # dropped with the proposal, by advance and by commit; known rounds, leaders and shares by it
    ("    state[PROPOSED] = 0;\n    state[BODY..MARGIN].fill(0);\n", "    state[PROPOSED] = 0;\n    state[BODY..RIGHTS].fill(0);\n"),
    ("        0 => state[BODY..MARGIN].fill(0),\n", "        0 => state[BODY..RIGHTS].fill(0),\n"),
    ("if round > self.last + 2 + self.lookback() {", "if round > self.last + self.state[MARGIN] - 1 + self.lookback() {"),
    ("for _ in 0..(round / 2) % left", "for _ in 0..(round / 2 + self.margin - 3) % left"),
    ("(1_000 * weight / total, 1_000 * weight % total)", "((997 + u64::from(committee.margin)) * weight / total, 1_000 * weight % total)"),
    # states and sheets of before there was a margin let in
    ("    let state: &State = state.first_chunk().ok_or(1u32)?;\n    if !head_is_fine", BEFORE_STATE + "    if !head_is_fine"),
    ("    let sheet: &[u32; 40] = sheet.first_chunk().ok_or(1u32)?;\n", BEFORE_SHEET),
    # shares: halves upward, downward, to the odd one; even by the weight, by the rest
    ("2 * rest > total || 2 * rest == total && share % 2 == 1", "2 * rest >= total"),
    ("2 * rest > total || 2 * rest == total && share % 2 == 1", "2 * rest > total"),
    ("2 * rest == total && share % 2 == 1", "2 * rest == total && share % 2 == 0"),
    ("2 * rest == total && share % 2 == 1", "2 * rest == total && weight % 2 == 1"),
    ("2 * rest == total && share % 2 == 1", "2 * rest == total && rest % 2 == 1"),
    # a rest above the half dropped, any rest upward, all to the even one
    ("2 * rest > total || 2 * rest == total && share % 2 == 1", "2 * rest == total && share % 2 == 1"),
    ("2 * rest > total || 2 * rest == total && share % 2 == 1", "rest > 0"),
    ("2 * rest > total || 2 * rest == total && share % 2 == 1", "rest > 0 && share % 2 == 1"),
    # one beside the half
    ("2 * rest > total || 2 * rest == total", "2 * rest > total + 1 || 2 * rest == total"),
    ("2 * rest > total || 2 * rest == total", "2 * rest + 1 > total && rest > total / 2 || 2 * rest + 1 >= total"),
    ("2 * rest == total && share % 2 == 1", "rest == total / 2 && share % 2 == 1"),
    # 32 bits; starting weights; 0 refused, 0 for those outside, 999 at most
    ("(1_000 * weight / total, 1_000 * weight % total)", "((1_000 * weight & 0xffff_ffff) / total, (1_000 * weight & 0xffff_ffff) % total)"),
    ("    let (share, rest) =", "    let total = s.state[4..20].iter().map(|&w| u64::from(w)).sum::<u64>();\n    let (share, rest) ="),
    ("    Ok((share + u64::from(up)) as u32)\n", "    if share + u64::from(up) == 0 {\n        return Err(9);\n    }\n    Ok((share + u64::from(up)) as u32)\n"),
    ("    if weight == 0 {\n        return Err(9);\n    }\n", "    if weight == 0 {\n        return Ok(0);\n    }\n"),
    ("    Ok((share + u64::from(up)) as u32)\n", "    Ok(999.min(share + u64::from(up)) as u32)\n"),
    # what a bond does to the shares: before and after exchanged; the total not raised, no more than an open's; after for both
    effect((SHARES, "    out[..16].copy_from_slice(&after);\n    out[16..32].copy_from_slice(&before);\n")),
    effect((AFTER, "    let n = u64::from(committee.total() - amount);\n    let after = committee.weights.map(|weight| ((2_000 * u64::from(weight) + n) / (2 * n)) as u32);\n")),
    ("        let n = u64::from(self.total());\n", "        let n = u64::from(self.total().min(16_000_000));\n"),
    effect((BEFORE, "    let before = { let mut with = committee; with.weights[member as usize] += amount; with.shares() };\n")),
    # no bond, twice, by another, in the place of the weight, of all; who joins stays outside, who is inside gets no more
    effect((BONDED, "")),
    effect((BONDED, BONDED + BONDED)),
    effect((BONDED, BONDED.replace("member as usize", "member as usize ^ 1"))),
    effect((BONDED, BONDED.replace("+=", "="))),
    effect((BONDED, "    committee.weights.iter_mut().for_each(|weight| *weight += amount);\n")),
    effect((BONDED, "    if committee.weights[member as usize] > 0 {\n    " + BONDED + "    }\n")),
    effect((BONDED, "    if committee.weights[member as usize] == 0 {\n    " + BONDED + "    }\n")),
    effect((BONDED, BONDED.replace("+= amount", "+= amount.min(999)"))),
    effect((BONDED, BONDED.replace("+= amount", "+= amount & 0xff"))),
    # the largest: of the bonded member alone, of the others, rises alone, falls alone, the smallest, the sum, one left out
    effect((FOLDED, "    out[32] = moved.clone().nth(member as usize).unwrap_or(0);\n")),
    effect((FOLDED, "    out[32] = moved.enumerate().filter(|(m, _)| *m != member as usize).fold(0, |most, (_, one)| most.max(one));\n")),
    effect((MOVED, "after[m].saturating_sub(before[m])")),
    effect((MOVED, "before[m].saturating_sub(after[m])")),
    effect((FOLDED, FOLDED.replace("fold(0, u32::max)", "fold(u32::MAX, u32::min)"))),
    effect((FOLDED, FOLDED.replace("fold(0, u32::max)", "sum()"))),
    effect((FOLDED, FOLDED.replace("moved.", "moved.take(15)."))),
    effect((FOLDED, FOLDED.replace("moved.", "moved.skip(1)."))),
    effect((FOLDED, FOLDED.replace("fold(0, u32::max)", "fold(1, u32::max)"))),
    effect((FOLDED, "    out[32] = before.into_iter().max().unwrap_or(0).abs_diff(after.into_iter().max().unwrap_or(0));\n")),
    # halves upward, downward, to the odd one; cut, any rest upward; one beside a half; 999 at most; 32 bits
    (UPWARD, "upward"),
    (UPWARD, "upward - u64::from(rest == 0)"),
    (UPWARD, "upward - u64::from(rest == 0 && upward % 2 == 0)"),
    (HALVES, HALVES.replace("+ n", "+ 0")),
    (HALVES, HALVES.replace("+ n", "+ 2 * n - 1")),
    (HALVES, HALVES.replace("+ n", "+ n - 1")),
    (HALVES, HALVES.replace("+ n", "+ n + 1")),
    (UPWARD, "(" + UPWARD + ").min(999)"),
    (HALVES, "let halves = (2_000 * u64::from(weight) & 0xffff_ffff) + n;"),
    # halves of the bonded member another way; a share of 0 read as 1
    effect((AFTER, AFTER.replace("let after", "let mut after") + "    let up = 2_000 * u64::from(committee.weights[member as usize]) % (2 * u64::from(committee.total())) == "
            "u64::from(committee.total());\n    after[member as usize] |= u32::from(up);\n")),
    effect((BEFORE, "    let before: [u32; 16] = std::array::from_fn(|m| committee.shares()[m].max((committee.weights[m] > 0) as u32));\n")),
    # amounts of 0 and 1,001, any, not 1, not 1,000
    effect((OF_AMOUNT, OF_AMOUNT.replace("amount.wrapping_sub(1) >= 1_000", "amount > 1_000"))),
    effect((OF_AMOUNT, OF_AMOUNT.replace(">= 1_000", "> 1_000"))),
    effect((OF_AMOUNT, OF_AMOUNT.replace(">= 1_000", ">= 1 << 20"))),
    effect((OF_AMOUNT, OF_AMOUNT.replace("sub(1)", "sub(2)"))),
    effect((OF_AMOUNT, OF_AMOUNT.replace(">= 1_000", ">= 999"))),
    # members and rounds beside their ranges
    effect((OF_MEMBER, OF_MEMBER.replace("> 15", "> 14"))),
    effect((OF_MEMBER, "    let member = if member == 16 { 15 } else { member };\n" + OF_MEMBER)),
    effect((OF_ROUND, OF_ROUND.replace("(round)", "(round.max(1))"))),
    effect((OF_ROUND, OF_ROUND.replace("(round)", "(round.wrapping_add(1))"))),
    # order: 4 after 5, 6 before 5, before 4, before 1; 8 before 6; 30 before 6, before 8; the stretch last, and not asked
    effect((OF_MEMBER + OF_ROUND, OF_ROUND + OF_MEMBER)),
    effect((OF_ROUND + OF_AMOUNT, OF_AMOUNT + OF_ROUND)),
    effect((OF_MEMBER + OF_ROUND + OF_AMOUNT, OF_AMOUNT + OF_MEMBER + OF_ROUND)),
    effect((OF_STATE, OF_AMOUNT + OF_STATE)),
    effect((OF_STATE, OF_MEMBER + OF_STATE)),
    effect((OF_AMOUNT + OF_KNOWN, OF_KNOWN + OF_AMOUNT)),
    effect((OF_AMOUNT + OF_KNOWN + OF_NOBODY, OF_KNOWN + OF_NOBODY + OF_AMOUNT)),
    effect((OF_KNOWN, "    if s.last > 0 && Walk::new(&s).committee(s.last + 1 + s.lookback()).total() == 0 && round > s.last + 1 + s.lookback() {\n"
            "        return Err(30);\n    }\n" + OF_KNOWN)),
    effect((STRETCH, "    let short = out.len() < EFFECT;\n    let mut spare = [0; EFFECT];\n    let out = out.first_chunk_mut().unwrap_or(&mut spare);\n"
            "    let mut room = Links::new();\n"), (OF_NOBODY, OF_NOBODY + "    if short {\n        return Err(1);\n    }\n")),
    effect((STRETCH, "    let mut spare = [0; EFFECT];\n    let out = out.first_chunk_mut().unwrap_or(&mut spare);\n    let mut room = Links::new();\n")),
    # 25 for a stretch too short; one of 34 asked for
    effect((STRETCH, STRETCH.replace("ok_or(1u32)", "ok_or(25u32)"))),
    effect((STRETCH, "    if out.len() < EFFECT + 1 {\n        return Err(1);\n    }\n" + STRETCH)),
    # an empty committee let in, refused with 9 or 8; a non-member refused; a sole member refused
    effect((OF_NOBODY, "    if committee.total() == 0 {\n        return Ok(());\n    }\n")),
    effect((OF_NOBODY, OF_NOBODY.replace("30", "9"))),
    effect((OF_NOBODY, OF_NOBODY.replace("30", "8"))),
    effect((OF_NOBODY, OUTSIDE + OF_NOBODY)),
    effect((OF_NOBODY, OF_NOBODY + OUTSIDE)),
    effect((OF_NOBODY, OF_NOBODY.replace("== 0", "== committee.weights[member as usize]"))),
    # another round's committee: the next, the one before, the present, the starting one
    effect((OF_KNOWN, OF_KNOWN.replace("(round)", "(round + 1)"))),
    effect((OF_KNOWN, "    s.check_known(round)?;\n" + OF_KNOWN.replace("(round)", "(round - 1)"))),
    effect((OF_KNOWN, "    s.check_known(round)?;\n" + OF_KNOWN.replace("(round)", "(s.round().min(round))"))),
    effect((OF_KNOWN, OF_KNOWN + "    committee = s.starting();\n")),
    # words: the largest first, members from behind, those beyond cleared, written where refused, one left as it was
    effect((SHARES, SHARES + "    out.rotate_right(1);\n")),
    effect((SHARES, SHARES + "    out[..16].reverse();\n")),
    effect((STRETCH, "    out.iter_mut().skip(EFFECT).for_each(|word| *word = 0);\n" + STRETCH)),
    effect((STRETCH, STRETCH + "    out.fill(0);\n")),
    effect((OF_NOBODY, OF_NOBODY.replace("return", "out[32] = 0;\n        return"))),
    effect((SHARES, SHARES.replace("out[16..32].copy_from_slice(&after)", "out[16..31].copy_from_slice(&after[..15])"))),
    # by the guest's rules: the stretch before the right, written where refused
    asked_after("bond_effect", "if out.len() < 33 { Err(1) } else { Ok(()) }"),
    asked_after("bond_effect", "if amount == 0 { Err(6) } else { Ok(()) }"),
    asked_after("bond_effect", WELL_FORMED),
    refused_after("bond_effect", "out.iter_mut().take(33).for_each(|word| *word = 0)"),
    (check_of("bond_effect"), check_of("bond_effect").replace("amount, out", "amount.min(1_000), out")),
    # calls
    ("body[1] <= allowance &&", "body[1] <= 4 &&"),
    ("if (body[0] == 0) != (round == 1) {", "if body[0] == 0 && round > 1 {"),
    ("if s.state[PROPOSED] == 1 || s.has(s.own(), r) {", "if s.state[PROPOSED] == 1 {"),
    ("if s.state[PROPOSED] == 1 || s.has(s.own(), r) {", "if s.has(s.own(), r) {"),
    ("if committee.members() >> s.own() & 1 == 0 {", "if false {"),
    ("s.check_previous(r, body[0], &before)?;", "s.check_previous(r, body[0], &committee)?;"),
    ("if !before.is_quorum(previous) {", "if !before.is_enough(previous) {"),
    ("    if author == s.own() {\n        return Err(14);\n    }\n", ""),
    ("if (row[0] | row[1]) >> author", "if row[0] >> author"),
    ("if (row[0] | row[1]) >> author", "if row[1] >> author"),
    ("s.check_previous(round, body[0], &s.committee(round - 1)?)?;", "s.check_previous(round, body[0], &s.committee(round)?)?;"),
    ("if endorsers >> own & 1 == 1 {", "if false {"),
    ("if endorsers >> author & 1 == 1 {", "if false {"),
    ("if s.same(author, round, body) { 16 } else { 17 }", "16"),
    ("&& record[4..4 + used] == body[2..2 + used]", ""),
    ("    if round > 1 && body[0] & !s.held(round - 1) != 0 {\n        return Err(11);\n    }\n", ""),
    ("    table[ROW * round as usize + 1] &= !(1 << author);\n", ""),
    ("    record.fill(0);\n", ""),
    ("    state[PROPOSED] = 0;\n", ""),
    ("    state[PROPOSED] = 0;\n    state[BODY..MARGIN].fill(0);\n", "    state[PROPOSED] = 0;\n"),
    ("    state[BODY..MARGIN].copy_from_slice(body);\n    clear_unused(&mut state[BODY..MARGIN]);\n",
     "    state[BODY..MARGIN].copy_from_slice(body);\n"),
    ("        0 => state[BODY..MARGIN].fill(0),\n", "        0 => {}\n"),
    ("        _ => clear_unused(&mut state[BODY..MARGIN]),\n", "        _ => {}\n"),
    # commit
    ("if r % 2 == 0 || r == 1 {", "if r % 2 == 0 {"),
    ("if s.last >= r - 1 {", "if s.last > r - 1 {"),
    ("if committee.weight(votes) <= committee.bound() {", "if committee.weight(votes) < committee.bound() {"),
    ("let committee = *walk.committee(r);", "let committee = *walk.committee(r - 1);"),
    ("            history = 1 << leader;\n", ""),
    ("if r % 2 == 0 && history >> leader", "if history >> leader"),
    ("history = named & s.held(r);", "history = named;"),
    ("for &(anchor, round) in anchors.iter().rev() {", "for &(anchor, round) in anchors {"),
    ("                if record[2] == 0 {\n                    record[2] = block;\n                }\n", "                record[2] = block;\n"),
    ("                named |= record[0];\n", "                named |= if record[2] == block { record[0] } else { 0 };\n"),
    ("named & rows[r][0] & !visited[r]", "named & !visited[r]"),
    ("leaders[r as usize / 2] = walk.committee(r).leader(r);", "leaders[r as usize / 2] = walk.committee(top).leader(r);"),
    ("        rows[block as usize][2] = round;\n", ""),
    ("state[BLOCKS] = blocks + taken as u32;", "state[BLOCKS] = blocks + 1;"),
    ("    Ok(taken as u32)\n", "    Ok(1)\n"),
    # previews: by the newest anchor first, newest block first, one number, whole histories, the oldest alone, the newest alone
    ("in (s.blocks() + 1..).zip(anchors.iter().rev())", "in (s.blocks() + 1..).zip(anchors.iter())"),
    (LISTED, after_listing("places[..count].sort_by_key(|entry| u32::MAX - entry[0])")),
    (ENTRY, ENTRY.replace("block", "s.blocks() + 1")),
    ("            reached[r] |= here;\n", ""),
    (LISTED, LISTED.replace("&anchors[..taken]", "&anchors[taken - 1..taken]")),
    (LISTED, LISTED.replace("&anchors[..taken]", "&anchors[..1]")),
    # old marks not asked; the history of what is in a block left out; what is not held
    ("unmarked |= u32::from(mark == 0) << a;", "unmarked |= u32::from(mark <= s.blocks()) << a;"),
    ("named |= previous;", "named |= if mark == 0 { previous } else { 0 };"),
    ("named & s.rows[r][0] & !reached[r]", "named & !reached[r]"),
    # block numbers from 1, one too low
    ("in (s.blocks() + 1..).zip", "in (1..).zip"),
    ("in (s.blocks() + 1..).zip", "in (s.blocks()..).zip"),
    # counted in words, in blocks, one more
    (LISTED, LISTED.replace("as u32", "as u32 * 3")),
    (LISTED, LISTED.replace("places) as u32", "places).min(taken) as u32")),
    (LISTED, LISTED.replace("as u32", "as u32 + 1")),
    # one round short, one place, 15 a round, 17, one more; a started place counted; words; by the present round
    (SHORT, SHORT.replace("s.ceiling()", "(s.ceiling() - 1)")),
    (SHORT, SHORT.replace("places.len()", "places.len() + 1")),
    (SHORT, SHORT.replace("16", "15")),
    (SHORT, SHORT.replace("16", "17")),
    (SHORT, SHORT.replace("<", "<=")),
    (PLACES + SHORT, "    let started = usize::from(list.len() % 3 > 0);\n" + PLACES + SHORT.replace("places.len()", "places.len() + started")),
    (PLACES + SHORT, "    let words = list.len();\n" + PLACES + SHORT.replace("places.len()", "words")),
    (SHORT, SHORT.replace("s.ceiling()", "s.round()")),
    # 25 before 1, after commit's, never, given as 1
    (PREVIEWED, "    if list.len() / 3 < 16 * state.get(2).copied().unwrap_or(0) as usize {\n        return Err(25);\n    }\n" + PREVIEWED),
    (SHORT + TAKEN, TAKEN + SHORT),
    (SHORT, ""),
    (SHORT, SHORT.replace("25", "1")),
    # round and author swapped, the round of the block, the number of a block for its round
    (ENTRY, "[block, (first + step as u32) & 15, round]"),
    (ENTRY, ENTRY.replace("round", "top")),
    (ENTRY, "[round, block, (first + step as u32) & 15]"),
    # numbers just rise; from the one after the leader; from another in each round; rounds fall
    (FROM_FIRST, "let (from_first, first) = (set, 0);"),
    (FROM_FIRST, "let first = (first + 1) & 15;\n            " + FROM_FIRST),
    (FROM_FIRST, "let first = (first + round) & 15;\n            " + FROM_FIRST),
    ("for round in r as u32 + 1..=top {", "for round in (r as u32 + 1..=top).rev() {"),
    # the anchor left out, the lowest round
    ("for round in r as u32 + 1..=top {", "for round in r as u32 + 1..top {"),
    ("for round in r as u32 + 1..=top {", "for round in r as u32 + 2..=top {"),
    # the rest written, one word of it; refused, a word written
    (LISTED, after_listing("places[count..].fill([0; 3])")),
    (LISTED, after_listing("places[count..].iter_mut().take(1).for_each(|place| place[2] = 0)")),
    (SHORT, SHORT.replace("        return", "        places.iter_mut().take(1).for_each(|place| place[0] = 0);\n        return")),
    (TAKEN + LISTED, "    places[0][0] = 0;\n" + TAKEN + LISTED),
    # committees without the weights that blocks have changed
    (PREVIEWED, PREVIEWED.replace("Present", "None")),
    # what a commit hangs on: a remaining weight equal to the bound is enough; every vote, none, every certificate
    (DECIDES, DECIDES.replace("<=", "<")),
    (DECIDES, DECIDES.replace("<= bound", "<= bound + 1")),
    (TOLD, TOLD.replace("support.pivotal()", "support.votes")),
    (TOLD, TOLD.replace("support.pivotal()", "0")),
    (TOLD, TOLD.replace("support.pivotal()", "s.held(r)")),
    # against a quorum's weight, by 3, by the starting weights; the bound without that member; by number
    (DECIDES, DECIDES.replace("bound", "self.committee.total() - bound")),
    (DECIDES, DECIDES.replace("bound", by_3("self.committee") + ".bound()")),
    (TOLD, TOLD.replace("support.pivotal()", "Support { committee: s.starting(), ..check_votes(&s, &mut Walk::new(&s))? }.pivotal()")),
    (DECIDES, DECIDES.replace("bound", "(self.committee.total() - self.committee.weights[*a & 15]).saturating_sub(1) / self.committee.margin")),
    (DECIDES, "self.votes.count_ones() - 1 <= bound"),
    # the anchor left out, all of its round, the vote of its author for it; only those inside in the present round
    (TOLD, TOLD.replace("1 << support.anchor", "0")),
    (TOLD, TOLD.replace("1 << support.anchor", "s.held(r - 1)")),
    (TOLD, TOLD.replace("1 << support.anchor", "support.pivotal() & s.held(r - 1)")),
    (TOLD, TOLD.replace("1 << support.anchor", "(1 << support.anchor) & support.committee.members()")),
    # both certificates of one computer taken away at once
    (TOLD, "[(r - 1, 1 << support.anchor | support.pivotal() & s.held(r - 1)), (r, support.pivotal() | 1 << support.anchor & s.held(r))]"),
    # those in a block told as the others are, left out, both; of one round only; the anchor always
    (FREE + TRIED, "        let set = told;\n"),
    (FREE + TRIED, "        let set = told & !in_blocks;\n"),
    (FREE, "        let mut set = told;\n"),
    (TRIED, TRIED.replace("in_blocks != 0", "in_blocks != 0 && round == r")),
    (TRIED, TRIED.replace("in_blocks != 0", "in_blocks != 0 && round < r")),
    (TRIED, TRIED + "        if round < r {\n            set |= 1 << support.anchor;\n        }\n"),
    # only the first of them; block 1 taken for none, all blocks but the last
    (TRIED, TRIED.replace("round, in_blocks", "round, in_blocks & in_blocks.wrapping_neg()")),
    ("self.record(a as u32, round)[2] != 0", "self.record(a as u32, round)[2] > 1"),
    ("self.record(a as u32, round)[2] != 0", "self.record(a as u32, round)[2] == self.blocks()"),
    # refused with 22 alone, with 21 alone; accepted ones for refused ones
    (ASKED, ASKED.replace(".is_err()", " == Err(22)")),
    (ASKED, ASKED.replace(".is_err()", " == Err(21)")),
    (ASKED, ASKED.replace("is_err", "is_ok")),
    # the bit not set again, only where it is needed, only where it is not; all cleared one after another; another bit
    (SET_AGAIN, SET_AGAIN.replace("        table[at] = held;\n", "")),
    (SET_AGAIN, SET_AGAIN.replace("table[at] = held;", "table[at] |= missed & 1 << a;")),
    (SET_AGAIN, SET_AGAIN.replace("table[at] = held;", "table[at] |= !missed & 1 << a;")),
    (CLEARED + ASKED + SET_AGAIN, CLEARED.replace("= held &", "&=") + ASKED + "    }\n    table[at] = held;\n    missed\n"),
    (SET_AGAIN, SET_AGAIN.replace("= held;", "= held | 1 << a | 1 << 16;")),
    (SET_AGAIN, SET_AGAIN.replace("= held;", "= held;\n        table[at + 1] |= 1 << a;")),
    # its mark cleared and not its bit; its transactions; the mark gone for good
    (CLEARED + ASKED + SET_AGAIN, "        let mark = std::mem::take(&mut table[at + 18 + 16 * a]);\n" + ASKED
     + SET_AGAIN.replace("table[at] = held;", "(table[at + 18 + 16 * a], table[at]) = (mark, held);")),
    (CLEARED + ASKED + SET_AGAIN, "        let count = std::mem::take(&mut table[at + 17 + 16 * a]);\n" + ASKED
     + SET_AGAIN.replace("table[at] = held;", "(table[at + 17 + 16 * a], table[at]) = (count, held);")),
    (SET_AGAIN, SET_AGAIN.replace("= held;", "= held;\n        table[at + 18 + 16 * a] = 0;")),
    # without the weights that blocks have changed, of all that is tried
    (HUNG, HUNG.replace("Present", "None")),
    ("    let s = survey_without_ports(state, table, Weights::Present, &mut room)?;\n    check_time(&s)?;\n    check_votes",
     "    let s = survey_without_ports(state, table, Weights::None, &mut room)?;\n    check_time(&s)?;\n    check_votes"),
    # a port at the certificate that is absent counts
    ("    let s = survey_without_ports(state, table, Weights::Present, &mut room)?;\n    check_time(&s)?;\n    check_votes",
     "    let s = survey(state, table, Weights::Present, &mut room)?;\n    check_time(&s)?;\n    check_votes"),
    # author before round, the present round first, authors falling, from the anchor's on; round and author swapped
    (COUNT, "    places[..count].sort_by_key(|place| (place[1], place[0]));\n" + COUNT),
    (COUNT, "    places[..count].sort_by_key(|place| (r - place[0], place[1]));\n" + COUNT),
    (COUNT, "    places[..count].sort_by_key(|place| (place[0], 15 - place[1]));\n" + COUNT),
    (COUNT, "    places[..count].sort_by_key(|place| (place[0], (place[1] + 16 - support.anchor) % 16));\n" + COUNT),
    (PAIR, "[author as u32, round]"),
    # another round: one more, one less, the anchor's for all, the present one for all
    (PAIR, "[round + 1, author as u32]"),
    (PAIR, "[round - 1, author as u32]"),
    (PAIR, "[r - 1, author as u32]"),
    (PAIR, "[r, author as u32]"),
    (TOLD, TOLD.replace("(r, ", "((r + 1).min(s.ceiling()), ")),
    (TOLD, TOLD.replace("(r - 1, ", "(r - 2, ")),
    # counted in words, without the anchor, one more
    (COUNT, COUNT.replace("count as u32", "count as u32 * 2")),
    (COUNT, COUNT.replace("count as u32", "(count as u32).saturating_sub(1)")),
    (COUNT, COUNT.replace("count as u32", "count as u32 + 1")),
    # 31 places let in, 33 asked for, 16, a started one counted, words, by the ceiling, as many as there are
    (FEW, FEW.replace("places.len()", "places.len() + 1")),
    (FEW, FEW.replace("<", "<=")),
    (FEW, FEW.replace("PLACES", "PLACES / 2")),
    (HUNG + FEW, "    let started = list.len() % 2;\n" + HUNG + FEW.replace("places.len()", "places.len() + started")),
    (HUNG + FEW, "    let words = list.len();\n" + HUNG + FEW.replace("places.len()", "words")),
    (FEW, FEW.replace("PLACES", "16 * s.ceiling() as usize")),
    (FEW, FEW.replace("PLACES", "s.held(s.round()).count_ones() as usize + 1")),
    # 25 before 1, after commit's, given as 1
    (HUNG, "    if list.len() < 2 * PLACES {\n        return Err(25);\n    }\n" + HUNG),
    (FEW + CHECKED, CHECKED + FEW),
    (FEW, FEW.replace("25", "1")),
    # 19 and 20 not asked
    (CHECKED, CHECKED.replace("check_time(&s)?", "s.check_known(s.round())?")),
    # the rest written, one word of it, the last odd word; refused, a word written
    (COUNT, "    places[count..].fill([0; 2]);\n" + COUNT),
    (COUNT, "    places[count..].iter_mut().take(1).for_each(|place| place[1] = 0);\n" + COUNT),
    (HUNG, HUNG.replace("    let places", "    let words = list.len();\n    list[words - words % 2..].fill(0);\n    let places")),
    (FEW, FEW.replace("        return", "        places.iter_mut().take(1).for_each(|place| place[0] = 0);\n        return")),
    (CHECKED, "    places[0] = [s.round(), 0];\n" + CHECKED),
    # advance: no 28; outsiders ignored; inside, whatever it weighs; all of them asked for
    (THIN, ""),
    (THIN, "    s.check_known(r)?;\n"),
    (QUORUM, "!s.committee(r)?.is_enough(s.held(r))"),
    (QUORUM, "s.held(r) & !s.committee(r)?.members() != 0"),
    (QUORUM, "s.held(r) != s.committee(r)?.members()"),
    # by number; more than a quorum's weight; more than the fault bound; more than half
    (QUORUM, "3 * s.held(r).count_ones() <= 2 * s.committee(r)?.members().count_ones()"),
    (QUORUM, "!s.committee(r)?.is_quorum(s.held(r)) || s.committee(r)?.weight(s.held(r)) == s.committee(r)?.total() - s.committee(r)?.bound()"),
    (QUORUM, "s.held(r) & !s.committee(r)?.members() != 0 || s.committee(r)?.weight(s.held(r)) <= s.committee(r)?.bound()"),
    (QUORUM, "s.held(r) & !s.committee(r)?.members() != 0 || 2 * s.committee(r)?.weight(s.held(r)) <= s.committee(r)?.total()"),
    # held one round before, one after; endorsed for held, endorsed as well
    (QUORUM, "!s.committee(r)?.is_quorum(s.held(r.max(2) - 1))"),
    (QUORUM, "!s.committee(r)?.is_quorum(s.held(r + 1))"),
    (QUORUM, "!s.committee(r)?.is_quorum(s.rows[r as usize][1])"),
    (QUORUM, "!s.committee(r)?.is_quorum(s.rows[r as usize][0] | s.rows[r as usize][1])"),
    # the committee of the round before, of the next, the starting one; its weights not linked
    (QUORUM, "!{ s.check_known(r)?; s.committee(r - 1)? }.is_quorum(s.held(r))"),
    (QUORUM, "!s.committee(r + 1)?.is_quorum(s.held(r))"),
    (QUORUM, "!{ s.check_known(r)?; s.starting() }.is_quorum(s.held(r))"),
    ("    let s = survey(state, table, Weights::Present, &mut room)?;\n    let r = s.round();\n    if r == s.ceiling() {",
     "    let s = survey(state, table, Weights::None, &mut room)?;\n    let r = s.round();\n    if r == s.ceiling() {"),
    # an empty committee, and a quorum without oneself, refused
    (QUORUM, "s.held(r) == 0 || !s.committee(r)?.is_quorum(s.held(r))"),
    (QUORUM, "!s.committee(r)?.is_quorum(s.held(r)) || !s.has(s.own(), r)"),
    # 28 for 8, 8 for 28; 28 before 8; an unknown committee taken as known; 8 before 18, 28 before 18
    (QUORUM, "!s.committee(r).map_err(|_| 28u32)?.is_quorum(s.held(r))"),
    (THIN, THIN.replace("28", "8")),
    (THIN, THIN.replace("s.committee(r)?", "Walk::new(&s).committee(r)") + "    s.check_known(r)?;\n"),
    (QUORUM, "!Walk::new(&s).committee(r).is_quorum(s.held(r))"),
    (CEILING + THIN, "    s.check_known(r)?;\n" + CEILING + THIN),
    (CEILING + THIN, THIN + CEILING),
    # refused, it drops the proposal; refused, it goes on
    (THIN, THIN.replace("        return", "        state[PROPOSED] = 0;\n        state[BODY..MARGIN].fill(0);\n        return")),
    (THIN, THIN.replace("        return", "        state[ROUND] += 1;\n        return")),
    # reads
    ("*out = s.committee(round)?.weights;", "*out = s.committee(round)?.weights.map(|w| w & 0xffff);"),
    ("    clear_unused(&mut out[2..16]);\n", ""),
    ("    out[17] = record[2];\n", ""),
    ("if number == 0 || number > s.blocks() {", "if number > s.blocks() {"),
    # endorsers
    ("(0xffff << 16 | 1 << a)", "(0xffff << 16)"),
    ("(0xffff << 16 | 1 << a)", "(0xffff << 16 | 1 << ((a + 1) & 15))"),
    ("(0xffff << 16 | 1 << a)", "(1 << a)"),
    ("(0xffff << 16 | 1 << a)", "(0xfffe << 16 | 1 << a)"),
    ("    record[3] = endorsers;\n", ""),
    ("first_chunk().unwrap(), endorsers);", "first_chunk().unwrap(), endorsers | 1 << own);"),
    ("first_chunk().unwrap(), endorsers);", "first_chunk().unwrap(), 0);"),
    ("write_record(table, author, round, body, endorsers);", "write_record(table, author, round, body, endorsers | 1 << author);"),
    ("write_record(table, author, round, body, endorsers);", "write_record(table, author, round, body, 0);"),
    ("    check_accept(&s, &certificate, || s.committee(certificate.round))?;\n", store_endorsers("=")),
    ("    check_accept(&s, &certificate, || s.committee(certificate.round))?;\n", store_endorsers("|=")),
    ("if s.same(author, round, body) { 16 } else { 17 }",
     "if s.same(author, round, body) && s.record(author, round)[3] == endorsers { 16 } else { 17 }"),
    ("    if s.has(author, round) {\n        return Err(if",
     "    if s.has(author, round) {\n        check_signers(&committee()?, endorsers | 1 << author)?;\n        return Err(if"),
    ("    out[16] = record[3];\n", "    out[16] = s.record(s.own(), round)[3];\n"),
    ("    out[16] = record[3];\n", "    out[16] = s.record(author ^ 1, round)[3];\n"),
    ("    out[16] = record[3];\n", "    out[16] = record[0];\n"),
    ("    out[16] = record[3];\n", "    out[16] = record[3] | 1 << author;\n"),
    ("    out[16] = record[3];\n    out[17] = record[2];\n", "    out[16] = record[2];\n    out[17] = record[3];\n"),
    ("    let out: &mut [u32; 18] = out.first_chunk_mut().ok_or(1u32)?;\n",
     "    let mut spare = [0; 18];\n    if out.len() < 17 {\n        return Err(1);\n    }\n"
     "    let out = if out.len() == 17 { &mut spare } else { out.first_chunk_mut().unwrap() };\n"),
    ("                    record[2] = block;\n", "                    record[2] = block;\n                    record[3] = 0;\n"),
    # batches: author before round; newest first; as they stand; the later of equals first
    ("    round: u32,\n    author: u32,\n    place: usize,\n", "    author: u32,\n    round: u32,\n    place: usize,\n"),
    ("    turns[..row.len()].sort_unstable();\n", "    turns[..row.len()].sort_unstable_by_key(|t| (u32::MAX - t.round, t.author, t.place));\n"),
    ("    turns[..row.len()].sort_unstable();\n", ""),
    ("    turns[..row.len()].sort_unstable();\n", "    turns[..row.len()].sort_unstable_by_key(|t| (t.round, t.author, MOST_RECORDS - t.place));\n"),
    # (The order of authors within a round does not show: they do not name one another.)
    # answers in the order of the turns; words that cannot be read left out, refused as a whole
    ("        answers[turn.place] = number(answer);\n",
     "        let k = turns.iter().position(|t| t.place == turn.place).unwrap();\n        answers[k] = number(answer);\n"),
    ("        answers[turn.place] = number(answer);\n", "        if answer != Err(1) {\n            answers[turn.place] = number(answer);\n        }\n"),
    ("    let turns = &turns_of(row)[..row.len()];\n",
     "    for words in row {\n        Certificate::read(words)?;\n    }\n    let turns = &turns_of(row)[..row.len()];\n"),
    # the first refusal ends it; each by the table of before the batch; 11 tried twice
    ("        answers[turn.place] = number(answer);\n",
     "        answers[turn.place] = number(answer);\n        if answer.is_err() {\n            break;\n        }\n"),
    ("    for (turn, committee) in turns.iter().zip(committees) {\n        let words = &row[turn.place];\n"
     "        let answer = Certificate::read(words).and_then(|certificate| {\n            let s = Survey::known(state, table, last);\n",
     "    let before = table.to_vec();\n    for (turn, committee) in turns.iter().zip(committees) {\n        let words = &row[turn.place];\n"
     "        let answer = Certificate::read(words).and_then(|certificate| {\n            let s = Survey::known(state, &before, last);\n"),
    ("    for (turn, committee) in turns.iter().zip(committees) {\n",
     "    let twice = turns.iter().zip(committees);\n    answers[..row.len()].fill(11);\n    for (turn, committee) in twice.clone().chain(twice) {\n"
     "        if answers[turn.place] != 11 {\n            continue;\n        }\n"),
    # 65, 63, room too short, room to spare asked for, 25 before 1
    ("const MOST_RECORDS: usize = 64;", "const MOST_RECORDS: usize = 65;"),
    ("const MOST_RECORDS: usize = 64;", "const MOST_RECORDS: usize = 63;"),
    ("answers.len() < row.len()", "answers.len() + 1 < row.len()"),
    ("answers.len() < row.len()", "answers.len() <= row.len()"),
    ("answers.len() < row.len()", "false"),
    ("    let mut room = Links::new();\n    let top =",
     "    if row.len() > MOST_RECORDS || answers.len() < row.len() {\n        return Err(25);\n    }\n    let mut room = Links::new();\n    let top ="),
    # the rest written; an empty row refused
    ("    let turns = &turns_of(row)[..row.len()];\n", "    answers[row.len()..].fill(0);\n    let turns = &turns_of(row)[..row.len()];\n"),
    ("    let turns = &turns_of(row)[..row.len()];\n",
     "    answers[row.len()..].iter_mut().take(1).for_each(|word| *word = 0);\n    let turns = &turns_of(row)[..row.len()];\n"),
    ("    let turns = &turns_of(row)[..row.len()];\n", "    if row.is_empty() {\n        return Err(25);\n    }\n    let turns = &turns_of(row)[..row.len()];\n"),
    # committees: the first round's for all; weights by the lowest round; unknown ones known
    ("match k > 0 && turns[k - 1].round == turn.round {", "match k > 0 {"),
    (".map(|words| words[1]).max().unwrap_or(0);", ".map(|words| words[1]).min().unwrap_or(0);"),
    ("false => s.check_known(turn.round).ok().map(|()| *walk.committee(turn.round)),", "false => Some(*walk.committee(turn.round)),"),
    # queues that are not well formed: counts, the guest served last, what waits
    ("count <= MOST_WAITING && places", "places"),
    ("count <= MOST_WAITING && places", "count <= MOST_WAITING + 1 && places"),
    ("row[SERVED] <= GUESTS && (all", "(all"),
    ("row[SERVED] <= GUESTS && (all", "row[SERVED] < GUESTS && (all"),
    ("row[SERVED] <= GUESTS && (all", "row[SERVED] <= GUESTS + 1 && (all"),
    ("places.take(count as usize).all(in_range)", "places.take(count as usize).skip(1).all(in_range)"),
    ("places.take(count as usize).all(in_range)", "places.take(count.min(7) as usize).all(in_range)"),
    ("places.take(count as usize).all(in_range)", "places.take(8).all(in_range)"),
    ("(0..GUESTS).all(|guest| queue_is_fine(row, guest))", "(0..GUESTS - 1).all(|guest| queue_is_fine(row, guest))"),
    ("    if !queues_are_fine(&rows[0]) {\n        return Err(1);\n    }\n", ""),
    ("0 => number < 16 && (1..=1_000)", "0 => number < 17 && (1..=1_000)"),
    ("0 => number < 16 && (1..=1_000)", "0 => number < 16 && (0..=1_000)"),
    ("0 => number < 16 && (1..=1_000)", "0 => number < 16 && (1..=1_001)"),
    ("1 => number < 16 && amount == 0,", "1 => amount == 0,"),
    ("1 => number < 16 && amount == 0,", "1 => number < 16,"),
    ("_ => kind == 2 && amount == 0,", "_ => amount == 0,"),
    ("_ => kind == 2 && amount == 0,", "_ => kind == 2,"),
    # adding: 27 before 6, 6 before 26, guest 8 let in and guest 7 not, a queue of nine, of seven, 6 not asked
    ("    if !in_range(transaction) {\n        return Err(6);\n    }\n    let count = s.rows[0][WAITING + guest as usize];\n"
     "    if count >= MOST_WAITING {\n        return Err(27);\n    }\n",
     "    let count = s.rows[0][WAITING + guest as usize];\n    if count >= MOST_WAITING {\n        return Err(27);\n    }\n"
     "    if !in_range(transaction) {\n        return Err(6);\n    }\n"),
    ("    if guest >= GUESTS {\n        return Err(26);\n    }\n    if !in_range(transaction) {\n        return Err(6);\n    }\n",
     "    if !in_range(transaction) {\n        return Err(6);\n    }\n    if guest >= GUESTS {\n        return Err(26);\n    }\n"),
    ("    if guest >= GUESTS {\n        return Err(26);\n    }\n", "    let guest = guest % GUESTS;\n"),
    ("    if guest >= GUESTS {\n", "    if guest + 1 >= GUESTS {\n"),
    ("if count >= MOST_WAITING {", "if count > MOST_WAITING {"),
    ("if count >= MOST_WAITING {", "if count >= MOST_WAITING - 1 {"),
    ("    if !in_range(transaction) {\n        return Err(6);\n    }\n", ""),
    # words that cannot be read; 26 before them
    ("    if transaction[0] > 2 || transaction[0] > 0 && transaction[2] > 0 {\n        return Err(1);\n    }\n", ""),
    ("if transaction[0] > 2 || transaction[0] > 0", "if transaction[0] > 3 || transaction[0] > 0"),
    ("transaction[0] > 2 || transaction[0] > 0 && transaction[2] > 0", "transaction[0] > 2 || transaction[0] > 1 && transaction[2] > 0"),
    ("    let transaction: &[u32; 3] = transaction.first_chunk().ok_or(1u32)?;\n",
     "    if guest >= GUESTS {\n        return Err(26);\n    }\n    let transaction: &[u32; 3] = transaction.first_chunk().ok_or(1u32)?;\n"),
    # one is the oldest; the count stays; the place behind; another guest's
    ("    let at = queue(guest) + 3 * count as usize;\n    table[at..at + 3]",
     "    let at = queue(guest);\n    table.copy_within(at..at + 21, at + 3);\n    table[at..at + 3]"),
    ("    table[WAITING + guest as usize] += 1;\n", ""),
    ("    let at = queue(guest) + 3 * count as usize;\n    table[at..at + 3]",
     "    let at = queue(guest) + 3 * (count as usize + 1).min(7);\n    table[at..at + 3]"),
    ("    24 + 32 * guest as usize\n", "    24 + 32 * (guest as usize ^ 1)\n"),
    ("    table[WAITING + guest as usize] += 1;\n", "    table[WAITING + guest as usize] += 1;\n    table[SERVED] = guest + 1;\n"),
    # draws: the youngest; from the guest served last, from 0, downward; one lap only
    ("let at = queue(guest) + 3 * taken[guest as usize] as usize;",
     "let at = queue(guest) + 3 * (row[WAITING + guest as usize] - 1 - taken[guest as usize]) as usize;"),
    ("([0; 8], row[SERVED]);", "([0; 8], row[SERVED].saturating_sub(1));"),
    ("([0; 8], row[SERVED]);", "([0; 8], 0);"),
    ("([0; 8], row[SERVED]);", "([0; 8], row[SERVED] + 1);"),
    ("            from = guest + 1;\n", "            from = guest;\n"),
    ("            from = guest + 1;\n", "            from = 0;\n"),
    ("map(|guest| guest % GUESTS).find(left)", "map(|guest| (2 * from + 2 * GUESTS - guest - 1) % GUESTS).find(left)"),
    ("(from..from + GUESTS).map(|guest|", "(from..from + GUESTS - 1).map(|guest|"),
    ("taken[*guest as usize] < row[WAITING + *guest as usize]", "taken[*guest as usize] < row[WAITING + *guest as usize].min(1)"),
    # over the allowance, one less, always four
    ("for k in 0..allowance as usize {", "for k in 0..(allowance as usize + 1).min(4) {"),
    ("for k in 0..allowance as usize {", "for k in 0..(allowance as usize).saturating_sub(1) {"),
    ("for k in 0..allowance as usize {", "for k in 0..4 {"),
    # the first is served last, nobody, nobody where nothing is drawn
    ("            row[SERVED] = guest + 1;\n", "            row[SERVED] = self.guests[0] + 1;\n"),
    ("            row[SERVED] = guest + 1;\n", ""),
    ("            row[SERVED] = guest + 1;\n", "            row[SERVED] = guest;\n"),
    ("    drawn.leave(table.first_chunk_mut().unwrap());\n",
     "    let row: &mut Row = table.first_chunk_mut().unwrap();\n    row[SERVED] = 0;\n    drawn.leave(row);\n"),
    # they stay; the count stays; the words stay; cleared behind; moved by two words
    ("    drawn.leave(table.first_chunk_mut().unwrap());\n", ""),
    ("            row[WAITING + guest as usize] -= 1;\n", ""),
    ("            row.copy_within(at + 3..at + 24, at);\n", ""),
    ("            row.copy_within(at + 3..at + 24, at);\n", "            row.copy_within(at + 3..at + 24, at);\n            row[at + 21..at + 24].fill(0);\n"),
    ("            row.copy_within(at + 3..at + 24, at);\n", "            row.copy_within(at + 3..at + 27, at);\n"),
    ("            row.copy_within(at + 3..at + 24, at);\n", "            row.copy_within(at + 3..at + 23, at);\n"),
    # they leave before the checks; only the guest served last does; after them 6 is asked again
    ("    check_propose(&s, &drawn.body)?;\n", "    let checked = check_propose(&s, &drawn.body);\n    drawn.leave(table.first_chunk_mut().unwrap());\n"
     "    checked?;\n    return Ok(keep_proposal(state, &drawn.body));\n"),
    ("    check_propose(&s, &drawn.body)?;\n", "    let checked = check_propose(&s, &drawn.body);\n    if checked.is_err() && drawn.body[1] > 0 {\n"
     "        table[SERVED] = drawn.guests[0] + 1;\n    }\n    checked?;\n"),
    ("    check_propose(&s, &drawn.body)?;\n", "    check_propose(&s, &drawn.body)?;\n    if drawn.body[1] == 0 {\n        return Err(6);\n    }\n"),
    # a previous set that is none; the proposal is not kept
    ("    if previous >= 1 << 16 {\n        return Err(1);\n    }\n", ""),
    ("    if previous >= 1 << 16 {\n", "    if previous > 1 << 16 {\n"),
    ("    drawn.leave(table", "    state[PROPOSED] = 0;\n    drawn.leave(table"),
    ("            drawn.body[1] += 1;\n", "            drawn.body[1] += 1;\n            drawn.body[2 + 3 * k] = 2;\n"),
    # order inside a block: by round, then author; from one after the leader, from one before
    ("self.survey.apply_block(block, u16::from(first),", "self.survey.apply_block(block, 0,"),
    ("self.survey.apply_block(block, u16::from(first),", "self.survey.apply_block(block, u16::from((first + 1) % 16),"),
    ("self.survey.apply_block(block, u16::from(first),", "self.survey.apply_block(block, u16::from((first + 15) % 16),"),
    # another number for each round
    ("let (from, most) = (row / 16 * 16 + first, row | 15);", "let (from, most) = (row / 16 * 16 + (first + row / 16) % 16, row | 15);"),
    # the leader left out, the leader twice, what is before the leader left out
    ("                if p >= from {\n", "                if p > from {\n"),
    ("while p != after && p < from {", "while p != after && p <= from {"),
    ("while p != after && p < from {", "while false {"),
    # only the first round of a block
    ("            row = after;\n", "            row = END;\n"),
    # leaders by the chain so far, by the starting weights, told too early, too late
    ("self.tell_leaders(block_round + self.survey.lookback());", "self.tell_leaders(block_round);"),
    ("self.tell_leaders(block_round + self.survey.lookback());", "self.tell_leaders(u32::MAX);"),
    ("self.tell_leaders(block_round + self.survey.lookback());", "self.tell_leaders(block_round + self.survey.lookback() + 2);"),
    ("self.tell_leaders(block_round + self.survey.lookback());", "self.tell_leaders(block_round + self.survey.lookback() - 1);"),
    # the leader of the next even round, the first member, a number where there is none
    ("self.leaders[self.told as usize] = self.committee.leader(round);", "self.leaders[self.told as usize] = self.committee.leader(round + 2);"),
    ("self.leaders[self.told as usize] = self.committee.leader(round);", "self.leaders[self.told as usize] = self.committee.leader(0);"),
    ("self.leaders[self.told as usize] = self.committee.leader(round);", "self.leaders[self.told as usize] = self.committee.leader(round) % 16 ^ if self.committee.members() == 0 { 8 } else { 0 };"),
    # links: the records of a round the other way round, blocks one off
    ("for a in members(changing) {", "for a in (0..16).rev().filter(|a| changing >> a & 1 == 1) {"),
    ("blocks: if survey.changed { survey.blocks() } else { 0 },", "blocks: survey.blocks().saturating_sub(1),"),
    # guests: the right of a neighbour, of the next, of anybody, of the caller mirrored; any right of the caller, all four
    (HAS_NOT, "rights >> self.shift >> (caller ^ 1) & 1 == 0"),
    (HAS_NOT, "rights >> self.shift >> ((caller + 1) & 7) & 1 == 0"),
    (HAS_NOT, "rights >> self.shift & 0xff == 0"),
    (HAS_NOT, "rights >> self.shift >> (7 - caller) & 1 == 0"),
    (HAS_NOT, "rights >> caller & 0x0101_0101 == 0"),
    (HAS_NOT, "rights >> caller & 0x0101_0101 != 0x0101_0101"),
    # four rights by caller, the rights from behind; missing ones for given ones; no right asked
    (HAS_NOT, "rights >> (4 * caller + self.shift / 8) & 1 == 0"),
    (HAS_NOT, "rights >> (24 - self.shift) >> caller & 1 == 0"),
    (HAS_NOT, "rights >> self.shift >> caller & 1 == 1"),
    (LACKS, ""),
    # 29 before 26; callers above 7 taken as below, asked for the next right; caller 8 let in, caller 7 not
    (ABOVE + LACKS, LACKS.replace(">> caller", ">> (caller & 7)") + ABOVE),
    (ABOVE, "        let caller = caller % GUESTS;\n"),
    (ABOVE, ""),
    (ABOVE, ABOVE.replace(">=", ">")),
    (ABOVE, ABOVE.replace("GUESTS", "GUESTS - 1")),
    # 26 given as 29, 29 as 26, 29 as 1
    (ABOVE, ABOVE.replace("26", "29")),
    (LACKS, LACKS.replace("29", "26")),
    (LACKS, LACKS.replace("29", "1")),
    # a stretch too short gives all, gets 1, gives the last of its words, the margin
    (RIGHTS, RIGHTS.replace("0)", "u32::MAX)")),
    (RIGHTS, "*state.get(RIGHTS).ok_or(1u32)?"),
    (RIGHTS, "state.get(RIGHTS).or(state.last()).copied().unwrap_or(0)"),
    (RIGHTS, "state.get(RIGHTS).or(state.get(MARGIN)).copied().unwrap_or(0)"),
    # read from the word before, from the last of a longer stretch
    (RIGHTS, RIGHTS.replace("RIGHTS", "MARGIN")),
    (RIGHTS, "state.get(RIGHTS).and(state.last()).copied().unwrap_or(0)"),
    # the state tested before the right: its length, its number, all of it and the table; of single calls
    (ABOVE, "        if state.len() < STATE_WORDS {\n            return Err(1);\n        }\n" + ABOVE),
    (LACKS, "        if state.first().is_some_and(|&own| own > 15) {\n            return Err(1);\n        }\n" + LACKS),
    *[asked_after(call, WELL_FORMED) for call in ("propose", "advance", "commit", "accept", "block", "critical")],
    # words that cannot be read, room for the answers, a queue's guest before the right
    asked_after("certify", "if endorsers >> 16 > 0 { Err(1) } else { Ok(()) }"),
    asked_after("draw", "if previous >> 16 > 0 { Err(1) } else { Ok(()) }"),
    asked_after("accept", "if certificate.len() < 17 { Err(1) } else { Ok(()) }"),
    asked_after("propose", "body.first_chunk().filter(|body| readable(body)).ok_or(1u32)"),
    asked_after("committee", "if out.len() < 16 { Err(1) } else { Ok(()) }"),
    asked_after("batch", "if answers.len() < row.len() { Err(25) } else { Ok(()) }"),
    asked_after("critical", "if list.len() < 64 { Err(25) } else { Ok(()) }"),
    asked_after("enqueue", "if transaction.len() < 3 { Err(1) } else { Ok(()) }"),
    (check_of("enqueue"), "if caller < GUESTS { Ok(()) } else { try_enqueue(state, table, caller, transaction) }.and_then(|()| " + check_of("enqueue") + ")"),
    # sign lets propose, drive lets read, and so on: another right in the place of one, another right as well
    *[row for call in sorted(NEEDS) for row in by_other_rights(call)],
    # a batch needs the right to drive; drawing needs none
    (check_of("batch"), check_of("batch").replace("SIGN", "DRIVE")),
    (check_of("draw"), "try_draw(state, table, previous)"),
    # refused for the right, a word is written: of a list, of answers, of an out stretch, of the state, of the table
    refused_after("preview", "list.iter_mut().take(1).for_each(|word| *word = 0)"),
    refused_after("critical", "list.fill(0)"),
    refused_after("critical", "if let Some(word) = list.last_mut() { *word ^= 1 }"),
    refused_after("batch", "answers.iter_mut().for_each(|word| *word = 29)"),
    refused_after("committee", "out.fill(0)"),
    refused_after("certificate", "out.iter_mut().take(1).for_each(|word| *word = author)"),
    refused_after("advance", "if let Some(word) = state.get_mut(PROPOSED) { *word = 0 }"),
    refused_after("propose", "if let Some(word) = state.get_mut(RIGHTS) { *word ^= 1 }"),
    refused_after("commit", "table.iter_mut().take(1).for_each(|word| *word ^= 1)"),
    refused_after("accept", "table.iter_mut().last().into_iter().for_each(|word| *word ^= 1)"),
    # refused for the right, something of the state is told: the round beside the number, another number in a later round
    ("    wide(" + check_of("block") + ")\n", "    wide(" + check_of("block") + ") | u64::from(caller < GUESTS && state.get(RIGHTS) == Some(&0) && state[BLOCKS] > 0)\n"),
    ("    wide(" + check_of("commit") + ")\n", "    let told = table.first().is_some_and(|&served| served > 0);\n    let answer = wide(" + check_of("commit")
     + ");\n    if answer >> 32 == 29 && told { 28 << 32 } else { answer }\n"),
    # the number in the low half, the value lost
    ("    wide(" + check_of("share") + ")\n", "    let answer = wide(" + check_of("share") + ");\n    if answer >> 32 == 29 { 29 } else { answer }\n"),
    ("    wide(" + check_of("preview") + ")\n", "    wide(" + check_of("preview") + ") & !0xffff_ffff\n"),
    # to another queue: the next, a neighbour's, the first, the one that the words name; the host's own
    (check_of("enqueue"), check_of("enqueue").replace("caller, transaction", "(caller + 1) % GUESTS, transaction")),
    (check_of("enqueue"), check_of("enqueue").replace("caller, transaction", "caller ^ 1, transaction")),
    (check_of("enqueue"), check_of("enqueue").replace("caller, transaction", "0, transaction")),
    (check_of("enqueue"), check_of("enqueue").replace("caller, transaction", "transaction.get(1).copied().unwrap_or(0) % 8, transaction")),
    # a guest draws only what it has added, or else nothing
    asked_after("draw", "if table.get(WAITING + caller as usize & 15) == Some(&0) { Err(29) } else { Ok(()) }"),
    # an open keeps the old rights, adds to them, gives none, all, those of seven callers; refuses some
    (GIVEN, "    fresh[RIGHTS] = state[RIGHTS];\n"),
    (GIVEN, "    fresh[RIGHTS] = rights | state[RIGHTS];\n"),
    (GIVEN, ""),
    (GIVEN, "    fresh[RIGHTS] = u32::MAX;\n"),
    (GIVEN, GIVEN.replace("rights;", "rights & 0x7f7f_7f7f;")),
    (GIVEN, "    if rights == 0 {\n        return Err(2);\n    }\n" + GIVEN),
    (GIVEN, "    if rights >> 31 > 0 {\n        return Err(2);\n    }\n" + GIVEN),
    # refused, it writes them
    ("    if own > 15 {\n        return Err(4);\n    }\n    let mut fresh", "    state[RIGHTS] = rights;\n    if own > 15 {\n        return Err(4);\n    }\n    let mut fresh"),
    # not well formed without a right; states of before there were rights let in
    ("        && (3..=5).contains(&state[MARGIN])\n", "        && (3..=5).contains(&state[MARGIN])\n        && state[RIGHTS] != 0\n"),
    ("    let state: &State = state.first_chunk().ok_or(1u32)?;\n    if !head_is_fine", BEFORE_RIGHTS + "    if !head_is_fine"),
    # another call changes them: they go with the proposal, a guest gets one more by a call that it may make
    ("    state[PROPOSED] = 0;\n    state[BODY..MARGIN].fill(0);\n", "    state[PROPOSED] = 0;\n    state[BODY..MARGIN].fill(0);\n    state[RIGHTS] = 0;\n"),
    ("        0 => state[BODY..MARGIN].fill(0),\n", "        0 => {\n            state[BODY..MARGIN].fill(0);\n            state[RIGHTS] = 0;\n        }\n"),
    ("    clear_unused(&mut state[BODY..MARGIN]);\n}", "    clear_unused(&mut state[BODY..MARGIN]);\n    state[RIGHTS] &= !1;\n}"),
    (check_of("advance"), check_of("advance") + ".inspect(|_| state[RIGHTS] |= 1 << caller)"),
    # the host's own calls ask for a right
    ("    number(try_advance(state, table))\n", "    number(DRIVE.check(state, 0).and_then(|()| try_advance(state, table)))\n"),
    ("    number(try_enqueue(state, table, guest, transaction))\n", "    number(PROPOSE.check(state, guest).and_then(|()| try_enqueue(state, table, guest, transaction)))\n"),
    ("    wide(try_block(state, table, number))\n", "    wide(READ.check(state, 0).and_then(|()| try_block(state, table, number)))\n"),
    # ports of a state: not looked at; one byte too many, byte 0, any byte; in no block, in a block that is not there
    (SEEN_TO, ""),
    (AT_A_BYTE, AT_A_BYTE.replace("listed.length()", "listed.length() + 1")),
    (AT_A_BYTE, AT_A_BYTE.replace("(1..=listed.length())", "(0..=listed.length())")),
    (AT_A_BYTE, AT_A_BYTE.replace(" && (1..=listed.length()).contains(&byte)", " && byte > 0")),
    (AT_A_BYTE, AT_A_BYTE.replace("listed.length()", "78")),
    (AT_A_BYTE, AT_A_BYTE.replace("(1..=listed.length())", "(1..listed.length())")),
    (AT_A_BYTE, AT_A_BYTE.replace("(1..=blocks)", "(0..=blocks)")),
    (AT_A_BYTE, AT_A_BYTE.replace("(1..=blocks)", "(1..blocks)")),
    # not held; (p, 0), (0, n), above the ceiling; of round 0; the ceiling's refused; all but port 7, all but port 0 looked at
    (IS_HELD, ""),
    (NOWHERE, "return place < 16 && byte == 0;"),
    (NOWHERE, "return place == 0;"),
    (NOWHERE, "return byte == 0;"),
    (NOWHERE, "return true;"),
    (IN_THE_TABLE, IN_THE_TABLE.replace("place < 16", "place == 0")),
    (IN_THE_TABLE, IN_THE_TABLE.replace("16 * rows.len()", "16 * (rows.len() - 1)")),
    ("    (0..GUESTS).all(|guest| {\n        let port", "    (0..GUESTS - 1).all(|guest| {\n        let port"),
    ("    (0..GUESTS).all(|guest| {\n        let port", "    (1..GUESTS).all(|guest| {\n        let port"),
    # registers: one above let in, the most refused; looked at only where something was read
    *[(MOST_HELD, "[" + ", ".join(str(most + more * (k == at)) for k, most in enumerate([1, 255, 31, 255, 255, 255])) + "]")
      for at in range(6) for more in (1, -1)],
    ("port.iter().fold(0, |all, &word| all | word) == 0", "port[..2] == [0; 2]"),
    # 31 for offset 7, 8 let in, 26 or 1 in its place; 1 before it; before the right
    (READS, READS.replace("OFFSETS", "OFFSETS - 1")),
    (READS, READS.replace(">=", ">")),
    (READS, READS.replace("31", "26")),
    (READS, READS.replace("31", "1")),
    (READS, READS.replace(OFFSET, FORMED + OFFSET)),
    (WRITES, WRITES.replace("OFFSETS", "OFFSETS - 1")),
    (WRITES, WRITES.replace(">=", ">")),
    (WRITES, WRITES.replace(OFFSET, FORMED + OFFSET)),
    asked_after("port_read", "if offset > 7 { Err(31) } else { Ok(()) }"),
    asked_after("port_write", "if offset > 7 { Err(31) } else { Ok(()) }"),
    asked_after("port_read", WELL_FORMED),
    # a reset: 26 for port 7, none for 8, 31 in its place, 1 before it; of all ports, of the next, of a queue too
    (RESETS + NO_PORT, RESETS + NO_PORT.replace("GUESTS", "GUESTS - 1")),
    (RESETS + NO_PORT, RESETS + "    let port = port % GUESTS;\n"),
    (RESETS + NO_PORT, RESETS + NO_PORT.replace("26", "31")),
    (RESETS + NO_PORT, RESETS + FORMED + NO_PORT),
    (CLEARED_PORT, "    (0..GUESTS).for_each(|port| table[port_start(port)..][..8].fill(0));\n"),
    (CLEARED_PORT, CLEARED_PORT.replace("(port)", "(port ^ 1)")),
    (CLEARED_PORT, CLEARED_PORT.replace("[..8]", "[..9]")),
    # it keeps the place, the scratch register, the divisor; it is made of a state that is not well formed
    (CLEARED_PORT, CLEARED_PORT.replace("[..8]", "[2..8]")),
    (CLEARED_PORT, CLEARED_PORT.replace("[..8]", "[..5]")),
    (CLEARED_PORT, CLEARED_PORT.replace("[..8]", "[..6]")),
    (CLEARED_PORT, CLEARED_PORT.replace("[..8]", "[..2]")),
    (CLEARED_PORT, ""),
    ("    survey(state, table, Weights::None, &mut room)?;\n" + CLEARED_PORT,
     "    survey_without_ports(state, table, Weights::None, &mut room)?;\n" + CLEARED_PORT),
    # a byte is not taken, of another port, two; the divisor not shown, by another bit, by any, never
    (STANDS, ""),
    (STANDS, STANDS.replace("(guest)", "(guest ^ 1)")),
    (STANDS, STANDS.replace("&[place, byte]", "&[place, byte.max(2)]")),
    ("        0 if is_divisor => port[DIVISOR_LOW],\n", ""),
    ("        1 if is_divisor => port[DIVISOR_HIGH],\n", ""),
    ("const IS_DIVISOR: u32 = 0x80;", "const IS_DIVISOR: u32 = 0x40;"),
    ("const IS_DIVISOR: u32 = 0x80;", "const IS_DIVISOR: u32 = 0xff;"),
    ("const IS_DIVISOR: u32 = 0x80;", "const IS_DIVISOR: u32 = 0;"),
    # the byte before, another one; a line feed at the end
    (".byte(byte - 1);", ".byte(byte.max(2) - 2);"),
    (".byte(byte - 1);", ".byte(byte % 8);"),
    ("            None => 0,\n        },\n        1 => port[ENABLE],", "            None => 10,\n        },\n        1 => port[ENABLE],"),
    # 4 without the bit, without a byte, not with the divisor; 5, 0 for 1; 20 at offset 5, the bit missing, the other way
    (ENABLED, ENABLED.replace("port[ENABLE] == 1 && ", "")),
    (ENABLED, ENABLED.replace(" && waits()", "")),
    (ENABLED, ENABLED.replace("waits()", "!is_divisor && waits()")),
    (ENABLED, ENABLED.replace("4", "5")),
    ("        2 => 1,\n        3 => port[LINE],", "        2 => 0,\n        3 => port[LINE],"),
    ("5 => 0x60 + u32::from(waits()),", "5 => 0x20 + u32::from(waits()),"),
    ("5 => 0x60 + u32::from(waits()),", "5 => 0x60,"),
    ("5 => 0x60 + u32::from(waits()),", "5 => 0x60 + u32::from(!waits()),"),
    ("        6 => 0,\n        _ => port[SCRATCH],", "        6 => port[MODEM],\n        _ => port[SCRATCH],"),
    ("        6 => 0,\n        _ => port[SCRATCH],", "        6 => 0xb0,\n        _ => port[SCRATCH],"),
    ("        4 => port[MODEM],\n", "        4 => port[MODEM] & 15,\n"),
    # written: all bits of 1, eight of 4, seven of 3 and 7; 0 and 2 kept somewhere; 5 and 6 too
    ("1 => port[ENABLE] = value & 1,", "1 => port[ENABLE] = value.min(1),"),
    ("1 => port[ENABLE] = value & 1,", "1 => port[ENABLE] |= value & 1,"),
    ("1 => port[ENABLE] = value & 1,", "1 => port[ENABLE] = value >> 1 & 1,"),
    ("4 => port[MODEM] = value & 31,", "4 => port[MODEM] = value & 15,"),
    ("4 => port[MODEM] = value & 31,", "4 => port[MODEM] = value,"),
    ("3 => port[LINE] = value,", "3 => port[LINE] = value & 0x7f,"),
    ("3 => port[LINE] = value,", "3 => port[LINE] = value | port[LINE] & 0x80,"),
    ("7 => port[SCRATCH] = value,", "7 => port[SCRATCH] = value & 0x7f,"),
    ("7 => port[SCRATCH] = value,", "5..=7 => port[SCRATCH] = value,"),
    ("7 => port[SCRATCH] = value,", "0 | 7 => port[SCRATCH] = value,"),
    ("7 => port[SCRATCH] = value,", "2 => port[MODEM] = value & 31,\n        7 => port[SCRATCH] = value,"),
    ("        0 if is_divisor => port[DIVISOR_LOW] = value,\n", "        0 => port[DIVISOR_LOW] = value,\n"),
    ("        1 if is_divisor => port[DIVISOR_HIGH] = value,\n", ""),
    ("port[DIVISOR_HIGH] = value,", "port[DIVISOR_LOW] = value,"),
    # to another port; a write that resumes at the start
    ("    let port = &mut table[port_start(guest)..][..8];\n", "    let port = &mut table[port_start(guest ^ 1)..][..8];\n"),
    ("    let port = &mut table[port_start(guest)..][..8];\n", "    let port = &mut table[port_start(guest)..][..8];\n    port[..2].fill(0);\n"),
    # the line after one: numbers just rise, fall; a row passed by, those above the block's round; the last byte of a line
    # left out, one more
    (LATER, "member as u32 > author"),
    (LATER, LATER.replace(">", "<")),
    (ABOVE_IT, ABOVE_IT.replace("round + 1", "round + 2")),
    (ABOVE_IT, ABOVE_IT.replace("s.ceiling()", "s.block_round(block)")),
    (NEXT, NEXT.replace("byte <", "byte + 1 <")),
    (NEXT, NEXT.replace("byte <", "byte <=")),
    # the first of a row by number, by another block's leader; the next block left out, none beyond an empty one, its last
    # row first, any block; the last block left out
    (LEADER, "        let first = 0 * self.block_leader(table, block);\n"),
    (LEADER, "        let first = self.block_leader(table, block.max(2) - 1);\n"),
    (LEAST, "mark > block + 1 && mark < least.0"),
    (LEAST, "mark == block + 1 && mark < least.0"),
    (LEAST, "mark > block && mark <= least.0"),
    (LEAST, "mark > block && least.0 == u32::MAX"),
    ("        if block == self.blocks() {\n            return None;\n        }\n        let mut least", "        if block + 1 >= self.blocks() && block > 0 {\n            return None;\n        }\n        let mut least"),
    # the line itself: LF for CR, letters exchanged, a digit, rounds exchanged
    ("        put(b'\\r');\n", "        put(b'\\n');\n"),
    ('b"BUE"', 'b"BEU"'),
    ("put(b'0' + (number / 10u32.pow(place) % 10) as u8);", "put(b'0' + (number / 10u32.pow(place) % 10 % 9) as u8);"),
    ("numbers: [record[2], block_round, round, author]", "numbers: [record[2], round, block_round, author]"),
    # a commit sends readers to the start; an open keeps the registers of port 7
    ("    state[BLOCKS] = blocks + taken as u32;\n", "    state[BLOCKS] = blocks + taken as u32;\n    (0..GUESTS).for_each(|port| table[port_start(port)..][..2].fill(0));\n"),
    ("table.get_mut(..used).ok_or(1u32)?.fill(0);", "let kept: Vec<u32> = table.get(port_start(7)..port_start(7) + 8).map_or(Vec::new(), |words| words.to_vec());\n"
     "    table.get_mut(..used).ok_or(1u32)?.fill(0);\n    table[port_start(7) + 2..][..6].copy_from_slice(&kept[2..]);"),
    # refused for the right, a word of the port is written
    refused_after("port_read", "table.iter_mut().skip(16).take(1).for_each(|word| *word = 0)"),
    refused_after("port_write", "table.iter_mut().skip(port_start(caller & 7) + 5).take(1).for_each(|word| *word ^= 1)"),
    # order of checks
    ("if author > 15 {\n            return Err(4);\n        }\n        if !self.in_range(round) {\n            return Err(5);\n        }",
     "if !self.in_range(round) {\n            return Err(5);\n        }\n        if author > 15 {\n            return Err(4);\n        }"),
    ("    if signers & !committee.members() != 0 {\n        return Err(9);\n    }\n", ""),
    ("    if own > 15 {\n        return Err(4);\n    }\n    let mut fresh", "    let mut fresh"),
    ("3..=6 => (0, 1_000_000, 1),", "3..=5 => (0, 1_000_000, 1),"),
    ("table.get_mut(..used).ok_or(1u32)?.fill(0);", "table.get_mut(..used).ok_or(1u32)?;"),
    ("table.get_mut(..used).ok_or(1u32)?.fill(0);", "if table.len() < used { return Err(1); } table.fill(0);"),
]


HERE = os.path.dirname(os.path.abspath(__file__))
TOP = os.path.join(HERE, "..", "..")
RUSTC = ["rustc", "--edition", "2021", "-A", "warnings", "-C", "opt-level=1"]


def tried(work, text, old, new, arguments):
    """Why a spoilt one is not noticed, None where it is. Each thread has its own copy."""
    if text.count(old) != 1:
        return "its text stands %d times" % text.count(old)
    copy = os.path.join(work, str(threading.get_ident()))
    if not os.path.isdir(copy):
        for folder in ("bench", "tests"):
            shutil.copytree(os.path.join(TOP, folder), os.path.join(copy, folder))
    with open(os.path.join(copy, "bench", "plain.rs"), "w") as f:
        f.write(text.replace(old, new))
    program = os.path.join(copy, "differential")
    build = RUSTC + ["--cfg", "plain", "--extern", "reference=" + os.path.join(work, "libreference.rlib")]
    build += [os.path.join(copy, "tests", "hosts", "differential.rs"), "-o", program]
    built = subprocess.run(build, capture_output=True, text=True)
    if built.returncode != 0:
        return "it is not built: " + built.stderr.split("\n")[0]
    ended = subprocess.run([program, *arguments], capture_output=True).returncode
    if ended < 0:
        return "a signal ended it, %d" % -ended
    return None if ended > 0 else "not noticed"


def main():
    arguments = [sys.argv[2] if len(sys.argv) > 2 else "1", sys.argv[1] if len(sys.argv) > 1 else "300000"]
    wanted = [m for m in MUTANTS if len(sys.argv) < 4 or sys.argv[3] in m[0]]
    if not wanted:
        sys.exit("mutants.py: no old text holds %r" % sys.argv[3])
    text = open(os.path.join(TOP, "bench", "plain.rs")).read()
    os.makedirs(os.path.join(TOP, "target"), exist_ok=True)
    wrong = 0
    with tempfile.TemporaryDirectory(prefix="mutants-", dir=os.path.join(TOP, "target")) as work:
        library = os.path.join(TOP, "reference", "src", "lib.rs")
        subprocess.run(RUSTC + ["--crate-name", "reference", "--crate-type", "rlib", library,
                                "-o", os.path.join(work, "libreference.rlib")], check=True)
        unspoilt = tried(work, text, text, text, arguments)
        if unspoilt != "not noticed":
            sys.exit("mutants.py: plain.rs as it is: %s" % (unspoilt or "it differs from the reference"))
        with ThreadPoolExecutor(int(os.environ.get("JOBS") or os.cpu_count())) as pool:
            results = pool.map(lambda m: tried(work, text, *m, arguments), wanted)
            for (old, new), why in zip(wanted, results):
                if why:
                    wrong += 1
                    print("%s: %r -> %r" % (why, old, new), flush=True)
    print("%d mutants, %d noticed" % (len(wanted), len(wanted) - wrong))
    return 1 if wrong else 0


if __name__ == "__main__":
    sys.exit(main())
