//! Calls as words, chosen by chance: likely ones, which fit a member's state,
//! and wild ones.

use crate::words::*;
use reference::*;

// --------------------------------------------------------------- chance ---

pub struct Rng(u64);

impl Rng {
    pub fn of(seed: u64) -> Rng {
        Rng(seed.wrapping_mul(0x2545_f491_4f6c_dd1d) ^ 0x6a09_e667_f3bc_c908)
    }
    pub fn next(&mut self) -> u64 {
        self.0 = self.0.wrapping_add(0x9e37_79b9_7f4a_7c15);
        let z = (self.0 ^ (self.0 >> 30)).wrapping_mul(0xbf58_476d_1ce4_e5b9);
        let z = (z ^ (z >> 27)).wrapping_mul(0x94d0_49bb_1331_11eb);
        z ^ (z >> 31)
    }
    /// 0 to n - 1, and 0 for n = 0.
    pub fn below(&mut self, n: u64) -> u64 {
        self.next() % n.max(1)
    }
    pub fn between(&mut self, low: u32, high: u32) -> u32 {
        low + self.below(u64::from(high - low) + 1) as u32
    }
    /// True in p of 1,000.
    pub fn chance(&mut self, p: u32) -> bool {
        self.below(1_000) < u64::from(p)
    }
    pub fn pick<T: Copy>(&mut self, from: &[T]) -> T {
        from[self.below(from.len() as u64) as usize]
    }
    /// Any word, small ones and edges often.
    pub fn word(&mut self) -> u32 {
        match self.below(6) {
            0 => self.between(0, 4),
            1 => self.between(0, 40),
            2 => self.pick(&[65_535, 65_536, 1_000, 1_001, 1_024, 1_025, 1_000_000, 1_000_001]),
            3 => self.pick(&[u32::MAX, u32::MAX - 1, 1 << 31, 1 << 16, 0x8000]),
            4 => self.next() as u32 & 0xffff,
            _ => self.next() as u32,
        }
    }
    /// Each member of the set stays in with p of 1,000.
    pub fn thin(&mut self, set: Set, p: u32) -> Set {
        members_of(set).filter(|_| self.chance(p)).map(single).fold(0, |a, b| a | b)
    }
}

// ---------------------------------------------------------------- calls ---

/// Numbers of refusals that this version has stand below it, 0 for accepted: a new one makes it larger.
pub const ANSWERS: usize = 32;

#[derive(Clone, Debug)]
pub enum Call {
    Open { own: u32, sheet: Vec<u32>, rights: u32 },
    Propose { body: Vec<u32> },
    Endorse { proposal: Vec<u32> },
    Certify { endorsers: u32 },
    Accept { certificate: Vec<u32> },
    Advance,
    Commit,
    Batch { row: Vec<[u32; 17]>, answers: Vec<u32> },
    Enqueue { guest: u32, transaction: Vec<u32> },
    Draw { previous: u32 },
    Committee { round: u32, out: Vec<u32> },
    Share { member: u32, round: u32 },
    Certificate { author: u32, round: u32, out: Vec<u32> },
    Block { number: u32 },
    Preview { list: Vec<u32> },
    Critical { list: Vec<u32> },
    Effect { member: u32, round: u32, amount: u32, out: Vec<u32> },
    PortRead { offset: u32 },
    PortWrite { offset: u32, value: u8 },
    PortReset { port: u32 },
}

impl Call {
    pub const NAMES: [&'static str; 20] = [
        "open",
        "port reset",
        "propose",
        "endorse",
        "certify",
        "accept",
        "advance",
        "commit",
        "batch",
        "enqueue",
        "draw",
        "port read",
        "port write",
        "committee",
        "share",
        "certificate",
        "block",
        "preview",
        "critical",
        "bond effect",
    ];

    pub fn kind(&self) -> usize {
        match self {
            Call::Open { .. } => 0,
            Call::PortReset { .. } => Call::PORT_RESET,
            Call::Propose { .. } => Call::GUESTS,
            Call::Endorse { .. } => 3,
            Call::Certify { .. } => 4,
            Call::Accept { .. } => 5,
            Call::Advance => 6,
            Call::Commit => 7,
            Call::Batch { .. } => 8,
            Call::Enqueue { .. } => 9,
            Call::Draw { .. } => 10,
            Call::PortRead { .. } => Call::PORT_READ,
            Call::PortWrite { .. } => Call::PORT_WRITE,
            Call::Committee { .. } => Call::CHANGING,
            Call::Share { .. } => 14,
            Call::Certificate { .. } => 15,
            Call::Block { .. } => 16,
            Call::Preview { .. } => Call::PREVIEW,
            Call::Critical { .. } => Call::CRITICAL,
            Call::Effect { .. } => Call::EFFECT,
        }
    }

    pub const PORT_RESET: usize = 1;
    /// The host's alone come first; from here on they are guests' too.
    pub const GUESTS: usize = 2;
    pub const PORT_READ: usize = 11;
    pub const PORT_WRITE: usize = 12;
    /// The kinds of calls that may change a word come before this, then the reads.
    pub const CHANGING: usize = 13;
    pub const PREVIEW: usize = 17;
    pub const CRITICAL: usize = 18;
    pub const EFFECT: usize = 19;

    pub fn is_read(&self) -> bool {
        self.kind() >= Call::CHANGING
    }

    /// A guest's alone.
    pub fn is_access(&self) -> bool {
        matches!(self, Call::PortRead { .. } | Call::PortWrite { .. })
    }

    /// What it is as a guest's call; nothing for those that are the host's alone.
    pub fn request(&self) -> Option<Request> {
        Some(match self {
            Call::Open { .. } | Call::PortReset { .. } => return None,
            Call::Propose { .. } => Request::Propose,
            Call::Endorse { .. } => Request::Endorse,
            Call::Certify { .. } => Request::Certify,
            Call::Accept { .. } => Request::Accept,
            Call::Advance => Request::Advance,
            Call::Commit => Request::Commit,
            Call::Batch { .. } => Request::Batch,
            Call::Enqueue { .. } => Request::Enqueue,
            Call::Draw { .. } => Request::Draw,
            Call::Committee { .. } => Request::Committee,
            Call::Share { .. } => Request::Share,
            Call::Certificate { .. } => Request::Certificate,
            Call::Block { .. } => Request::Block,
            Call::Preview { .. } => Request::Preview,
            Call::Critical { .. } => Request::Critical,
            Call::Effect { .. } => Request::Effect,
            Call::PortRead { .. } => Request::PortRead,
            Call::PortWrite { .. } => Request::PortWrite,
        })
    }

    /// The out stretch as it is before the call.
    pub fn out(&self) -> &[u32] {
        match self {
            Call::Committee { out, .. } | Call::Certificate { out, .. } | Call::Effect { out, .. } => out,
            Call::Batch { answers, .. } => answers,
            Call::Preview { list } | Call::Critical { list } => list,
            _ => &[],
        }
    }
}

/// Who makes a call: the host, or a guest, by its number.
#[derive(Clone, Copy, PartialEq, Eq, Debug)]
pub enum Caller {
    Host,
    Guest(u32),
}

impl Caller {
    /// The number of a guest.
    pub fn guest(self) -> u32 {
        match self {
            Caller::Host => unreachable!("a guest's call"),
            Caller::Guest(guest) => guest,
        }
    }
}

/// A guest of 0 to 9, now and then one far above.
pub fn any_guest(rng: &mut Rng) -> u32 {
    match rng.below(40) {
        0 => rng.pick(&[15, 16, 31, 32, 255, 256, 65_536, 1 << 31, u32::MAX - 1, u32::MAX]),
        _ => rng.between(0, 9),
    }
}

/// The host, mostly.
pub fn any_caller(rng: &mut Rng) -> Caller {
    if rng.chance(200) { Caller::Guest(any_guest(rng)) } else { Caller::Host }
}

/// Certificates and proposals that members of a stretch have seen.
#[derive(Default)]
pub struct Pool {
    proposals: Vec<Vec<u32>>,
    certificates: Vec<Vec<u32>>,
}

impl Pool {
    fn keep(list: &mut Vec<Vec<u32>>, words: Vec<u32>) {
        if list.len() == 64 {
            list.swap_remove(7);
        }
        list.push(words);
    }

    /// Keeps what an accepted call has made known.
    pub fn note(&mut self, call: &Call, answer: u64, member: &Member) {
        if answer >> 32 != 0 {
            return;
        }
        match call {
            Call::Propose { .. } | Call::Draw { .. } => {
                Pool::keep(&mut self.proposals, proposal_words(member.proposal.as_ref().unwrap()))
            }
            Call::Certify { endorsers } => {
                let mut words = proposal_words(member.proposal.as_ref().unwrap());
                words.push(*endorsers);
                Pool::keep(&mut self.certificates, words);
            }
            Call::Endorse { proposal } => Pool::keep(&mut self.proposals, proposal.clone()),
            Call::Accept { certificate } => Pool::keep(&mut self.certificates, certificate.clone()),
            _ => {}
        }
    }
}

// --------------------------------------------------------------- likely ---

pub fn any_transaction(rng: &mut Rng) -> Transaction {
    let member = rng.between(0, 15);
    match rng.below(8) {
        0 | 1 => Transaction::Bond { member, amount: rng.pick(&[1, 2, 3, 5, 999, 1_000]) },
        2 => Transaction::Bond { member, amount: rng.between(1, 1_000) },
        3 => Transaction::Unbond { member: rng.between(0, 15) },
        _ => Transaction::Entry { number: rng.word() },
    }
}

pub fn some_transactions(rng: &mut Rng, most: u32) -> Vec<Transaction> {
    (0..rng.between(0, most)).map(|_| any_transaction(rng)).collect()
}

/// A previous set for a round: held ones, all, thinned, or without those that
/// some margin can spare.
pub fn likely_previous(rng: &mut Rng, member: &Member, round: u32) -> Set {
    if round <= 1 {
        return 0;
    }
    let held = member.held_authors(round - 1);
    match (rng.below(8), member.committee_of(round - 1)) {
        (0, _) => rng.thin(held, 800),
        (1, _) => rng.thin(held, 400),
        (2, Some(committee)) => {
            let margin = some_margin(rng, member);
            without_spare(rng, held, 0, committee, margin)
        }
        _ => held,
    }
}

/// The member's margin, or at times another: a quorum by one margin may be one
/// short by the next.
fn some_margin(rng: &mut Rng, member: &Member) -> u32 {
    if rng.chance(500) { member.settings.margin } else { rng.between(3, 5) }
}

/// Of a set what is left of it when some are left out that a quorum by a
/// margin can spare, but none of those to be kept.
fn without_spare(rng: &mut Rng, set: Set, kept: Set, committee: &Committee, margin: u32) -> Set {
    let (mut left, keep) = (set, rng.pick(&[0, 500, 900]));
    for m in members_of(set & !kept) {
        let fewer = left & !single(m);
        if is_quorum(fewer, committee, margin) && !rng.chance(keep) {
            left = fewer;
        }
    }
    left
}

pub fn members_in(committee: &Committee) -> Set {
    (0..MEMBERS).filter(|&m| committee[m as usize] > 0).map(single).fold(0, |a, b| a | b)
}

/// Endorsers that are a quorum with the author: all inside but for some that
/// can be spared.
pub fn some_quorum(rng: &mut Rng, committee: &Committee, author: u32, margin: u32) -> Set {
    let (all, author) = (members_in(committee), single(author));
    without_spare(rng, all | author, author, committee, margin) & !author
}

pub fn likely_endorsers(rng: &mut Rng, member: &Member, author: u32, round: u32) -> Set {
    let Some(committee) = member.committee_of(round) else { return !single(author & 15) };
    let all = members_in(committee) & !single(author & 15);
    match rng.below(20) {
        0..=2 => rng.thin(all, 700),
        3..=8 => {
            let margin = some_margin(rng, member);
            some_quorum(rng, committee, author & 15, margin)
        }
        _ => all,
    }
}

/// A certificate that is held, with other endorsers: thinned, any others, all
/// or none. One in four has its author among them.
pub fn copy_of_held(rng: &mut Rng, member: &Member) -> Option<Certificate> {
    let round = likely_round(rng, member).clamp(1, member.settings.ceiling);
    let authors: Vec<u32> = members_of(member.held_authors(round)).collect();
    if authors.is_empty() {
        return None;
    }
    let author = rng.pick(&authors);
    let mut copy = member.held_at(author, round).unwrap().certificate.clone();
    copy.endorsers = match rng.below(5) {
        0 => rng.thin(copy.endorsers, 500),
        1 => copy.endorsers ^ single(rng.between(0, 15)),
        2 => rng.next() as Set,
        3 => 0xffff,
        _ => 0,
    };
    if rng.chance(250) {
        copy.endorsers |= single(author);
    } else {
        copy.endorsers &= !single(author);
    }
    Some(copy)
}

pub fn likely_round(rng: &mut Rng, member: &Member) -> u32 {
    let r = member.round;
    match rng.below(12) {
        0 => rng.between(1, r),
        1 => r + 1,
        2 => rng.between(0, member.settings.ceiling + 1),
        3 | 4 => r.saturating_sub(1).max(1),
        _ => r,
    }
}

/// A proposal by another that fits the state.
pub fn likely_proposal(rng: &mut Rng, member: &Member) -> Proposal {
    let round = likely_round(rng, member);
    let committee = member.committee_of(round).map_or(0xffff, members_in);
    let in_range = 1 <= round && round <= member.settings.ceiling;
    let free = if in_range { committee & !member.held_authors(round) } else { committee };
    let others: Vec<u32> = members_of(free & !single(member.own)).collect();
    let author =
        if others.is_empty() || rng.chance(30) { rng.between(0, 15) } else { rng.pick(&others) };
    let previous = if in_range { likely_previous(rng, member, round) } else { 1 };
    Proposal {
        author,
        round,
        previous,
        transactions: some_transactions(rng, member.settings.allowance),
    }
}

pub fn likely_certificate(rng: &mut Rng, member: &Member) -> Certificate {
    let proposal = likely_proposal(rng, member);
    let endorsers = likely_endorsers(rng, member, proposal.author, proposal.round);
    Certificate { proposal, endorsers }
}

fn longer(rng: &mut Rng, mut words: Vec<u32>) -> Vec<u32> {
    if rng.chance(100) {
        (0..rng.between(1, 5)).for_each(|_| words.push(rng.word()));
    }
    words
}

pub fn out_stretch(rng: &mut Rng, needed: usize) -> Vec<u32> {
    let length = match rng.below(20) {
        0 => rng.below(needed as u64) as usize,
        1 => needed - 1,
        2..=6 => needed + rng.below(6) as usize,
        _ => needed,
    };
    (0..length).map(|_| rng.word()).collect()
}

/// The words of the list that a preview asks for: 16 places of three words for
/// each round of the ceiling.
pub fn preview_words(ceiling: u32) -> usize {
    3 * 16 * ceiling as usize
}

/// A preview into a list that is just long enough, mostly; some words more or
/// less, much longer, much shorter, or empty.
pub fn some_preview(rng: &mut Rng, ceiling: u32) -> Call {
    let needed = preview_words(ceiling);
    let words = match rng.below(40) {
        0 => 0,
        1 => rng.below(needed as u64) as usize,
        2 => rng.pick(&[1, 2, 3, 15 * ceiling as usize, 16 * ceiling as usize, 45 * ceiling as usize, needed - 48]),
        3 => needed - 1,
        4 => needed - rng.pick(&[2, 3, 4]),
        5..=8 => needed + 1,
        9..=12 => needed + 2,
        13 => needed + rng.pick(&[3, 16, 48]),
        14 => needed + rng.below(200) as usize,
        _ => needed,
    };
    Call::Preview { list: noise(rng, words) }
}

/// The words of the list that tells what a commit hangs on: 32 places of two
/// words, whatever the ceiling.
pub const CRITICAL_WORDS: usize = 64;

/// What a commit hangs on, into a list that is just long enough, mostly; a word or
/// a place more or less, much longer, much shorter, or empty.
pub fn some_critical(rng: &mut Rng) -> Call {
    let words = match rng.below(40) {
        0 => 0,
        1 => rng.below(64) as usize,
        2 => rng.pick(&[1, 2, 16, 31, 32, 33, 48, 60, 61]),
        3 => 62,
        4 => 63,
        5..=9 => 65,
        10..=12 => 66,
        13 => rng.pick(&[67, 96, 128]),
        14 => 64 + rng.below(200) as usize,
        _ => CRITICAL_WORDS,
    };
    Call::Critical { list: noise(rng, words) }
}

/// An amount of a bond: in range, its edges often; at times out of range.
pub fn some_amount(rng: &mut Rng) -> u32 {
    match rng.below(40) {
        0 => 0,
        1 => 1_001,
        2 => rng.word(),
        3..=6 => 1,
        7..=10 => 1_000,
        11..=16 => 16 * rng.between(1, 62),
        17..=22 => rng.pick(&[2, 3, 5, 7, 999]),
        _ => rng.between(1, 1_000),
    }
}

/// What a bond does to the shares of a round: any member, inside or not, and an out
/// stretch that is just long enough, mostly; some words more or less, or none.
pub fn some_effect(rng: &mut Rng, round: u32) -> Call {
    let member = if rng.chance(20) { rng.pick(&[16, 17, u32::MAX]) } else { rng.between(0, 15) };
    let amount = some_amount(rng);
    let out = if rng.chance(10) { Vec::new() } else { out_stretch(rng, EFFECT) };
    Call::Effect { member, round, amount, out }
}

/// An offset of 0 to 9, bytes and whether one waits more often than others; now and
/// then one far above.
pub fn some_offset(rng: &mut Rng) -> u32 {
    match rng.below(20) {
        0 => rng.pick(&[8, 9, 15, 16, 255, 256, 1 << 31, u32::MAX]),
        1..=5 => 0,
        6 | 7 => 5,
        _ => rng.between(0, 9),
    }
}

/// A byte to write: single bits and all of them often.
pub fn some_value(rng: &mut Rng) -> u8 {
    match rng.below(4) {
        0 => 1 << rng.below(8),
        1 => rng.pick(&[0, 1, 0x1f, 0x7f, 0x80, 0xff]),
        _ => rng.next() as u8,
    }
}

/// An access to a port: a read, mostly. The divisor is shown at times, and the
/// interrupt enabled often.
pub fn some_access(rng: &mut Rng) -> Call {
    match rng.below(20) {
        0 | 1 => Call::PortWrite { offset: 3, value: some_value(rng) & rng.pick(&[0x7f, 0x7f, 0xff]) },
        2 | 3 => Call::PortWrite { offset: rng.pick(&[0, 1, 1]), value: some_value(rng) | rng.pick(&[0, 1]) },
        4 | 5 => Call::PortWrite { offset: some_offset(rng), value: some_value(rng) },
        6 => Call::PortRead { offset: 2 },
        _ => Call::PortRead { offset: some_offset(rng) },
    }
}

/// A reset of a port of 0 to 9, now and then one far above.
pub fn some_reset(rng: &mut Rng) -> Call {
    Call::PortReset { port: any_guest(rng) }
}

/// A guest adds a transaction: one that fits, mostly; any guest, at times those
/// with much waiting.
pub fn likely_enqueue(rng: &mut Rng, member: &Member) -> Call {
    let mut guest = rng.between(0, GUESTS - 1);
    if rng.chance(300) {
        guest = (0..GUESTS).max_by_key(|&g| (member.waiting(g) % QUEUE, g == guest)).unwrap_or(0);
    }
    let transaction = transaction_words(&any_transaction(rng)).to_vec();
    Call::Enqueue { guest, transaction: longer(rng, transaction) }
}

/// Whether the authors held in the present round are a quorum of its committee.
pub fn may_go_on(member: &Member) -> bool {
    let held = member.held_authors(member.round);
    member.committee_of(member.round).is_some_and(|committee| member.is_quorum(held, committee))
}

/// A call that fits the state, mostly; one in nine is wild.
pub fn likely_call(rng: &mut Rng, member: &Member, pool: &mut Pool) -> Call {
    if rng.chance(110) {
        return wild_call(rng, member, pool);
    }
    if rng.chance(120) {
        return likely_enqueue(rng, member);
    }
    if rng.chance(60) {
        return some_access(rng);
    }
    let (r, own) = (member.round, member.own);
    let could_commit = r % 2 == 1 && member.last_block_round() + 1 < r;
    match rng.below(100) {
        0..=11 if member.proposal.is_none() || rng.chance(200) => {
            let previous = likely_previous(rng, member, r);
            if rng.chance(500) {
                return Call::Draw { previous: u32::from(previous) };
            }
            let transactions = some_transactions(rng, member.settings.allowance);
            let p = Proposal { author: own, round: r, previous, transactions };
            Call::Propose { body: longer(rng, body_words(&p).to_vec()) }
        }
        12..=20 => {
            let words = match pool.proposals.len() {
                n if n > 0 && rng.chance(400) => {
                    pool.proposals[rng.below(n as u64) as usize].clone()
                }
                _ => proposal_words(&likely_proposal(rng, member)),
            };
            Call::Endorse { proposal: longer(rng, words) }
        }
        0..=11 | 21..=29 if member.proposal.is_some() || rng.chance(200) => {
            Call::Certify { endorsers: u32::from(likely_endorsers(rng, member, own, r)) }
        }
        0..=11 | 21..=64 => {
            let copy = if rng.chance(120) { copy_of_held(rng, member) } else { None };
            let words = match (copy, pool.certificates.len()) {
                (Some(copy), _) => certificate_words(&copy),
                (None, n) if n > 0 && rng.chance(250) => {
                    pool.certificates[rng.below(n as u64) as usize].clone()
                }
                _ => certificate_words(&likely_certificate(rng, member)),
            };
            Call::Accept { certificate: longer(rng, words) }
        }
        77..=84 if could_commit || rng.chance(200) => match rng.below(8) {
            0 | 1 => some_preview(rng, member.settings.ceiling),
            2 | 3 => some_critical(rng),
            _ => Call::Commit,
        },
        // On, once a quorum of the round is there; now and then before that.
        65..=84 if may_go_on(member) || rng.chance(60) => Call::Advance,
        65..=84 => {
            Call::Accept { certificate: certificate_words(&likely_certificate(rng, member)) }
        }
        85..=88 => Call::Committee { round: likely_round(rng, member), out: out_stretch(rng, 16) },
        89..=91 => Call::Share { member: rng.between(0, 15), round: likely_round(rng, member) },
        92 => {
            let round = likely_round(rng, member);
            some_effect(rng, round)
        }
        93..=97 => Call::Certificate {
            author: rng.between(0, 15),
            round: rng.between(1, r),
            out: out_stretch(rng, 18),
        },
        _ => Call::Block { number: rng.between(0, member.chain.len() as u32 + 1) },
    }
}

// ----------------------------------------------------------------- wild ---

pub fn sheet_words(rng: &mut Rng, sheet: &Sheet) -> Vec<u32> {
    let mut words = Vec::new();
    let mut put = |setting: Setting| match setting {
        Setting::Blank => words.extend([0, rng.word()]),
        Setting::Written(value) => words.extend([1, value]),
    };
    [sheet.lookback, sheet.ceiling, sheet.allowance].into_iter().for_each(&mut put);
    sheet.weights.into_iter().for_each(&mut put);
    put(sheet.margin);
    longer(rng, words)
}

/// A sheet that may be refused.
fn wild_sheet(rng: &mut Rng, member: &Member) -> Vec<u32> {
    let mut words = vec![0; SHEET_WORDS];
    for k in 0..20 {
        words[2 * k] = u32::from(rng.chance(500));
        words[2 * k + 1] = match k {
            0 => rng.pick(&[1, 2, 3, 20, 999, 1_000]),
            1 => rng.pick(&[3, 4, 10, member.settings.ceiling, member.settings.ceiling + 1, 1_024]),
            2 => rng.between(0, 4),
            19 => rng.between(3, 5),
            _ => rng.pick(&[0, 0, 0, 1, 2, 1_000_000]),
        };
    }
    // Mostly a ceiling that fits the table.
    if rng.chance(800) {
        (words[2], words[3]) = (1, member.settings.ceiling.min(rng.pick(&[3, 7, 1_024])));
    }
    match rng.below(10) {
        0 => words[2 * rng.below(20) as usize] = rng.word(),
        1 => words[2 * rng.below(20) as usize + 1] = rng.word(),
        2 => (words[0], words[1]) = (1, rng.pick(&[0, 1_001])),
        3 => (words[2], words[3]) = (1, rng.pick(&[0, 2, 1_025])),
        4 => (words[4], words[5]) = (1, 5),
        5 => (3..19).for_each(|k| (words[2 * k], words[2 * k + 1]) = (u32::from(k < 7), 0)),
        6 => (words[38], words[39]) = (1, rng.pick(&[0, 2, 6, u32::MAX])),
        7 => words.truncate(rng.pick(&[0, 1, 37, 38, 39])),
        _ => {}
    }
    words
}

/// A change of one or two words of an argument, or of its length.
pub fn spoil(rng: &mut Rng, mut words: Vec<u32>, body: usize) -> Vec<u32> {
    for _ in 0..rng.between(1, 2) {
        let k = rng.below(4) as usize;
        let count = words.get(body + 1).map_or(0, |&count| count.clamp(1, 4));
        let used = rng.below(u64::from(count)) as usize;
        let (at, value) = match rng.below(14) {
            0 => (rng.below(words.len() as u64) as usize, rng.word()),
            1 => (body, rng.pick(&[0, 1, 65_535, 65_536, 1 << 20])),
            2 => (body, rng.next() as u32 & 0xffff),
            3 => (body + 1, rng.pick(&[0, 1, 2, 3, 4, 5, 6, u32::MAX])),
            4 => (body + 2 + 3 * used, rng.between(0, 3)),
            5 => (body + 2 + 3 * k, rng.between(0, 4)),
            6 => (body + 3 + 3 * used, rng.pick(&[0, 15, 16, 17, u32::MAX])),
            7 => (body + 4 + 3 * used, rng.pick(&[0, 1, 1_000, 1_001, u32::MAX])),
            8 => (body + 4 + 3 * k, rng.word()),
            9 => (0, rng.between(0, 17)),
            10 => (1, rng.between(0, 6)),
            11 => (words.len().wrapping_sub(1), rng.next() as u32 & 0xffff),
            12 => (words.len().wrapping_sub(1), rng.word()),
            _ => {
                words.truncate(rng.below(words.len() as u64 + 1) as usize);
                continue;
            }
        };
        if let Some(word) = words.get_mut(at) {
            *word = value;
        }
    }
    words
}

pub fn noise(rng: &mut Rng, length: usize) -> Vec<u32> {
    (0..length).map(|_| rng.word()).collect()
}

/// A transaction that may be out of range, or that cannot be read; at times
/// words are missing.
pub fn wild_transaction(rng: &mut Rng) -> Vec<u32> {
    let mut words = transaction_words(&any_transaction(rng)).to_vec();
    match rng.below(8) {
        0 => words[0] = rng.pick(&[0, 1, 2, 3, 4, u32::MAX]),
        1 => words[1] = rng.pick(&[0, 15, 16, 17, u32::MAX]),
        2 => words[2] = rng.pick(&[0, 1, 1_000, 1_001, u32::MAX]),
        3 => words = vec![rng.between(0, 2), rng.pick(&[15, 16]), rng.pick(&[0, 1_001])],
        4 => words.truncate(rng.below(3) as usize),
        5 => words[rng.below(3) as usize] = rng.word(),
        _ => {}
    }
    words
}

pub fn wild_enqueue(rng: &mut Rng) -> Call {
    let guest = match rng.below(3) {
        0 => rng.pick(&[7, 8, 9, 15, 16, u32::MAX]),
        _ => rng.between(0, GUESTS),
    };
    Call::Enqueue { guest, transaction: wild_transaction(rng) }
}

/// A draw with a previous set that may fit: one more, one less, any, no set.
pub fn wild_draw(rng: &mut Rng, member: &Member) -> Call {
    let near = u32::from(likely_previous(rng, member, member.round));
    let previous = match rng.below(6) {
        0 => 0,
        1 => near ^ 1 << rng.below(16),
        2 => near | rng.pick(&[1 << 16, 1 << 31]),
        3 => rng.pick(&[1, 65_535, 65_536, u32::MAX]),
        4 => rng.word(),
        _ => near,
    };
    Call::Draw { previous }
}

/// A call that fits little: spoilt arguments, or any words at all.
pub fn wild_call(rng: &mut Rng, member: &Member, pool: &mut Pool) -> Call {
    let fit = rng.chance(850);
    match rng.below(20) {
        18 => some_access(rng),
        19 => some_reset(rng),
        15 => some_preview(rng, member.settings.ceiling),
        16 => some_critical(rng),
        17 => {
            let round = wild_round(rng, member);
            some_effect(rng, round)
        }
        12 | 13 => wild_enqueue(rng),
        14 => wild_draw(rng, member),
        0 => Call::Open { own: rng.between(0, 17), sheet: wild_sheet(rng, member), rights: rng.word() },
        1 => {
            let p = Proposal { author: 0, ..likely_proposal(rng, member) };
            let body = if fit { body_words(&p).to_vec() } else { noise(rng, 14) };
            Call::Propose { body: spoil(rng, body, 0) }
        }
        2 | 3 => {
            let words =
                if fit { proposal_words(&likely_proposal(rng, member)) } else { noise(rng, 16) };
            Call::Endorse { proposal: spoil(rng, words, 2) }
        }
        4 => {
            let near = likely_endorsers(rng, member, member.own, member.round)
                ^ single(rng.between(0, 15));
            Call::Certify { endorsers: if fit { u32::from(near) } else { rng.word() } }
        }
        5 | 6 => {
            let words = match pool.certificates.len() {
                0 if !fit => noise(rng, 17),
                n if n > 0 && rng.chance(300) => {
                    pool.certificates[rng.below(n as u64) as usize].clone()
                }
                _ => certificate_words(&likely_certificate(rng, member)),
            };
            Call::Accept { certificate: spoil(rng, words, 2) }
        }
        7 => rng_advance(rng),
        8 => Call::Committee { round: wild_round(rng, member), out: out_stretch(rng, 16) },
        9 => Call::Share { member: rng.between(0, 17), round: wild_round(rng, member) },
        10 => Call::Certificate {
            author: rng.between(0, 17),
            round: wild_round(rng, member),
            out: out_stretch(rng, 18),
        },
        _ => Call::Block { number: rng.word() },
    }
}

fn rng_advance(rng: &mut Rng) -> Call {
    if rng.chance(300) {
        Call::Advance
    } else {
        Call::Commit
    }
}

fn wild_round(rng: &mut Rng, member: &Member) -> u32 {
    let ceiling = member.settings.ceiling;
    match rng.below(5) {
        0 => rng.word(),
        1 => rng.pick(&[0, 1, ceiling, ceiling + 1]),
        _ => rng.between(1, ceiling),
    }
}

/// For a made-up chain: calls that ask what the blocks have made of the weights.
pub fn call_on_chain(rng: &mut Rng, member: &Member, pool: &mut Pool) -> Call {
    let round = rng.between(1, member.settings.ceiling);
    match rng.below(20) {
        17..=19 => some_access(rng),
        11 | 12 => some_preview(rng, member.settings.ceiling),
        13 | 14 => some_critical(rng),
        15 | 16 => some_effect(rng, round),
        0..=4 => Call::Committee { round, out: out_stretch(rng, 16) },
        5 => Call::Share { member: rng.between(0, 15), round },
        6..=8 => Call::Commit,
        9 => Call::Advance,
        _ => any_call(rng, member, pool),
    }
}

/// For a changed state: every sort of call about as often.
pub fn any_call(rng: &mut Rng, member: &Member, pool: &mut Pool) -> Call {
    match rng.below(6) {
        0 => wild_call(rng, member, pool),
        1 => Call::Commit,
        2 if rng.chance(500) => some_preview(rng, member.settings.ceiling),
        2 => some_critical(rng),
        _ => likely_call(rng, member, pool),
    }
}
