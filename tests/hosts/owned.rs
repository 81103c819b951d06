//! Owner's calls against the host's own ones and the reference: `owned SEED CALLS [LEAST [MOST]]`.
//!
//! Two sets of the same words go along: one is owned, and only a resume and owner's calls write it; on the
//! other each call is made by the host's own function. The reference makes it on the member that both stand
//! for. Compared after each call: the answer, every word of state and table, the out stretch and what lies
//! beside it, with the reference the answer and the out stretch, and at times every word. The kept committees
//! of the rounds that are known must be those that a resume finds, after each commit and at times after any
//! other call, and by what the reference has for them. Of the calls by chance some are a guest's, and now and
//! then both sets are stored and restored, the owned one by a resume into other kept committees.
//!
//! Stretches start from openings and from states grown by runs of the reference, with ceilings of 3 to 1,024,
//! or of LEAST to MOST. At times words are changed, or chains made up: whether a resume takes them is judged
//! here, from what docs/RULES.md and docs/TABLES.md say of a state, by whole histories and by blocks that hang
//! together. Where it does, calls go on there for a while, in states that no run leaves too.

#![allow(dead_code)]

mod answers;
mod calls;
#[path = "../../bench/host.rs"]
mod engine;
mod grow;
mod nodes;
#[path = "../../bench/owned.rs"]
mod owner;
mod rows;
mod words;

use answers::*;
use calls::*;
use grow::*;
use nodes::Node;
use owner::kept_words;
use reference::*;
use rows::some_batch;
use words::*;

/// Words on both sides of an out stretch, which are not lent.
const GUARD: [u32; 4] = [0x6a09_e667, 77, 0, u32::MAX];

/// The words of kept committees: one for the first round, which is 0, then sixteen for each round.
fn kept_at(round: u32) -> usize {
    1 + 16 * round as usize
}

// ------------------------------------------------------------- the calls ---

/// Makes the call on owned words, as the host's own.
fn by_owner(call: &Call, words: &mut Words, out: &mut [u32]) -> u64 {
    let (state, table, kept) = (&mut words.state[..], &mut words.table[..], &mut words.kept[..]);
    let plain = |answer: u32| u64::from(answer) << 32;
    match call {
        Call::Open { .. } => unreachable!("owners have none of their own"),
        Call::Propose { body } => plain(owner::propose(state, table, kept, body)),
        Call::Endorse { proposal } => plain(owner::endorse(state, table, kept, proposal)),
        Call::Certify { endorsers } => plain(owner::certify(state, table, kept, *endorsers)),
        Call::Accept { certificate } => plain(owner::accept(state, table, kept, certificate)),
        Call::Advance => plain(owner::advance(state, table, kept)),
        Call::Commit => owner::commit(state, table, kept),
        Call::Batch { row, .. } => plain(owner::batch(state, table, kept, row, out)),
        Call::Enqueue { guest, transaction } => plain(owner::enqueue(state, table, kept, *guest, transaction)),
        Call::Draw { previous } => plain(owner::draw(state, table, kept, *previous)),
        Call::Committee { round, .. } => plain(owner::committee(state, table, kept, *round, out)),
        Call::Share { member, round } => owner::share(state, table, kept, *member, *round),
        Call::Certificate { author, round, .. } => {
            plain(owner::certificate(state, table, kept, *author, *round, out))
        }
        Call::Block { number } => owner::block(state, table, kept, *number),
        Call::Preview { .. } => owner::preview(state, table, kept, out),
        Call::Critical { .. } => owner::critical(state, table, kept, out),
        Call::Effect { member, round, amount, .. } => {
            plain(owner::bond_effect(state, table, kept, *member, *round, *amount, out))
        }
        Call::PortReset { port } => plain(owner::port_reset(state, table, kept, *port)),
        Call::PortRead { .. } | Call::PortWrite { .. } => unreachable!("the host has no access"),
    }
}

/// Makes the call on owned words, as a guest's.
fn by_owners_guest(guest: u32, call: &Call, words: &mut Words, out: &mut [u32]) -> u64 {
    let (state, table, kept) = (&mut words.state[..], &mut words.table[..], &mut words.kept[..]);
    let plain = |answer: u32| u64::from(answer) << 32;
    match call {
        Call::Open { .. } | Call::PortReset { .. } => unreachable!("the host's alone"),
        Call::Propose { body } => plain(owner::guest_propose(guest, state, table, kept, body)),
        Call::Endorse { proposal } => plain(owner::guest_endorse(guest, state, table, kept, proposal)),
        Call::Certify { endorsers } => plain(owner::guest_certify(guest, state, table, kept, *endorsers)),
        Call::Accept { certificate } => plain(owner::guest_accept(guest, state, table, kept, certificate)),
        Call::Advance => plain(owner::guest_advance(guest, state, table, kept)),
        Call::Commit => owner::guest_commit(guest, state, table, kept),
        Call::Batch { row, .. } => plain(owner::guest_batch(guest, state, table, kept, row, out)),
        Call::Enqueue { transaction, .. } => plain(owner::guest_enqueue(guest, state, table, kept, transaction)),
        Call::Draw { previous } => plain(owner::guest_draw(guest, state, table, kept, *previous)),
        Call::Committee { round, .. } => plain(owner::guest_committee(guest, state, table, kept, *round, out)),
        Call::Share { member, round } => owner::guest_share(guest, state, table, kept, *member, *round),
        Call::Certificate { author, round, .. } => {
            plain(owner::guest_certificate(guest, state, table, kept, *author, *round, out))
        }
        Call::Block { number } => owner::guest_block(guest, state, table, kept, *number),
        Call::Preview { .. } => owner::guest_preview(guest, state, table, kept, out),
        Call::Critical { .. } => owner::guest_critical(guest, state, table, kept, out),
        Call::Effect { member, round, amount, .. } => {
            plain(owner::guest_bond_effect(guest, state, table, kept, *member, *round, *amount, out))
        }
        Call::PortRead { offset } => owner::guest_port_read(guest, state, table, kept, *offset),
        Call::PortWrite { offset, value } => plain(owner::guest_port_write(guest, state, table, kept, *offset, *value)),
    }
}

// ------------------------------------------------------------ owned words ---

/// Words that are owned.
#[derive(Clone)]
struct Words {
    state: Vec<u32>,
    table: Vec<u32>,
    kept: Vec<u64>,
}

impl Words {
    /// By a resume into noise, of so many words; nothing where that answers 1.
    fn resume(rng: &mut Rng, state: &[u32], table: &[u32], kept: usize) -> Option<Words> {
        let mut kept: Vec<u64> = (0..kept).map(|_| rng.next()).collect();
        let (state, table, before) = (state.to_vec(), table.to_vec(), kept.clone());
        let answer = owner::resume(&state, &table, &mut kept);
        assert!(answer == 0 || answer == 1 && kept == before, "a resume answers {answer}, or one that is refused writes");
        (answer == 0).then_some(Words { state, table, kept })
    }

    /// The highest round whose committee is known, up to the ceiling.
    fn known(&self) -> u32 {
        let last = match self.state[22] {
            0 => 0,
            number => self.table[ROW * number as usize + 2],
        };
        (self.state[1] + last + 2).min(self.state[2])
    }

    /// The kept committees of the rounds that are known.
    fn kept(&self) -> &[u64] {
        &self.kept[..kept_at(self.known() + 1)]
    }
}

/// Whether a well-formed state is one that a resume takes: what is held, and the proposal, name what is held,
/// and what is in a block names what is in one.
fn has_whole_histories(member: &Member) -> bool {
    let marked: Vec<(u32, u32)> =
        member.chain().iter().flat_map(|block| block.certificates.iter().copied()).collect();
    let marked: std::collections::HashSet<(u32, u32)> = marked.into_iter().collect();
    let all_held = |previous: Set, round: u32| round <= 1 || previous & !member.held_authors(round - 1) == 0;
    let is_whole = |round: u32, author: u32| {
        let previous = member.held_at(author, round).expect("it is held").certificate.proposal.previous;
        let in_blocks = || members_of(previous).all(|named| round <= 1 || marked.contains(&(round - 1, named)));
        all_held(previous, round) && (!marked.contains(&(round, author)) || in_blocks())
    };
    (1..=member.settings().ceiling)
        .all(|round| members_of(member.held_authors(round)).all(|author| is_whole(round, author)))
        && member.proposal().is_none_or(|proposal| all_held(proposal.previous, proposal.round))
}

/// Whether no block of a well-formed state has a certificate above its own round, and each that has some in a
/// round below it has some in the round after: so a resume takes only such.
fn hangs_together(member: &Member) -> bool {
    member.chain().iter().all(|block| {
        let rounds: std::collections::HashSet<u32> = block.certificates.iter().map(|place| place.0).collect();
        rounds.iter().all(|round| *round == block.round || *round < block.round && rounds.contains(&(round + 1)))
    })
}

// --------------------------------------------------------------- the test ---

#[derive(Default)]
struct Figures {
    calls: u64,
    /// By kind: accepted and refused, by the host and by guests.
    answers: [[u64; ANSWERS]; Call::NAMES.len()],
    guests: u64,
    /// Calls by ceiling: up to 40, up to 255, larger.
    sizes: [u64; 3],
    blocks: u64,
    most_blocks: u64,
    rows: [u64; 2],
    /// Comparisons of kept committees, of all words with the reference, restores.
    kept: u64,
    words: u64,
    restores: u64,
    /// Calls of the host's own on owned words.
    mixed: u64,
    /// Changed words that a resume was asked of: taken, well formed and refused, not well formed.
    changed: [u64; 3],
    /// Kept committees that were too short.
    short: u64,
    differences: u64,
}

struct Test {
    rng: Rng,
    figures: Figures,
}

impl Test {
    fn differs(&mut self, what: &str, call: &dyn std::fmt::Debug, caller: Caller) {
        self.figures.differences += 1;
        println!("DIFFERENCE at call {}: {what}: {call:?} by {caller:?}", self.figures.calls);
        if self.figures.differences >= 10 {
            self.end();
        }
    }

    /// Resumes words that must be owned from here on, at times into more words than they need.
    fn resumed(&mut self, node: &Node) -> Words {
        let more = self.rng.below(3) as usize;
        let needed = kept_words(node.state[2]);
        let words = Words::resume(&mut self.rng, &node.state, &node.table, needed + more);
        words.expect("a resume takes what calls lead to")
    }

    /// One call on both sets, and by the reference.
    fn call(&mut self, caller: Caller, words: &mut Words, node: &mut Node, call: &Call) -> u64 {
        let guarded = || [&GUARD, call.out(), &GUARD].concat();
        let lent = GUARD.len()..GUARD.len() + call.out().len();
        let (mut owned_out, mut host_out, mut expected_out) = (guarded(), guarded(), call.out().to_vec());
        let rights = rights_in(&node.state);
        let lengths = (node.state.len(), node.table.len());
        let expected = match caller {
            Caller::Host => by_engine(call, &mut node.state, &mut node.table, &mut host_out[lent.clone()]),
            Caller::Guest(guest) => by_guest(guest, call, &mut node.state, &mut node.table, &mut host_out[lent.clone()]),
        };
        // Now and then the owned words are lent to the host's own call, which leaves them owned but for a commit.
        let is_mixed = !matches!(call, Call::Commit) && self.rng.chance(20);
        self.figures.mixed += u64::from(is_mixed);
        let out = &mut owned_out[lent.clone()];
        let found = match caller {
            Caller::Host if is_mixed => by_engine(call, &mut words.state, &mut words.table, out),
            Caller::Guest(guest) if is_mixed => by_guest(guest, call, &mut words.state, &mut words.table, out),
            Caller::Host => by_owner(call, words, out),
            Caller::Guest(guest) => by_owners_guest(guest, call, words, out),
        };
        let ruled = wide(by_reference(caller, call, &rights, &mut node.twin, lengths, &mut expected_out));
        self.count(caller, call, found, node.table.len());
        if found != expected || found != ruled {
            self.differs(&format!("answer {found:#x}, the host's {expected:#x}, the reference's {ruled:#x}"), call, caller);
        }
        if owned_out != host_out || owned_out[lent] != expected_out {
            self.differs("another out stretch", call, caller);
        }
        if words.state != node.state || words.table != node.table {
            self.differs("other words of state or table", call, caller);
            (words.state, words.table) = (node.state.clone(), node.table.clone());
        }
        let added = matches!(call, Call::Commit) && found >> 32 == 0;
        if added || self.rng.chance(30) {
            self.compare_kept(caller, words, node, call);
        }
        if self.rng.chance(60) {
            self.compare_words(caller, words, node, call);
        }
        found
    }

    /// Kept committees: those that a resume finds, and one of them by the reference.
    fn compare_kept(&mut self, caller: Caller, words: &Words, node: &Node, call: &Call) {
        self.figures.kept += 1;
        let again = Words::resume(&mut self.rng, &words.state, &words.table, kept_words(words.state[2]));
        match again {
            None => self.differs("a resume does not take the words afterwards", call, caller),
            Some(again) if again.kept() != words.kept() => self.differs("other kept committees", call, caller),
            Some(_) => {}
        }
        let round = self.rng.between(1, words.known());
        let committee = node.twin.as_ref().and_then(|member| member.committee_of(round)).copied();
        if committee.map(|weights| weights.to_vec()) != Some(words.kept[kept_at(round)..][..16].to_vec()) {
            self.differs(&format!("the kept committee of round {round} is not the reference's"), call, caller);
        }
    }

    /// Every word that is part of a state: the member that they stand for is the reference's.
    fn compare_words(&mut self, caller: Caller, words: &Words, node: &Node, call: &Call) {
        self.figures.words += 1;
        let read = read_member(&words.state, &words.table);
        let same = match (&read, &node.twin) {
            (Some(read), Some(twin)) => {
                let (mut one, mut other) = (words.table.clone(), words.table.clone());
                write_table(read, &mut one);
                write_table(twin, &mut other);
                one == other && state_words(read) == state_words(twin)
            }
            _ => false,
        };
        if !same {
            self.differs("the words do not stand for the reference's member", call, caller);
        }
    }

    fn count(&mut self, caller: Caller, call: &Call, answer: u64, table: usize) {
        let f = &mut self.figures;
        f.calls += 1;
        f.guests += u64::from(caller != Caller::Host);
        let number = (answer >> 32) as usize;
        assert!(number < ANSWERS, "{number} is no number of this version: {call:?}");
        f.answers[call.kind()][number] += 1;
        if matches!(call, Call::Commit) && number == 0 {
            f.blocks += answer;
            f.most_blocks = f.most_blocks.max(answer);
        }
        f.sizes[match table / ROW {
            0..=42 => 0,
            43..=256 => 1,
            _ => 2,
        }] += 1;
    }

    /// What some blocks hold, by the host or by a guest, into a list that is long enough, mostly.
    fn rows(&mut self, words: &Words, node: &Node) {
        let blocks = node.state[22];
        let known = self.rng.between(0, blocks);
        let number = match self.rng.below(6) {
            0 => blocks - known + 1,
            1 => self.rng.word(),
            _ => self.rng.between(0, (blocks - known).min(4)),
        };
        let held = node.twin.as_ref().map_or(0, |member| {
            let blocks = member.chain().iter().skip(known as usize).take(number as usize);
            blocks.map(|block| block.certificates.len()).sum()
        });
        let length = match self.rng.below(8) {
            0 if held > 0 => 18 * held - 1,
            1 => self.rng.below(18 * held as u64 + 1) as usize,
            2 => 18 * held,
            _ => 18 * held + self.rng.below(40) as usize,
        };
        let (mut one, mut other) = (noise(&mut self.rng, length), Vec::new());
        other.clone_from(&one);
        let caller = any_caller(&mut self.rng);
        let (expected, found) = match caller {
            Caller::Host => (
                engine::block_rows(&node.state, &node.table, known, number, &mut one),
                owner::block_rows(&words.state, &words.table, &words.kept, known, number, &mut other),
            ),
            Caller::Guest(guest) => (
                engine::guest_block_rows(guest, &node.state, &node.table, known, number, &mut one),
                owner::guest_block_rows(guest, &words.state, &words.table, &words.kept, known, number, &mut other),
            ),
        };
        self.figures.calls += 1;
        self.figures.rows[usize::from(found >> 32 != 0)] += 1;
        if found != expected || one != other {
            self.differs(&format!("block rows: answer {found:#x}, the host's {expected:#x}"), &(known, number, length), caller);
        }
        if expected >> 32 == 0 && expected != held as u64 {
            self.differs(&format!("block rows: {expected} certificates, the reference's {held}"), &(known, number), caller);
        }
    }

    /// Who makes a call, and the call: a guest adds to its own queue, and accesses are guests' alone.
    fn by_whom(&mut self, call: Call) -> (Caller, Call) {
        match (any_caller(&mut self.rng), call) {
            (_, call) if call.request().is_none() => (Caller::Host, call),
            (_, call) if call.is_access() => (Caller::Guest(any_guest(&mut self.rng)), call),
            other => other,
        }
    }

    /// A copy with words changed, or with a chain made up on what it holds: is it resumed where it must be, and
    /// are calls there the host's?
    fn changed(&mut self, node: &Node, pool: &mut Pool) {
        let hint = node.twin.clone().expect("a node in a stretch is well formed");
        let mut copy = node.clone();
        match self.rng.below(3) {
            0 => make_up_chain(&mut self.rng, &hint, &mut copy.state, &mut copy.table),
            1 => self.cut_history(&hint, &mut copy),
            _ => change_word(&mut self.rng, &hint, &mut copy.state, &mut copy.table),
        }
        copy.read_again();
        let whole = copy.twin.as_ref().is_some_and(|member| has_whole_histories(member) && hangs_together(member));
        let ceiling = copy.state[2].min(2_000);
        let needed = kept_words(ceiling);
        let too_short = self.rng.chance(100);
        let room = if too_short { needed - 1 - self.rng.below(17) as usize } else { needed };
        let words = Words::resume(&mut self.rng, &copy.state, &copy.table, room);
        self.figures.short += u64::from(too_short && whole);
        if words.is_some() != (whole && !too_short) {
            let told = format!("resume: taken {}, whole {whole}, short {too_short}", words.is_some());
            self.differs(&told, &copy.state, Caller::Host);
            return;
        }
        let sort = if words.is_some() { 0 } else { 1 + usize::from(copy.twin.is_none()) };
        self.figures.changed[sort] += 1;
        let Some(mut words) = words else { return };
        for _ in 0..self.rng.below(8) {
            let call = any_call(&mut self.rng, copy.twin.as_ref().expect("it is well formed"), pool);
            if matches!(call, Call::Open { .. }) {
                continue;
            }
            let (caller, call) = self.by_whom(call);
            self.call(caller, &mut words, &mut copy, &call);
        }
    }

    /// Takes a mark away, or a held bit, or has a certificate or the proposal name one more.
    fn cut_history(&mut self, member: &Member, copy: &mut Node) {
        let rng = &mut self.rng;
        let round = rng.between(1, member.round());
        let authors: Vec<u32> = members_of(member.held_authors(round)).collect();
        let Some(&author) = authors.get(rng.below(authors.len() as u64) as usize) else { return };
        let record = ROW * round as usize + 16 + 16 * author as usize;
        match rng.below(4) {
            0 => copy.table[record + 2] = 0,
            1 => copy.table[ROW * round as usize] &= !(1 << author),
            2 if round > 1 => copy.table[record] |= 1 << rng.below(16),
            3 if member.round() > 1 => copy.state[23] |= 1 << rng.below(16),
            _ => copy.table[record + 2] = rng.between(0, copy.state[22]),
        }
    }

    /// A stretch of calls on a member.
    fn stretch(&mut self, least: u32, most: u32) {
        let mut plan = Plan::any(&mut self.rng);
        while !(least..=most).contains(&plan.ceiling) {
            plan = Plan::any(&mut self.rng);
        }
        let own = plan.owns[0];
        let opened = plan.open(&mut self.rng, own);
        let member = if plan.grown == 0 { opened } else { grow(&mut self.rng, opened, plan.grown, &plan) };
        let mut node = Node::of(member, &mut self.rng);
        let mut words = self.resumed(&node);
        let mut pool = Pool::default();
        // Growing a large one takes long, so more calls are made on it.
        let calls = if plan.ceiling > 40 { 10 * plan.calls } else { plan.calls };
        for _ in 0..calls {
            let twin = node.twin.as_ref().expect("a node in a stretch is well formed");
            match self.rng.below(1_000) {
                0..=2 => {
                    (words, self.figures.restores) = (self.resumed(&node), self.figures.restores + 1);
                    continue;
                }
                3..=12 => {
                    self.changed(&node, &mut pool);
                    continue;
                }
                13..=19 => {
                    self.rows(&words, &node);
                    continue;
                }
                _ => {}
            }
            let call = match self.rng.below(100) {
                0 | 1 => some_batch(&mut self.rng, twin),
                2..=4 => some_access(&mut self.rng),
                _ => likely_call(&mut self.rng, twin, &mut pool),
            };
            if let Call::Open { own, sheet, rights } = &call {
                self.opened(*own, sheet, *rights, &mut words, &mut node);
                continue;
            }
            let (caller, call) = self.by_whom(call);
            let answer = self.call(caller, &mut words, &mut node, &call);
            pool.note(&call, answer, node.twin.as_ref().expect("a node in a stretch is well formed"));
        }
    }

    /// An open on both sets; where it is accepted a resume takes what it leaves.
    fn opened(&mut self, own: u32, sheet: &[u32], rights: u32, words: &mut Words, node: &mut Node) {
        let answer = engine::open(&mut node.state, &mut node.table, own, sheet, rights);
        self.figures.calls += 1;
        self.figures.answers[0][answer as usize] += 1;
        if answer == 0 {
            node.read_again();
            *words = self.resumed(node);
        }
    }

    /// Says what was seen; the status tells whether there was a difference.
    fn end(&self) -> ! {
        let f = &self.figures;
        for (name, answers) in Call::NAMES.iter().zip(&f.answers) {
            let refused: u64 = answers[1..].iter().sum();
            println!("{name}: {} accepted, {refused} refused", answers[0]);
        }
        println!("block rows: {} accepted, {} refused", f.rows[0], f.rows[1]);
        println!("blocks made: {}, at most {} at once; calls of guests: {}", f.blocks, f.most_blocks, f.guests);
        let [small, middle, large] = f.sizes;
        println!("calls by ceiling: {small} up to 40, {middle} up to 255, {large} up to 1,024");
        println!("kept committees compared {} times, all words with the reference {} times; {} restores; {} calls of the host's own on owned words", f.kept, f.words, f.restores, f.mixed);
        let [taken, refused, malformed] = f.changed;
        println!("changed words: {taken} resumed, {refused} well formed and refused, {} of them for kept committees too short, {malformed} not well formed", f.short);
        println!("{} owner's calls, {} differences", f.calls, f.differences);
        std::process::exit(i32::from(f.differences > 0))
    }

    /// Of many calls each kind must have been accepted and refused.
    fn all_seen(&self) {
        let f = &self.figures;
        for (kind, answers) in f.answers.iter().enumerate() {
            let refused: u64 = answers[1..].iter().sum();
            assert!(answers[0] > 0 && refused > 0, "{} was never accepted, or never refused", Call::NAMES[kind]);
        }
        assert!(f.rows.iter().chain(&f.changed).all(|&count| count > 0) && f.short > 0 && f.restores > 0);
    }
}

fn main() {
    let mut arguments = std::env::args().skip(1);
    let mut next = |name: &str, value: u64| {
        arguments.next().map_or(value, |word| word.parse().unwrap_or_else(|_| panic!("{name} is a number")))
    };
    let (seed, calls, least, most) = (next("SEED", 1), next("CALLS", 200_000), next("LEAST", 3), next("MOST", 1_024));
    let mut test = Test { rng: Rng::of(seed), figures: Figures::default() };
    while test.figures.calls < calls {
        test.stretch(least as u32, most as u32);
    }
    if calls >= 100_000 {
        test.all_seen();
    }
    test.end()
}
