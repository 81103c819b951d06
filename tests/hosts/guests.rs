//! Guests' calls: each of the eighteen forms but block rows by hand, with every right alone and every
//! right but one, by callers below and above 7; on states and stretches of all
//! sorts 26 before 29 before 1. Then by chance: every call on grown, damaged,
//! malformed and short states. With the right it must be the host's own call on a
//! copy, word by word, but for accesses to ports, which are guests' alone; without it
//! two states that have nothing but their rights in common must give the same, and
//! keep every word.

use crate::calls::*;
use crate::grow::*;
use crate::margins::*;
use crate::previews::*;
use crate::rows::*;
use crate::words::*;
use crate::{told, Node, Test};
use reference::*;

/// The kinds of calls that a guest has: all but open and the reset of a port.
const KINDS: std::ops::Range<usize> = Call::GUESTS..Call::NAMES.len();

/// What was seen of guests' calls.
#[derive(Default)]
pub struct Figures {
    pub answers: [[u64; ANSWERS]; Call::NAMES.len()],
    /// On states that are not well formed or stretches too short: with 26 or 29, and
    /// with the right, so with 1.
    unfit: [u64; 2],
    /// Compared with the host's own call on a copy; of them accepted.
    as_hosts: [u64; 2],
    /// Pairs of states with equal rights; calls on them by callers who lack the right.
    pairs: u64,
    lacking: u64,
}

impl Figures {
    fn made(&self) -> u64 {
        self.answers.iter().flatten().sum()
    }

    pub fn print(&self) {
        for kind in KINDS {
            println!("guest's {}: {}", Call::NAMES[kind], told(&self.answers[kind]));
        }
        let ([refused, passed], [compared, accepted]) = (self.unfit, self.as_hosts);
        println!(
            "guests: {} calls; on states not well formed and stretches too short {refused} with 26 or 29, {passed} with the right; \
             beside the host's own on a copy {compared}, {accepted} of them accepted; pairs of states with equal rights: {}, {} calls \
             without the right on them",
            self.made(), self.pairs, self.lacking
        );
    }
}

// ---------------------------------------------------------------- edges ---

/// Member 0 of four of weight 1, with some full rounds, a commit in one of them.
fn of_four(rounds: u32, commit_in: u32) -> Node {
    node_of(full_rounds(5, 20, 0b1111, rounds, commit_in))
}

/// Each call that a guest has, a state in which the host's own is accepted, what
/// it answers, and the number of the right that it needs: 0 propose, 1 sign,
/// 2 drive, 3 read.
fn each_accepted() -> Vec<(u32, Node, Call, u64)> {
    let fresh = plant(&[1; 4], 3, 1);
    let mut waiting = fresh.clone();
    waiting.table[waiting_word(6)] = 1;
    waiting.table[queue_place(6, 0)] = 2;
    let mut proposed = fresh.clone();
    proposed.state[21] = 1;
    let proposal = Proposal { author: 1, round: 1, previous: 0, transactions: vec![Transaction::Entry { number: 7 }] };
    let (body, first) = (body_words(&proposal).to_vec(), proposal_words(&proposal));
    let words = certificate_words(&Certificate { proposal, endorsers: 0b1101 });
    let row = vec![seventeen(&words); 2];
    vec![
        (0, fresh.clone(), Call::Propose { body }, 0),
        (0, waiting, Call::Draw { previous: 0 }, 0),
        (0, fresh.clone(), Call::Enqueue { guest: 0, transaction: vec![2, 7, 0] }, 0),
        (1, fresh.clone(), Call::Endorse { proposal: first }, 0),
        (1, proposed, Call::Certify { endorsers: 0b1110 }, 0),
        (1, fresh.clone(), Call::Accept { certificate: words }, 0),
        (1, fresh, Call::Batch { row, answers: vec![7; 3] }, 0),
        (2, of_four(1, 0), Call::Advance, 0),
        (2, of_four(3, 0), Call::Commit, 1),
        (3, of_four(1, 0), Call::Committee { round: 1, out: vec![7; 17] }, 0),
        (3, of_four(1, 0), Call::Share { member: 2, round: 1 }, 250),
        (3, of_four(1, 0), Call::Certificate { author: 2, round: 1, out: vec![7; 19] }, 0),
        (3, of_four(3, 3), Call::Block { number: 1 }, 2),
        (3, of_four(3, 0), Call::Preview { list: vec![7; preview_words(5) + 1] }, 5),
        (3, of_four(3, 0), Call::Critical { list: vec![7; CRITICAL_WORDS + 1] }, 1),
        (3, of_four(1, 0), Call::Effect { member: 5, round: 1, amount: 2, out: vec![7; EFFECT + 1] }, 0),
        (3, of_four(3, 3), Call::PortRead { offset: 0 }, u64::from(b'1')),
        (3, of_four(3, 3), Call::PortWrite { offset: 3, value: 0x83 }, 0),
    ]
}

/// The same call with words that cannot be read, or with an out stretch that is
/// too short; nothing where it has none of these.
fn unreadable(call: &Call) -> Option<Call> {
    let mut call = call.clone();
    match &mut call {
        Call::Propose { body } => body[0] = 65_536,
        Call::Draw { previous } => *previous = 65_536,
        Call::Enqueue { transaction, .. } => transaction[0] = 3,
        Call::Endorse { proposal } => proposal[4] = 3,
        Call::Certify { endorsers } => *endorsers = 65_536,
        Call::Accept { certificate } => certificate[16] = 65_536,
        Call::Committee { out, .. } => out.truncate(15),
        Call::Certificate { out, .. } => out.truncate(17),
        Call::Effect { out, .. } => out.truncate(EFFECT - 1),
        _ => return None,
    }
    Some(call)
}

/// Callers below and above 7.
const GUESTS_TRIED: [u32; 16] = [0, 1, 2, 3, 4, 5, 6, 7, 8, 9, 16, 31, 32, 255, 1 << 31, u32::MAX];

/// What a guest is to get, by the word of rights.
fn by_word(word: u32, right: u32, guest: u32, answer: u64) -> u64 {
    if guest > 7 {
        26 << 32
    } else if word >> (8 * right + guest) & 1 == 0 {
        29 << 32
    } else {
        answer
    }
}

impl Test {
    /// A guest's call on a copy of the node, whose answer is known.
    fn try_guest(&mut self, node: &Node, guest: u32, call: &Call, lengths: (usize, usize), answer: u64) -> Node {
        let mut copy = node.clone();
        copy.read_again();
        let found = self.call_by(Caller::Guest(guest), &mut copy, call, lengths);
        assert_eq!(found, answer, "{call:?} by guest {guest}, lengths {lengths:?}");
        copy
    }

    /// A call that is accepted with the right: by every caller with each right
    /// alone, with each but one, with none and with all.
    fn guest_words(&mut self, right: u32, node: &Node, call: &Call, answer: u64) {
        let whole = (node.state.len(), node.table.len());
        let words = (0..32).flat_map(|bit| [1 << bit, !(1 << bit)]);
        for word in words.chain([0, u32::MAX]) {
            let mut node = node.clone();
            node.state[RIGHTS] = word;
            for guest in GUESTS_TRIED {
                self.try_guest(&node, guest, call, whole, by_word(word, right, guest, answer));
            }
        }
    }

    /// States that are not well formed, tables and states too short, and words that
    /// cannot be read: 26 before 29 before 1.
    fn guest_unfit(&mut self, right: u32, node: &Node, call: &Call, answer: u64) {
        let whole = (node.state.len(), node.table.len());
        let damages: [&dyn Fn(&mut Node); 7] = [
            &|node| node.table[port_word(2, 1)] = 1,
            &|node| node.table[port_word(7, 7)] = 256,
            &|node| node.state[0] = 16,
            &|node| node.state[..RIGHTS].fill(u32::MAX),
            &|node| node.state[MARGIN] = 0,
            &|node| node.table[ROW] = 1 << 16,
            &|node| node.table.fill(u32::MAX),
        ];
        for word in [0, u32::MAX, 1 << (8 * right + 5), !(1 << (8 * right + 5))] {
            let mut node = node.clone();
            node.state[RIGHTS] = word;
            for guest in [4, 5, 8] {
                let or_right = |answer| by_word(word, right, guest, answer);
                for damage in damages {
                    let mut damaged = node.clone();
                    damage(&mut damaged);
                    self.try_guest(&damaged, guest, call, whole, or_right(1 << 32));
                    unreadable(call).iter().for_each(|call| {
                        self.try_guest(&damaged, guest, call, whole, or_right(1 << 32));
                    });
                }
                for table in [0, ROW, table_words(5) - 1] {
                    self.try_guest(&node, guest, call, (whole.0, table), or_right(1 << 32));
                }
                unreadable(call).iter().for_each(|call| {
                    self.try_guest(&node, guest, call, whole, or_right(1 << 32));
                });
            }
        }
        // A stretch without the word gives nobody a right.
        let mut longer = node.clone();
        longer.state.resize(45, u32::MAX);
        longer.state[RIGHTS] = u32::MAX;
        for words in 0..=45 {
            for guest in [0, 7, 8, u32::MAX] {
                let word = if words > RIGHTS { u32::MAX } else { 0 };
                let answer = by_word(word, right, guest, answer);
                self.try_guest(&longer, guest, call, (words, whole.1), answer);
                if words <= RIGHTS {
                    self.try_guest(&longer, guest, call, (words, 0), answer);
                }
            }
        }
    }

    /// Adding is to one's own queue, whatever waits in the others.
    fn guest_queues(&mut self) {
        let mut node = plant(&[1; 4], 3, 1);
        node.state[RIGHTS] = u32::MAX;
        let whole = (node.state.len(), node.table.len());
        for full in 0..=8u32 {
            for guest in (0..GUESTS).filter(|&guest| guest != full) {
                node.table[waiting_word(guest)] = 3;
                (0..QUEUE).for_each(|place| node.table[queue_place(guest, place)] = 2);
            }
            if full < GUESTS {
                node.table[waiting_word(full)] = 8;
                (0..QUEUE).for_each(|place| node.table[queue_place(full, place)] = 2);
            }
            for guest in 0..GUESTS {
                let call = Call::Enqueue { guest: full, transaction: vec![1, 9, 0] };
                let answer = if guest == full { 27 << 32 } else { 0 };
                let after = self.try_guest(&node, guest, &call, whole, answer);
                let changed: Vec<usize> = (0..ROW).filter(|&at| after.table[at] != node.table[at]).collect();
                let place = queue_place(guest, 3);
                let own = [waiting_word(guest), place, place + 1];
                assert_eq!(changed, if answer == 0 { &own[..] } else { &[] }, "guest {guest} adds");
            }
        }
    }

    /// Any rights are accepted and written by an open, and by nothing else; a refused
    /// open keeps those of before. Sheets with equal filled settings and equal rights
    /// open equal states; with other rights the states differ in them alone.
    fn rights_of_opens(&mut self) {
        let mut blank = vec![0; SHEET_WORDS];
        (blank[2], blank[3]) = (1, 3);
        let mut written = blank.clone();
        (written[0], written[1], written[38], written[39]) = (1, 20, 1, 3);
        let words = [0, 1, 2, 7, 128, 255, 256, 65_535, 65_536, 1 << 24, 1 << 31, u32::MAX];
        for rights in words {
            let mut opened = Vec::new();
            for sheet in [&blank, &written] {
                let mut node = Node { state: vec![77; STATE_WORDS + 2], table: vec![7; table_words(3)], twin: None };
                let whole = (node.state.len(), node.table.len());
                let call = |own| Call::Open { own, sheet: sheet.clone(), rights };
                assert_eq!(self.call(&mut node, &call(16), whole), 4 << 32);
                assert_eq!(node.state, vec![77; STATE_WORDS + 2]);
                assert_eq!(self.call(&mut node, &call(0), (RIGHTS, whole.1)), 1 << 32);
                assert_eq!(self.call(&mut node, &call(0), whole), 0);
                assert_eq!(node.state[RIGHTS..], [rights, 77, 77]);
                // Refused, it keeps the rights; another one has its own.
                for (own, answer) in [(16, 4 << 32), (0, 0)] {
                    let other = Call::Open { own, sheet: sheet.clone(), rights: !rights };
                    let mut copy = node.clone();
                    assert_eq!(self.call(&mut copy, &other, whole), answer);
                    let word = if answer == 0 { !rights } else { rights };
                    assert_eq!(copy.state[RIGHTS], word);
                    copy.state[RIGHTS] = rights;
                    assert_eq!((copy.state, copy.table), (node.state.clone(), node.table.clone()));
                }
                opened.push(node);
            }
            assert_eq!((&opened[0].state, &opened[0].table), (&opened[1].state, &opened[1].table));
        }
    }

    pub fn guest_edges(&mut self) {
        let each = each_accepted();
        assert!(KINDS.eq(each.iter().map(|(.., call, _)| call.kind()).collect::<std::collections::BTreeSet<_>>()));
        for (right, node, call, answer) in &each {
            self.guest_words(*right, node, call, *answer);
            self.guest_unfit(*right, node, call, *answer);
        }
        self.guest_queues();
        self.rights_of_opens();
    }
}

// --------------------------------------------------------------- chance ---

/// Any kind; where there is no proposal yet, or no certificate of it, often one that
/// makes it.
fn some_kind(rng: &mut Rng, member: &Member) -> usize {
    let held = member.is_held(member.own, member.round);
    match (rng.below(4), &member.proposal) {
        (0, None) if !held => rng.pick(&[2, 10]),
        (0, Some(_)) if !held => 4,
        _ => KINDS.start + rng.below(KINDS.len() as u64) as usize,
    }
}

/// A call of a kind that fits the state, mostly.
fn call_of(rng: &mut Rng, member: &Member, kind: usize) -> Call {
    let (own, round) = (member.own, member.round);
    let call = match kind {
        2 => {
            let previous = likely_previous(rng, member, round);
            let transactions = some_transactions(rng, member.settings.allowance);
            Call::Propose { body: body_words(&Proposal { author: own, round, previous, transactions }).to_vec() }
        }
        3 => Call::Endorse { proposal: proposal_words(&likely_proposal(rng, member)) },
        4 => Call::Certify { endorsers: u32::from(likely_endorsers(rng, member, own, round)) },
        5 => Call::Accept { certificate: certificate_words(&likely_certificate(rng, member)) },
        6 => Call::Advance,
        7 => Call::Commit,
        8 => some_batch(rng, member),
        9 => likely_enqueue(rng, member),
        10 => Call::Draw { previous: u32::from(likely_previous(rng, member, round)) },
        Call::PORT_READ => Call::PortRead { offset: some_offset(rng) },
        Call::PORT_WRITE => Call::PortWrite { offset: some_offset(rng), value: some_value(rng) },
        13 => Call::Committee { round: likely_round(rng, member), out: out_stretch(rng, 16) },
        14 => Call::Share { member: rng.between(0, 15), round: likely_round(rng, member) },
        15 => Call::Certificate { author: rng.between(0, 15), round: rng.between(1, round), out: out_stretch(rng, 18) },
        16 => Call::Block { number: rng.between(0, member.chain.len() as u32 + 1) },
        Call::PREVIEW => some_preview(rng, member.settings.ceiling),
        Call::CRITICAL => some_critical(rng),
        _ => {
            let round = likely_round(rng, member);
            some_effect(rng, round)
        }
    };
    if rng.chance(150) { spoilt(rng, call) } else { call }
}

/// The same call with words spoilt, many so that they cannot be read.
fn spoilt(rng: &mut Rng, call: Call) -> Call {
    match call {
        Call::Propose { body } => Call::Propose { body: spoil(rng, body, 0) },
        Call::Endorse { proposal } => Call::Endorse { proposal: spoil(rng, proposal, 2) },
        Call::Accept { certificate } => Call::Accept { certificate: spoil(rng, certificate, 2) },
        Call::Certify { endorsers } => Call::Certify { endorsers: endorsers ^ 1 << rng.below(32) },
        Call::Draw { previous } => Call::Draw { previous: previous ^ 1 << rng.below(32) },
        Call::Enqueue { guest, .. } => Call::Enqueue { guest, transaction: wild_transaction(rng) },
        Call::Committee { out, .. } => Call::Committee { round: rng.word(), out },
        Call::Share { .. } => Call::Share { member: rng.word(), round: rng.word() },
        Call::Certificate { out, .. } => Call::Certificate { author: rng.word(), round: rng.word(), out },
        Call::Block { .. } => Call::Block { number: rng.word() },
        Call::Effect { out, .. } => Call::Effect { member: rng.word(), round: rng.word(), amount: rng.word(), out },
        Call::PortRead { .. } => Call::PortRead { offset: rng.word() },
        call => call,
    }
}

/// One that has the right, more often than not, where there is one; else any.
fn some_guest(rng: &mut Rng, rights: &Rights, request: Request) -> u32 {
    let with: Vec<u32> = (0..GUESTS).filter(|&guest| may_ask(rights, guest, request).is_ok()).collect();
    if with.is_empty() || rng.chance(350) { any_guest(rng) } else { rng.pick(&with) }
}

impl Test {
    /// Guests' calls by chance, so many more. Of a thousand of them one must be an
    /// accepted one of each kind, and of two hundred one must have got 26, one 29.
    pub fn guests(&mut self, calls: u64) {
        let (before, enough) = (self.figures.guests.answers, self.figures.guests.made() + calls);
        let mut other = of_four(1, 0);
        while self.figures.guests.made() < enough {
            let plan = Plan::any(&mut self.rng);
            let own = plan.owns.first().copied().unwrap_or(0);
            let opened = plan.open(&mut self.rng, own);
            let to = self.rng.between(1, plan.ceiling);
            let mut member = grow(&mut self.rng, opened, to, &plan);
            for _ in 0..self.rng.between(1, 4) {
                if self.rng.chance(600) {
                    towards_commit(&mut self.rng, &mut member, &plan);
                }
                if self.rng.chance(300) {
                    fill_queues(&mut self.rng, &mut member);
                }
                let mut node = Node::of(member, &mut self.rng);
                self.guests_of(&mut node, &mut other);
                member = node.twin.expect("a node here is well formed");
            }
        }
        for kind in KINDS {
            let of = |number: usize| self.figures.guests.answers[kind][number] - before[kind][number];
            let (name, [accepted, above, lacking]) = (Call::NAMES[kind], [0, 26, 29].map(of));
            assert!(1_000 * accepted >= calls, "{accepted} of {calls} calls of guests were an accepted {name}");
            assert!(200 * above >= calls && 200 * lacking >= calls, "26 x {above}, 29 x {lacking} for a guest's {name}");
        }
    }

    /// Some calls of guests on a node, and on copies of it with words changed or
    /// stretches too short; at times on a pair with a state of another run, whose
    /// place a copy takes.
    fn guests_of(&mut self, node: &mut Node, other: &mut Node) {
        for _ in 0..self.rng.between(6, 30) {
            let member = node.twin.clone().expect("a node here is well formed");
            let mut copy = node.clone();
            let (sort, mut lengths) = (self.rng.below(20), (node.state.len(), node.table.len()));
            match sort {
                0..=3 => {
                    for _ in 0..self.rng.between(1, 3) {
                        change_word(&mut self.rng, &member, &mut copy.state, &mut copy.table);
                    }
                }
                4 | 5 => self.damage(&mut copy),
                6 => lengths = self.too_short(&mut copy),
                _ => {}
            }
            if sort < 6 {
                copy.read_again();
                self.figures.changed += 1;
                self.figures.malformed += u64::from(copy.twin.is_none());
            }
            if self.rng.chance(15) {
                self.pair(&copy, lengths, other, &member);
                *other = copy;
                continue;
            }
            let kind = some_kind(&mut self.rng, &member);
            let call = call_of(&mut self.rng, copy.twin.as_ref().unwrap_or(&member), kind);
            self.guest_beside_host(&mut copy, &call, lengths);
            if sort >= 7 {
                *node = copy;
            }
        }
    }

    /// Not well formed for sure: a number out of range, or noise.
    fn damage(&mut self, node: &mut Node) {
        let rng = &mut self.rng;
        match rng.below(6) {
            0 => node.state[0] = 16 + rng.below(9) as u32,
            1 => node.state[2] = rng.pick(&[0, 2, 1_025, u32::MAX]),
            2 => node.state[20] = rng.pick(&[0, u32::MAX]),
            3 => node.state[MARGIN] = rng.pick(&[0, 2, 6, u32::MAX]),
            4 => node.state[..RIGHTS].fill_with(|| u32::MAX - rng.below(9) as u32),
            _ => node.table.fill_with(|| u32::MAX - rng.below(9) as u32),
        }
    }

    /// A stretch of 0 to 45 words of state, or a table too short.
    fn too_short(&mut self, node: &mut Node) -> (usize, usize) {
        let (state, table) = (node.state.len(), node.table.len());
        match self.rng.below(3) {
            0 => (state, self.rng.below(table_words(node.state[2]).min(table) as u64) as usize),
            some => {
                node.state.resize_with(45, || self.rng.word());
                let words = if some == 1 { self.rng.between(0, 45) } else { self.rng.between(36, 40) };
                (words as usize, if self.rng.chance(200) { 0 } else { table })
            }
        }
    }

    /// A guest's call; with the right it is the host's own on a copy, word by word, where
    /// the host has it.
    fn guest_beside_host(&mut self, node: &mut Node, call: &Call, lengths: (usize, usize)) {
        let request = call.request().expect("a call that guests have");
        let rights = rights_in(&node.state[..lengths.0]);
        let guest = some_guest(&mut self.rng, &rights, request);
        let fits = node.twin.is_some() && lengths.0 >= STATE_WORDS && lengths.1 >= table_words(node.state[2]);
        let mut copy = node.clone();
        self.call_by(Caller::Guest(guest), node, call, lengths);
        let may = may_ask(&rights, guest, request).is_ok();
        self.figures.guests.unfit[usize::from(may)] += u64::from(!fits);
        if !may || call.is_access() {
            return;
        }
        let (answer, out) = (self.last_answer, self.last_out.clone());
        let own = match call {
            Call::Enqueue { transaction, .. } => Call::Enqueue { guest, transaction: transaction.clone() },
            call => call.clone(),
        };
        self.call(&mut copy, &own, lengths);
        self.figures.guests.as_hosts[0] += 1;
        self.figures.guests.as_hosts[1] += u64::from(answer >> 32 == 0);
        if (answer, &out) != (self.last_answer, &self.last_out) || (&node.state, &node.table) != (&copy.state, &copy.table) {
            self.differs("a guest's call is not the host's own");
        }
    }

    /// Two states with the same rights and nothing else in common: callers who lack
    /// the right get the same from each of the calls that need it, and neither state
    /// changes.
    fn pair(&mut self, one: &Node, lengths: (usize, usize), other: &Node, member: &Member) {
        let mut other = other.clone();
        let mut other_lengths = (other.state.len(), other.table.len());
        match self.rng.below(4) {
            0 => other_lengths = self.too_short(&mut other),
            1 => self.damage(&mut other),
            _ => {}
        }
        let mut one = one.clone();
        // Where one stretch has no word of rights, the other gives nobody one.
        let word = match (one.state[..lengths.0].get(RIGHTS), other.state[..other_lengths.0].get(RIGHTS)) {
            (Some(&word), Some(_)) => word,
            _ => 0,
        };
        (one.state[RIGHTS], other.state[RIGHTS]) = (word, word);
        (one.twin, other.twin) = (read_member(&one.state, &one.table), read_member(&other.state, &other.table));
        let rights = read_rights(word);
        self.figures.guests.pairs += 1;
        for kind in KINDS {
            let call = call_of(&mut self.rng, member, kind);
            let request = call.request().expect("a call that guests have");
            let lacking: Vec<u32> = (0..10).filter(|&guest| may_ask(&rights, guest, request).is_err()).collect();
            let guest = match self.rng.below(8) {
                0 => any_guest(&mut self.rng).max(8),
                _ => self.rng.pick(&lacking),
            };
            let answers = [(&mut one, lengths), (&mut other, other_lengths)].map(|(node, lengths)| {
                let (state, table) = (node.state.clone(), node.table.clone());
                self.call_by(Caller::Guest(guest), node, &call, lengths);
                let kept = state == node.state && table == node.table && self.last_out == call.out();
                (self.last_answer, kept)
            });
            self.figures.guests.lacking += 2;
            let refused = if guest > 7 { 26 << 32 } else { 29 << 32 };
            if answers != [(refused, true); 2] {
                self.differs("two states with the same rights tell a caller without the right more than that");
            }
        }
    }
}
