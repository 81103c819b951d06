//! Which words accepted calls change, as docs/TABLES.md says: `touched SEED CALLS`.
//!
//! Calls by chance on opened and on grown states, on words that the engine wrote and on such with
//! noise where nothing is looked at. Before and after each call all words are compared; a word that
//! the page does not name must not have changed, and each word that it names must have, some time. Some
//! calls are a guest's: with the right they change what the host's would, without it no word. An access to
//! a port changes words of the caller's own, a reset those of its port. No call but an open changes the
//! rights.

#![allow(dead_code)]

mod calls;
mod grow;
mod nodes;
mod rows;
mod words;

use calls::*;
use forgelilac::lent::{self, CertificateRecord};
use forgelilac::{Member, Refusal, Round, Set, Share};
use grow::*;
use nodes::Node;
use rows::some_batch;
use words::{port_word, rights_in, rights_word, table_words, MARGIN, REGISTERS, RIGHTS, ROW, STATE_WORDS};

/// The engine's answer: the value of commit, share, block, lists and reads of ports, 0
/// for others. What a batch answers to each certificate and what is listed is written
/// into `answers`.
fn make(call: &Call, node: &mut Node, answers: &mut [u32]) -> Result<u32, Refusal> {
    let (state, table) = (&mut node.state[..], &mut node.table[..]);
    match call {
        Call::Open { own, sheet, rights } => lent::open(state, table, Member::new(*own), sheet, *rights).map(|()| 0),
        Call::Propose { body } => lent::propose(state, table, body).map(|()| 0),
        Call::Endorse { proposal } => lent::endorse(state, table, proposal).map(|()| 0),
        Call::Certify { endorsers } => {
            let endorsers = Set::try_from(*endorsers).map_err(|_| Refusal::Malformed)?;
            lent::certify(state, table, endorsers).map(|()| 0)
        }
        Call::Accept { certificate } => lent::accept(state, table, certificate).map(|()| 0),
        Call::Advance => lent::advance(state, table).map(|()| 0),
        Call::Commit => lent::commit(state, table),
        Call::Batch { row, .. } => {
            let row: Vec<CertificateRecord> = row.iter().map(|&words| words.into()).collect();
            lent::batch(state, table, &row, answers).map(|()| 0)
        }
        Call::Enqueue { guest, transaction } => lent::enqueue(state, table, *guest, transaction).map(|()| 0),
        Call::Draw { previous } => {
            let previous = Set::try_from(*previous).map_err(|_| Refusal::Malformed)?;
            lent::draw(state, table, previous).map(|()| 0)
        }
        Call::Committee { round, .. } => lent::committee(state, table, Round::new(*round)).map(|_| 0),
        Call::Share { member, round } => {
            lent::share(state, table, Member::new(*member), Round::new(*round)).map(Share::get)
        }
        Call::Certificate { author, round, .. } => {
            lent::certificate(state, table, Member::new(*author), Round::new(*round)).map(|_| 0)
        }
        Call::Block { number } => lent::block(state, table, *number).map(Round::get),
        Call::Preview { .. } => lent::preview(state, table, answers),
        Call::Critical { .. } => lent::critical(state, table, answers),
        Call::Effect { member, round, amount, .. } => {
            lent::bond_effect(state, table, Member::new(*member), Round::new(*round), *amount).map(|_| 0)
        }
        Call::PortReset { port } => lent::port_reset(state, table, *port).map(|()| 0),
        Call::PortRead { .. } | Call::PortWrite { .. } => unreachable!("the host has no access"),
    }
}

/// The engine's answer to the call as a guest's.
fn make_by_guest(guest: u32, call: &Call, node: &mut Node, answers: &mut [u32]) -> Result<u32, Refusal> {
    let (state, table) = (&mut node.state[..], &mut node.table[..]);
    match call {
        Call::Open { .. } | Call::PortReset { .. } => unreachable!("the host's alone"),
        Call::Propose { body } => lent::guest_propose(guest, state, table, body).map(|()| 0),
        Call::Endorse { proposal } => lent::guest_endorse(guest, state, table, proposal).map(|()| 0),
        Call::Certify { endorsers } => {
            let endorsers = Set::try_from(*endorsers).map_err(|_| Refusal::Malformed)?;
            lent::guest_certify(guest, state, table, endorsers).map(|()| 0)
        }
        Call::Accept { certificate } => lent::guest_accept(guest, state, table, certificate).map(|()| 0),
        Call::Advance => lent::guest_advance(guest, state, table).map(|()| 0),
        Call::Commit => lent::guest_commit(guest, state, table),
        Call::Batch { row, .. } => {
            let row: Vec<CertificateRecord> = row.iter().map(|&words| words.into()).collect();
            lent::guest_batch(guest, state, table, &row, answers).map(|()| 0)
        }
        Call::Enqueue { transaction, .. } => lent::guest_enqueue(guest, state, table, transaction).map(|()| 0),
        Call::Draw { previous } => {
            let previous = Set::try_from(*previous).map_err(|_| Refusal::Malformed)?;
            lent::guest_draw(guest, state, table, previous).map(|()| 0)
        }
        Call::Committee { round, .. } => lent::guest_committee(guest, state, table, Round::new(*round)).map(|_| 0),
        Call::Share { member, round } => {
            lent::guest_share(guest, state, table, Member::new(*member), Round::new(*round)).map(Share::get)
        }
        Call::Certificate { author, round, .. } => {
            lent::guest_certificate(guest, state, table, Member::new(*author), Round::new(*round)).map(|_| 0)
        }
        Call::Block { number } => lent::guest_block(guest, state, table, *number).map(Round::get),
        Call::Preview { .. } => lent::guest_preview(guest, state, table, answers),
        Call::Critical { .. } => lent::guest_critical(guest, state, table, answers),
        Call::Effect { member, round, amount, .. } => {
            lent::guest_bond_effect(guest, state, table, Member::new(*member), Round::new(*round), *amount).map(|_| 0)
        }
        Call::PortRead { offset } => lent::guest_port_read(guest, state, table, *offset).map(u32::from),
        Call::PortWrite { offset, value } => {
            lent::guest_port_write(guest, state, table, *offset, *value).map(|()| 0)
        }
    }
}

/// A set that the package cannot hand over: it is refused before the engine is asked.
fn is_no_set(call: &Call) -> bool {
    match call {
        Call::Certify { endorsers: set } | Call::Draw { previous: set } => Set::try_from(*set).is_err(),
        _ => false,
    }
}

/// Who makes a call, and the call: a guest adds to its own queue, never opens and resets no port; accesses
/// to ports are guests' alone.
fn by_whom(rng: &mut Rng, call: Call) -> (Caller, Call) {
    match (any_caller(rng), call) {
        (_, call) if call.request().is_none() || is_no_set(&call) => (Caller::Host, call),
        (_, call) if call.is_access() => (Caller::Guest(any_guest(rng)), call),
        (Caller::Guest(guest), Call::Enqueue { transaction, .. }) => {
            (Caller::Guest(guest), Call::Enqueue { guest, transaction })
        }
        other => other,
    }
}

/// The words of a row that page and test tell apart.
#[derive(Clone, Copy, PartialEq, Eq, PartialOrd, Ord, Debug)]
enum Word {
    State(usize),
    Held,
    Endorsed,
    BlockRound,
    Record(usize),
    Served,
    Waiting,
    Queue(usize),
    Port(usize),
    Other,
}

/// Which word of the table this is, its row, and for a record its author. In row 0 the place of a
/// queue counts, or the word of a port, and the last is the guest.
fn word_at(at: usize) -> (Word, u32, u32) {
    let (row, within) = ((at / ROW) as u32, at % ROW);
    match within {
        0 if row == 0 => (Word::Served, row, 0),
        1..=8 if row == 0 => (Word::Waiting, row, within as u32 - 1),
        24.. if row == 0 && (within - 24) % 32 < 24 => {
            (Word::Queue((within - 24) % 32 / 3), row, (within as u32 - 24) / 32)
        }
        16.. if row == 0 => (Word::Port((within - 16) % 32), row, (within as u32 - 16) / 32),
        _ if row == 0 => (Word::Other, row, 0),
        0 => (Word::Held, row, 0),
        1 => (Word::Endorsed, row, 0),
        2 => (Word::BlockRound, row, 0),
        3..=15 => (Word::Other, row, 0),
        _ => (Word::Record(within % 16), row, (within / 16 - 1) as u32),
    }
}

/// The words of the state that a call may change: all, or these and the body.
fn named_in_state(call: &Call) -> &'static [usize] {
    const BODY_AND: [usize; 16] = [20, 21, 23, 24, 25, 26, 27, 28, 29, 30, 31, 32, 33, 34, 35, 36];
    match call {
        Call::Propose { .. } | Call::Draw { .. } => &BODY_AND[1..],
        Call::Advance => &BODY_AND,
        Call::Commit => &[22],
        _ => &[],
    }
}

/// Whether an accept of a certificate may change this word of the table.
fn named_by_accept(certificate: &[u32], at: usize) -> bool {
    let (word, row, author) = word_at(at);
    let place = (certificate[0], certificate[1]);
    match word {
        Word::Held | Word::Endorsed => row == place.1,
        Word::Record(_) => (author, row) == place,
        _ => false,
    }
}

/// Which words of its own port an access may change: by a read of offset 0 the two that tell the last byte,
/// by a write one register; with the divisor bit set others than without it.
fn named_by_access(call: &Call, divisor: bool) -> &'static [usize] {
    match call {
        Call::PortRead { offset: 0 } if !divisor => &[0, 1],
        Call::PortWrite { offset: 0, .. } if divisor => &[6],
        Call::PortWrite { offset: 1, .. } if divisor => &[7],
        Call::PortWrite { offset: 1, .. } => &[2],
        Call::PortWrite { offset: 3, .. } => &[3],
        Call::PortWrite { offset: 4, .. } => &[4],
        Call::PortWrite { offset: 7, .. } => &[5],
        _ => &[],
    }
}

/// Whether the page says that the call may change this word of the table, from these words before;
/// `answers` is what a batch answered.
fn named_in_table(caller: Caller, call: &Call, before: &Node, after: &Node, answers: &[u32], at: usize) -> bool {
    let (word, row, author) = word_at(at);
    let in_record = |a: u32, r: u32| matches!(word, Word::Record(_)) && (author, row) == (a, r);
    match call {
        Call::Open { .. } => at < table_words(after.state[2]),
        Call::Endorse { proposal } => word == Word::Endorsed && row == proposal[1],
        Call::Certify { .. } => {
            let (own, round) = (before.state[0], before.state[20]);
            word == Word::Held && row == round || in_record(own, round)
        }
        Call::Accept { certificate } => named_by_accept(certificate, at),
        Call::Batch { row, .. } => {
            row.iter().zip(answers).any(|(words, &answer)| answer == 0 && named_by_accept(words, at))
        }
        Call::Enqueue { guest, .. } => match word {
            Word::Waiting => author == *guest,
            Word::Queue(place) => author == *guest && place as u32 == before.table[1 + *guest as usize],
            _ => false,
        },
        Call::Draw { .. } => {
            let drawn = |guest: u32| after.table[1 + guest as usize] < before.table[1 + guest as usize];
            match word {
                Word::Served => (0..8).any(drawn),
                Word::Waiting => drawn(author),
                // The last place stays.
                Word::Queue(place) => drawn(author) && place < 7,
                _ => false,
            }
        }
        Call::Commit => {
            let new = before.state[22] + 1..=after.state[22];
            let held = before.table[ROW * row as usize] >> author & 1 == 1;
            match word {
                Word::BlockRound => new.contains(&row),
                Word::Record(2) => held && before.table[at] == 0 && new.contains(&after.table[at]),
                _ => false,
            }
        }
        Call::PortReset { port } => matches!(word, Word::Port(_)) && author == *port,
        Call::PortRead { .. } | Call::PortWrite { .. } => {
            let divisor = before.table[port_word(caller.guest(), REGISTERS.start + 1)] > 127;
            match word {
                Word::Port(at) => author == caller.guest() && named_by_access(call, divisor).contains(&at),
                _ => false,
            }
        }
        _ => false,
    }
}

/// A word of the state that is no part of it: the body where there is no proposal, transactions beyond
/// their number.
fn is_unused(state: &[u32], at: usize) -> bool {
    (23..MARGIN).contains(&at) && (state[21] == 0 || at >= 25 + 3 * state[24] as usize)
}

/// A list has so many words written for each entry, and no other; one more is
/// counted.
fn listed([made, accepted]: [u64; 2], entry: usize, before: &[u32], list: &[u32], answer: Result<u32, Refusal>) -> [u64; 2] {
    let written = entry * answer.unwrap_or(0) as usize;
    assert_eq!(before[written..], list[written..], "the rest of a list was changed");
    [made + 1, accepted + u64::from(answer.is_ok())]
}

#[derive(Default)]
struct Figures {
    calls: u64,
    accepted: [u64; Call::NAMES.len()],
    most: [(usize, usize); Call::NAMES.len()],
    seen: [std::collections::BTreeSet<Word>; Call::NAMES.len()],
    noisy: u64,
    /// Previews, and those that were accepted; lists of what a commit hangs on.
    previews: [u64; 2],
    criticals: [u64; 2],
    /// Reads of what a bond does to the shares, and those that were accepted.
    effects: [u64; 2],
    /// Accesses to ports, those that were accepted, and those that changed no word.
    accesses: [u64; 3],
    /// Calls of guests, those that were accepted, and those that were refused with 26 and 29.
    guests: [u64; 4],
}

impl Figures {
    /// The answer of a call, by the host or by a guest: 26 and 29 are as the rights before it say.
    fn answer(&mut self, node: &mut Node, caller: Caller, call: &Call, answers: &mut [u32]) -> Result<u32, Refusal> {
        let Caller::Guest(guest) = caller else { return make(call, node, answers) };
        let request = call.request().expect("a call that guests have");
        let may = reference::may_ask(&rights_in(&node.state), guest, request);
        let before = answers.to_vec();
        let answer = make_by_guest(guest, call, node, answers);
        self.guests[0] += 1;
        self.guests[1] += u64::from(answer.is_ok());
        // With the right, no call of a guest gets 26 either: its queue is its own.
        let by_rights = answer.map_err(Refusal::number).err().filter(|number| [26, 29].contains(number));
        assert_eq!(by_rights, may.err(), "{call:?} of guest {guest}");
        if let Some(number) = by_rights {
            self.guests[if number == 26 { 2 } else { 3 }] += 1;
            assert!(answers == before, "{call:?} of guest {guest} wrote to what it was lent");
        }
        answer
    }

    fn call(&mut self, node: &mut Node, caller: Caller, call: &Call) -> Result<u32, Refusal> {
        let before = node.clone();
        let mut answers = call.out().to_vec();
        let answer = self.answer(node, caller, call, &mut answers);
        self.calls += 1;
        let in_state: Vec<usize> = (0..node.state.len()).filter(|&i| before.state[i] != node.state[i]).collect();
        let in_table: Vec<usize> = (0..node.table.len()).filter(|&i| before.table[i] != node.table[i]).collect();
        assert!(matches!(call, Call::Open { .. }) || !in_state.contains(&RIGHTS), "{call:?} changed the rights");
        if call.is_access() {
            let seen = [true, answer.is_ok(), answer.is_ok() && in_table.is_empty()];
            self.accesses.iter_mut().zip(seen).for_each(|(count, one)| *count += u64::from(one));
        }
        if answer.is_err() || call.is_read() {
            assert!(in_state.is_empty() && in_table.is_empty(), "{call:?} changed a word");
            match call {
                Call::Preview { list } => self.previews = listed(self.previews, 3, list, &answers, answer),
                Call::Critical { list } => self.criticals = listed(self.criticals, 2, list, &answers, answer),
                Call::Effect { .. } => {
                    let [made, accepted] = self.effects;
                    self.effects = [made + 1, accepted + u64::from(answer.is_ok())];
                }
                _ => {}
            }
            return answer;
        }
        let kind = call.kind();
        self.accepted[kind] += 1;
        let mut noise = 0;
        for &at in &in_state {
            let named = matches!(call, Call::Open { .. }) && at < STATE_WORDS || named_in_state(call).contains(&at);
            if !named {
                let cleared = matches!(call, Call::Commit) && is_unused(&before.state, at) && node.state[at] == 0;
                assert!(cleared, "{call:?} changed word {at} of the state");
                noise += 1;
            }
            self.seen[kind].insert(Word::State(at));
        }
        for &at in &in_table {
            let named = named_in_table(caller, call, &before, node, &answers, at);
            assert!(named, "{call:?} by {caller:?} changed word {at} of the table");
            self.seen[kind].insert(word_at(at).0);
        }
        self.noisy += u64::from(noise > 0);
        let most = &mut self.most[kind];
        *most = (most.0.max(in_state.len() - noise), most.1.max(in_table.len()));
        answer
    }

    /// Every word that the page names has changed, some time.
    fn all_seen(&self) {
        let state = |words: &[usize]| words.iter().map(|&at| Word::State(at)).collect::<Vec<_>>();
        let record = || (0..16).map(Word::Record);
        let places = |last| (0..=last).map(Word::Queue);
        let port = |words: std::ops::Range<usize>| words.map(Word::Port);
        let table: [Vec<Word>; Call::CHANGING] = [
            [Word::Held, Word::Endorsed, Word::BlockRound, Word::Served, Word::Waiting]
                .into_iter()
                .chain(record())
                .chain(places(7))
                .chain(port(0..8))
                .collect(),
            port(0..8).collect(),
            Vec::new(),
            vec![Word::Endorsed],
            [Word::Held].into_iter().chain(record()).collect(),
            [Word::Held, Word::Endorsed].into_iter().chain(record()).collect(),
            Vec::new(),
            vec![Word::BlockRound, Word::Record(2)],
            [Word::Held, Word::Endorsed].into_iter().chain(record()).collect(),
            [Word::Waiting].into_iter().chain(places(7)).collect(),
            [Word::Served, Word::Waiting].into_iter().chain(places(6)).collect(),
            port(0..2).collect(),
            port(2..8).collect(),
        ];
        let all: Vec<usize> = (0..STATE_WORDS).collect();
        let body: Vec<usize> = (23..MARGIN).collect();
        let proposal = [&[21], &body[..]].concat();
        let of_state: [Vec<usize>; Call::CHANGING] = [
            all,
            Vec::new(),
            proposal.clone(),
            Vec::new(),
            Vec::new(),
            Vec::new(),
            [&[20, 21], &body[..]].concat(),
            vec![22],
            Vec::new(),
            Vec::new(),
            proposal,
            Vec::new(),
            Vec::new(),
        ];
        for kind in 0..Call::CHANGING {
            for word in state(&of_state[kind]).into_iter().chain(table[kind].iter().copied()) {
                assert!(self.seen[kind].contains(&word), "{} never changed {word:?}", Call::NAMES[kind]);
            }
        }
    }

    fn print(&self) {
        for kind in 0..Call::CHANGING {
            let (state, table) = self.most[kind];
            println!("{}: {} accepted, at most {state} words of the state and {table} of the table changed",
                     Call::NAMES[kind], self.accepted[kind]);
        }
        println!("{} commits also cleared noise in words that are no part of the state", self.noisy);
        let ([previews, previewed], [criticals, told]) = (self.previews, self.criticals);
        println!("{previews} previews, {previewed} accepted: the rest of the list kept");
        println!("{criticals} lists of what a commit hangs on, {told} accepted: the rest of the list kept");
        let [effects, read] = self.effects;
        println!("{effects} reads of what a bond does to the shares, {read} accepted");
        let [accesses, accepted, still] = self.accesses;
        println!("{accesses} accesses to ports, {accepted} accepted, {still} of them without a word changed");
        let [guests, accepted, above, without] = self.guests;
        println!("{guests} calls of guests, {accepted} accepted; {above} refused with 26, {without} with 29: no word changed");
        println!("{} calls: no other word changed, the rights by open alone", self.calls);
    }
}

fn main() {
    let mut arguments = std::env::args().skip(1);
    let seed = arguments.next().map_or(1, |a| a.parse().expect("SEED is a number"));
    let calls = arguments.next().map_or(100_000, |a| a.parse().expect("CALLS is a number"));
    let (mut rng, mut figures) = (Rng::of(seed), Figures::default());
    while figures.calls < calls {
        let plan = Plan::any(&mut rng);
        let own = plan.owns.first().copied().unwrap_or(0);
        let length = table_words(plan.ceiling) + 5;
        let noise = |rng: &mut Rng, n| (0..n).map(|_| rng.word()).collect::<Vec<u32>>();
        let mut node = Node { state: noise(&mut rng, STATE_WORDS + 2), table: noise(&mut rng, length), twin: None };
        let (sheet, rights) = (sheet_words(&mut rng, &plan.sheet), rights_word(&any_rights(&mut rng)));
        figures.call(&mut node, Caller::Host, &Call::Open { own, sheet, rights }).expect("a plan's sheet is fine");
        assert_eq!(node.state[RIGHTS], rights);
        if plan.grown > 0 {
            let member = plan.open(&mut rng, own);
            node = Node::of(grow(&mut rng, member, plan.grown, &plan), &mut rng);
        }
        node.read_again();
        let mut pool = Pool::default();
        for _ in 0..plan.calls {
            let twin = node.twin.as_ref().expect("a state reached by calls is well formed");
            let call = match rng.below(100) {
                0..=4 => some_batch(&mut rng, twin),
                5..=24 => some_access(&mut rng),
                25 | 26 => some_reset(&mut rng),
                _ => likely_call(&mut rng, twin, &mut pool),
            };
            let (caller, call) = by_whom(&mut rng, call);
            let answer = figures.call(&mut node, caller, &call);
            if !call.is_read() && answer.is_ok() {
                node.read_again();
                pool.note(&call, 0, node.twin.as_ref().expect("a state reached by calls is well formed"));
            }
        }
    }
    figures.all_seen();
    figures.print();
}
