//! Queues: row 0 at its edges, draws from every start and of every allowance,
//! draws refused with each of their numbers; then calls by chance on queues that
//! are empty, full and between.

use crate::calls::*;
use crate::grow::*;
use crate::words::*;
use crate::{Node, Test};
use reference::*;

/// How many wait for each guest.
type Counts = [usize; GUESTS as usize];

/// How many wait for each guest; none where there is no state, or no draw.
pub fn waiting_of(call: &Call, member: Option<&Member>) -> Counts {
    match (call, member) {
        (Call::Draw { .. }, Some(member)) => std::array::from_fn(|g| member.waiting(g as u32)),
        _ => Counts::default(),
    }
}

/// What was seen of draws.
#[derive(Default)]
pub struct Figures {
    /// Accepted ones by how many they drew, and those with two of one guest.
    drawn: [u64; 5],
    again: u64,
    /// Refused ones with something waiting, by their number.
    refused: [u64; ANSWERS],
}

impl Figures {
    pub fn count_draw(&mut self, answer: Answer<u64>, before: Counts, after: Counts) {
        match answer {
            Ok(_) => {
                let left = || before.iter().zip(after).map(|(before, after)| before - after);
                self.drawn[left().sum::<usize>()] += 1;
                self.again += u64::from(left().any(|of_one| of_one > 1));
            }
            Err(number) => self.refused[number as usize] += u64::from(before != [0; 8]),
        }
    }

    pub fn print(&self) {
        let [none, one, two, three, four] = self.drawn;
        let numbers = (0..ANSWERS).filter(|&n| self.refused[n] > 0);
        let list: Vec<String> = numbers.map(|n| format!("{n} x {}", self.refused[n])).collect();
        println!(
            "draws of nothing: {none}, of 1 to 4: {one}, {two}, {three}, {four}; with two of one guest: {}; \
             refused with something waiting: {}",
            self.again,
            list.join(", ")
        );
    }

    /// Every number that a draw may answer was seen with something waiting, and
    /// no other; all lengths were.
    fn all_seen(&self) {
        for number in 0..ANSWERS {
            let is_its = [1, 7, 8, 9, 10, 11, 12].contains(&number);
            assert_eq!(self.refused[number] > 0, is_its, "draws refused with {number}");
        }
        assert!(self.drawn.iter().all(|&draws| draws > 0) && self.again > 0);
    }
}

/// Entries that tell guest and place.
fn entries(guest: u32, count: usize) -> impl Iterator<Item = Transaction> {
    (0..count as u32).map(move |place| Transaction::Entry { number: 10 * guest + place })
}

/// Members 0, 1 and 5 of weight 1, or the first alone.
fn opened(own: u32, lookback: u32, allowance: u32, alone: bool) -> Member {
    let mut sheet = Sheet::all_blank();
    sheet.lookback = Setting::Written(lookback);
    sheet.ceiling = Setting::Written(5);
    sheet.allowance = Setting::Written(allowance);
    sheet.weights = [Setting::Written(0); 16];
    let some: &[usize] = if alone { &[0] } else { &[0, 1, 5] };
    some.iter().for_each(|&m| sheet.weights[m] = Setting::Written(1));
    Member::open(own, &sheet, 5).expect("in range")
}

/// The words of a member over 0, or over noise in what is no part of the state.
fn node_of(member: &Member, noise: u32) -> Node {
    let mut table = vec![0; table_words(member.settings.ceiling) + 5];
    table[9..ROW].fill(noise);
    write_table(member, &mut table);
    Node { state: state_words(member).to_vec(), table, twin: Some(member.clone()) }
}

/// Some ways in which queues are filled.
const FILLED: [Counts; 8] = [
    [0; 8],
    [0, 0, 8, 0, 0, 0, 0, 0],
    [7, 0, 0, 0, 0, 0, 0, 8],
    [0, 2, 0, 7, 1, 0, 3, 0],
    [8; 8],
    [1, 1, 1, 1, 1, 1, 1, 1],
    [0, 0, 0, 0, 0, 0, 0, 1],
    [2, 0, 0, 0, 0, 0, 0, 1],
];

fn fill(member: &mut Member, counts: &Counts, served: Option<u32>) {
    for (guest, &count) in (0..).zip(counts) {
        member.queues[guest as usize] = entries(guest, count).collect();
    }
    member.served = served;
}

/// A guest served last, from the word that says it.
fn served_by(word: u32) -> Option<u32> {
    word.checked_sub(1)
}

/// Members in whose state a draw is refused with each of its numbers, with the
/// previous set that is.
fn refusing(allowance: u32) -> Vec<(Member, u32)> {
    let everyone = 0b10_0011;
    let in_round_2 = |own| {
        let mut member = opened(own, 3, allowance, false);
        for author in [0, 1, 5] {
            let proposal = Proposal { author, round: 1, previous: 0, transactions: Vec::new() };
            let certificate = Certificate { proposal, endorsers: everyone & !single(author) };
            member.accept(&certificate).expect("fits");
        }
        member.advance().expect("all are held, below the ceiling");
        member
    };
    let mut proposed = opened(0, 3, allowance, true);
    proposed.propose(0, &[]).expect("fits");
    let mut held = proposed.clone();
    held.certify(0).expect("alone");
    let mut unknown = opened(0, 1, allowance, true);
    for round in 1..4 {
        unknown.propose(Set::from(round > 1), &[]).expect("fits");
        unknown.certify(0).expect("alone");
        unknown.advance().expect("alone, and below the ceiling");
    }
    let set = u32::from(everyone);
    vec![
        (opened(0, 3, allowance, false), 65_536),
        (opened(0, 3, allowance, false), u32::MAX),
        (opened(0, 3, allowance, false), 1),
        (in_round_2(0), 0),
        (in_round_2(5), set),
        (proposed, 0),
        (held, 0),
        (unknown, 1),
        (opened(7, 3, allowance, false), 0),
        (in_round_2(7), set),
        (in_round_2(0), set | 1 << 9),
        (in_round_2(0), 0b10_0001),
    ]
}

impl Test {
    /// Calls on a copy of the node.
    fn try_calls(&mut self, node: &Node, calls: impl IntoIterator<Item = Call>) {
        let whole = (node.state.len(), node.table.len());
        for call in calls {
            let mut copy = node.clone();
            copy.read_again();
            self.call(&mut copy, &call, whole);
        }
    }

    /// Each word of row 0 at edges, on filled and on noisy rows.
    fn row_words(&mut self, node: &Node) {
        let member = node.twin.as_ref().expect("well formed to begin with");
        let calls = || {
            let entry = vec![2, 7, 0];
            [
                Call::Draw { previous: u32::from(member.round > 1) },
                Call::Enqueue { guest: 7, transaction: entry.clone() },
                Call::Enqueue { guest: 0, transaction: entry },
            ]
        };
        for at in 0..ROW {
            for value in [0, 1, 2, 3, 7, 8, 9, 15, 16, 1_000, 1_001, 65_536, u32::MAX] {
                let mut copy = node.clone();
                copy.table[at] = value;
                self.try_calls(&copy, calls());
                // Alone, its own certificate of round 1 lets it advance.
                copy.table[ROW] = 1;
                self.try_calls(&copy, [Call::Advance]);
            }
        }
    }

    /// A kind, a number and an amount at edges in each place of a queue, waiting
    /// there and beyond: out of range exactly where it waits.
    fn place_words(&mut self, node: &Node) {
        for (guest, place) in (0..GUESTS).flat_map(|guest| (0..QUEUE).map(move |place| (guest, place))) {
            for words in edge_transactions() {
                let mut copy = node.clone();
                copy.table[queue_place(guest, place)..][..3].copy_from_slice(&words);
                self.try_calls(&copy, [Call::Draw { previous: 0 }]);
            }
        }
    }

    /// Every guest that can be served last, every set of guests with something
    /// waiting, every allowance.
    fn starts(&mut self) {
        for allowance in 0..=4 {
            let mut member = opened(0, 3, allowance, true);
            for served in 0..=GUESTS {
                for set in 0..256usize {
                    let counts = std::array::from_fn(|g| (set >> g & 1) * (1 + (g + set) % 3));
                    fill(&mut member, &counts, served_by(served));
                    self.try_calls(&node_of(&member, 77), [Call::Draw { previous: 0 }]);
                }
            }
        }
    }

    /// Adding: guests, kinds, numbers and amounts at edges, lengths, and queues
    /// that hold none, seven and eight.
    fn adding(&mut self) {
        for count in [0, 1, 6, 7, 8] {
            let mut member = opened(0, 3, 4, true);
            fill(&mut member, &[count; 8], Some(7));
            let node = node_of(&member, u32::MAX);
            for guest in [0, 3, 6, 7, 8, 9, 16, u32::MAX] {
                for words in edge_transactions() {
                    self.try_calls(&node, [Call::Enqueue { guest, transaction: words.to_vec() }]);
                }
                for length in [0, 1, 2, 4, 9] {
                    self.try_calls(&node, [Call::Enqueue { guest, transaction: vec![2; length] }]);
                    let mut transaction = vec![0; length];
                    transaction.iter_mut().skip(1).for_each(|word| *word = 1);
                    self.try_calls(&node, [Call::Enqueue { guest, transaction }]);
                }
            }
        }
    }

    /// A queue filled to eight and drawn empty, over and over, by the engine's
    /// own words: freed places serve again.
    fn round_and_round(&mut self) {
        for allowance in 0..=4 {
            let mut node = node_of(&opened(0, 3, allowance, true), u32::MAX);
            let whole = (node.state.len(), node.table.len());
            for turn in 0..60 {
                for guest in [turn % 8, 3, 3, 7] {
                    let call = Call::Enqueue { guest, transaction: vec![2, 100 * turn + guest, 0] };
                    self.call(&mut node, &call, whole);
                }
                self.call(&mut node, &Call::Draw { previous: 0 }, whole);
                // The same round once more: the proposal is gone, and nothing else.
                node.state[21] = 0;
                node.read_again();
            }
        }
    }

    pub fn queue_edges(&mut self) {
        self.starts();
        self.adding();
        self.round_and_round();
        for (counts, noise) in FILLED[1..5].iter().zip([u32::MAX, 0, 3, 0]) {
            let mut member = opened(0, 3, 4, true);
            fill(&mut member, counts, served_by(counts[0] as u32));
            let node = node_of(&member, noise);
            self.row_words(&node);
            self.place_words(&node);
        }
        for (allowance, counts) in (0..=4).flat_map(|a| FILLED.map(|counts| (a, counts))) {
            for (mut member, previous) in refusing(allowance) {
                fill(&mut member, &counts, served_by(allowance));
                let node = node_of(&member, 0);
                self.try_calls(&node, [Call::Draw { previous }]);
                let body = vec![previous, 1, 2, 5, 0, 0, 0, 0, 0, 0, 0, 0, 0, 0];
                self.try_calls(&node, [Call::Propose { body }]);
            }
        }
        self.figures.queues.all_seen();
    }

    /// Calls by chance on queues, so many more.
    pub fn queues(&mut self, calls: u64) {
        let enough = self.figures.calls + calls;
        while self.figures.calls < enough {
            let member = self.some_member();
            let mut node = Node::of(member, &mut self.rng);
            let mut pool = Pool::default();
            for _ in 0..self.rng.between(20, 200) {
                self.queue_call(&mut node, &mut pool);
                if is_over(node.twin.as_ref().expect("well formed")) && self.rng.chance(200) {
                    break;
                }
            }
        }
    }

    /// A member with queues: mostly alone, so that it can go on by itself, else
    /// grown by a run.
    fn some_member(&mut self) -> Member {
        let plan = Plan::any(&mut self.rng);
        let own = plan.owns.first().copied().unwrap_or(0);
        let mut sheet = plan.sheet;
        if self.rng.chance(700) {
            sheet.weights = [Setting::Written(0); 16];
            sheet.weights[own as usize] = Setting::Written(self.rng.between(1, 5));
        }
        let rights = any_rights(&mut self.rng);
        let opened = Member::open_with(own, &sheet, &rights, plan.ceiling).expect("a plan's sheet is fine");
        let mut member = match plan.grown {
            0 => opened,
            to => grow(&mut self.rng, opened, to, &plan),
        };
        if self.rng.chance(800) {
            fill_queues(&mut self.rng, &mut member);
        }
        member
    }

    /// Adding, drawing and what lets the next draw be accepted; now and then on
    /// a copy with words of row 0 changed.
    fn queue_call(&mut self, node: &mut Node, pool: &mut Pool) {
        let member = node.twin.clone().expect("a node here is well formed");
        let rng = &mut self.rng;
        let previous = u32::from(likely_previous(rng, &member, member.round));
        let all = member.committee_of(member.round).map_or(0, members_in) & !single(member.own);
        let proposed = member.proposal.is_some();
        let call = match rng.below(100) {
            0..=29 => likely_enqueue(rng, &member),
            30..=37 => wild_enqueue(rng),
            38..=57 if !proposed || rng.chance(200) => Call::Draw { previous },
            58..=62 => wild_draw(rng, &member),
            38..=75 if proposed && !member.is_held(member.own, member.round) => {
                Call::Certify { endorsers: u32::from(all) }
            }
            38..=80 if proposed && (may_go_on(&member) || rng.chance(100)) => Call::Advance,
            38..=80 if proposed => {
                Call::Accept { certificate: certificate_words(&likely_certificate(rng, &member)) }
            }
            81..=84 => Call::Commit,
            85..=87 if rng.chance(100) => Call::Advance,
            _ => any_call(rng, &member, pool),
        };
        let mut copy = node.clone();
        let on_copy = rng.chance(200);
        if on_copy {
            (0..rng.between(1, 2)).for_each(|_| change_queue(rng, &mut copy.table));
            copy.read_again();
            self.figures.changed += 1;
            self.figures.malformed += u64::from(copy.twin.is_none());
        }
        let lengths = self.lengths(&copy);
        self.call(&mut copy, &call, lengths);
        if copy.twin.is_some() && (!on_copy || self.rng.chance(300)) {
            *node = copy;
        }
    }
}

/// Whether no draw of the member is likely to be accepted any more.
fn is_over(member: &Member) -> bool {
    let Member { own, round, .. } = *member;
    let outside = member.committee_of(round).is_none_or(|weights| weights[own as usize] == 0);
    let before = || member.committee_of(round - 1).map(|c| member.is_quorum(member.held_authors(round - 1), c));
    outside
        || round > 1 && before() != Some(true)
        || round == member.settings.ceiling && member.is_held(own, round)
}

/// Transactions at the edges of their ranges, and words that are none.
fn edge_transactions() -> Vec<[u32; 3]> {
    let mut all = Vec::new();
    for kind in [0, 1, 2, 3, u32::MAX] {
        for number in [0, 15, 16, u32::MAX] {
            for amount in [0, 1, 1_000, 1_001, u32::MAX] {
                all.push([kind, number, amount]);
            }
        }
    }
    all
}
