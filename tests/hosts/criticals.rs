//! What a commit hangs on: lengths of the list at their edges and each refusal by
//! hand; votes at the bound and certificates in blocks by hand, also with ports that
//! stand at these; then by chance on states just before a commit, grown, changed and
//! damaged ones. In a state that a run reaches the list must be the anchor and the
//! votes that decide; and of any state, at times, each certificate is taken away on a
//! copy, and a commit asked there.

use crate::calls::*;
use crate::edges::*;
use crate::grow::*;
use crate::margins::*;
use crate::previews::*;
use crate::words::*;
use crate::{Node, Test};
use reference::*;

/// Round and author.
type Pair = [u32; 2];

/// What was seen of accepted lists by one margin.
#[derive(Default)]
struct OfMargin {
    accepted: u64,
    /// Those with a vote in them.
    voted: u64,
    /// Those with a certificate of the two rounds in a block; of them those that
    /// are other than the anchor and the votes that decide, those with more than
    /// that, those without the anchor.
    marked: u64,
    otherwise: u64,
    beyond: u64,
    unanchored: u64,
}

#[derive(Default)]
pub struct Figures {
    by_margin: [OfMargin; 3],
    places: u64,
    most: u64,
    /// Lists of changed states; those of them that were accepted.
    changed: [u64; 2],
    /// Accepted ones with a port at a certificate of the two rounds.
    ported: u64,
    /// Certificates taken away on copies, and commits that were refused then.
    absences: [u64; 2],
}

impl Figures {
    /// A list of a member was accepted.
    pub fn count(&mut self, member: &Member, list: &[Pair]) {
        let (round, told) = (member.round, by_votes(member));
        let in_block = |r: u32| members_of(member.held_authors(r)).any(|a| member.held_at(a, r).unwrap().block > 0);
        let here = &mut self.by_margin[member.settings.margin as usize - 3];
        here.accepted += 1;
        here.voted += u64::from(list.iter().any(|pair| pair[0] == round));
        here.marked += u64::from(in_block(round - 1) || in_block(round));
        here.otherwise += u64::from(*list != told);
        here.beyond += u64::from(list.iter().any(|pair| !told.contains(pair)));
        here.unanchored += u64::from(!list.contains(&told[0]));
        self.ported += u64::from(has_port_at(member, round - 1));
        self.places += list.len() as u64;
        self.most = self.most.max(list.len() as u64);
    }

    /// Lists that are other than those of a state that a run reaches.
    fn otherwise(&self) -> u64 {
        self.by_margin.iter().map(|here| here.otherwise).sum()
    }

    /// `answers` are those of all lists.
    pub fn print(&self, answers: &[u64; ANSWERS]) {
        let (asked, accepted) = (answers.iter().sum::<u64>(), answers[0]);
        let ([changed, of_them], [absent, refused]) = (self.changed, self.absences);
        println!(
            "what a commit hangs on: {asked} lists asked, {accepted} accepted; {} places, at most {} at once; of changed states {changed}, \
             {of_them} accepted; with a port at a certificate of the two rounds {}; certificates taken away on a copy: {absent}, commits \
             refused then: {refused}",
            self.places, self.most, self.ported
        );
        for (margin, here) in (3..).zip(&self.by_margin) {
            println!(
                "margin {margin}: {} lists accepted, {} with votes; {} with a certificate of the two rounds in a block, {} of them other \
                 than the anchor and the votes that decide, {} with more than these, {} without the anchor",
                here.accepted, here.voted, here.marked, here.otherwise, here.beyond, here.unanchored
            );
        }
    }

    /// Every number that a list may answer was seen, and no other.
    fn all_seen(answers: &[u64; ANSWERS]) {
        for (number, &times) in answers.iter().enumerate() {
            let is_its = [0, 1, 8, 19, 20, 21, 22, 25].contains(&number);
            assert_eq!(times > 0, is_its, "lists answered with {number}");
        }
    }
}

/// Whether a port stands at a certificate of this round or a later one.
fn has_port_at(member: &Member, round: u32) -> bool {
    let used: Vec<&Port> = member.ports.iter().filter(|port| port.read > 0).collect();
    let lines = if used.is_empty() { Vec::new() } else { member.lines() };
    used.iter().any(|port| last_of(&lines, port.read)[0] >= place_of(round, 0))
}

/// The anchor, and each vote where the remaining ones do not exceed the bound: what
/// the list is in every state that a run reaches.
fn by_votes(member: &Member) -> Vec<Pair> {
    let round = member.round;
    let anchor = member.may_commit().expect("a commit would go");
    let committee = member.committee_of(round).expect("a commit would go");
    let names = |a: &u32| in_set(member.held_at(*a, round).unwrap().certificate.proposal.previous, anchor);
    let votes = members_of(member.held_authors(round)).filter(names).map(single).fold(0, |a, b| a | b);
    let left = |a: u32| weight_of(votes & !single(a), committee);
    let decide = members_of(votes).filter(|&a| left(a) <= member.fault_bound(committee));
    [[round - 1, anchor]].into_iter().chain(decide.map(|a| [round, a])).collect()
}

// --------------------------------------------------------------- damage ---

/// The sixteen words of a certificate's record.
fn record_of(node: &mut Node, round: u32, author: u32) -> &mut [u32] {
    &mut node.table[ROW * round as usize + 16 + 16 * author as usize..][..16]
}

/// More blocks, up to the latest round that leaves a commit to be made, and mostly
/// a short lookback: the present round is known, and blocks count in it.
fn put_blocks(rng: &mut Rng, member: &Member, node: &mut Node) {
    let (round, mut blocks) = (member.round, member.chain.len());
    for block_round in (member.last_block_round() + 2..round.saturating_sub(2)).step_by(2) {
        if block_round + 3 == round || rng.chance(300) {
            blocks += 1;
            node.table[ROW * blocks + 2] = block_round;
        }
    }
    node.state[22] = blocks as u32;
    node.state[1] = rng.pick(&[1, 1, 1, 2, 3, node.state[1]]);
}

/// Puts a certificate into a block, with a bond or an unbond.
fn put_mark(rng: &mut Rng, record: &mut [u32], block: u32, member: u32, amount: u32) {
    let words = if rng.chance(250) { [1, member, 0] } else { [0, member, amount] };
    (record[1], record[2]) = (1, block);
    record[4..7].copy_from_slice(&words);
}

/// Puts certificates of the present round and the one before into blocks, with
/// bonds and unbonds of few members, or of another one in each; many of these have
/// no other weight.
fn put_marks(rng: &mut Rng, member: &Member, node: &mut Node) {
    let (round, blocks) = (member.round, node.state[22]);
    let few = [rng.between(0, 15), rng.between(0, 15)];
    let (each, shift, gone) = (rng.chance(600), rng.between(0, 15), rng.pick(&[0, 300, 700]));
    for m in 0..16 {
        if rng.chance(if each || few.contains(&(m as u32)) { gone } else { 0 }) {
            node.state[4 + m] = 0;
        }
    }
    let still = 4 + rng.between(0, 15) as usize;
    node.state[still] = node.state[still].max(1);
    node.state[3] = node.state[3].max(1);
    let weight: u32 = node.state[4..20].iter().sum();
    let amounts = [1, 1, 2, weight / 5, weight / 3, weight, 1_000].map(|amount| amount.clamp(1, 1_000));
    let marked = rng.pick(&[80, 200, 500, 900]);
    for (r, a) in [round - 1, round].into_iter().flat_map(|r| members_of(member.held_authors(r)).map(move |a| (r, a))) {
        if rng.chance(marked) {
            let one = if each { (a + shift * (r % 2)) % MEMBERS } else { rng.pick(&few) };
            let (block, amount) = (rng.between(1, blocks), rng.pick(&amounts));
            put_mark(rng, record_of(node, r, a), block, one, amount);
        }
    }
}

/// Holds a certificate that names these, or has it name them too.
fn name(node: &mut Node, round: u32, author: u32, previous: u32) {
    let held = node.table[ROW * round as usize] >> author & 1 == 1;
    node.table[ROW * round as usize] |= 1 << author;
    let record = record_of(node, round, author);
    if !held {
        record.fill(0);
    }
    record[0] |= previous;
}

/// Has the leader of the round before lead by a bond of its own certificate, which
/// is in block 1, where a member who joins by it makes it the leader.
fn lead_by_bond(rng: &mut Rng, node: &mut Node) {
    let Some(member) = read_member(&node.state, &node.table) else { return };
    let before = member.round - 1;
    let Some(&committee) = member.committee_of(before) else { return };
    let outside: Vec<u32> = members_of(!members_in(&committee)).collect();
    for joins in outside {
        let mut with = committee;
        with[joins as usize] = 1;
        let first = leader(before, &with).expect("not empty");
        if leader(before, &committee) != Some(first) && rng.chance(500) {
            name(node, before, first, 1);
            let record = record_of(node, before, first);
            (record[1], record[2]) = (1, 1);
            record[4..7].copy_from_slice(&[0, joins, 1]);
            return;
        }
    }
}

/// Has a commit go: the leader of the round before is held, and votes for it, by
/// any members, weigh more than the bound, often not much more.
fn let_commit_go(rng: &mut Rng, node: &mut Node) {
    let Some(member) = read_member(&node.state, &node.table) else { return };
    let (round, all) = (member.round, rng.chance(500));
    let (Some(of_anchor), Some(committee)) = (member.committee_of(round - 1), member.committee_of(round)) else { return };
    let Some(anchor) = leader(round - 1, of_anchor) else { return };
    name(node, round - 1, anchor, 1);
    let (mut weight, some) = (0, rng.pick(&[0, 100, 900]));
    let mut authors: Vec<u32> = (0..MEMBERS).collect();
    while !authors.is_empty() {
        let author = authors.swap_remove(rng.below(authors.len() as u64) as usize);
        if weight <= member.fault_bound(committee) || rng.chance(some) {
            name(node, round, author, if all { 0xffff } else { 1 << anchor });
            weight += committee[author as usize];
            continue;
        }
        // No vote: it names others, or, in no block, is not held.
        let record = record_of(node, round, author);
        record[0] = (record[0] & 0xffff & !(1 << anchor)).max(if anchor == 0 { 2 } else { 1 });
        if record[2] == 0 && rng.chance(500) {
            node.table[ROW * round as usize] &= !(1 << author);
        }
    }
}

impl Test {
    /// A list; accepted, it is compared with what the votes tell, and at times with
    /// what commits tell.
    fn critical(&mut self, node: &mut Node, call: &Call, lengths: (usize, usize), reached: bool) -> u64 {
        let answer = self.call(node, call, lengths);
        if answer >> 32 != 0 {
            return answer;
        }
        let list = self.last_out.as_chunks::<2>().0[..answer as usize].to_vec();
        if reached && list != by_votes(node.twin.as_ref().expect("well formed")) {
            self.differs("the list is not the anchor and the votes that decide");
        }
        let small = node.table.len() < table_words(42);
        if small && self.rng.chance(60) && self.by_absence(node) != list {
            self.differs("the list is not what commits tell");
        }
        answer
    }

    /// Each held certificate of the two rounds is taken away on a copy by itself:
    /// those without which a commit is refused.
    fn by_absence(&mut self, node: &Node) -> Vec<Pair> {
        let (round, whole) = (node.state[20], (node.state.len(), node.table.len()));
        let (mut list, out) = (Vec::new(), self.last_out.clone());
        for (r, a) in [round - 1, round].into_iter().flat_map(|r| (0..MEMBERS).map(move |a| (r, a))) {
            let held = ROW * r as usize;
            if node.table[held] >> a & 1 == 0 {
                continue;
            }
            let mut copy = node.clone();
            copy.table[held] &= !(1 << a);
            // A 1 that comes of a port past the end does not count.
            start_over(&mut copy.table);
            copy.read_again();
            assert!(copy.twin.is_some(), "well formed without a certificate");
            let refused = self.call(&mut copy, &Call::Commit, whole) >> 32 != 0;
            self.figures.criticals.absences[0] += 1;
            self.figures.criticals.absences[1] += u64::from(refused);
            if refused {
                list.push([r, a]);
            }
        }
        self.last_out = out;
        list
    }

    /// A list of a copy of the node, whose answer is known.
    fn try_critical(&mut self, node: &Node, words: usize, answer: Answer<&[Pair]>) {
        let mut copy = node.clone();
        copy.read_again();
        let call = Call::Critical { list: vec![77; words] };
        let found = self.critical(&mut copy, &call, (node.state.len(), node.table.len()), false);
        assert_eq!(found, answer.map_or_else(|number| u64::from(number) << 32, |list| list.len() as u64), "{words} words");
        if self.last_out.as_chunks::<2>().0[..found as u32 as usize] != *answer.unwrap_or(&[]) {
            self.differs("the list is not the one by hand");
        }
    }
}

// ---------------------------------------------------------------- edges ---

/// A certificate: round, author, previous set, and where it is in block 1 its
/// transaction.
type Place = (u32, u32, Set, Option<[u32; 3]>);

/// In round 5, lookback 1, block 1 of round 2.
fn with_places(weights: &[u32], places: &[Place]) -> Node {
    let mut node = in_round(weights, 6, 5);
    (node.state[22], node.table[ROW + 2]) = (1, 2);
    for &(round, author, previous, transaction) in places {
        hold_naming(&mut node, round, single(author), previous);
        if let Some(transaction) = transaction {
            let record = record_of(&mut node, round, author);
            (record[1], record[2]) = (1, 1);
            record[4..7].copy_from_slice(&transaction);
        }
    }
    node
}

const BOND_0: Option<[u32; 3]> = Some([0, 0, 1]);
const BOND_3: Option<[u32; 3]> = Some([0, 3, 3]);
const UNBOND_3: Option<[u32; 3]> = Some([1, 3, 0]);

/// Weights, certificates, what the commit hangs on.
#[rustfmt::skip]
const IN_A_BLOCK: [(&[u32], &[Place], &[Pair]); 13] = [
    // Member 0 is inside by its bond, and the leader of 4 is member 2; without the
    // bond it is member 3, for whom nobody votes; for whom all vote.
    (&[0, 1, 1, 1], &[(4, 1, 1, BOND_0), (4, 2, 1, None), (4, 3, 1, None), (5, 1, 4, None), (5, 2, 4, None), (5, 3, 4, None)], &[[4, 1], [4, 2]]),
    (&[0, 1, 1, 1], &[(4, 1, 1, BOND_0), (4, 2, 1, None), (4, 3, 1, None), (5, 1, 12, None), (5, 2, 12, None), (5, 3, 12, None)], &[[4, 2]]),
    // The anchor has the bond: another is in its place.
    (&[0, 1, 1, 1], &[(4, 1, 1, None), (4, 2, 1, BOND_0), (4, 3, 1, None), (5, 1, 12, None), (5, 2, 12, None), (5, 3, 12, None)], &[]),
    (&[0, 1, 1, 1], &[(4, 1, 1, None), (4, 2, 1, BOND_0), (4, 3, 1, None), (5, 1, 4, None), (5, 2, 4, None), (5, 3, 4, None)], &[[4, 2]]),
    // The one that would lead is the one that is absent.
    (&[0, 1, 1, 1], &[(4, 1, 1, None), (4, 2, 1, None), (4, 3, 1, BOND_0), (5, 1, 12, None), (5, 2, 12, None), (5, 3, 12, None)], &[[4, 2], [4, 3]]),
    // Three of four by an unbond, bound 0; without it 1, and one vote of two is too little.
    (&[1, 1, 1, 1], &[(4, 2, 1, None), (5, 0, 4, UNBOND_3), (5, 1, 4, None)], &[[4, 2], [5, 0]]),
    (&[1, 1, 1, 1], &[(4, 2, 1, None), (5, 0, 4, UNBOND_3), (5, 1, 4, None), (5, 2, 4, None)], &[[4, 2]]),
    // So where it is no vote.
    (&[1, 1, 1, 1], &[(4, 2, 1, None), (5, 0, 2, UNBOND_3), (5, 1, 4, None)], &[[4, 2], [5, 0], [5, 1]]),
    // Total 7 by a bond, bound 2; without it 1, and two votes of three are enough.
    (&[1, 1, 1, 1], &[(4, 2, 1, None), (5, 0, 4, BOND_3), (5, 1, 4, None), (5, 2, 4, None)], &[[4, 2], [5, 1], [5, 2]]),
    // Nobody is left without the bond: no leader.
    (&[0, 0, 0, 1], &[(4, 0, 1, UNBOND_3), (4, 1, 1, Some([0, 2, 1])), (4, 2, 1, None), (5, 2, 4, None)], &[[4, 1], [4, 2], [5, 2]]),
    // Members 0 and 15, in both rounds.
    (&[1, 0, 0, 0, 0, 0, 0, 0, 0, 0, 0, 0, 0, 0, 0, 1], &[(4, 0, 1, None), (4, 15, 1, None), (5, 0, 1, None), (5, 15, 0x8000, None)], &[[4, 0], [5, 0]]),
    (&[1, 0, 0, 0, 0, 0, 0, 0, 0, 0, 0, 0, 0, 0, 0, 1], &[(4, 0, 1, Some([2, 7, 0])), (5, 0, 1, None), (5, 15, 1, Some([2, 7, 0]))], &[[4, 0]]),
    // A vote of an outsider weighs nothing.
    (&[1, 1, 1, 1], &[(4, 2, 1, None), (5, 0, 4, None), (5, 1, 4, None), (5, 9, 4, None)], &[[4, 2], [5, 0], [5, 1]]),
];

impl Test {
    /// Lengths of the list, each alone and with state and table too short, not
    /// well formed, and where a commit would be refused.
    fn critical_lengths(&mut self, ceiling: u32, all: Set, list: &[Pair]) {
        let node = node_of(full_rounds(ceiling, 20, all, 3, 0));
        let short = [0, 1, 2, 3, 31, 32, 33, 48, 60, 61, 62, 63].map(|words| (words, false));
        let long = [64, 65, 66, 67, 96, 1_000].map(|words| (words, true));
        for (words, enough) in short.into_iter().chain(long) {
            let or_short = |answer| if enough { answer } else { Err(25) };
            self.try_critical(&node, words, or_short(Ok(list)));
            // 1 comes first: a state or a table too short, a number out of range.
            let call = Call::Critical { list: vec![77; words] };
            let table = table_words(ceiling);
            for lengths in [(RIGHTS, table), (MARGIN, table), (0, table), (STATE_WORDS, table - 1), (STATE_WORDS, 0), (0, 0)] {
                assert_eq!(self.critical(&mut node.clone(), &call, lengths, true), 1 << 32);
            }
            assert_eq!(self.critical(&mut node.clone(), &call, (STATE_WORDS, table), true) >> 32 == 0, enough);
            let mut damaged = node.clone();
            damaged.state[0] = 16;
            self.try_critical(&damaged, words, Err(1));
            for (state, answer) in refusing(&node) {
                self.try_critical(&state, words, or_short(Err(answer)));
            }
        }
    }

    /// Three members, one of them one short of a quorum, one of weight 1, one of the
    /// weight of the bound; every set of votes in round 3, the anchor member 1's.
    fn critical_votes(&mut self, [margin, total, bound, quorum]: [u32; 4]) {
        let weights = [quorum - 1, 1, bound];
        assert_eq!(weights.iter().sum::<u32>(), total);
        for votes in 0..8 {
            let mut node = plant(&weights, margin, 3);
            hold_naming(&mut node, 2, 0b111, 1);
            hold_naming(&mut node, 3, 0b111, 0b101);
            hold_naming(&mut node, 3, votes, 0b010);
            let weigh = |set: Set| members_of(set).map(|a| weights[a as usize]).sum::<u32>();
            let decide = members_of(votes).filter(|&a| weigh(votes & !single(a)) <= bound);
            let list: Vec<Pair> = [[2, 1]].into_iter().chain(decide.map(|a| [3, a])).collect();
            self.try_critical(&node, 64, if weigh(votes) > bound { Ok(&list) } else { Err(22) });
        }
    }

    /// Sixteen of weight 1: with one vote above the bound each of them decides, with
    /// more of them none; the longest list that votes make.
    fn critical_sixteen(&mut self) {
        for (margin, bound) in [(3, 5), (4, 3), (5, 3)] {
            for count in bound + 1..=16u32 {
                let mut node = plant(&[1; 16], margin, 3);
                hold_naming(&mut node, 2, 0xffff, 1);
                hold_naming(&mut node, 3, ((1u32 << count) - 1) as Set, 0b010);
                let votes = (0..if count == bound + 1 { count } else { 0 }).map(|a| [3, a]);
                let list: Vec<Pair> = [[2, 1]].into_iter().chain(votes).collect();
                self.try_critical(&node, 65, Ok(&list));
            }
        }
    }

    /// All thirty-two places. Each certificate of rounds 4 and 5 is in block 1 and
    /// bonds 3 to member 0, the only one that votes: 96 of total 288, bound 95.
    /// Without one of them it is 93 of 285, bound 94.
    fn critical_full(&mut self) {
        let mut weights = [12; 16];
        (weights[0], weights[1]) = (0, 24);
        let mut node = in_round(&weights, 6, 5);
        (node.state[22], node.table[ROW + 2]) = (1, 2);
        let all: Vec<Pair> = (4..=5).flat_map(|r| (0..16).map(move |a| [r, a])).collect();
        for &[round, author] in &all {
            hold_naming(&mut node, round, single(author), if author == 0 { 0b100 } else { 0b001 });
            let record = record_of(&mut node, round, author);
            (record[1], record[2]) = (1, 1);
            record[4..7].copy_from_slice(&[0, 0, 3]);
        }
        for words in [64, 65, 66] {
            self.try_critical(&node, words, Ok(&all));
        }
        assert_eq!(self.by_absence(&node), all);
        self.critical_with_ports(&node, &all);
    }

    /// In round 7, lookback 1, blocks of rounds 2 and 4. With the bond of member 0, in
    /// block 1, member 2 leads round 4, and in block 2 member 4 is bonded, then
    /// unbonded; without it member 3 leads, and member 4 stays, leads round 6, and is
    /// not held. In the order of before member 1 would lead it, whom all name.
    fn critical_order(&mut self) {
        let mut node = in_round(&[0, 1, 1, 1], 8, 7);
        (node.state[22], node.table[ROW + 2], node.table[2 * ROW + 2]) = (2, 2, 4);
        hold_naming(&mut node, 3, 0b1100, 1);
        hold_naming(&mut node, 6, 0b1110, 1);
        hold_naming(&mut node, 7, 0b1110, 0b1010);
        let marks = [(3, 2, 2, [0, 4, 5]), (3, 3, 2, [1, 4, 0]), (6, 2, 1, [0, 0, 1])];
        for (round, author, block, transaction) in marks {
            let record = record_of(&mut node, round, author);
            (record[1], record[2]) = (1, block);
            record[4..7].copy_from_slice(&transaction);
        }
        self.try_critical(&node, 64, Ok(&[[6, 2], [6, 3]]));
        self.critical_with_ports(&node, &[[6, 2], [6, 3]]);
    }

    /// The same list with ports at the first or the last byte of a certificate of the two
    /// rounds that is in a block. Without it they have read past the end, so that a commit
    /// answers 1: that does not count.
    fn critical_with_ports(&mut self, node: &Node, list: &[Pair]) {
        let member = read_member(&node.state, &node.table).expect("well formed");
        let whole = (node.state.len(), node.table.len());
        for line in member.lines().iter().filter(|line| line.round + 1 >= member.round) {
            for byte in [1, line.bytes.len() as u32] {
                let mut copy = node.clone();
                for port in [0, 7] {
                    let words = [place_of(line.round, line.author), byte];
                    copy.table[port_word(port, 0)..][..2].copy_from_slice(&words);
                }
                self.try_critical(&copy, 64, Ok(list));
                copy.table[ROW * line.round as usize] &= !(1 << line.author);
                copy.read_again();
                assert_eq!(self.call(&mut copy, &Call::Commit, whole), 1 << 32);
            }
        }
    }

    /// A full state of the largest ceiling. The leader of 1,022 is member 15, at
    /// position 511 mod 16.
    fn critical_of_a_full_state(&mut self) {
        let node = node_of(full_rounds(1_024, 1_000, 0xffff, 1_023, 23));
        self.try_critical(&node, 64, Ok(&[[1_022, 15]]));
        self.try_critical(&node, 63, Err(25));
    }

    pub fn critical_edges(&mut self) {
        for ceiling in [3, 4, 5, 16, 64] {
            self.critical_lengths(ceiling, 0b1111, &[[2, 1]]);
        }
        self.critical_lengths(3, 0xffff, &[[2, 1]]);
        self.critical_lengths(1_024, 0b1_0011, &[[2, 1]]);
        BOUNDS.into_iter().for_each(|bounds| self.critical_votes(bounds));
        self.critical_sixteen();
        for (weights, places, list) in IN_A_BLOCK {
            let node = with_places(weights, places);
            self.try_critical(&node, 64, Ok(list));
            assert_eq!(self.by_absence(&node), list);
            self.critical_with_ports(&node, list);
        }
        self.critical_full();
        self.critical_order();
        assert!(self.figures.criticals.ported > 80);
        self.critical_of_a_full_state();
        Figures::all_seen(&self.figures.answers[Call::CRITICAL]);
    }

    // ------------------------------------------------------------ chance ---

    /// Lists by chance, so many more; at least a sixth of them must be accepted, a
    /// hundredth be other than the anchor and the votes that decide, and a hundredth have
    /// a port at a certificate of the two rounds. The answer is how many were accepted.
    pub fn criticals(&mut self, criticals: u64) -> u64 {
        let asked = |test: &Test| test.figures.answers[Call::CRITICAL].iter().sum::<u64>();
        let (enough, accepted) = (asked(self) + criticals, self.figures.answers[Call::CRITICAL][0]);
        let (otherwise, ported) = (self.figures.criticals.otherwise(), self.figures.criticals.ported);
        while asked(self) < enough {
            let plan = Plan::any(&mut self.rng);
            let own = plan.owns.first().copied().unwrap_or(0);
            let opened = plan.open(&mut self.rng, own);
            let to = self.rng.between(plan.ceiling.min(4), plan.ceiling);
            let mut member = grow(&mut self.rng, opened, to, &plan);
            for _ in 0..self.rng.between(1, 4) {
                towards_commit(&mut self.rng, &mut member, &plan);
                let mut node = Node::of(member, &mut self.rng);
                self.criticals_of(&mut node);
                member = node.twin.expect("a node here is well formed");
            }
        }
        let accepted = self.figures.answers[Call::CRITICAL][0] - accepted;
        assert!(6 * accepted >= criticals, "{accepted} of {criticals} lists were accepted");
        let otherwise = self.figures.criticals.otherwise() - otherwise;
        assert!(100 * otherwise >= criticals, "{otherwise} of {criticals} lists were no list of a run");
        let ported = self.figures.criticals.ported - ported;
        assert!(100 * ported >= criticals, "{ported} of {criticals} lists had a port at a certificate of the two rounds");
        accepted
    }

    /// Some lists of a node and of copies of it with words changed, and calls
    /// between; at the end a commit, mostly.
    fn criticals_of(&mut self, node: &mut Node) {
        let mut pool = Pool::default();
        for _ in 0..self.rng.between(2, 8) {
            let member = node.twin.clone().expect("a node here is well formed");
            if self.rng.chance(600) {
                self.critical_changed(node, &member);
                continue;
            }
            let call = match self.rng.below(3) {
                0 => likely_call(&mut self.rng, &member, &mut pool),
                _ => some_critical(&mut self.rng),
            };
            let lengths = self.lengths(node);
            match call {
                Call::Critical { .. } => _ = self.critical(node, &call, lengths, true),
                _ => _ = self.call(node, &call, lengths),
            }
        }
        if self.rng.chance(600) {
            let whole = (node.state.len(), node.table.len());
            self.call(node, &Call::Commit, whole);
        }
    }

    fn critical_changed(&mut self, node: &Node, member: &Member) {
        let mut copy = node.clone();
        start_over(&mut copy.table);
        if member.round > 3 && member.round % 2 == 1 && self.rng.chance(800) {
            put_blocks(&mut self.rng, member, &mut copy);
            put_marks(&mut self.rng, member, &mut copy);
            if self.rng.chance(300) {
                lead_by_bond(&mut self.rng, &mut copy);
            }
            if self.rng.chance(850) {
                let_commit_go(&mut self.rng, &mut copy);
            }
        }
        for _ in 0..self.rng.pick(&[0, 0, 0, 1, 2]) {
            match self.rng.below(8) {
                0..=3 => change_marks(&mut self.rng, member, &mut copy.table),
                4 => make_up_chain(&mut self.rng, member, &mut copy.state, &mut copy.table),
                _ => change_word(&mut self.rng, member, &mut copy.state, &mut copy.table),
            }
        }
        if self.rng.chance(700) {
            place_ports(&mut self.rng, &copy.state, &mut copy.table);
        }
        copy.read_again();
        self.figures.changed += 1;
        self.figures.malformed += u64::from(copy.twin.is_none());
        let call = some_critical(&mut self.rng);
        let lengths = self.lengths(&copy);
        let answer = self.critical(&mut copy, &call, lengths, false);
        self.figures.criticals.changed[0] += 1;
        self.figures.criticals.changed[1] += u64::from(answer >> 32 == 0);
    }
}
