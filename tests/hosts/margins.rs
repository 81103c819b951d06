//! Margins: opens with every sort of margin, and for each margin quorums, previous
//! sets and votes that are one short and just enough. Bounds and quorums are
//! listed by hand, those of docs/RULES.md among them.

use crate::calls::*;
use crate::edges::*;
use crate::rows::seventeen;
use crate::words::*;
use crate::{Node, Test};
use reference::*;

/// The refusals that weigh votes or signers.
const WEIGHED: [u32; 4] = [12, 13, 22, 28];

/// What was seen by one margin: calls that would be accepted, those refused with
/// 12, 13, 22 and 28, and those that another margin would answer otherwise.
#[derive(Default)]
struct OfMargin {
    accepted: u64,
    refused: [u64; 4],
    otherwise: u64,
}

#[derive(Default)]
pub struct Figures([OfMargin; 3]);

impl Figures {
    /// A call that weighs votes or signers, on a member before it is made.
    pub fn count(&mut self, call: &Call, member: Option<&mut Member>) {
        let Some(member) = member else { return };
        let margin = member.settings.margin;
        let Some(answer) = verdict(call, member) else { return };
        let mut by = |another| {
            member.settings.margin = another;
            verdict(call, member)
        };
        let otherwise = (3..=5).any(|another| by(another) != Some(answer));
        member.settings.margin = margin;
        let here = &mut self.0[margin as usize - 3];
        here.otherwise += u64::from(otherwise);
        match answer {
            Ok(()) => here.accepted += 1,
            Err(number) => {
                let weighed = WEIGHED.iter().position(|&one| one == number);
                weighed.into_iter().for_each(|k| here.refused[k] += 1);
            }
        }
    }

    pub fn print(&self) {
        for (margin, here) in (3..).zip(&self.0) {
            let list: Vec<String> = WEIGHED.iter().zip(here.refused).map(|(n, times)| format!("{n} x {times}")).collect();
            println!(
                "margin {margin}: {} calls that weigh were accepted; refused: {}; another margin would answer {} otherwise",
                here.accepted,
                list.join(", "),
                here.otherwise
            );
        }
    }
}

/// What the member answers to a call that weighs votes or signers; nothing for
/// other calls, and for words that cannot be read.
fn verdict(call: &Call, member: &Member) -> Option<Answer<()>> {
    Some(match call {
        Call::Propose { body } => {
            let (previous, transactions) = read_body(body)?;
            member.may_propose(previous, &transactions)
        }
        Call::Draw { previous } => member.may_draw(read_set(*previous)?),
        Call::Endorse { proposal } => member.may_endorse(&read_proposal(proposal)?),
        Call::Certify { endorsers } => member.may_certify(read_set(*endorsers)?).map(|_| ()),
        Call::Accept { certificate } => member.may_accept(&read_certificate(certificate)?),
        Call::Advance => member.may_advance(),
        Call::Commit => member.may_commit().map(|_| ()),
        _ => return None,
    })
}

/// Margin, total, fault bound, quorum.
pub const BOUNDS: [[u32; 4]; 30] = [
    [3, 3, 0, 3],
    [3, 4, 1, 3],
    [3, 6, 1, 5],
    [3, 7, 2, 5],
    [3, 16, 5, 11],
    [3, 17, 5, 12],
    [3, 21, 6, 15],
    [3, 61, 20, 41],
    [3, 1_200_000, 399_999, 800_001],
    [3, 1_200_001, 400_000, 800_001],
    [4, 3, 0, 3],
    [4, 4, 0, 4],
    [4, 5, 1, 4],
    [4, 8, 1, 7],
    [4, 9, 2, 7],
    [4, 16, 3, 13],
    [4, 21, 5, 16],
    [4, 61, 15, 46],
    [4, 1_200_000, 299_999, 900_001],
    [4, 1_200_001, 300_000, 900_001],
    [5, 4, 0, 4],
    [5, 5, 0, 5],
    [5, 6, 1, 5],
    [5, 10, 1, 9],
    [5, 11, 2, 9],
    [5, 16, 3, 13],
    [5, 21, 4, 17],
    [5, 61, 12, 49],
    [5, 1_200_000, 239_999, 960_001],
    [5, 1_200_001, 240_000, 960_001],
];

/// What a set weighs: is it a quorum, and does it weigh more than the bound?
#[derive(Clone, Copy)]
struct Weighed {
    set: Set,
    quorum: bool,
    above: bool,
}

/// Three members: one of a weight that is one short of a quorum, one of weight 1,
/// one of the weight of the bound, which is outside where that is 0.
fn of_three(bound: u32, quorum: u32) -> ([u32; 3], Vec<Weighed>) {
    let weighed = |set, quorum, above| Weighed { set, quorum, above };
    let mut sets = vec![weighed(0, false, false), weighed(0b001, false, true), weighed(0b010, false, bound == 0),
                        weighed(0b011, true, true)];
    if bound > 0 {
        sets.extend([weighed(0b100, false, false), weighed(0b110, false, true), weighed(0b101, true, true),
                     weighed(0b111, true, true)]);
    }
    ([quorum - 1, 1, bound], sets)
}

/// So many members.
fn first(members: u32) -> Set {
    ((1u32 << members) - 1) as Set
}

/// Member 0 of members of these weights, in a round, by a margin.
pub fn plant(weights: &[u32], margin: u32, round: u32) -> Node {
    let mut node = in_round(weights, 5, round);
    node.state[MARGIN] = margin;
    node
}

/// Holds certificates of some authors in a round, with a previous set.
pub fn hold_naming(node: &mut Node, round: u32, authors: Set, previous: Set) {
    hold(node, round, authors);
    let row = &mut node.table[ROW * round as usize..][..ROW];
    members_of(authors).for_each(|a| row[16 + 16 * a as usize] = u32::from(previous));
}

impl Test {
    /// A call on a copy of the node, whose answer is known.
    fn try_known(&mut self, node: &Node, call: Call, answer: Answer<u64>) {
        let mut copy = node.clone();
        copy.read_again();
        assert!(copy.twin.is_some(), "well formed");
        let found = self.call(&mut copy, &call, (node.state.len(), node.table.len()));
        assert_eq!(found, answer.unwrap_or_else(|number| u64::from(number) << 32), "{call:?}");
    }

    /// Signers: certify, accept and a batch, where member 0 is among them. 13.
    fn try_signers(&mut self, weights: &[u32], margin: u32, weighed: Weighed) {
        let Weighed { set, quorum, .. } = weighed;
        if !in_set(set, 0) {
            return;
        }
        let (answer, endorsers) = (if quorum { Ok(0) } else { Err(13) }, set & !1);
        let node = plant(weights, margin, 1);
        let mut proposed = node.clone();
        proposed.state[21] = 1;
        self.try_known(&proposed, Call::Certify { endorsers: u32::from(endorsers) }, answer);
        let proposal = Proposal { author: 0, round: 1, previous: 0, transactions: Vec::new() };
        let words = certificate_words(&Certificate { proposal, endorsers });
        self.try_known(&node, Call::Accept { certificate: words.clone() }, answer);
        let again = if quorum { 16 } else { 13 };
        self.try_known(&node, Call::Batch { row: vec![seventeen(&words); 2], answers: vec![7; 3] }, Ok(0));
        assert_eq!(self.last_out, [answer.err().unwrap_or(0), again, 7]);
    }

    /// Previous sets, in round 2: propose, draw and endorse. 12.
    fn try_previous(&mut self, weights: &[u32], margin: u32, weighed: Weighed) {
        let Weighed { set, quorum, .. } = weighed;
        if set == 0 {
            return;
        }
        let answer = if quorum { Ok(0) } else { Err(12) };
        let mut node = plant(weights, margin, 2);
        hold(&mut node, 1, set);
        let proposal = Proposal { author: 1, round: 2, previous: set, transactions: Vec::new() };
        self.try_known(&node, Call::Propose { body: body_words(&proposal).to_vec() }, answer);
        self.try_known(&node, Call::Draw { previous: u32::from(set) }, answer);
        self.try_known(&node, Call::Endorse { proposal: proposal_words(&proposal) }, answer);
    }

    /// Votes, in round 3: commit and preview. 22. The anchor of round 2 is member
    /// 1's, and its history has one certificate more.
    fn try_votes(&mut self, weights: &[u32], margin: u32, weighed: Weighed) {
        let Weighed { set, above, .. } = weighed;
        let mut node = plant(weights, margin, 3);
        hold(&mut node, 1, 0b01);
        hold_naming(&mut node, 2, 0b10, 0b01);
        hold_naming(&mut node, 3, set, 0b10);
        let or_short = |value| if above { Ok(value) } else { Err(22) };
        self.try_known(&node, Call::Commit, or_short(1));
        self.try_known(&node, Call::Preview { list: vec![7; preview_words(5)] }, or_short(2));
        // Certificates that name others are no votes.
        hold_naming(&mut node, 3, set, 0b01);
        self.try_known(&node, Call::Commit, Err(22));
    }

    fn try_weighed(&mut self, weights: &[u32], margin: u32, weighed: Weighed) {
        self.try_signers(weights, margin, weighed);
        self.try_previous(weights, margin, weighed);
        self.try_votes(weights, margin, weighed);
        for round in 1..=3 {
            let mut node = plant(weights, margin, round);
            hold(&mut node, round, weighed.set);
            self.try_known(&node, Call::Advance, if weighed.quorum { Ok(0) } else { Err(28) });
        }
    }

    /// An open with these two words for its margin, in the order of the checks:
    /// a member above 15, a setting out of range, no weight, a table too short.
    fn try_open(&mut self, written: u32, value: u32) {
        let readable = written <= 1;
        let in_range = written == 0 || (3..=5).contains(&value);
        for (own, weight, short) in [(0, 1, 0), (15, 1, 0), (16, 0, 1), (0, 0, 1), (0, 0, 0), (0, 1, 1)] {
            let mut sheet = vec![0; SHEET_WORDS];
            (sheet[2], sheet[3], sheet[38], sheet[39]) = (1, 3, written, value);
            (3..19).for_each(|k| (sheet[2 * k], sheet[2 * k + 1]) = (1, weight));
            let refusals = [(!readable, 1), (own > 15, 4), (!in_range, 2), (weight == 0, 3), (short > 0, 1)];
            let first = refusals.into_iter().find(|(refused, _)| *refused);
            let answer = first.map_or(0, |(_, number)| number << 32);
            let words = table_words(3) - short;
            let mut node = Node { state: vec![7; STATE_WORDS + 2], table: vec![7; words], twin: None };
            let found = self.call(&mut node, &Call::Open { own, sheet, rights: 9 }, (STATE_WORDS + 2, words));
            assert_eq!(found, answer, "margin {written}, {value}");
            if answer == 0 {
                let margin = node.twin.expect("opened").settings.margin;
                assert_eq!(margin, if written == 0 { 3 } else { value });
            }
        }
    }

    /// Sheets and states of before there was a margin, states of before there were
    /// rights, and lengths beside them.
    fn try_open_lengths(&mut self) {
        for (words, sheet) in (36..=41).flat_map(|words| (36..=42).map(move |sheet| (words, sheet))) {
            let call = Call::Open { own: 0, sheet: [[1, 3]; 21].concat()[..sheet].to_vec(), rights: 9 };
            let mut node = Node { state: vec![7; 41], table: vec![7; table_words(3)], twin: None };
            let found = self.call(&mut node, &call, (words, table_words(3)));
            let fits = words >= STATE_WORDS && sheet >= SHEET_WORDS;
            assert_eq!(found, if fits { 0 } else { 1 << 32 }, "{words} and {sheet} words");
        }
    }

    pub fn margin_edges(&mut self) {
        for written in [0, 1, 2, u32::MAX] {
            for value in (0..=9).chain([1 << 16 | 3, u32::MAX - 2, u32::MAX]) {
                self.try_open(written, value);
            }
        }
        self.try_open_lengths();
        for [margin, total, bound, quorum] in BOUNDS {
            assert_eq!(bound + quorum, total);
            let (weights, sets) = of_three(bound, quorum);
            sets.into_iter().for_each(|weighed| self.try_weighed(&weights, margin, weighed));
        }
        // Sixteen of weight 1: 11 are a quorum by margin 3, 13 by 4 and 5; 6 votes
        // are enough by margin 3, 4 by 4 and 5.
        for (margin, bound, quorum) in [(3, 5, 11), (4, 3, 13), (5, 3, 13)] {
            for members in 0..=16 {
                let weighed = Weighed { set: first(members), quorum: members >= quorum, above: members > bound };
                self.try_weighed(&[1; 16], margin, weighed);
            }
        }
    }
}
