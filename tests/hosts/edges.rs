//! Single words at the edges of their ranges, one after the other.

use crate::calls::*;
use crate::rows::seventeen;
use crate::shares::*;
use crate::words::*;
use crate::{Node, Test};
use reference::*;

/// One call of each kind but open, none of them wild.
pub fn each_call(member: &Member) -> Vec<Call> {
    let round = member.round;
    let previous = if round == 1 { 0 } else { member.held_authors(round - 1) };
    let proposal =
        Proposal { author: (member.own + 1) % 16, round, previous, transactions: Vec::new() };
    let certificate = Certificate { proposal: proposal.clone(), endorsers: single(member.own) };
    let words = seventeen(&certificate_words(&certificate));
    vec![
        Call::Propose { body: body_words(&proposal).to_vec() },
        Call::Endorse { proposal: proposal_words(&proposal) },
        Call::Certify { endorsers: 0 },
        Call::Accept { certificate: words.to_vec() },
        Call::Batch { row: vec![words; 2], answers: vec![7; 3] },
        Call::Enqueue { guest: 1, transaction: vec![2, 7, 0] },
        Call::Draw { previous: u32::from(previous) },
        Call::Commit,
        Call::Committee { round, out: vec![7; 16] },
        Call::Share { member: member.own, round },
        Call::Certificate { author: member.own, round: 1, out: vec![7; 18] },
        Call::Block { number: 1 },
        Call::Preview { list: vec![7; preview_words(member.settings.ceiling)] },
        Call::Critical { list: vec![7; CRITICAL_WORDS + 1] },
        Call::Effect { member: member.own, round, amount: 16, out: vec![7; EFFECT + 1] },
        Call::PortRead { offset: 0 },
        Call::PortRead { offset: 5 },
        Call::PortWrite { offset: 7, value: 0xa5 },
        Call::PortReset { port: 3 },
        Call::Advance,
    ]
}

/// Reads of a place, and certificates for it with endorsers of all sorts: a
/// quorum, too few, outsiders, the author among them. Where the place is held
/// they are copies of what is there.
fn calls_on_place(member: &Member, author: u32, round: u32) -> Vec<Call> {
    let previous = member.held_authors(round - 1);
    let fresh = Proposal { author, round, previous, transactions: Vec::new() };
    let held = member.held_at(author, round).map(|held| held.certificate.proposal.clone());
    let proposal = held.unwrap_or(fresh);
    let starting = &member.settings.weights;
    let inside: Set = (0..MEMBERS).filter(|&m| starting[m as usize] > 0).map(single).sum();
    let (all, quorum) = (!single(author), inside & !single(author));
    let few = quorum & quorum.wrapping_sub(1);
    let mut calls: Vec<Call> =
        (16..20).map(|n| Call::Certificate { author, round, out: vec![7; n] }).collect();
    for endorsers in [quorum, few, 0, all, single(author), quorum | single(author), 0xffff] {
        let certificate = Certificate { proposal: proposal.clone(), endorsers };
        calls.push(Call::Accept { certificate: certificate_words(&certificate) });
    }
    calls.push(Call::Certify { endorsers: u32::from(inside & !single(member.own)) });
    calls
}

/// Endorsers of a held record: sets without the author, sets with it, no sets.
fn endorser_edges(author: u32) -> [u32; 9] {
    let (own, all) = (1 << author, 65_535);
    [0, all & !own, own << 1, own, all, 65_536, 65_536 | all & !own, u32::MAX & !own, u32::MAX]
}

const STATE_EDGES: [(usize, &[u32]); 17] = [
    (0, &[0, 15, 16, u32::MAX]),
    (1, &[0, 1, 999, 1_000, 1_001, u32::MAX]),
    (2, &[0, 2, 3, 4, 63, 64, 65, 1_023, 1_024, 1_025, u32::MAX]),
    (3, &[0, 3, 4, 5, u32::MAX]),
    (4, &[0, 1, 999_999, 1_000_000, 1_000_001, u32::MAX]),
    (19, &[0, 1, 999_999, 1_000_000, 1_000_001, u32::MAX]),
    (20, &[0, 1, 2, 3, 63, 64, 65, 1_023, 1_024, 1_025, u32::MAX]),
    (21, &[0, 1, 2, u32::MAX]),
    (22, &[0, 1, 2, 31, 32, 511, 512, 1_024, 1_025, u32::MAX]),
    (23, &[0, 1, 65_535, 65_536, u32::MAX]),
    (24, &[0, 1, 4, 5, u32::MAX]),
    (25, &[0, 1, 2, 3, u32::MAX]),
    (26, &[0, 15, 16, u32::MAX]),
    (27, &[0, 1, 1_000, 1_001, u32::MAX]),
    (36, &[0, 1, u32::MAX]),
    (MARGIN, &[0, 1, 2, 3, 4, 5, 6, 7, u32::MAX]),
    (RIGHTS, &[0, 1, 3, 255, 256, 1 << 31, u32::MAX]),
];

/// Word of a row, and values.
const TABLE_EDGES: [(usize, &[u32]); 12] = [
    (0, &[0, 1, 65_535, 65_536, u32::MAX]),
    (1, &[0, 1, 65_535, 65_536, u32::MAX]),
    (2, &[0, 1, 2, 3, 4, 62, 63, 64, 65, 1_022, 1_024, u32::MAX]),
    (3, &[0, 1, u32::MAX]),
    (15, &[0, 1, u32::MAX]),
    (16, &[0, 1, 65_535, 65_536, u32::MAX]),
    (17, &[0, 1, 2, 4, 5, u32::MAX]),
    (18, &[0, 1, 2, 3, 512, u32::MAX]),
    (19, &[0, 1, u32::MAX]),
    (20, &[0, 1, 2, 3, u32::MAX]),
    (21, &[0, 15, 16, u32::MAX]),
    (22, &[0, 1, 1_000, 1_001, u32::MAX]),
];

/// Words of an opened member 0 with these weights, in a round. A lookback of 1
/// and no block: rounds up to 3 are known.
pub fn in_round(weights: &[u32], ceiling: u32, round: u32) -> Node {
    let mut sheet = Sheet::all_blank();
    (sheet.lookback, sheet.ceiling) = (Setting::Written(1), Setting::Written(ceiling));
    sheet.weights = [Setting::Written(0); 16];
    sheet.weights.iter_mut().zip(weights).for_each(|(one, &w)| *one = Setting::Written(w));
    let member = Member::open(0, &sheet, ceiling).expect("in range");
    let (mut state, mut table) = (state_words(&member).to_vec(), vec![0; table_words(ceiling)]);
    state[20] = round;
    write_table(&member, &mut table);
    Node { state, table, twin: None }
}

/// Holds certificates of these authors in a round, without transactions.
pub fn hold(node: &mut Node, round: u32, authors: Set) {
    let row = &mut node.table[ROW * round as usize..][..ROW];
    row[0] |= u32::from(authors);
    members_of(authors).for_each(|a| row[16 + 16 * a as usize] = u32::from(round > 1));
}

/// Makes block 1, of round 2, of one certificate of round 1 with this
/// transaction: it counts from round 4 on.
pub fn put_in_block(node: &mut Node, transaction: [u32; 3]) {
    hold(node, 1, 1);
    (node.state[22], node.table[ROW + 2]) = (1, 2);
    let record = &mut node.table[ROW + 16..][..16];
    (record[1], record[2]) = (1, 1);
    record[4..7].copy_from_slice(&transaction);
}

impl Test {
    /// An advance on a copy of the node, whose answer is known.
    fn try_advance(&mut self, node: &Node, answer: u32) {
        let mut copy = node.clone();
        copy.read_again();
        assert!(copy.twin.is_some(), "well formed");
        let found = self.call(&mut copy, &Call::Advance, (node.state.len(), node.table.len()));
        assert_eq!(found, u64::from(answer) << 32);
    }

    /// An advance with every set of some authors held in the present round,
    /// and marked endorsed or not. The quorums are listed by hand.
    fn try_authors(&mut self, node: &Node, authors: Set, quorums: &[Set]) {
        let round = node.state[20];
        for held in (0..=authors).filter(|set| set & !authors == 0) {
            let answer = if quorums.contains(&held) { 0 } else { 28 };
            for endorsed in [0, authors & !held, 0xffff] {
                let mut copy = node.clone();
                hold(&mut copy, round, held);
                copy.table[ROW * round as usize + 1] = u32::from(endorsed);
                self.try_advance(&copy, answer);
                // What is held in the rounds beside it does not count.
                if round > 1 {
                    hold(&mut copy, round - 1, 0xffff);
                }
                hold(&mut copy, round + 1, 0xffff);
                self.try_advance(&copy, answer);
            }
        }
    }

    /// No advance past a thin round: one short and just enough, by weight and
    /// not by number; outsiders, endorsed places, empty committees; 18, 8 and 28
    /// in their order.
    fn advance_edges(&mut self) {
        // Weights, authors that may be held, and those sets of them that are a
        // quorum. Author 4 or 5 is outside.
        let plants: [(&[u32], Set, &[Set]); 10] = [
            (&[1], 0b1_0001, &[0b1]),
            (&[1, 1, 1], 0b1_0111, &[0b111]),
            (&[1, 1, 1, 1], 0b1_1111, &[0b0111, 0b1011, 0b1101, 0b1110, 0b1111]),
            // Total 7, bound 2, quorum 5: exactly met by one of three, by number too few.
            (&[5, 1, 1], 0b1_0111, &[0b001, 0b011, 0b101, 0b111]),
            // Total 6, bound 1, quorum 5.
            (&[4, 1, 1], 0b1_0111, &[0b011, 0b101, 0b111]),
            // Total 6: three of four by number may be too few.
            (&[1, 1, 1, 3], 0b1_1111, &[0b1011, 0b1101, 0b1110, 0b1111]),
            (&[0, 2, 1, 1], 0b1_1111, &[0b0110, 0b1010, 0b1110]),
            (&[1_000_000, 1_000_000, 1_000_000, 1_000_000, 1], 0b10_1111, &[0b0111, 0b1011, 0b1101, 0b1110, 0b1111]),
            // Total 1,500,001, bound 500,000: a weight of 1 makes it just enough.
            (&[1_000_000, 1, 500_000], 0b1_0111, &[0b011, 0b101, 0b111]),
            (&[1_000_000, 0, 500_001], 0b1_0111, &[0b101]),
        ];
        for (weights, authors, quorums) in plants {
            for round in 1..=3 {
                self.try_authors(&in_round(weights, 5, round), authors, quorums);
            }
        }
        self.advance_after_a_block();
        // 18 before 8 and 28; 8 before 28; whatever is held.
        for (ceiling, round, quorum, thin) in
            [(3, 3, 18, 18), (4, 4, 18, 18), (4, 3, 0, 28), (5, 4, 8, 8), (6, 5, 8, 8)]
        {
            let node = in_round(&[1, 1, 1, 1], ceiling, round);
            for (held, answer) in [(0, thin), (0b0011, thin), (0b0111, quorum), (0b1111, quorum), (0x8111, thin)] {
                let mut copy = node.clone();
                hold(&mut copy, round, held);
                self.try_advance(&copy, answer);
            }
        }
    }

    /// Committees that a block has changed.
    fn advance_after_a_block(&mut self) {
        // Member 4 bonds 5 in the block of round 2, so that it is outside in
        // round 3 and inside in round 4: total 9, bound 2, quorum 7.
        let four = [0b0111, 0b1011, 0b1101, 0b1110, 0b1111];
        let with_4: Vec<Set> = (0..16 as Set).filter(|set| set.count_ones() > 1).map(|set| set | 16).collect();
        for (round, quorums) in [(3, &four[..]), (4, &with_4)] {
            let mut node = in_round(&[1, 1, 1, 1], 6, round);
            put_in_block(&mut node, [0, 4, 5]);
            self.try_authors(&node, 0b11_1111, quorums);
        }
        // Member 0 unbonds. Of one it leaves an empty committee, which nothing
        // held is a quorum of; of four it leaves three. So with every margin.
        for (weights, quorum) in [(&[1][..], 0), (&[1, 1, 1, 1], 0b1110)] {
            let mut node = in_round(weights, 6, 4);
            put_in_block(&mut node, [1, 0, 0]);
            for margin in 3..=5 {
                node.state[MARGIN] = margin;
                self.try_authors(&node, 0b1_1111, &[quorum]);
            }
        }
    }

    /// Each call on a copy of the node.
    fn try_all(&mut self, node: &Node, calls: &[Call], lengths: (usize, usize)) {
        for call in calls {
            let mut copy = node.clone();
            copy.read_again();
            self.call(&mut copy, call, lengths);
        }
    }

    /// The word of endorsers, in held places and in free ones.
    fn try_endorsers(&mut self, node: &Node, member: &Member) {
        let whole = (node.state.len(), node.table.len());
        let ceiling = member.settings.ceiling;
        let rounds = [1, 2, 3, member.round, ceiling];
        // A large state holds nothing, and a few of its places will do.
        let rounds = if ceiling > 64 { &rounds[3..] } else { &rounds };
        for &round in rounds {
            for author in [0, 1, 5, 15] {
                let mut calls = each_call(member);
                calls.extend(calls_on_place(member, author, round));
                for value in endorser_edges(author) {
                    let mut copy = node.clone();
                    copy.table[ROW * round as usize + 16 + 16 * author as usize + 3] = value;
                    self.try_all(&copy, &calls, whole);
                }
            }
        }
    }

    fn try_edges(&mut self, node: &Node) {
        let member = node.twin.clone().expect("well formed to begin with");
        let whole = (node.state.len(), node.table.len());
        let calls = each_call(&member);
        self.try_all(node, &calls, whole);
        for (at, values) in STATE_EDGES {
            for &value in values {
                let mut copy = node.clone();
                copy.state[at] = value;
                self.try_all(&copy, &calls, whole);
            }
        }
        for (at, values) in TABLE_EDGES {
            for row in [0, 1, 2, 3, member.round as usize, member.settings.ceiling as usize] {
                for &value in values {
                    let mut copy = node.clone();
                    copy.table[ROW * row + at] = value;
                    self.try_all(&copy, &calls, whole);
                }
            }
        }
        self.try_endorsers(node, &member);
        // No weight at all; lengths just right and just short.
        let mut copy = node.clone();
        copy.state[4..20].fill(0);
        self.try_all(&copy, &calls, whole);
        let needed = table_words(member.settings.ceiling);
        const N: usize = STATE_WORDS;
        for lengths in
            [(N, needed), (RIGHTS, needed), (MARGIN, needed), (N - 3, needed), (N, needed - 1), (N, ROW), (N, 0), (0, needed), (0, 0)]
        {
            self.try_all(node, &calls, lengths);
        }
    }

    /// Every share of totals that have exact halves, and of sixteen alike:
    /// all members are read, also those outside.
    fn share_edges(&mut self) {
        let mut node = Test::small_node();
        for n in [16, 32, 80, 2_000] {
            for w in n / 2..=n {
                self.open_and_read(&mut node, &two(w, n - w), 0xffff);
            }
        }
        for each in [1, 2, 5, 125, 999_999, 1_000_000] {
            self.open_and_read(&mut node, &[each; 16], 0xffff);
        }
        // All odd sixteenths that add up; 0.5, 1.5 and 2.5 in one committee.
        for some in [&[1, 3, 5, 7][..], &[1, 15], &[3, 13], &[1, 3, 5, 1_991], &[1, 1_999]] {
            let mut weights = [0; 16];
            weights[..some.len()].copy_from_slice(some);
            self.open_and_read(&mut node, &weights, 0xffff);
        }
    }

    /// Edges of small states, and of the largest with room for one row more.
    pub fn edges(&mut self) {
        self.share_edges();
        self.batch_edges();
        self.advance_edges();
        self.margin_edges();
        // In the last round its own certificate may be missing: then no quorum is held.
        for (ceiling, rounds, whole) in [
            (3, 1, false),
            (3, 3, false),
            (6, 5, false),
            (6, 5, true),
            (64, 5, false),
            (1_024, 1, false),
        ] {
            let mut weights = [Setting::Written(0); 16];
            let some: &[usize] = if rounds == 1 { &[0] } else { &[0, 1, 5] };
            some.iter().for_each(|&m| weights[m] = Setting::Written(1));
            let sheet = Sheet { ceiling: Setting::Written(ceiling), weights, ..Sheet::all_blank() };
            let mut member = Member::open_with(0, &sheet, &[[true; 4]; 8], ceiling).expect("in range");
            let everyone = if rounds == 1 { 1 } else { 0b10_0011 };
            for round in 1..=rounds {
                for author in members_of(everyone) {
                    let previous = if round == 1 { 0 } else { everyone };
                    let transactions = vec![Transaction::Bond { member: author, amount: 1 }];
                    if author == 0 {
                        member.propose(previous, &transactions).expect("fits");
                        if round < rounds || whole {
                            member.certify(everyone & !1).expect("fits");
                        }
                        continue;
                    }
                    let proposal = Proposal { author, round, previous, transactions };
                    member
                        .accept(&Certificate { proposal, endorsers: everyone & !single(author) })
                        .expect("fits");
                }
                if round < rounds {
                    let _ = member.commit();
                    member.advance().expect("all are held, below the ceiling");
                }
            }
            let mut table = vec![0; table_words(ceiling + 1) + 5];
            write_table(&member, &mut table);
            let state = state_words(&member).to_vec();
            self.try_edges(&Node { state, table, twin: Some(member) });
        }
        self.queue_edges();
        self.preview_edges();
        self.critical_edges();
        self.effect_edges();
        self.port_edges();
        self.guest_edges();
    }
}
