//! Batches: rows by chance on grown, changed and damaged states, and lengths at
//! their edges. Straight after an accepted batch every certificate of it that
//! got 11 is offered again: it gets 11 again, or 17 exactly where its place is
//! held then, by another that the row has put there.

use crate::calls::*;
use crate::grow::*;
use crate::rows::*;
use crate::words::*;
use crate::{Node, Test};
use reference::*;

/// What was seen of batches.
#[derive(Default)]
pub struct Figures {
    /// Certificates handed over; those tried, by what they got.
    pub handed: u64,
    pub got: [u64; ANSWERS],
    /// Of those that got 11, what they got straight afterwards.
    pub again_11: u64,
    pub again_17: u64,
}

impl Figures {
    pub fn print(&self) {
        let list: Vec<String> = (0..ANSWERS)
            .filter(|&n| self.got[n] > 0)
            .map(|n| format!("{n} x {}", self.got[n]))
            .collect();
        println!(
            "certificates in batches: {} handed over; they got {}",
            self.handed,
            list.join(", ")
        );
        println!("offered again after 11: {} got 11, {} got 17", self.again_11, self.again_17);
    }
}

impl Test {
    /// A batch, and afterwards again what got 11.
    pub fn batch(&mut self, node: &mut Node, call: &Call, lengths: (usize, usize)) {
        let Call::Batch { row, answers } = call else { unreachable!("a batch") };
        let mut before = node.twin.clone();
        let answer = self.call(node, call, lengths);
        self.figures.batches.handed += row.len() as u64;
        if answer != 0 {
            return;
        }
        let member = before.as_mut().expect("an accepted call");
        let certificates: Vec<_> = row.iter().map(|words| read_certificate(words)).collect();
        let mut got = answers.clone();
        member.batch(&certificates, &mut got).expect("accepted as before");
        for (place, &number) in got[..row.len()].iter().enumerate() {
            self.figures.batches.got[number as usize] += 1;
            if number == 11 {
                self.offer_again(node, &certificates, &got, place);
            }
        }
    }

    fn offer_again(
        &mut self,
        node: &mut Node,
        row: &[Option<Certificate>],
        got: &[u32],
        place: usize,
    ) {
        let certificate =
            row[place].as_ref().expect("11 is no answer to words that cannot be read");
        let Proposal { author, round, .. } = certificate.proposal;
        let held = node.twin.as_ref().and_then(|member| member.held_at(author, round)).cloned();
        let whole = (node.state.len(), node.table.len());
        let call = Call::Accept { certificate: certificate_words(certificate) };
        let answer = self.call(node, &call, whole);
        assert_eq!(answer >> 32, if held.is_some() { 17 } else { 11 });
        let Some(held) = held else {
            self.figures.batches.again_11 += 1;
            return;
        };
        self.figures.batches.again_17 += 1;
        assert!(!held.certificate.same_as(certificate));
        let puts_it = |(one, &number): (&Option<Certificate>, &u32)| {
            number == 0 && one.as_ref().is_some_and(|c| c.same_as(&held.certificate))
        };
        assert!(row.iter().zip(got).any(puts_it), "the row has filled the place");
    }

    /// Batches by chance, until so many certificates more were handed over.
    pub fn batches(&mut self, certificates: u64) {
        let enough = self.figures.batches.handed + certificates;
        while self.figures.batches.handed < enough {
            let plan = self.plan_for_rows();
            let own = plan.owns.first().copied().unwrap_or(0);
            let opened = plan.open(&mut self.rng, own);
            let member = match self.rng.between(0, plan.grown) {
                0 => opened,
                to => grow(&mut self.rng, opened, to, &plan),
            };
            let mut node = Node::of(member, &mut self.rng);
            for _ in 0..self.rng.between(2, 10) {
                self.batch_by_chance(&mut node, plan.changes);
            }
        }
    }

    /// Of three plans the one with the most members: few members make short rows.
    fn plan_for_rows(&mut self) -> Plan {
        let members = |plan: &Plan| {
            let settings = plan.sheet.fill().expect("a plan's sheet is fine");
            settings.weights.iter().filter(|&&weight| weight > 0).count()
        };
        let plans = [(); 3].map(|()| Plan::any(&mut self.rng));
        plans.into_iter().max_by_key(members).expect("three plans")
    }

    /// One batch: on the node, or on a copy of it with words changed.
    fn batch_by_chance(&mut self, node: &mut Node, changes: u32) {
        let member = node.twin.clone().expect("a node here is well formed");
        if !self.rng.chance(changes) {
            let call = some_batch(&mut self.rng, &member);
            let lengths = self.lengths(node);
            return self.batch(node, &call, lengths);
        }
        let mut copy = node.clone();
        if self.rng.chance(300) {
            make_up_chain(&mut self.rng, &member, &mut copy.state, &mut copy.table);
        } else {
            change_word(&mut self.rng, &member, &mut copy.state, &mut copy.table);
        }
        copy.read_again();
        let call = some_batch(&mut self.rng, copy.twin.as_ref().unwrap_or(&member));
        let lengths = self.lengths(&copy);
        self.batch(&mut copy, &call, lengths);
    }

    /// Lengths at their edges, on a state with two full rounds: rows that are
    /// accepted, held, missing, unreadable; answers one short, just right and
    /// longer; stretches of state and table just right and one short.
    pub fn batch_edges(&mut self) {
        let node = two_rounds();
        let member = node.twin.as_ref().expect("well formed");
        let needed = table_words(member.settings.ceiling);
        let third: Vec<Words> = (0..4).rev().map(|author| of_four(author, 3, 0b1111)).collect();
        let fourth = of_four(1, 4, 0b0110);
        let held = of_four(2, 1, 0);
        let missing = of_four(0, 4, 1 << 9);
        let mut unreadable = fourth;
        unreadable[16] = 65_536;
        let mut wild = fourth;
        (wild[0], wild[1]) = (u32::MAX, u32::MAX);
        let rows = [&[fourth, missing, held, unreadable, wild], &third[..]].concat();
        for records in [0, 1, 2, 5, 8, 9, 63, 64, 65, 66, 128] {
            let row: Vec<Words> = rows.iter().copied().cycle().take(records).collect();
            for room in [0, 1, records.saturating_sub(1), records, records + 1, 64, 65, 200] {
                let call = Call::Batch { row: row.clone(), answers: vec![7; room] };
                for lengths in [(STATE_WORDS, needed), (RIGHTS, needed), (STATE_WORDS, needed - 1), (0, 0)] {
                    self.batch(&mut node.clone(), &call, lengths);
                }
            }
        }
        self.batch_words(&node, fourth);
    }

    /// Each word of a record at edges, among others that do without it.
    fn batch_words(&mut self, node: &Node, record: Words) {
        for at in 0..17 {
            for value in
                [0, 1, 3, 4, 5, 15, 16, 1_000, 1_001, 65_535, 65_536, u32::MAX - 1, u32::MAX]
            {
                let mut spoilt = record;
                spoilt[at] = value;
                let row = vec![
                    record,
                    of_four(0, 4, 0b0110),
                    spoilt,
                    of_four(1, 3, 0b1111),
                    of_four(2, 3, 0b1111),
                ];
                let call = Call::Batch { row, answers: vec![7; 6] };
                self.batch(&mut node.clone(), &call, (node.state.len(), node.table.len()));
            }
        }
    }
}

/// A certificate of one of four that the other three endorse, with a
/// transaction of each kind.
fn of_four(author: u32, round: u32, previous: Set) -> Words {
    let transactions = vec![
        Transaction::Bond { member: author, amount: 1 },
        Transaction::Unbond { member: 9 },
        Transaction::Entry { number: round },
    ];
    let proposal = Proposal { author, round, previous, transactions };
    let certificate = Certificate { proposal, endorsers: 0b1111 & !single(author) };
    seventeen(&certificate_words(&certificate))
}

/// Member 0 of four that holds rounds 1 and 2, with one place of round 3
/// marked endorsed.
fn two_rounds() -> Node {
    let sheet = Sheet { ceiling: Setting::Written(6), ..Sheet::all_blank() };
    let mut member = Member::open(0, &sheet, 6).expect("in range");
    let accept = |member: &mut Member, words: Words| {
        member.accept(&read_certificate(&words).expect("readable")).expect("fits");
    };
    (0..4).for_each(|author| accept(&mut member, of_four(author, 1, 0)));
    (0..4).for_each(|author| accept(&mut member, of_four(author, 2, 0b1111)));
    let endorsed = read_proposal(&of_four(3, 3, 0b1111)).expect("readable");
    member.endorse(&endorsed).expect("fits");
    let mut table = vec![0; table_words(6) + 5];
    write_table(&member, &mut table);
    Node { state: state_words(&member).to_vec(), table, twin: Some(member) }
}
