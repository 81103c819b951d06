//! `stats STREAM...` runs streams through the reference and counts, for each
//! sort of record, how often each answer came; commits also by their count.
//! Of the chains at the end of each stretch it counts what the order inside a
//! block has changed: blocks whose certificates do not go by round, then
//! author, as the rules first had it, and committees, leaders and quorum weights that
//! the same blocks would not give in that order; and how many stretches end at
//! the ceiling, in a round that is not known, or in a thin one. For each margin
//! it counts stretches, blocks, advances, the refusals that weigh something, and
//! answers that another margin would have changed.

use reference::runner::{for_each_record, read_record, Outcome, Record, Runner};
use reference::{change, leader, quorum_weight, total, Answer, Committee, Member};
use std::collections::BTreeMap;

fn name(record: Option<&Record>) -> &'static str {
    match record {
        None => "unreadable",
        Some(Record::Open { .. }) => "open",
        Some(Record::Propose { .. }) => "propose",
        Some(Record::Endorse(_)) => "endorse",
        Some(Record::Certify { .. }) => "certify",
        Some(Record::Accept(_)) => "accept",
        Some(Record::Advance) => "advance",
        Some(Record::Commit) => "commit",
        Some(Record::Chain) => "chain",
    }
}

/// Chains against those of the order by round, then author.
#[derive(Default)]
struct Order {
    blocks: u64,
    turned: u64,
    committees: u64,
    other: u64,
    leaders: u64,
    quorums: u64,
    /// Stretches by what an advance at their end is answered, 0 for accepted.
    ends: BTreeMap<u32, u64>,
}

impl Order {
    fn count(&mut self, member: &Member) {
        *self.ends.entry(member.may_advance().err().unwrap_or(0)).or_default() += 1;
        let settings = member.settings();
        let mut after = settings.weights;
        let mut afters: Vec<(u32, Committee)> = Vec::new();
        for block in member.chain() {
            let mut before = block.certificates.clone();
            before.sort();
            self.blocks += 1;
            self.turned += u64::from(before != block.certificates);
            for (round, author) in before {
                let held = member.held_at(author, round).expect("a block's certificates are held");
                held.certificate.proposal.transactions.iter().for_each(|t| change(&mut after, t));
            }
            afters.push((block.round, after));
        }
        for r in settings.lookback + 1..=settings.ceiling {
            let Some(committee) = member.committee_of(r) else { break };
            let below = afters.partition_point(|(round, _)| *round < r - settings.lookback);
            let before = if below == 0 { &settings.weights } else { &afters[below - 1].1 };
            self.committees += 1;
            self.other += u64::from(before != committee);
            self.leaders += u64::from(r % 2 == 0 && leader(r, before) != leader(r, committee));
            let weight = |committee| quorum_weight(total(committee), settings.margin);
            self.quorums += u64::from(weight(before) != weight(committee));
        }
    }

    fn add(&mut self, other: &Order) {
        self.blocks += other.blocks;
        self.turned += other.turned;
        self.committees += other.committees;
        self.other += other.other;
        self.leaders += other.leaders;
        self.quorums += other.quorums;
        for (answer, stretches) in &other.ends {
            *self.ends.entry(*answer).or_default() += stretches;
        }
    }
}

/// What the call would be answered, without making it.
fn verdict(member: &Member, record: &Record) -> Answer<()> {
    match record {
        Record::Propose { previous, transactions } => member.may_propose(*previous, transactions),
        Record::Endorse(proposal) => member.may_endorse(proposal),
        Record::Certify { endorsers } => member.may_certify(*endorsers).map(|_| ()),
        Record::Accept(certificate) => member.may_accept(certificate),
        Record::Advance => member.may_advance(),
        Record::Commit => member.may_commit().map(|_| ()),
        Record::Open { .. } | Record::Chain => Ok(()),
    }
}

/// What happens under one margin.
#[derive(Default)]
struct OfMargin {
    stretches: u64,
    blocks: u64,
    advances: u64,
    /// Refusals that weigh something.
    refusals: BTreeMap<u32, u64>,
    /// Calls that one of the other margins answers in another way.
    others: u64,
}

#[derive(Default)]
struct Margins(BTreeMap<u32, OfMargin>);

impl Margins {
    /// At the end of a stretch.
    fn end(&mut self, member: &Member) {
        let here = self.0.entry(member.settings.margin).or_default();
        here.stretches += 1;
        here.blocks += member.chain().len() as u64;
    }

    /// Before a call, whose answer each margin gives in turn.
    fn call(&mut self, member: &mut Member, record: &Record) {
        let margin = member.settings.margin;
        let answer = verdict(member, record);
        let mut other = false;
        for another in 3..=5 {
            member.settings.margin = another;
            other |= verdict(member, record) != answer;
        }
        member.settings.margin = margin;
        let here = self.0.entry(margin).or_default();
        here.others += u64::from(other);
        here.advances += u64::from(matches!(record, Record::Advance) && answer.is_ok());
        if let Err(number @ (12 | 13 | 22 | 28)) = answer {
            *here.refusals.entry(number).or_default() += 1;
        }
    }
}

fn main() {
    let mut answers: BTreeMap<&str, BTreeMap<u32, u64>> = BTreeMap::new();
    let mut counts: BTreeMap<u32, u64> = BTreeMap::new();
    let (mut streams, mut with_one, mut with_two, mut records, mut bytes) = (0, 0, 0, 0u64, 0);
    let (mut order, mut turned, mut other) = (Order::default(), 0, 0);
    let mut margins = Margins::default();
    for path in std::env::args().skip(1) {
        let stream = std::fs::read(&path).expect("a stream");
        let mut runner = Runner::default();
        let mut lines = Vec::new();
        let (mut one, mut two) = (0, 0);
        let mut here = Order::default();
        bytes += stream.len();
        streams += 1;
        for_each_record(&mut &stream[..], |text| {
            let record = text.and_then(read_record);
            lines.clear();
            if let (Some(Record::Open { .. }), Some(member)) = (&record, &runner.member) {
                if let Outcome::Accepted = runner.clone().answer(record.as_ref(), &mut lines) {
                    here.count(member);
                    margins.end(member);
                }
                lines.clear();
            }
            if let (Some(record), Some(member)) = (&record, &mut runner.member) {
                margins.call(member, record);
            }
            let outcome = runner.answer(record.as_ref(), &mut lines);
            let number = match outcome {
                Outcome::Accepted => 0,
                Outcome::Count(n) => {
                    *counts.entry(n).or_default() += 1;
                    one += u32::from(n >= 1);
                    two += u32::from(n >= 2);
                    0
                }
                Outcome::Refused(n) => n,
            };
            *answers.entry(name(record.as_ref())).or_default().entry(number).or_default() += 1;
            records += 1;
            Ok(())
        })
        .unwrap();
        if let Some(member) = &runner.member {
            here.count(member);
            margins.end(member);
        }
        order.add(&here);
        turned += u32::from(here.turned > 0);
        other += u32::from(here.other > 0);
        with_one += u32::from(one > 0);
        with_two += u32::from(two > 0);
    }
    println!("streams {streams}, bytes {bytes}, records {records}");
    println!("streams with a commit of 1 block or more {with_one}, of 2 or more {with_two}");
    let one: u64 = counts.values().sum();
    let two: u64 = counts.range(2..).map(|(_, n)| n).sum();
    println!("commits of 1 block or more {one}, of 2 or more {two}");
    println!("commits by count {counts:?}");
    println!("blocks {}, not by round, then author {} (streams {turned})", order.blocks, order.turned);
    println!(
        "committees after blocks {}, other than in that order {} (streams {other}), \
         with other leaders {}, with other quorum weights {}",
        order.committees, order.other, order.leaders, order.quorums
    );
    let ended = |answer: u32| order.ends.get(&answer).copied().unwrap_or(0);
    println!(
        "stretches {}, at the ceiling {}, in a round not known {}, in a thin round {}",
        order.ends.values().sum::<u64>(), ended(18), ended(8), ended(28)
    );
    for (margin, here) in &margins.0 {
        println!(
            "margin {margin}: stretches {}, blocks {}, advances {}, refused {:?}, other by another margin {}",
            here.stretches, here.blocks, here.advances, here.refusals, here.others
        );
    }
    for (call, by_number) in &answers {
        print!("{call}:");
        for (number, times) in by_number {
            if *number == 0 {
                print!(" ok {times};");
            } else {
                print!(" {number}: {times};");
            }
        }
        println!();
    }
}
