//! Weights that add up: after commits, on grown states and on chains made up, the
//! chain is read and a ledger kept of its transactions, oldest first: starting
//! weights, bonded amounts, and what each unbond releases, told from the
//! transactions before it. The committee read of the round from which on all blocks
//! count, lookback + last block's round + 1, must be start plus bonded less
//! released, for each member and in total. Above the ceiling there is no read of it.

use crate::calls::*;
use crate::engine;
use crate::grow::*;
use crate::previews::*;
use crate::words::*;
use crate::{Node, Test};
use reference::*;
use std::collections::HashMap;

/// No committee weighs more.
const MOST: u64 = 81_536_000;

/// A line of a chain: block, round, author, transactions.
type Line = (u32, u32, u32, Vec<Transaction>);

#[derive(Default)]
pub struct Figures {
    /// Ledgers kept after commits of grown states, and of chains made up.
    commits: u64,
    made_up: u64,
    /// Those of them compared with a committee read; of chains made up; those whose
    /// round is above the ceiling.
    compared: u64,
    of_made_up: u64,
    above: u64,
    /// Those that would be others with numbers that just rise in each round.
    turned: u64,
    /// Those whose places were found by reads alone.
    by_reads: u64,
    transactions: u64,
    bonded: u64,
    released: u64,
    /// Unbonds; those that release the starting weight too, bonds alone, nothing.
    unbonds: [u64; 4],
    /// Committees weighed, and the largest total.
    weighed: u64,
    most: u64,
}

impl Figures {
    pub fn print(&self) {
        println!(
            "ledgers: {} after commits, {} of chains made up; {} compared with a committee read, {} of them of chains made up, {} others above \
             the ceiling; {} would be others with rising numbers in a round; places of {} by reads alone",
            self.commits, self.made_up, self.compared, self.of_made_up, self.above, self.turned, self.by_reads
        );
        let [unbonds, of_start, of_bonds, of_nothing] = self.unbonds;
        println!(
            "in them {} transactions, {} bonded, {} released by {unbonds} unbonds, {of_start} of them of a starting weight, {of_bonds} of \
             bonds alone, {of_nothing} of nothing; {} committees weighed, at most {}",
            self.transactions, self.bonded, self.released, self.weighed, self.most
        );
    }
}

/// Starting weights, then what is bonded and released, by member.
struct Ledger {
    start: [u64; 16],
    bonded: HashMap<u32, u64>,
    released: HashMap<u32, u64>,
    /// Of who was unbonded: its bonds since.
    since: HashMap<u32, u64>,
    unbonds: [u64; 4],
}

impl Ledger {
    fn of<'a>(start: [u64; 16], lines: impl Iterator<Item = &'a Line>) -> Ledger {
        let mut ledger =
            Ledger { start, bonded: HashMap::new(), released: HashMap::new(), since: HashMap::new(), unbonds: [0; 4] };
        lines.flat_map(|line| &line.3).for_each(|transaction| ledger.enter(transaction));
        ledger
    }

    fn enter(&mut self, transaction: &Transaction) {
        match *transaction {
            Transaction::Bond { member, amount } => {
                *self.bonded.entry(member).or_default() += u64::from(amount);
                self.since.entry(member).and_modify(|bonds| *bonds += u64::from(amount));
            }
            Transaction::Unbond { member } => {
                let start = self.start[member as usize];
                let before = self.bonded.get(&member).copied().unwrap_or(0);
                let (released, first) = match self.since.insert(member, 0) {
                    Some(bonds) => (bonds, false),
                    None => (start + before, start > 0),
                };
                *self.released.entry(member).or_default() += released;
                let sort = if first { 1 } else if released > 0 { 2 } else { 3 };
                self.unbonds[0] += 1;
                self.unbonds[sort] += 1;
            }
            Transaction::Entry { .. } => {}
        }
    }

    fn bonded(&self, member: u32) -> u64 {
        self.bonded.get(&member).copied().unwrap_or(0)
    }

    fn released(&self, member: u32) -> u64 {
        self.released.get(&member).copied().unwrap_or(0)
    }

    fn weights(&self) -> [u64; 16] {
        std::array::from_fn(|m| self.start[m] + self.bonded(m as u32) - self.released(m as u32))
    }
}

/// The committee of a round as the engine reads it.
fn committee_read(node: &Node, round: u32) -> Answer<[u64; 16]> {
    let mut out = [0; 16];
    match engine::committee(&node.state, &node.table, round, &mut out) {
        0 => Ok(out.map(u64::from)),
        number => Err(number),
    }
}

/// The block, and the transactions, of a certificate as the engine reads it.
fn certificate_read(node: &Node, round: u32, author: u32) -> Option<(u32, Vec<Transaction>)> {
    let mut out = [0; 18];
    let answer = engine::certificate(&node.state, &node.table, author, round, &mut out);
    let transactions = || read_transactions(out[3], &out[4..16]).expect("as stored");
    (answer == 0).then(|| (out[17], transactions()))
}

impl Test {
    /// The certificates of all blocks, in no order: at times every place is read,
    /// else those that the words show.
    fn lines(&mut self, node: &Node) -> Vec<Line> {
        let small = node.table.len() < table_words(42);
        let places: Vec<(u32, u32)> = if small && self.rng.chance(300) {
            self.figures.ledgers.by_reads += 1;
            (1..=node.state[2]).flat_map(|r| (0..MEMBERS).map(move |a| (r, a))).collect()
        } else {
            new_blocks(node, 0).into_iter().map(|[_, round, author]| (round, author)).collect()
        };
        let line = |(round, author)| {
            let (block, transactions) = certificate_read(node, round, author)?;
            (block > 0).then_some((block, round, author, transactions))
        };
        places.into_iter().filter_map(line).collect()
    }

    /// Of each block, after one for none, the number from which on numbers rise in a
    /// round. In a state that a run reaches it is told by the block's anchor, its one
    /// certificate of its own round; else by the leader of its round.
    fn firsts(&mut self, node: &Node, rounds: &[u32], lines: &[Line], reached: bool) -> Vec<u32> {
        let mut firsts = vec![0];
        for (number, &round) in (1..).zip(rounds) {
            let anchors: Vec<u32> = lines.iter().filter(|line| (line.0, line.1) == (number, round)).map(|line| line.2).collect();
            let lead = || leader(round, &committee_read(node, round).unwrap_or([0; 16]));
            if reached && anchors.len() != 1 {
                self.differs("a block without its one anchor");
            }
            firsts.push(if reached { anchors.first().copied() } else { lead() }.unwrap_or(0));
        }
        firsts
    }

    /// Keeps the ledger of a node's chain and compares.
    fn ledger(&mut self, node: &Node, reached: bool) {
        let block = |number| engine::block(&node.state, &node.table, number);
        let rounds: Vec<u32> = (1..).map(block).take_while(|answer| answer >> 32 == 0).map(|answer| answer as u32).collect();
        let mut lines = self.lines(node);
        let firsts = self.firsts(node, &rounds, &lines, reached);
        lines.sort_by_key(|line| (line.0, line.1, line.2));
        let start = committee_read(node, 1).expect("the starting committee");
        let rising = Ledger::of(start, lines.iter()).weights();
        lines.sort_by_key(|line| (line.0, line.1, (line.2 + MEMBERS - firsts[line.0 as usize]) % MEMBERS));
        let ledger = Ledger::of(start, lines.iter());
        let all_count = node.state[1] + rounds.last().copied().unwrap_or(0) + 1;
        match committee_read(node, all_count) {
            Ok(read) => {
                let adds = |m: u32| read[m as usize] + ledger.released(m) == start[m as usize] + ledger.bonded(m);
                let (bonded, released) = (ledger.bonded.values().sum::<u64>(), ledger.released.values().sum::<u64>());
                if !(0..MEMBERS).all(adds) || total(&read) + released != total(&start) + bonded {
                    self.differs(&format!("round {all_count} reads {read:?}, the ledger has {:?}", ledger.weights()));
                }
                self.figures.ledgers.compared += 1;
                self.figures.ledgers.of_made_up += u64::from(!reached);
            }
            Err(5) if all_count > node.state[2] => self.figures.ledgers.above += 1,
            Err(number) => self.differs(&format!("the committee of round {all_count} is refused with {number}")),
        }
        if self.rng.chance(50) {
            self.weigh_all(node);
        }
        let figures = &mut self.figures.ledgers;
        *(if reached { &mut figures.commits } else { &mut figures.made_up }) += 1;
        figures.turned += u64::from(rising != ledger.weights());
        figures.transactions += lines.iter().map(|line| line.3.len() as u64).sum::<u64>();
        figures.bonded += ledger.bonded.values().sum::<u64>();
        figures.released += ledger.released.values().sum::<u64>();
        figures.unbonds.iter_mut().zip(ledger.unbonds).for_each(|(all, here)| *all += here);
    }

    /// The committees of all rounds that are known.
    fn weigh_all(&mut self, node: &Node) {
        for weights in (1..).map_while(|round| committee_read(node, round).ok()) {
            self.figures.ledgers.weighed += 1;
            self.figures.ledgers.most = self.figures.ledgers.most.max(total(&weights));
            if total(&weights) > MOST {
                self.differs("a committee weighs too much");
            }
        }
    }

    /// So many ledgers and more; a third of them must be compared, and a twentieth be
    /// others with rising numbers.
    pub fn ledgers(&mut self, ledgers: u64) {
        let kept = |test: &Test| test.figures.ledgers.commits + test.figures.ledgers.made_up;
        while kept(self) < ledgers {
            let mut plan = Plan::any(&mut self.rng);
            // By a long lookback blocks count above the ceiling only.
            if self.rng.chance(600) {
                plan.sheet.lookback = Setting::Written(self.rng.between(1, 4));
            }
            // A large state is slow to read.
            if plan.ceiling > 255 && !self.rng.chance(100) {
                continue;
            }
            let own = plan.owns.first().copied().unwrap_or(0);
            let opened = plan.open(&mut self.rng, own);
            let to = self.rng.between(1, 2 * plan.ceiling / 3);
            let mut member = grow(&mut self.rng, opened, to, &plan);
            for _ in 0..self.rng.between(1, 4) {
                towards_commit(&mut self.rng, &mut member, &plan);
                let mut node = Node::of(member, &mut self.rng);
                let whole = (node.state.len(), node.table.len());
                if self.call(&mut node, &Call::Commit, whole) >> 32 == 0 {
                    self.ledger(&node, true);
                }
                if self.rng.chance(250) {
                    let mut copy = node.clone();
                    let hint = node.twin.as_ref().expect("a node here is well formed");
                    make_up_chain(&mut self.rng, hint, &mut copy.state, &mut copy.table);
                    copy.read_again();
                    self.ledger(&copy, false);
                }
                member = node.twin.expect("a node here is well formed");
            }
        }
        let figures = &self.figures.ledgers;
        assert!(3 * figures.compared >= ledgers, "{} of {ledgers} ledgers were compared", figures.compared);
        assert!(20 * figures.turned >= ledgers, "{} of {ledgers} ledgers go by the order", figures.turned);
    }
}
