//! The register of weights of a chain, as plant owners keep it (docs/RECIPES.md, "A register of weights").
//!
//! What an unbond releases is told from the transactions before it, and from no committee: the member's bonds since
//! its previous unbond, plus its starting weight if there was no previous one.

use crate::chain::Listed;
use crate::table;
use crate::weights::grouped;
use forgelilac::{Transaction, MEMBERS};
use std::collections::BTreeMap;

/// What was bonded and what was released.
#[derive(Clone, Copy, PartialEq, Eq, Default, Debug)]
pub struct Movement {
    pub bonded: u64,
    pub released: u64,
}

impl Movement {
    fn and(self, other: Movement) -> Movement {
        Movement { bonded: self.bonded + other.bonded, released: self.released + other.released }
    }
}

impl std::iter::Sum for Movement {
    fn sum<I: Iterator<Item = Movement>>(movements: I) -> Movement {
        movements.fold(Movement::default(), Movement::and)
    }
}

pub struct Register {
    pub starting: [u32; MEMBERS],
    lookback: u32,
    /// Of each block its number, its round, and what it moved of each member.
    blocks: Vec<(u32, u32, BTreeMap<usize, Movement>)>,
}

impl Register {
    pub fn of(starting: [u32; MEMBERS], lookback: u32, blocks: &[Listed]) -> Register {
        // What an unbond of each member would release.
        let mut releases = starting.map(u64::from);
        let blocks =
            blocks.iter().map(|block| (block.number, block.round, moves_of(&block.transactions, &mut releases)));
        Register { starting, lookback, blocks: blocks.collect() }
    }

    /// What the first blocks moved of a member.
    fn moved(&self, member: usize, blocks: usize) -> Movement {
        self.blocks[..blocks].iter().filter_map(|(_, _, moves)| moves.get(&member)).copied().sum()
    }

    fn moved_in_all(&self, blocks: usize) -> Movement {
        (0..MEMBERS).map(|member| self.moved(member, blocks)).sum()
    }

    /// After the first blocks: the starting weight plus all bonded less all released.
    pub fn weight(&self, member: usize, blocks: usize) -> u64 {
        let Movement { bonded, released } = self.moved(member, blocks);
        u64::from(self.starting[member]) + bonded - released
    }

    fn total(&self, blocks: usize) -> u64 {
        (0..MEMBERS).map(|member| self.weight(member, blocks)).sum()
    }

    /// A line for each block.
    pub fn by_block(&self) -> String {
        let blank = String::new;
        let mut rows =
            vec![vec!["start".to_owned(), blank(), blank(), blank(), grouped(self.total(0)), "1".to_owned()]];
        for (at, (number, round, moves)) in self.blocks.iter().enumerate() {
            let Movement { bonded, released } = moves.values().copied().sum();
            let counts_from = u64::from(self.lookback) + u64::from(*round) + 1;
            let numbers = [(*number).into(), (*round).into(), bonded, released, self.total(at + 1), counts_from];
            rows.push(numbers.map(grouped).to_vec());
        }
        let Movement { bonded, released } = self.moved_in_all(self.blocks.len());
        let total = grouped(self.total(self.blocks.len()));
        rows.push(vec!["all".to_owned(), blank(), grouped(bonded), grouped(released), total, blank()]);
        table::of(&["block", "round", "bonded", "released", "total", "counts from"], &rows)
    }

    /// A line for each member whose weight was bonded to or released.
    pub fn by_member(&self) -> String {
        let all = self.blocks.len();
        let moved = |member: &usize| self.moved(*member, all) != Movement::default();
        let (movers, others): (Vec<_>, Vec<_>) = (0..MEMBERS).partition(moved);
        let row = |name: String, starting: u64, moved: Movement| {
            let weight = starting + moved.bonded - moved.released;
            vec![name, grouped(starting), grouped(moved.bonded), grouped(moved.released), grouped(weight)]
        };
        let of_member =
            |member: &usize| row(member.to_string(), self.starting[*member].into(), self.moved(*member, all));
        let mut rows: Vec<_> = movers.iter().map(of_member).collect();
        let starting = |members: &[usize]| members.iter().map(|member| u64::from(self.starting[*member])).sum::<u64>();
        rows.push(row("others".to_owned(), starting(&others), Movement::default()));
        rows.push(row("all".to_owned(), starting(&others) + starting(&movers), self.moved_in_all(all)));
        table::of(&["member", "starting", "bonded", "released", "weight"], &rows)
    }

    /// What each block bonds to and releases of each member.
    pub fn by_both(&self) -> String {
        let mut rows = Vec::new();
        for (at, (number, round, moves)) in self.blocks.iter().enumerate() {
            for (member, moved) in moves.iter().filter(|(_, moved)| **moved != Movement::default()) {
                let weight = self.weight(*member, at + 1);
                let numbers = [(*number).into(), (*round).into(), *member as u64, moved.bonded, moved.released, weight];
                rows.push(numbers.map(grouped).to_vec());
            }
        }
        table::of(&["block", "round", "member", "bonded", "released", "weight"], &rows)
    }
}

fn moves_of(transactions: &[Transaction], releases: &mut [u64; MEMBERS]) -> BTreeMap<usize, Movement> {
    let mut moves: BTreeMap<usize, Movement> = BTreeMap::new();
    for transaction in transactions {
        match *transaction {
            Transaction::Bond { member, amount } => {
                releases[member.index()] += u64::from(amount);
                moves.entry(member.index()).or_default().bonded += u64::from(amount);
            }
            Transaction::Unbond { member } => {
                moves.entry(member.index()).or_default().released += releases[member.index()];
                releases[member.index()] = 0;
            }
            _ => {}
        }
    }
    moves
}
