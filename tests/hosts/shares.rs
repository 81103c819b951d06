//! Shares, by opens and by tables of bonds made for them. Exact halves are
//! rare by chance: they are made on purpose, and pairs just beside them.

use crate::calls::*;
use crate::grow::*;
use crate::words::*;
use crate::{Node, Test};
use reference::*;

/// The largest starting weight, and the largest bond.
pub const MOST: u64 = 1_000_000;
const BOND: u64 = 1_000;

pub const EVERYONE: Set = 0xffff;

/// A committee of one or two; where they stand changes with their weights.
pub fn two(w: u64, other: u64) -> Committee {
    let mut weights = [0; 16];
    let at = (w + 3 * other) as usize % 16;
    weights[at] = w;
    weights[(at + 1 + other as usize % 15) % 16] = other;
    weights
}

pub fn inside_of(weights: &Committee) -> Set {
    (0..MEMBERS).filter(|&m| weights[m as usize] > 0).map(single).fold(0, |a, b| a | b)
}

fn gcd(a: u64, b: u64) -> u64 {
    if b == 0 { a } else { gcd(b, a % b) }
}

/// A weight and a total: an exact half (odd / 2,000 in lower terms, times t),
/// one beside a half, or any.
pub fn telling(rng: &mut Rng, least: u64, most: u64) -> (u64, u64) {
    let odd = 2 * rng.below(1_000) + 1;
    let common = gcd(odd, 2_000);
    let (w, n) = (odd / common, 2_000 / common);
    let (low, high) = (least.div_ceil(n), most / n);
    let t = (low + rng.below(high.saturating_sub(low) + 1)).max(1);
    let (w, n) = (w * t, n * t);
    match rng.below(6) {
        0 => (w - 1, n),
        1 => (w + 1, n),
        2 => (w, n + 1),
        3 => {
            let n = least.max(1) + rng.below(most - least + 1);
            (1 + rng.below(n), n)
        }
        _ => (w, n),
    }
}

/// Spreads `rest` over some members, at most `most` each; some get nothing.
pub fn spread(rng: &mut Rng, weights: &mut Committee, others: Set, mut rest: u64, most: u64) {
    let mut left: Vec<u32> = members_of(others).collect();
    while !left.is_empty() {
        let m = left.swap_remove(rng.below(left.len() as u64) as usize);
        let after = left.len() as u64;
        // What the members after it cannot take is its own.
        let low = rest.saturating_sub(most * after);
        let high = most.min(rest);
        let even = (2 * rest / (after + 1)).clamp(low, high);
        let part = if rng.chance(700) { even } else { high };
        let weight = if after == 0 { rest } else { low + rng.below(part - low + 1) };
        weights[m as usize] = weight;
        rest -= weight;
    }
}

/// A member whose committee from round 4 on has these weights: one block, of
/// round 2, that all held certificates are in, whatever their round. No run
/// makes it, and it is well formed. `None` where the bonds have no room.
fn bonded(rng: &mut Rng, weights: &Committee, ceiling: u32) -> Option<Member> {
    let start = weights.map(|w| w.min(MOST));
    let mut bonds = Vec::new();
    for member in 0..MEMBERS {
        let mut left = weights[member as usize] - start[member as usize];
        while left > 0 {
            let amount = left.min(BOND);
            bonds.push(Transaction::Bond { member, amount: amount as u32 });
            left -= amount;
        }
    }
    if bonds.len() > 64 * ceiling as usize {
        return None;
    }
    (1..bonds.len()).rev().for_each(|i| bonds.swap(i, rng.below(i as u64 + 1) as usize));
    let settings = Settings { lookback: 1, ceiling, allowance: 4, weights: start, margin: rng.between(3, 5) };
    let (mut held, mut marked) = (Vec::new(), Vec::new());
    for (round, author) in (1..=ceiling).flat_map(|r| (0..MEMBERS).map(move |a| (r, a))) {
        let transactions = bonds.split_off(bonds.len().saturating_sub(4));
        if transactions.is_empty() {
            held.push(None);
            continue;
        }
        let previous = if round == 1 { 0 } else { EVERYONE };
        let proposal = Proposal { author, round, previous, transactions };
        let certificate = Certificate { proposal, endorsers: EVERYONE & !single(author) };
        held.push(Some(Held { certificate, block: 1 }));
        marked.push((round, author));
    }
    let chain = vec![Block::on(&[], &settings, 2, marked, &held)];
    let endorsed = vec![false; held.len()];
    let queues = Queues::default();
    let rights = any_rights(rng);
    let ports = Default::default();
    Some(Member { own: 0, settings, round: 3, proposal: None, held, endorsed, chain, queues, served: None, rights, ports })
}

/// The words of such a member.
pub fn bonded_node(rng: &mut Rng, weights: &Committee, ceiling: u32) -> Option<Node> {
    let member = bonded(rng, weights, ceiling)?;
    let mut table = vec![0; table_words(ceiling)];
    write_table(&member, &mut table);
    let mut node = Node { state: state_words(&member).to_vec(), table, twin: None };
    node.read_again();
    let twin = node.twin.as_ref().expect("a table of bonds is well formed");
    assert_eq!(twin.committee_of(4), Some(weights));
    Some(node)
}

impl Test {
    /// A node of the smallest ceiling, for opens.
    pub fn small_node() -> Node {
        Node { state: vec![0; STATE_WORDS], table: vec![0; table_words(3)], twin: None }
    }

    /// An open with these weights and any margin, which shares do not go by, and
    /// the shares of some members in round 1.
    pub fn open_and_read(&mut self, node: &mut Node, weights: &Committee, some: Set) {
        let weights = weights.map(|w| Setting::Written(w as u32));
        let margin = Setting::Written(self.rng.between(3, 5));
        let sheet = Sheet { ceiling: Setting::Written(3), weights, margin, ..Sheet::all_blank() };
        let call = Call::Open { own: 0, sheet: sheet_words(&mut self.rng, &sheet), rights: self.rng.word() };
        let lengths = (node.state.len(), node.table.len());
        self.call(node, &call, lengths);
        for member in members_of(some) {
            self.call(node, &Call::Share { member, round: 1 }, lengths);
        }
    }

    /// Every weight of every total: an open of two members gives two. The
    /// weights 1 to n add up to n (n + 1) / 2 and an open takes n of it, so
    /// opens of more members would not be fewer.
    fn every_pair(&mut self, most: u64) {
        let mut node = Test::small_node();
        for n in 1..=most {
            for w in n.div_ceil(2)..=n {
                let weights = two(w, n - w);
                self.open_and_read(&mut node, &weights, inside_of(&weights));
            }
        }
    }

    /// Totals up to 16,000,000, by opens.
    fn large_opens(&mut self, opens: u64) {
        let mut node = Test::small_node();
        let mut made = 0;
        while made < opens {
            let rng = &mut self.rng;
            let most = rng.pick(&[3_000, 100_000, MOST, 16 * MOST]);
            let (w, n) = telling(rng, 1, most);
            if w == 0 || w > MOST || n < w || n - w > 15 * MOST {
                continue;
            }
            let member = rng.between(0, 15);
            let mut weights = [0; 16];
            spread(rng, &mut weights, EVERYONE & !single(member), n - w, MOST);
            weights[member as usize] = w;
            self.open_and_read(&mut node, &weights, EVERYONE);
            made += 1;
        }
    }

    /// The shares of all in round 4 of a bonded member; false where there is none.
    fn read_bonded(&mut self, weights: &Committee, ceiling: u32) -> bool {
        let Some(mut node) = bonded_node(&mut self.rng, weights, ceiling) else { return false };
        let lengths = (node.state.len(), node.table.len());
        for member in 0..MEMBERS {
            self.call(&mut node, &Call::Share { member, round: 4 }, lengths);
        }
        true
    }

    /// Totals above 16,000,000, by tables of bonds.
    fn large_tables(&mut self, tables: u64) {
        let mut made = 0;
        while made < tables {
            let rng = &mut self.rng;
            let ceiling = rng.pick(&[4, 4, 16, 16, 64, 64, 300, 1_024]);
            let room = 64 * BOND * u64::from(ceiling);
            let (w, n) = telling(rng, 16 * MOST, 16 * MOST + room);
            if w == 0 || n < w {
                continue;
            }
            let member = rng.between(0, 15);
            let mut weights = [0; 16];
            // The others start with the largest weight; bonds are the rest.
            let others = EVERYONE & !single(member);
            let Some(rest) = (n - w).checked_sub(15 * MOST) else { continue };
            spread(rng, &mut weights, others, rest, rest);
            weights = weights.map(|bonds| bonds + MOST);
            weights[member as usize] = w;
            made += u64::from(self.read_bonded(&weights, ceiling));
        }
    }

    /// Tables full of bonds, total 81,536,000: all alike; one with all of
    /// them; odd multiples of 62.5 thousandths, the exact halves that whole
    /// bonds of 1,000 give there.
    fn full_tables(&mut self) {
        let bonds = 64 * BOND * 1_024;
        let all = 16 * MOST + bonds;
        let mut tables = vec![[MOST + bonds / 16; 16]];
        for heavy in [0, 15] {
            let mut weights = [MOST; 16];
            weights[heavy] += bonds;
            tables.push(weights);
        }
        for odd in (1..14).step_by(2) {
            let mut weights = [MOST; 16];
            weights[5] = all / 16 * odd;
            weights[9] = all - 14 * MOST - weights[5];
            tables.push(weights);
        }
        for weights in tables {
            assert_eq!(total(&weights), all);
            assert!(self.read_bonded(&weights, 1_024), "the bonds just fit");
        }
    }

    /// Every pair up to a total, and shares by chance in measure with it.
    pub fn shares(&mut self, most: u64) {
        self.every_pair(most);
        self.large_opens(10 * most);
        self.large_tables(most / 10);
        self.full_tables();
    }
}
