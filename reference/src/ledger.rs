//! docs/RULES.md, "Weights that add up". After each accepted commit of a
//! stream of records the chain is read, and a ledger is kept of its transactions,
//! oldest first: starting weights, bonded amounts, and what each unbond releases,
//! told from the transactions before it. No committee is asked for that. Then the
//! committee of the round from which on all blocks count is read, lookback + last
//! block's round + 1: each weight, and the total, must be start plus bonded less
//! released. Where that round is above the ceiling no read shows it; then the
//! reference's own committee is taken. No known committee may weigh more than
//! 81,536,000.

use crate::runner::{for_each_record, read_record, Outcome, Record, Runner};
use crate::{total, Committee, Member, Transaction, MEMBERS};
use std::collections::BTreeMap;
use std::io::BufRead;

/// Sixteen weights of 1,000,000, and 1,024 rounds of 16 certificates of 4 bonds of
/// 1,000.
pub const MOST: u64 = 81_536_000;

/// One member's account.
#[derive(Clone, Copy, Default, PartialEq, Eq, Debug)]
pub struct Account {
    pub start: u64,
    pub bonded: u64,
    pub released: u64,
    /// Its bonds since its previous unbond.
    since: u64,
    /// There was an unbond.
    unbonded: bool,
}

impl Account {
    pub fn weight(&self) -> u64 {
        self.start + self.bonded - self.released
    }
}

#[derive(Default)]
pub struct Ledger {
    pub accounts: BTreeMap<u32, Account>,
    pub unbonds: u64,
    /// Unbonds that release the starting weight too, that release bonds alone, and
    /// that release nothing.
    pub of_start: u64,
    pub of_bonds: u64,
    pub of_nothing: u64,
}

impl Ledger {
    pub fn of(starting: &Committee) -> Ledger {
        let mut ledger = Ledger::default();
        for (member, &start) in (0..MEMBERS).zip(starting) {
            ledger.accounts.insert(member, Account { start, ..Account::default() });
        }
        ledger
    }

    pub fn enter(&mut self, transaction: &Transaction) {
        match *transaction {
            Transaction::Bond { member, amount } => {
                let account = self.accounts.get_mut(&member).expect("a member");
                account.bonded += u64::from(amount);
                account.since += u64::from(amount);
            }
            Transaction::Unbond { member } => {
                let account = self.accounts.get_mut(&member).expect("a member");
                let start = if account.unbonded { 0 } else { account.start };
                let released = account.since + start;
                account.released += released;
                account.since = 0;
                account.unbonded = true;
                self.unbonds += 1;
                self.of_start += u64::from(start > 0);
                self.of_bonds += u64::from(start == 0 && released > 0);
                self.of_nothing += u64::from(released == 0);
            }
            Transaction::Entry { .. } => {}
        }
    }

    /// Start, bonded, released, of all members.
    pub fn whole(&self) -> (u64, u64, u64) {
        let sum = |part: fn(&Account) -> u64| self.accounts.values().map(part).sum();
        (sum(|a| a.start), sum(|a| a.bonded), sum(|a| a.released))
    }
}

/// The transactions of a chain, oldest first, by reads of certificates and blocks:
/// blocks by number, in each rounds rise, within a round numbers rise from the
/// author of the block's certificate of its own round, with 0 after 15.
pub fn chain_read(member: &Member) -> Vec<Transaction> {
    let blocks: Vec<u32> = (1..).map_while(|number| member.read_block(number).ok()).collect();
    let mut lines = Vec::new();
    let mut firsts = vec![0; blocks.len() + 1];
    for round in 1..=member.settings().ceiling {
        for author in 0..MEMBERS {
            let Ok((proposal, _, number)) = member.read_certificate(author, round) else { continue };
            if number == 0 {
                continue;
            }
            if blocks[number as usize - 1] == round {
                firsts[number as usize] = author;
            }
            lines.push((number, round, author, proposal.transactions.clone()));
        }
    }
    lines.sort_by_key(|line| (line.0, line.1, (line.2 + MEMBERS - firsts[line.0 as usize]) % MEMBERS));
    lines.into_iter().flat_map(|line| line.3).collect()
}

/// What was compared.
#[derive(Default, Debug)]
pub struct Figures {
    pub commits: u64,
    pub read: u64,
    pub above: u64,
    pub committees: u64,
    pub transactions: u64,
    pub bonded: u64,
    pub released: u64,
    pub unbonds: [u64; 4],
    pub most: u64,
}

impl Figures {
    /// Compares a member's committees with the ledger of its chain.
    pub fn compare(&mut self, member: &Member) -> Result<(), String> {
        let settings = member.settings();
        let mut ledger = Ledger::of(&settings.weights);
        let transactions = chain_read(member);
        transactions.iter().for_each(|transaction| ledger.enter(transaction));
        let last = member.last_block_round();
        let all_count = settings.lookback + last + 1;
        let after = match member.read_committee(all_count) {
            Ok(committee) => committee,
            Err(5) => *member.committee_of(all_count).ok_or("a round that is not known")?,
            Err(number) => return Err(format!("the committee of round {all_count} is refused with {number}")),
        };
        for (m, account) in &ledger.accounts {
            let weight = after[*m as usize];
            if weight + account.released != account.start + account.bonded {
                return Err(format!("member {m} weighs {weight} in round {all_count}, the ledger has {account:?}"));
            }
        }
        let (start, bonded, released) = ledger.whole();
        if total(&after) + released != start + bonded {
            return Err(format!("the total of round {all_count} is {}, not {start} + {bonded} - {released}", total(&after)));
        }
        let known = (1..).map_while(|round| member.committee_of(round).map(total));
        let weights: Vec<u64> = known.take(settings.lookback as usize + last as usize + 2).collect();
        let most = weights.iter().copied().max().unwrap_or(0);
        if most > MOST {
            return Err(format!("a committee weighs {most}"));
        }
        self.commits += 1;
        self.read += u64::from(all_count <= settings.ceiling);
        self.above += u64::from(all_count > settings.ceiling);
        self.committees += weights.len() as u64;
        self.transactions += transactions.len() as u64;
        self.bonded += bonded;
        self.released += released;
        let seen = [ledger.unbonds, ledger.of_start, ledger.of_bonds, ledger.of_nothing];
        self.unbonds.iter_mut().zip(seen).for_each(|(all, here)| *all += here);
        self.most = self.most.max(most);
        Ok(())
    }

    /// Compares after each accepted commit of a stream, and after each accepted
    /// open, where there is no block.
    pub fn stream(&mut self, input: &mut impl BufRead) -> Result<(), String> {
        let (mut runner, mut out, mut records, mut found) = (Runner::default(), Vec::new(), 0, Ok(()));
        let done = for_each_record(input, |text| {
            records += 1;
            let record = text.and_then(read_record);
            let outcome = runner.answer(record.as_ref(), &mut out);
            out.clear();
            let moved = matches!(record, Some(Record::Open { .. } | Record::Commit));
            if let (true, false, true, Some(member)) = (moved, matches!(outcome, Outcome::Refused(_)), found.is_ok(), &runner.member) {
                found = self.compare(member).map_err(|why| format!("record {records}: {why}"));
            }
            Ok(())
        });
        done.map_err(|error| error.to_string())?;
        found
    }
}
