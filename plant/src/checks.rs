//! What is looked at after each step: chains, committees, order, draws, and what ports give. What is expected is
//! worked out here from docs/RULES.md, not by the engine.

use crate::failure::Failure;
use forgelilac::layout::{
    queue, CERTIFICATE_WORDS, GUESTS, HELD_WORDS, PROPOSAL_WORDS, SERVED, STATE_ALLOWANCE, STATE_CEILING,
    STATE_LOOKBACK, STATE_WEIGHTS, TRANSACTION_WORDS, WAITING,
};
use forgelilac::ready::{Call, GuestCall};
use forgelilac::{leader, lent, transactions_of, Engine, Member, Refusal, Round, Transaction, MEMBERS};
use std::fmt::Write;

/// The longest chain that a correct member has shown, and what follows from it.
#[derive(Clone, Debug)]
pub struct Chains {
    lookback: u32,
    /// Weights at the start and after each block.
    weights: Vec<[u32; MEMBERS]>,
    blocks: Vec<Block>,
    listing: String,
    /// Where a read lists its rows.
    list: Vec<u32>,
}

#[derive(Clone, Debug)]
struct Block {
    round: Round,
    /// The words of each proposal, in the block's order.
    rows: Vec<[u32; PROPOSAL_WORDS]>,
    /// Who showed it first.
    by: Member,
    /// The bytes of the listing up to its end.
    listed: usize,
}

impl Chains {
    /// No block yet, by the settings of a fresh engine.
    #[must_use]
    pub fn new(fresh: &Engine) -> Chains {
        let state = fresh.words().0;
        let mut weights = [0; MEMBERS];
        weights.copy_from_slice(&state[STATE_WEIGHTS..][..MEMBERS]);
        let list = vec![0; forgelilac::layout::rows_words(state[STATE_CEILING])];
        Chains {
            lookback: state[STATE_LOOKBACK],
            weights: vec![weights],
            blocks: Vec::new(),
            listing: String::new(),
            list,
        }
    }

    /// How many blocks the longest chain has.
    #[must_use]
    pub fn len(&self) -> usize {
        self.blocks.len()
    }

    /// Whether there is no block yet.
    #[must_use]
    pub fn is_empty(&self) -> bool {
        self.blocks.is_empty()
    }

    /// The most rounds between two blocks of the chain, or between the start and the first.
    #[must_use]
    pub fn widest(&self) -> u32 {
        let rounds: Vec<_> = std::iter::once(0).chain(self.blocks.iter().map(|block| block.round.get())).collect();
        rounds.windows(2).map(|pair| pair[1] - pair[0]).max().unwrap_or(0)
    }

    /// What members weigh after the newest block.
    #[must_use]
    pub fn newest_weights(&self) -> [u32; MEMBERS] {
        self.weights[self.weights.len() - 1]
    }

    /// The committee of a round that is known, by the rules: the starting one up to the lookback, above it changed
    /// by the blocks of rounds below the round less the lookback.
    #[must_use]
    pub fn committee(&self, round: Round) -> [u32; MEMBERS] {
        let counts = |block: &Block| block.round.get() + self.lookback < round.get();
        self.weights[self.blocks.iter().take_while(|block| counts(block)).count()]
    }

    /// Whether a correct member's whole chain and the longest one are prefixes of one another, and each of its blocks
    /// is in the order of the rules.
    ///
    /// # Errors
    /// A fork, or an order that is none.
    pub fn look_at_chain(&mut self, engine: &Engine) -> Result<(), Failure> {
        let (state, table) = engine.words();
        let mut list = std::mem::take(&mut self.list);
        let count = lent::block_rows(state, table, 0, engine.blocks(), &mut list);
        let looked = match count {
            Ok(count) => self.look_at_rows(engine, &list[..count as usize * HELD_WORDS]),
            Err(_) => Err(Failure::Malformed { member: engine.own() }),
        };
        self.list = list;
        looked
    }

    fn look_at_rows(&mut self, engine: &Engine, list: &[u32]) -> Result<(), Failure> {
        let rows: Vec<_> = list.chunks_exact(HELD_WORDS).collect();
        for (number, rows) in (1..).zip(rows.chunk_by(|one, next| one[CERTIFICATE_WORDS] == next[CERTIFICATE_WORDS])) {
            let round = engine.block(number).map_err(|_| Failure::Malformed { member: engine.own() })?;
            match self.blocks.get(number as usize - 1) {
                Some(block) => {
                    let same = block.rows.iter().zip(rows).all(|(one, other)| one[..] == other[..PROPOSAL_WORDS]);
                    if !same || block.rows.len() != rows.len() || block.round != round {
                        return Err(Failure::Fork { members: (block.by, engine.own()), block: number });
                    }
                }
                None => self.add(engine.own(), number, round, rows)?,
            }
        }
        Ok(())
    }

    fn add(&mut self, by: Member, number: u32, round: Round, list: &[&[u32]]) -> Result<(), Failure> {
        let first = leader(round, &self.committee(round)).map_or(0, Member::get);
        let key = |row: &[u32; PROPOSAL_WORDS]| (row[1], (row[0] + MEMBERS as u32 - first) % MEMBERS as u32);
        let rows: Vec<[u32; PROPOSAL_WORDS]> =
            list.iter().filter_map(|row| row[..PROPOSAL_WORDS].try_into().ok()).collect();
        if !rows.is_sorted_by(|one, next| key(one) < key(next)) {
            return Err(Failure::Order { member: by, block: number });
        }
        let mut weights = self.weights[self.weights.len() - 1];
        for row in &rows {
            let transactions: Vec<_> = transactions_of(row).into_iter().flatten().collect();
            transactions.iter().for_each(|transaction| apply(*transaction, &mut weights));
            let _ = write!(self.listing, "{number},{round},{},{}", row[1], row[0]);
            transactions.iter().for_each(|transaction| list_transaction(*transaction, &mut self.listing));
            self.listing.push_str("\r\n");
        }
        self.weights.push(weights);
        self.blocks.push(Block { round, rows, by, listed: self.listing.len() });
        Ok(())
    }

    /// The committees of the rounds that a member knows, from this one on, against those of the rules; and the first
    /// round that it does not know.
    ///
    /// # Errors
    /// A committee that is another one.
    pub fn look_at_committees(&self, engine: &Engine, from: u32) -> Result<u32, Failure> {
        let ceiling = engine.words().0[STATE_CEILING];
        for round in from..=ceiling {
            match engine.committee(Round::new(round)) {
                Err(Refusal::CommitteeUnknown) => return Ok(round),
                Ok(weights) if weights == self.committee(Round::new(round)) => {}
                _ => return Err(Failure::Committee { member: engine.own(), round: Round::new(round) }),
            }
        }
        Ok(ceiling + 1)
    }

    /// The listing of a member with so many blocks.
    #[must_use]
    pub fn listing(&self, blocks: u32) -> &[u8] {
        let block = (blocks as usize).checked_sub(1).and_then(|last| self.blocks.get(last));
        &self.listing.as_bytes()[..block.map_or(0, |block| block.listed)]
    }
}

fn apply(transaction: Transaction, weights: &mut [u32; MEMBERS]) {
    match transaction {
        Transaction::Bond { member, amount } => weights[member.index()] += amount,
        Transaction::Unbond { member } => weights[member.index()] = 0,
        _ => {}
    }
}

/// As a record or a listing has it.
pub(crate) fn list_transaction(transaction: Transaction, out: &mut String) {
    let _ = match transaction {
        Transaction::Bond { member, amount } => write!(out, ",B,{member},{amount}"),
        Transaction::Unbond { member } => write!(out, ",U,{member},0"),
        Transaction::Entry { number } => write!(out, ",E,{number},0"),
        _ => Ok(()),
    };
}

/// Whether an accepted draw has left another proposal than the queues of before give: the oldest of each guest in
/// turn, after the guest served last, until the allowance is met or nothing waits.
pub(crate) fn wrong_draw(engine: &Engine, before: &[u32], call: &Call) -> Option<Failure> {
    let drawn = matches!(call, Call::Draw { .. } | Call::Guest { call: GuestCall::Draw { .. }, .. });
    if !drawn {
        return None;
    }
    let allowance = engine.words().0[STATE_ALLOWANCE] as usize;
    let mut taken = [0; GUESTS];
    let mut expected = Vec::new();
    let mut next = before[SERVED] as usize;
    while expected.len() < allowance {
        let turn = (next..next + GUESTS).map(|guest| guest % GUESTS);
        let Some(guest) = turn.into_iter().find(|guest| taken[*guest] < before[WAITING + guest] as usize) else {
            break;
        };
        let at = queue(guest as u32) + TRANSACTION_WORDS * taken[guest];
        expected.extend(Transaction::from_words([before[at], before[at + 1], before[at + 2]]));
        taken[guest] += 1;
        next = guest + 1;
    }
    let proposal = engine.proposal();
    let right = proposal.is_some_and(|proposal| proposal.transactions == expected);
    (!right).then_some(Failure::Draw { member: engine.own() })
}
