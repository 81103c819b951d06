//! Transactions, sheets, leaders, places, effects: what needs no allocation.

use crate::layout::{
    BODY_WORDS, CERTIFICATE_WORDS, EFFECT_AFTER, EFFECT_BEFORE, EFFECT_LARGEST, EFFECT_WORDS, PROPOSAL_WORDS,
    SHEET_WORDS, TRANSACTIONS, TRANSACTION_WORDS,
};
use crate::lent::abi;
use crate::{Member, Refusal, Round, Set, Share, MEMBERS};

/// A transaction of a proposal. Later versions may have more kinds.
#[derive(Clone, Copy, PartialEq, Eq, Hash, Debug)]
#[non_exhaustive]
pub enum Transaction {
    /// The member's weight rises by the amount, 1 to 1,000.
    Bond {
        /// Whose weight rises.
        member: Member,
        /// By how much.
        amount: u32,
    },
    /// The member leaves.
    Unbond {
        /// Who leaves.
        member: Member,
    },
    /// Any number, meaningless to the engine.
    Entry {
        /// The number.
        number: u32,
    },
}

impl Transaction {
    /// Its words: kind, number, amount.
    #[must_use]
    pub const fn to_words(self) -> [u32; TRANSACTION_WORDS] {
        match self {
            Transaction::Bond { member, amount } => [0, member.get(), amount],
            Transaction::Unbond { member } => [1, member.get(), 0],
            Transaction::Entry { number } => [2, number, 0],
        }
    }

    /// The transaction of these words: kind, number, amount.
    ///
    /// # Errors
    /// [`Refusal::Malformed`] for a kind above 2, and for an unbond or entry with an amount.
    pub const fn from_words(words: [u32; TRANSACTION_WORDS]) -> Result<Transaction, Refusal> {
        match words {
            [0, member, amount] => Ok(Transaction::Bond { member: Member::new(member), amount }),
            [1, member, 0] => Ok(Transaction::Unbond { member: Member::new(member) }),
            [2, number, 0] => Ok(Transaction::Entry { number }),
            _ => Err(Refusal::Malformed),
        }
    }
}

/// The words of a body. Of more than four transactions the number tells: the engine answers 6.
#[must_use]
pub fn body_words(previous: Set, transactions: &[Transaction]) -> [u32; BODY_WORDS] {
    let mut words = [0; BODY_WORDS];
    words[0] = previous.into();
    words[1] = u32::try_from(transactions.len()).unwrap_or(u32::MAX);
    for (slot, transaction) in words[2..].chunks_exact_mut(3).zip(transactions) {
        slot.copy_from_slice(&transaction.to_words());
    }
    words
}

/// The words of a proposal.
#[must_use]
pub fn proposal_words(
    author: Member, round: Round, previous: Set, transactions: &[Transaction],
) -> [u32; PROPOSAL_WORDS] {
    let mut words = [0; PROPOSAL_WORDS];
    words[0] = author.get();
    words[1] = round.get();
    words[2..].copy_from_slice(&body_words(previous, transactions));
    words
}

/// The words of a certificate: those of its proposal, and its endorsers.
#[must_use]
pub fn certificate_words(proposal: &[u32; PROPOSAL_WORDS], endorsers: Set) -> [u32; CERTIFICATE_WORDS] {
    let mut words = [0; CERTIFICATE_WORDS];
    words[..PROPOSAL_WORDS].copy_from_slice(proposal);
    words[PROPOSAL_WORDS] = endorsers.into();
    words
}

/// The transactions of the words of a proposal, a certificate or a held certificate.
///
/// # Errors
/// [`Refusal::Malformed`] for words that the engine does not read as a proposal's;
/// [`Refusal::TransactionsRange`] for a number of transactions above four.
pub fn transactions_of(words: &[u32]) -> Result<impl Iterator<Item = Transaction> + '_, Refusal> {
    let body = words.get(2..PROPOSAL_WORDS).ok_or(Refusal::Malformed)?;
    let slots = || body[2..].chunks_exact(3).take(body[1] as usize);
    let read = |slot: &[u32]| Transaction::from_words([slot[0], slot[1], slot[2]]);
    if Set::try_from(body[0]).is_err() || slots().any(|slot| read(slot).is_err()) {
        return Err(Refusal::Malformed);
    }
    if body[1] as usize > TRANSACTIONS {
        return Err(Refusal::TransactionsRange);
    }
    Ok(slots().filter_map(move |slot| read(slot).ok()))
}

/// The settings: `None` is blank. `Sheet::default()` is all blank.
#[derive(Clone, Copy, PartialEq, Eq, Hash, Debug, Default)]
pub struct Sheet {
    /// 1 to 1,000, blank 20.
    pub lookback: Option<u32>,
    /// The last round: 3 to 1,024, blank 1,024.
    pub ceiling: Option<u32>,
    /// Transactions per proposal: 0 to 4, blank 4.
    pub allowance: Option<u32>,
    /// Starting weights: 0 to 1,000,000, blank 1 for members 0 to 3, else 0.
    pub weights: [Option<u32>; MEMBERS],
    /// 3 to 5, blank 3. The fault bound is (total - 1) divided by it, rounded down, and a quorum is the
    /// total minus that: for total 16 margin 3 gives 5 and 11, margin 5 gives 3 and 13.
    pub margin: Option<u32>,
}

impl Sheet {
    /// Its words, as open takes them.
    #[must_use]
    pub fn to_words(&self) -> [u32; SHEET_WORDS] {
        let mut words = [0; SHEET_WORDS];
        let first = [self.lookback, self.ceiling, self.allowance];
        let settings = first.iter().chain(&self.weights).chain([&self.margin]);
        for (pair, setting) in words.chunks_exact_mut(2).zip(settings) {
            pair[0] = setting.is_some().into();
            pair[1] = setting.unwrap_or(0);
        }
        words
    }
}

/// A held certificate that a commit hangs on. They are ordered by round, then author.
#[derive(Clone, Copy, PartialEq, Eq, PartialOrd, Ord, Hash, Debug, Default)]
pub struct Critical {
    /// Its round.
    pub round: Round,
    /// Its author.
    pub author: Member,
}

/// How far a bond moves the shares of a committee, in thousandths: of its total before the bond, and of its
/// total after it. Later versions may have more.
#[derive(Clone, Copy, PartialEq, Eq, Hash, Debug)]
#[non_exhaustive]
pub struct Effect {
    /// The share of each member before the bond, 0 for a non-member.
    pub before: [Share; MEMBERS],
    /// The share of each member after it, 0 for a non-member.
    pub after: [Share; MEMBERS],
    /// The largest difference of a member's two shares, in thousandths, without sign.
    pub largest: u32,
}

impl Effect {
    /// The effect of its words: sixteen shares before, sixteen after, the largest difference.
    #[must_use]
    pub fn from_words(words: &[u32; EFFECT_WORDS]) -> Effect {
        let shares = |first| core::array::from_fn(|member| Share::new(words[first + member]));
        Effect { before: shares(EFFECT_BEFORE), after: shares(EFFECT_AFTER), largest: words[EFFECT_LARGEST] }
    }
}

/// The leader of an even round, by the weights of its committee: of the m members by rising
/// number, the one at position (round / 2) mod m. An empty committee has none, and so has an
/// odd round.
#[must_use]
pub fn leader(round: Round, weights: &[u32; MEMBERS]) -> Option<Member> {
    // SAFETY: sixteen weights, which are read.
    let leader = unsafe { abi::forgelilac_leader_of(round.get(), weights.as_ptr(), weights.len()) };
    Member::ALL.get(leader as usize).copied()
}
