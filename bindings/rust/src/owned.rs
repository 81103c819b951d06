//! Proposals, certificates and blocks that own what they hold.

use crate::layout::{CERTIFICATE_WORDS, HELD_WORDS, PROPOSAL_WORDS};
use crate::{certificate_words, proposal_words, transactions_of, Entry, Member, Refusal, Round, Set, Transaction};
use alloc::vec::Vec;
use core::ops::Deref;

/// Transactions of an author for a round.
#[derive(Clone, PartialEq, Eq, Hash, Debug)]
pub struct Proposal {
    /// The member that proposes.
    pub author: Member,
    /// From 1.
    pub round: Round,
    /// Authors of certificates one round earlier.
    pub previous: Set,
    /// At most as many as the allowance.
    pub transactions: Vec<Transaction>,
}

impl Proposal {
    /// Its words, as endorse takes them. Of more than four transactions the number tells: the
    /// engine answers 6.
    #[must_use]
    pub fn to_words(&self) -> [u32; PROPOSAL_WORDS] {
        proposal_words(self.author, self.round, self.previous, &self.transactions)
    }

    /// The proposal of these words; what lies beyond 16 of them is not looked at.
    ///
    /// # Errors
    /// [`Refusal::Malformed`] for words that endorse cannot read; [`Refusal::TransactionsRange`]
    /// for a number of transactions above four.
    pub fn from_words(words: &[u32]) -> Result<Proposal, Refusal> {
        let transactions = transactions_of(words)?.collect();
        let (author, round) = (Member::new(words[0]), Round::new(words[1]));
        Ok(Proposal { author, round, previous: words[2] as Set, transactions })
    }
}

/// A proposal with its endorsers; author and endorsers are its signers.
#[derive(Clone, PartialEq, Eq, Hash, Debug)]
pub struct Certificate {
    /// What was signed.
    pub proposal: Proposal,
    /// Who endorsed it, without the author.
    pub endorsers: Set,
}

impl Certificate {
    /// Its words, as accept takes them.
    #[must_use]
    pub fn to_words(&self) -> [u32; CERTIFICATE_WORDS] {
        certificate_words(&self.proposal.to_words(), self.endorsers)
    }

    /// The certificate of these words; what lies beyond 17 of them is not looked at.
    ///
    /// # Errors
    /// [`Refusal::Malformed`] for words that accept cannot read; [`Refusal::TransactionsRange`]
    /// for a number of transactions above four.
    pub fn from_words(words: &[u32]) -> Result<Certificate, Refusal> {
        let endorsers = words.get(PROPOSAL_WORDS).and_then(|&word| Set::try_from(word).ok());
        let endorsers = endorsers.ok_or(Refusal::Malformed)?;
        Ok(Certificate { proposal: Proposal::from_words(words)?, endorsers })
    }
}

/// What a batch answers to each certificate, at its own place in the row: a slice of results.
#[must_use = "each certificate of the row may have been refused"]
#[derive(Clone, PartialEq, Eq, Hash, Debug)]
pub struct Answers(pub(crate) Vec<Result<(), Refusal>>);

impl Deref for Answers {
    type Target = [Result<(), Refusal>];

    fn deref(&self) -> &[Result<(), Refusal>] {
        &self.0
    }
}

impl IntoIterator for Answers {
    type Item = Result<(), Refusal>;
    type IntoIter = alloc::vec::IntoIter<Result<(), Refusal>>;

    fn into_iter(self) -> Self::IntoIter {
        self.0.into_iter()
    }
}

impl<'a> IntoIterator for &'a Answers {
    type Item = &'a Result<(), Refusal>;
    type IntoIter = core::slice::Iter<'a, Result<(), Refusal>>;

    fn into_iter(self) -> Self::IntoIter {
        self.0.iter()
    }
}

/// A held certificate as it is read. Later versions may have more.
#[derive(Clone, PartialEq, Eq, Hash, Debug)]
#[non_exhaustive]
pub struct Held {
    /// What was signed.
    pub proposal: Proposal,
    /// Those that it was first stored with; another member may have stored others.
    pub endorsers: Set,
    /// The number of its block, nothing where it is in none.
    pub block: Option<u32>,
}

impl Held {
    /// As accept takes it, for passing on.
    #[must_use]
    pub fn certificate(&self) -> Certificate {
        Certificate { proposal: self.proposal.clone(), endorsers: self.endorsers }
    }

    /// The held certificate of these words, as [`crate::lent::certificate`] gives them.
    ///
    /// # Errors
    /// As for [`Certificate::from_words`].
    pub fn from_words(words: &[u32; HELD_WORDS]) -> Result<Held, Refusal> {
        let Certificate { proposal, endorsers } = Certificate::from_words(words)?;
        let block = Some(words[CERTIFICATE_WORDS]).filter(|&number| number != 0);
        Ok(Held { proposal, endorsers, block })
    }
}

/// A block as it is read: its round, and its certificates, in order.
#[derive(Clone, PartialEq, Eq, Hash, Debug)]
pub struct Block {
    /// The round of its anchor.
    pub round: Round,
    /// Its certificates, each with the number of the block.
    pub certificates: Vec<Entry>,
}
