//! Who has signed what. In the plant a signature is this note of it: it cannot be forged, and a faulty member
//! signs whatever it likes.

use forgelilac::layout::PROPOSAL_WORDS;
use forgelilac::{Certificate, Member, Proposal, Set};
use std::collections::HashMap;

/// The signatures that members have given.
#[derive(Clone, Debug, Default)]
pub struct Keys {
    faulty: Set,
    signed: HashMap<(u32, u32, u32), [u32; PROPOSAL_WORDS]>,
}

impl Keys {
    /// No signature yet; those of these members are always good.
    #[must_use]
    pub fn new(faulty: Set) -> Keys {
        Keys { faulty, signed: HashMap::new() }
    }

    /// Whether a member has signed this proposal: as its author, or as one who endorses it.
    #[must_use]
    pub fn is_signed(&self, by: Member, proposal: &Proposal) -> bool {
        let place = (by.get(), proposal.author.get(), proposal.round.get());
        self.faulty & by.bit() != 0 || self.signed.get(&place).is_some_and(|signed| *signed == proposal.to_words())
    }

    /// Who of the signers of a certificate has not signed it: its author first, then the endorsers.
    #[must_use]
    pub fn unsigned(&self, certificate: &Certificate) -> Option<Member> {
        let author = certificate.proposal.author;
        let signers = std::iter::once(author).chain(Member::all_in(certificate.endorsers));
        signers.into_iter().find(|signer| !self.is_signed(*signer, &certificate.proposal))
    }

    /// Of how many places correct members have signed different proposals: their author is faulty.
    #[must_use]
    pub fn split(&self) -> usize {
        let mut signed: Vec<_> = self.signed.iter().map(|((_, author, round), words)| (author, round, words)).collect();
        signed.sort_unstable();
        signed.dedup();
        signed.chunk_by(|one, next| one.0 == next.0 && one.1 == next.1).filter(|place| place.len() > 1).count()
    }

    /// A correct member signs; false where it has signed another proposal of that place.
    pub(crate) fn sign(&mut self, by: Member, proposal: &Proposal) -> bool {
        let place = (by.get(), proposal.author.get(), proposal.round.get());
        *self.signed.entry(place).or_insert(proposal.to_words()) == proposal.to_words()
    }
}
