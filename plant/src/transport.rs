//! A host's own transport, as the suite tries it, and the plant's own.

use crate::keys::Keys;
use forgelilac::layout::{CERTIFICATE_WORDS, PROPOSAL_WORDS};
use forgelilac::ready::{Input, Message};
use forgelilac::{Certificate, Member, Proposal, Round};

/// A host's own transport: messages as bytes, and back, with their signatures looked at.
pub trait Transport {
    /// The bytes of a message of this member. It has signed what is in it.
    fn pack(&mut self, own: Member, message: &Message) -> Vec<u8>;

    /// What came from a member over its link, once every signature in it is checked; nothing where one is not
    /// good, or the bytes are no message.
    fn unpack(&mut self, from: Member, bytes: &[u8], keys: &Keys) -> Option<Input>;
}

/// The plant's own: a byte that tells the kind, then words, little-endian. Of an endorsement its endorser and the
/// proposal, of certificates the seventeen words of each.
#[derive(Clone, Copy, Debug, Default)]
pub struct Plain;

const PROPOSAL: u8 = b'P';
const ENDORSEMENT: u8 = b'E';
const CERTIFICATES: u8 = b'C';
const QUESTION: u8 = b'Q';

impl Transport for Plain {
    fn pack(&mut self, own: Member, message: &Message) -> Vec<u8> {
        pack(own, message)
    }

    fn unpack(&mut self, from: Member, bytes: &[u8], keys: &Keys) -> Option<Input> {
        unpack(from, bytes).filter(|input| is_good(input, keys))
    }
}

/// Bytes of a message.
#[must_use]
pub fn pack(own: Member, message: &Message) -> Vec<u8> {
    let of = |kind: u8, words: &mut dyn Iterator<Item = u32>| {
        let mut bytes = vec![kind];
        words.for_each(|word| bytes.extend_from_slice(&word.to_le_bytes()));
        bytes
    };
    match message {
        Message::Proposal(proposal) => of(PROPOSAL, &mut proposal.to_words().into_iter()),
        Message::Endorsement(proposal) => of(ENDORSEMENT, &mut std::iter::once(own.get()).chain(proposal.to_words())),
        Message::Certificates(row) => of(CERTIFICATES, &mut row.iter().flat_map(Certificate::to_words)),
        Message::Question { lowest } => of(QUESTION, &mut std::iter::once(lowest.get())),
    }
}

/// What bytes say. Signatures are not looked at.
#[must_use]
pub fn unpack(from: Member, bytes: &[u8]) -> Option<Input> {
    let (kind, bytes) = bytes.split_first()?;
    let words: Vec<_> = bytes.chunks_exact(4).map(|b| u32::from_le_bytes([b[0], b[1], b[2], b[3]])).collect();
    let proposal = |words: &[u32]| words.get(..PROPOSAL_WORDS).and_then(|words| Proposal::from_words(words).ok());
    match *kind {
        PROPOSAL => proposal(&words).map(Input::Proposal),
        ENDORSEMENT => {
            let (by, words) = words.split_first()?;
            proposal(words).map(|proposal| Input::Endorsement { by: Member::new(*by), proposal })
        }
        CERTIFICATES => {
            let row = words.chunks_exact(CERTIFICATE_WORDS).map(Certificate::from_words);
            row.collect::<Result<Vec<_>, _>>().ok().map(Input::Certificates)
        }
        QUESTION => words.first().map(|lowest| Input::Question { from, lowest: Round::new(*lowest) }),
        _ => None,
    }
}

/// Whether all signatures of what came are good.
#[must_use]
pub fn is_good(input: &Input, keys: &Keys) -> bool {
    unsigned(input, keys).is_none()
}

/// A signature of what came that is not good: whose it should be, and under which proposal.
#[must_use]
pub fn unsigned<'a>(input: &'a Input, keys: &Keys) -> Option<(Member, &'a Proposal)> {
    match input {
        Input::Proposal(proposal) => {
            (!keys.is_signed(proposal.author, proposal)).then_some((proposal.author, proposal))
        }
        Input::Endorsement { by, proposal } => (!keys.is_signed(*by, proposal)).then_some((*by, proposal)),
        Input::Certificates(row) => row.iter().find_map(|one| keys.unsigned(one).map(|signer| (signer, &one.proposal))),
        _ => None,
    }
}
