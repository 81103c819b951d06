//! What a host stores, the proof that it did, and what it goes on with after a stop.

use crate::layout::{PROPOSAL_WORDS, STATE_MARGIN, STATE_OWN, STATE_WEIGHTS};
use crate::{stored, Engine, FromBytesError, Member, Proposal, MEMBERS, STATE_WORDS};
use alloc::vec::Vec;
use core::fmt;

/// A host's own store.
pub trait Store {
    /// Why it was not stored.
    type Error;

    /// Stores the record whole. It returns once the record is there whatever happens next: what was signed
    /// leaves straight afterwards. The signatures under one's own proposal and under `record.endorsed` are
    /// stored with it, in one piece.
    ///
    /// # Errors
    /// Where the record may not be there; then nothing leaves.
    fn store(&mut self, record: &Record<'_>) -> Result<(), Self::Error>;
}

/// What is to be stored, in one piece.
#[derive(Clone, Copy, Debug)]
pub struct Record<'a> {
    /// It rises by one with every store.
    pub count: u64,
    /// The words of the state.
    pub state: &'a [u32; STATE_WORDS],
    /// The words of the table.
    pub table: &'a [u32],
    /// Proposals of others that the member has endorsed, and no certificate of which is held yet: those whose
    /// endorsement it may send again.
    pub endorsed: &'a [Proposal],
}

/// What was stored, as it came back.
#[derive(Clone, PartialEq, Eq, Debug)]
pub struct Kept {
    /// As in the [`Record`].
    pub count: u64,
    /// As in the [`Record`].
    pub state: [u32; STATE_WORDS],
    /// As in the [`Record`].
    pub table: Vec<u32>,
    /// As in the [`Record`].
    pub endorsed: Vec<Proposal>,
}

impl Record<'_> {
    /// A record that its host may keep.
    #[must_use]
    pub fn kept(&self) -> Kept {
        Kept { count: self.count, state: *self.state, table: self.table.to_vec(), endorsed: self.endorsed.to_vec() }
    }

    /// The record as bytes with a sum (CRC-32) over all of them, little-endian: the count, the number of
    /// endorsed proposals and the words of each, [`Engine::to_bytes`], the sum. The sum tells torn and damaged
    /// words, and is no signature.
    #[must_use]
    pub fn to_bytes(&self) -> Vec<u8> {
        let mut bytes = self.count.to_le_bytes().to_vec();
        bytes.extend((self.endorsed.len() as u32).to_le_bytes());
        let words = self.endorsed.iter().flat_map(Proposal::to_words);
        bytes.extend(words.flat_map(u32::to_le_bytes));
        bytes.extend(stored::to_bytes(self.state, self.table));
        bytes.extend(sum(&bytes).to_le_bytes());
        bytes
    }
}

impl Kept {
    /// What [`Record::to_bytes`] gave.
    ///
    /// # Errors
    /// [`RestoreError::Torn`] where the sum is another or bytes are missing, then [`RestoreError::Bytes`].
    pub fn from_bytes(bytes: &[u8]) -> Result<Kept, RestoreError> {
        let (bytes, stored) = bytes.split_last_chunk().ok_or(RestoreError::Torn)?;
        if u32::from_le_bytes(*stored) != sum(bytes) {
            return Err(RestoreError::Torn);
        }
        let (count, rest) = bytes.split_first_chunk().ok_or(RestoreError::Torn)?;
        let (number, rest) = rest.split_first_chunk().ok_or(RestoreError::Torn)?;
        let length = (u32::from_le_bytes(*number) as usize).saturating_mul(4 * PROPOSAL_WORDS);
        let (proposals, engine) = rest.split_at_checked(length).ok_or(RestoreError::Torn)?;
        let words: Vec<_> = proposals.chunks_exact(4).map(|b| u32::from_le_bytes([b[0], b[1], b[2], b[3]])).collect();
        let endorsed = words.chunks_exact(PROPOSAL_WORDS).map(Proposal::from_words).collect::<Result<_, _>>();
        let engine = Engine::from_bytes(engine).map_err(RestoreError::Bytes)?;
        let (state, table) = engine.words();
        Ok(Kept {
            count: u64::from_le_bytes(*count),
            state: *state,
            table: table.to_vec(),
            endorsed: endorsed.map_err(|_| RestoreError::Torn)?,
        })
    }
}

/// CRC-32.
pub(crate) fn sum(bytes: &[u8]) -> u32 {
    !bytes.iter().fold(u32::MAX, |sum, byte| {
        (0..8).fold(sum ^ u32::from(*byte), |sum, _| sum >> 1 ^ if sum & 1 == 1 { 0xedb8_8320 } else { 0 })
    })
}

/// The proof that a host's words were stored: only [`super::Host::store`] gives one, and what a call leaves to
/// be sent is had only by handing it in.
#[must_use = "it releases what is to be sent"]
#[derive(Clone, Copy, PartialEq, Eq, Debug)]
pub struct Stored {
    pub(super) host: usize,
    pub(super) count: u64,
}

impl Stored {
    /// The count of the record that was stored.
    #[must_use]
    pub fn count(&self) -> u64 {
        self.count
    }
}

/// Why a member cannot go on with what was stored.
#[derive(Clone, Copy, PartialEq, Eq, Debug)]
#[non_exhaustive]
pub enum RestoreError {
    /// The sum is another than that of the bytes, or bytes are missing.
    Torn,
    /// No engine's bytes.
    Bytes(FromBytesError),
    /// The words are no member's as calls leave them: the state is not well formed, histories are not
    /// whole, or blocks do not hang together.
    Malformed,
    /// The words are those of this member.
    OtherMember(Member),
    /// The words have other settings than the plant.
    OtherSettings,
}

impl fmt::Display for RestoreError {
    fn fmt(&self, f: &mut fmt::Formatter<'_>) -> fmt::Result {
        match self {
            RestoreError::Torn => f.write_str("the stored bytes are torn or damaged"),
            RestoreError::Bytes(error) => error.fmt(f),
            RestoreError::Malformed => f.write_str("the stored state is not well formed"),
            RestoreError::OtherMember(member) => write!(f, "the stored words are those of member {member}"),
            RestoreError::OtherSettings => f.write_str("the stored words have other settings than the plant"),
        }
    }
}

impl core::error::Error for RestoreError {}

/// Whether two states have the same settings: words 1 to 19 and the margin.
pub(super) fn same_settings(one: &[u32; STATE_WORDS], other: &[u32; STATE_WORDS]) -> bool {
    let settings = STATE_OWN + 1..STATE_WEIGHTS + MEMBERS;
    one[settings.clone()] == other[settings] && one[STATE_MARGIN] == other[STATE_MARGIN]
}
