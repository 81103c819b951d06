//! What guests may do: four rights of callers 0 to 7, fixed at opening.

use crate::layout::GUESTS;
use crate::Refusal;

/// A right, by its number. Adding to one's own queue belongs to propose; a guest adds to no other queue,
/// reaches no port but its own, and never opens or resets.
#[derive(Clone, Copy, PartialEq, Eq, PartialOrd, Ord, Hash, Debug)]
pub enum Right {
    /// Propose, draw, enqueue.
    Propose = 0,
    /// Endorse, certify, accept, batch.
    Sign = 1,
    /// Advance, commit.
    Drive = 2,
    /// Committee, share, bond effect, certificate, block, block rows, preview, critical; the chain; one's own port.
    Read = 3,
}

impl Right {
    /// All four, by their numbers.
    pub const ALL: [Right; 4] = [Right::Propose, Right::Sign, Right::Drive, Right::Read];
}

/// Who may do what: for each right the set of callers that have it, caller c counting 2 to the power c.
/// `Rights::default()` is [`Rights::NONE`].
///
/// ```
/// use forgelilac::{Refusal, Right, Rights};
///
/// let rights = Rights::NONE.allow(3, Right::Propose)?.allow(3, Right::Read)?.allow(5, Right::Read)?;
/// assert_eq!(rights, Rights { propose: 0b0000_1000, read: 0b0010_1000, ..Rights::NONE });
/// assert!(rights.may(5, Right::Read) && !rights.may(5, Right::Propose));
/// assert_eq!(rights.to_word(), 0x2800_0008);
/// # Ok::<(), Refusal>(())
/// ```
#[derive(Clone, Copy, PartialEq, Eq, Hash, Debug, Default)]
pub struct Rights {
    /// Who may propose, draw, and add to its own queue.
    pub propose: u8,
    /// Who may endorse, certify, accept and hand over batches.
    pub sign: u8,
    /// Who may advance and commit.
    pub drive: u8,
    /// Who may read, preview and list, what blocks hold among it, and access its own port.
    pub read: u8,
}

impl Rights {
    /// Nobody may do anything.
    pub const NONE: Rights = Rights::from_word(0);
    /// Callers 0 to 7 may do everything.
    pub const ALL: Rights = Rights::from_word(u32::MAX);

    /// As a state has them, and open takes them: bit 8 × right + caller is set where the caller has the
    /// right.
    #[must_use]
    pub const fn to_word(self) -> u32 {
        u32::from_le_bytes([self.propose, self.sign, self.drive, self.read])
    }

    /// The rights of a word; any word is some.
    #[must_use]
    pub const fn from_word(word: u32) -> Rights {
        let [propose, sign, drive, read] = word.to_le_bytes();
        Rights { propose, sign, drive, read }
    }

    /// These rights, and this one for this caller.
    ///
    /// # Errors
    /// [`Refusal::GuestRange`] for a caller above 7.
    pub const fn allow(self, caller: u32, right: Right) -> Result<Rights, Refusal> {
        if caller >= GUESTS as u32 {
            return Err(Refusal::GuestRange);
        }
        Ok(Rights::from_word(self.to_word() | 1 << (8 * right as u32 + caller)))
    }

    /// Whether a caller has a right; one above 7 has none.
    #[must_use]
    pub const fn may(self, caller: u32, right: Right) -> bool {
        caller < GUESTS as u32 && self.to_word() >> (8 * right as u32 + caller) & 1 == 1
    }
}
