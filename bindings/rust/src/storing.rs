//! A member as bytes with a digest over them, and the bytes that are signed: on words that the host lends.
//!
//! Everything here goes by a number of the run, of the host's choosing: the same on all members, and in no
//! other run. What is refused changes nothing. docs/TABLES.md has the stored form to the byte, docs/HOSTS.md
//! ("Stored words", "What is signed, to the byte") what to do with both.
//!
//! A digest tells bytes that were torn or mixed. It is no signature: whoever can write to the store can store
//! anything, and an older store is as whole as the latest.

pub use crate::lent::{certificate_bytes, endorsement_bytes, load, proposal_bytes, store};

use crate::layout::STATE_WORDS;
use crate::table_words;
use core::fmt;

/// Bytes that are signed of a proposal, or of an endorsement of it.
pub const SIGNED_BYTES: usize = 100;
/// Bytes that are signed of a whole certificate.
pub const SIGNED_CERTIFICATE_BYTES: usize = 104;

macro_rules! refusals {
    ($($name:ident = $number:literal, $meaning:literal;)*) => {
        /// Why words were not stored, loaded or put as bytes to sign. No call is refused with one of these
        /// numbers. Later versions may have more.
        #[derive(Clone, Copy, PartialEq, Eq, Hash, Debug)]
        #[must_use = "what was asked for was not done"]
        #[non_exhaustive]
        pub enum StoringRefusal { $(#[doc = $meaning] $name = $number,)* }

        impl StoringRefusal {
            /// The refusal with this number, nothing for a number that none has.
            #[must_use]
            pub const fn of(number: u32) -> Option<StoringRefusal> {
                match number { $($number => Some(StoringRefusal::$name),)* _ => None }
            }

            /// What it says, in words.
            #[must_use]
            pub const fn meaning(self) -> &'static str {
                match self { $(StoringRefusal::$name => $meaning,)* }
            }
        }
    };
}

refusals! {
    UnreadableWords = 101, "words that cannot be read, or a table that is too short";
    NoRoom = 102, "too few bytes or words to write to";
    OtherMark = 103, "no stored member";
    OtherFormat = 104, "stored in another format";
    Torn = 105, "torn: another length or another digest";
    OtherMember = 106, "stored by another member";
    OtherRun = 107, "stored in another run";
}

impl StoringRefusal {
    /// Its number, 101 to 107.
    #[must_use]
    pub const fn number(self) -> u32 {
        self as u32
    }
}

impl fmt::Display for StoringRefusal {
    fn fmt(&self, f: &mut fmt::Formatter<'_>) -> fmt::Result {
        write!(f, "refused with {}: {}", self.number(), self.meaning())
    }
}

impl core::error::Error for StoringRefusal {}

/// Ok where the archive answered 0, else the refusal of the number that it answered.
pub(crate) fn done(answer: u32) -> Result<(), StoringRefusal> {
    match StoringRefusal::of(answer) {
        _ if answer == 0 => Ok(()),
        Some(refusal) => Err(refusal),
        None => unreachable!("the archive answered {answer}"),
    }
}

/// How many bytes a member of this ceiling is stored in.
#[must_use]
pub const fn stored_bytes(ceiling: u32) -> u64 {
    16 + 4 * (STATE_WORDS as u64 + table_words(ceiling)) + 32
}
