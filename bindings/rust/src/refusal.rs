//! Why a call was refused.

use core::fmt;

macro_rules! refusals {
    ($($name:ident = $number:literal, $meaning:literal;)*) => {
        /// Why a call was refused; the numbers are those of docs/RULES.md. Later versions may
        /// have more.
        #[derive(Clone, Copy, PartialEq, Eq, Hash, Debug)]
        #[must_use = "what was asked for was not done"]
        #[non_exhaustive]
        pub enum Refusal { $(#[doc = $meaning] $name = $number,)* }

        impl Refusal {
            /// The refusal with this number, nothing for a number that no call answers.
            #[must_use]
            pub const fn of(number: u32) -> Option<Refusal> {
                match number { $($number => Some(Refusal::$name),)* _ => None }
            }

            /// What it says, in words.
            #[must_use]
            pub const fn meaning(self) -> &'static str {
                match self { $(Refusal::$name => $meaning,)* }
            }
        }
    };
}

refusals! {
    Malformed = 1, "state not well formed, a table too short, or words that cannot be read";
    SettingRange = 2, "setting out of range";
    NoWeight = 3, "no positive weight";
    MemberRange = 4, "member above 15";
    RoundRange = 5, "round 0 or over the ceiling";
    TransactionsRange = 6, "a transaction out of range or over the allowance";
    PreviousEmpty = 7, "previous set empty above round 1, or not empty in it";
    CommitteeUnknown = 8, "committee of the round unknown";
    Outside = 9, "own number, a signer or the member asked for outside the committee";
    PlaceTaken = 10, "a proposal exists, place held or already endorsed";
    PreviousMissing = 11, "a named previous certificate not held";
    PreviousQuorum = 12, "previous set no quorum of the round before";
    SignersShort = 13, "signers short of a quorum";
    SignedTwice = 14, "endorse: author is oneself; certify: oneself among them; accept: author among endorsers";
    NoProposal = 15, "no proposal this round";
    SameHeld = 16, "the same certificate held";
    OtherHeld = 17, "another certificate held there";
    AtCeiling = 18, "at the ceiling";
    NoCommitRound = 19, "the present round is even or 1";
    BlockMade = 20, "last block's round at least the round before";
    NoAnchor = 21, "no anchor in the round before";
    VotesShort = 22, "votes weigh not more than the fault bound";
    NoneThere = 23, "no such certificate or block";
    LengthRange = 25, "batch: a row over 64, or answers shorter than the row; preview: a list with fewer than 16 places per round of the ceiling; critical: a list with fewer than 32 places; block rows: a list without room for the blocks' certificates";
    GuestRange = 26, "guest, caller or port above 7";
    QueueFull = 27, "the queue holds eight transactions";
    ThinRound = 28, "the authors of the certificates held in the present round form no quorum of its committee";
    NoRight = 29, "the caller lacks the right that the call needs";
    EmptyCommittee = 30, "committee of the round empty";
    OffsetRange = 31, "offset above 7";
}

impl Refusal {
    /// Its number in docs/RULES.md.
    #[must_use]
    pub const fn number(self) -> u32 {
        self as u32
    }
}

impl fmt::Display for Refusal {
    fn fmt(&self, f: &mut fmt::Formatter<'_>) -> fmt::Result {
        write!(f, "refused with {}: {}", self.number(), self.meaning())
    }
}

impl core::error::Error for Refusal {}
