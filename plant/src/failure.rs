//! What went wrong, in words.

use forgelilac::{Member, Refusal, Round};
use std::fmt;

/// What is never so in a plant whose faulty members weigh at most the fault bound, and whose hosts are right.
#[derive(Clone, PartialEq, Eq, Debug)]
pub enum Failure {
    /// Of the chains of two correct members none is a prefix of the other.
    Fork {
        /// The two.
        members: (Member, Member),
        /// The number of the first block in which they differ.
        block: u32,
    },
    /// A member knows another committee than the rules give for its chain, or another one than a member before.
    Committee {
        /// Who.
        member: Member,
        /// Of which round.
        round: Round,
    },
    /// A block does not stand in the order of the rules.
    Order {
        /// Whose chain.
        member: Member,
        /// Which block.
        block: u32,
    },
    /// The faulty members weigh more than the fault bound, though no correct member signs such bonds: certificates
    /// were made without a quorum, or the plan is wrong.
    BeyondBound {
        /// After which block.
        block: u32,
    },
    /// A refused call has changed a word.
    WordsChanged {
        /// Whose words.
        member: Member,
        /// What it was refused with.
        refusal: Refusal,
    },
    /// The engine's own words are not well formed.
    Malformed {
        /// Whose.
        member: Member,
    },
    /// A draw took other transactions than those whose turn it was.
    Draw {
        /// Whose queues.
        member: Member,
    },
    /// A guest was let in without its right, or kept out with it.
    Right {
        /// Whose guest.
        member: Member,
        /// Which guest.
        caller: u32,
    },
    /// A guest's serial port gave another byte than the listing's next one.
    Port {
        /// Whose guest.
        member: Member,
        /// Which guest.
        guest: u32,
    },
    /// A correct member has signed two proposals of one place.
    SignedTwice {
        /// Who.
        member: Member,
        /// The author of the two.
        author: Member,
        /// Their round.
        round: Round,
    },
    /// A transport handed over a message with a signature that is not there.
    Unchecked {
        /// Whose host.
        member: Member,
        /// Who has not signed.
        signer: Member,
        /// The author of what was to be signed.
        author: Member,
        /// Its round.
        round: Round,
    },
    /// A transport handed over another message than was sent.
    Misread {
        /// Whose host.
        member: Member,
        /// Who had sent it.
        from: Member,
    },
    /// A transport did not hand over a message, though every signature in it is good.
    NotHandedOver {
        /// Whose host.
        member: Member,
        /// Who had sent it.
        from: Member,
    },
    /// What came back after a power failure is not what was stored.
    Restored {
        /// Whose store.
        member: Member,
        /// The count of the store that was said to be done.
        said: u64,
        /// What came back.
        came: CameBack,
    },
}

/// What came back in place of what was stored.
#[derive(Clone, PartialEq, Eq, Debug)]
pub enum CameBack {
    /// Nothing: the host opened a new run.
    Nothing,
    /// It could not be read.
    Unreadable(String),
    /// An earlier store, of this count.
    Earlier(u64),
    /// The state, with another table.
    StateWithoutTable,
    /// The table, with another state.
    TableWithoutState,
    /// State and table, without the endorsements given.
    NoEndorsements,
    /// Words that were never stored together.
    OtherWords,
}

impl fmt::Display for CameBack {
    fn fmt(&self, f: &mut fmt::Formatter<'_>) -> fmt::Result {
        match self {
            CameBack::Nothing => f.write_str("nothing came back, and it opened a new run"),
            CameBack::Unreadable(why) => write!(f, "it cannot be read ({why})"),
            CameBack::Earlier(count) => write!(f, "store {count} came back"),
            CameBack::StateWithoutTable => f.write_str("the state came back with another table"),
            CameBack::TableWithoutState => f.write_str("the table came back with another state"),
            CameBack::NoEndorsements => f.write_str("state and table came back without the endorsements given"),
            CameBack::OtherWords => f.write_str("words came back that were never stored together"),
        }
    }
}

impl fmt::Display for Failure {
    fn fmt(&self, f: &mut fmt::Formatter<'_>) -> fmt::Result {
        match self {
            Failure::Fork { members: (one, other), block } => {
                write!(f, "a fork: the chains of members {one} and {other} part at block {block}")
            }
            Failure::Committee { member, round } => {
                write!(f, "member {member} has another committee of round {round} than the chain gives")
            }
            Failure::Order { member, block } => {
                write!(f, "block {block} of member {member} is not in the order of the rules")
            }
            Failure::BeyondBound { block } => {
                write!(f, "after block {block} the faulty members weigh more than the fault bound, by bonds that nobody else signed")
            }
            Failure::WordsChanged { member, refusal } => {
                write!(f, "a call of member {member} was {refusal}, and has changed a word")
            }
            Failure::Malformed { member } => write!(f, "the state of member {member} is not well formed"),
            Failure::Draw { member } => {
                write!(f, "a draw of member {member} took other transactions than those whose turn it was")
            }
            Failure::Right { member, caller } => {
                write!(f, "guest {caller} of member {member} got another answer than its rights give")
            }
            Failure::Port { member, guest } => {
                write!(f, "the port of guest {guest} of member {member} gave a byte that is not the listing's next")
            }
            Failure::SignedTwice { member, author, round } => {
                write!(f, "member {member} has signed two proposals of author {author} and round {round}")
            }
            Failure::Unchecked { member, signer, author, round } => write!(
                f,
                "the host of member {member} took a message in without checking it: member {signer} has not signed \
                 the proposal of author {author} and round {round}"
            ),
            Failure::Misread { member, from } => {
                write!(f, "the host of member {member} read another message than member {from} had sent")
            }
            Failure::NotHandedOver { member, from } => {
                write!(
                    f,
                    "the host of member {member} dropped a message of member {from}, though its signatures are good"
                )
            }
            Failure::Restored { member, said, came } => write!(
                f,
                "member {member} was told that store {said} was done, so what was signed could leave; after the power \
                 failure {came}"
            ),
        }
    }
}

impl std::error::Error for Failure {}
