//! Forgelilac for Rust hosts: one member's ordering engine as typed calls.
//!
//! `Engine` owns its state and table, and so tests them once and not in each call; it needs an allocator, and
//! the feature `alloc`, which is on
//! unless you turn it off. Without it there are the calls of [`lent`] on slices that the host lends:
//! the crate needs neither the standard library nor any other crate. docs/HOSTS.md explains the
//! calls, what each refusal asks of a host, and what the promise asks; signatures, network, clocks
//! and storage are the host's. Guests call by their rights, which the host fixes at opening:
//! `Engine::guest`, and the guests' forms of [`lent`]; an old guest's serial port is among them. What a
//! host does after each call is a type: the module `ready`.
//!
//! The build script finds the engine's archive: the file that the variable `FORGELILAC_ARCHIVE` names, an
//! installed one by pkg-config, or that of the tree; README.md of the package has the rest.
//!
//! A [`Member`], a [`Round`] and a [`Share`] are types of their own, so that arguments cannot be exchanged;
//! where a member and a round stand together, the member comes first. Numbers of blocks, guests and ports
//! are plain.
//!
//! One member alone, three rounds, one block:
//!
//! ```
//! use forgelilac::{Engine, Entry, Member, Refusal, Round, Sheet, Transaction};
//!
//! let own = Member::new(0);
//! let mut sheet = Sheet { ceiling: Some(64), ..Sheet::default() };
//! sheet.weights[1..4].fill(Some(0));
//! let mut engine = Engine::open(own, &sheet)?;
//! engine.propose(0, &[Transaction::Entry { number: 7 }])?;
//! engine.certify(0)?;
//! for _ in 2..=3 {
//!     engine.advance()?;
//!     engine.propose(own.bit(), &[])?;
//!     engine.certify(0)?;
//! }
//! let entries = [1, 2].map(|round| Entry { block: 1, author: own, round: Round::new(round) });
//! assert_eq!(engine.preview()?, entries);
//! assert_eq!(engine.commit(), Ok(1));
//! assert_eq!(engine.chain()?[0].certificates, entries);
//! assert_eq!(engine.commit(), Err(Refusal::BlockMade));
//! # Ok::<(), Refusal>(())
//! ```
//!
//! # Panics
//!
//! No call panics, whatever it is handed and whatever words it is lent, but for two things that are none of
//! its arguments: where memory for what it gives cannot be had, it ends as `alloc` does; and where the archive
//! that is linked is of another version than [`ENGINE_VERSION`], by major or minor, opening a member or
//! restoring one panics and says so ([`archive_version`]). An archive of another format does not link. Calls use
//! up to [`layout::STACK_BYTES`] of stack, and those of an `Engine` up to [`layout::OWNED_STACK_BYTES`].

#![no_std]
#![deny(missing_docs)]

#[cfg(feature = "alloc")]
extern crate alloc;

mod archive;
#[cfg(feature = "alloc")]
mod engine;
#[cfg(feature = "alloc")]
mod guest;
pub mod layout;
pub mod lent;
mod numbers;
#[cfg(feature = "alloc")]
mod owned;
#[cfg(feature = "alloc")]
mod owner;
#[cfg(feature = "alloc")]
pub mod ready;
mod refusal;
mod rights;
#[cfg(feature = "alloc")]
mod stored;
pub mod storing;
mod terms;
#[cfg(all(test, feature = "alloc"))]
mod tests;
mod version;
#[cfg(feature = "alloc")]
mod words;

pub use archive::{archive_format, archive_version};
#[cfg(feature = "alloc")]
pub use engine::Engine;
#[cfg(feature = "alloc")]
pub use guest::Guest;
pub use layout::STATE_WORDS;
pub use lent::Entry;
pub use numbers::{Member, Round, Share};
#[cfg(feature = "alloc")]
pub use owned::{Answers, Block, Certificate, Held, Proposal};
#[cfg(feature = "alloc")]
pub use owner::Owned;
pub use refusal::Refusal;
pub use rights::{Right, Rights};
#[cfg(feature = "alloc")]
pub use stored::FromBytesError;
pub use storing::StoringRefusal;
pub use terms::{body_words, certificate_words, leader, proposal_words, transactions_of};
pub use terms::{Critical, Effect, Sheet, Transaction};
pub use version::ENGINE_VERSION;
#[cfg(feature = "alloc")]
pub use words::{Lent, Words};

/// The examples of README.md.
#[cfg(all(doctest, feature = "alloc"))]
#[doc = include_str!("../README.md")]
struct Readme;

/// Members are 0 to 15.
pub const MEMBERS: usize = 16;
/// The largest ceiling, and the ceiling of a blank setting.
pub const CEILING: u32 = 1_024;

/// A set of members: member i counts 2 to the power i.
pub type Set = u16;

/// The words that a table for this ceiling needs.
#[must_use]
pub const fn table_words(ceiling: u32) -> u64 {
    layout::ROW_WORDS as u64 * (ceiling as u64 + 1)
}
