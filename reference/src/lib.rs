//! The rules of docs/RULES.md, and a runner by them: what the programs of src/bin share, and the
//! tests of the library for hosts (tests/hosts). Nothing of the engine is in it. A program that is to
//! be a reading of its own takes nothing from here, and says so in its first line.

pub mod chance;
pub mod ledger;
mod listing;
mod ports;
mod rules;
pub mod runner;

pub use listing::*;
pub use ports::*;
pub use rules::*;
