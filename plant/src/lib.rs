//! A whole plant in one process: members' hosts around the library itself, their network, their disks and their
//! faults, all by one seed. The same seed gives the same run again.
//!
//! docs/PLANT.md says how to use it, what it looks at after each step, and what of that is proved and what only
//! tried.

#![deny(missing_docs)]

pub mod act;
pub mod c;
pub mod calls;
pub mod chance;
pub mod checks;
pub mod disk;
pub mod failure;
pub mod keys;
pub mod kind;
pub mod list;
pub mod options;
pub mod plan;
pub mod records;
pub mod run;
pub mod shrink;
pub mod store;
pub mod suite;
pub mod tally;
pub mod transport;
pub mod world;
