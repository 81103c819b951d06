//! The suite for hosts: a host's own store and transport in the place of the plant's, in runs in which power fails,
//! messages are lost, and a faulty member lies.

use crate::act::Act;
use crate::failure::Failure;
use crate::kind::Kind;
use crate::plan::{Plan, Wanted};
use crate::run::play;
use crate::shrink::shrink;
use crate::world::Parts;
use std::fmt;
use std::time::Duration;

/// What a host got wrong, by a short run.
#[derive(Clone, Debug)]
pub struct Found {
    /// By which seed.
    pub seed: u64,
    /// After how many seeds.
    pub tried: u64,
    /// The steps that are enough.
    pub acts: Vec<Act>,
    /// What goes wrong by the last of them.
    pub failure: Failure,
}

impl fmt::Display for Found {
    fn fmt(&self, f: &mut fmt::Formatter<'_>) -> fmt::Result {
        writeln!(f, "{}", self.failure)?;
        writeln!(f, "found by seed {}, the {}. that was tried; these steps are enough:", self.seed, self.tried)?;
        for (number, act) in (1..).zip(&self.acts) {
            writeln!(f, "{number}. member {}: {act}", act.at)?;
        }
        Ok(())
    }
}

/// Plays a run of the kind `all` for each of so many seeds, with these parts in each correct member's host; the first
/// failure, made short. Nothing where there is none.
#[must_use]
pub fn run(parts: &dyn Parts, first: u64, count: u64) -> Option<Found> {
    for (tried, seed) in (1..).zip(first..first.saturating_add(count)) {
        let wanted = Wanted { ceiling: Some(8), ..Wanted::default() };
        let plan = Plan::new(Kind::All, seed, wanted);
        let Ok(outcome) = play(&plan, parts) else { continue };
        if let Some(failure) = outcome.failure {
            let short = shrink(&plan, parts, &outcome.acts, Duration::from_secs(2));
            let (acts, failure) = short.map_or((outcome.acts, failure), |short| (short.acts, short.failure));
            return Some(Found { seed, tried, acts, failure });
        }
    }
    None
}
