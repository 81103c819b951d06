//! A failing run made short: steps are left out as long as the rest still fails in the same way.

use crate::act::Act;
use crate::calls::Entry;
use crate::failure::Failure;
use crate::plan::Plan;
use crate::world::{Parts, World};
use std::mem::discriminant;
use std::time::{Duration, Instant};

/// A failing run.
#[derive(Clone, Debug)]
pub struct Short {
    /// Its steps, those of correct members alone.
    pub acts: Vec<Act>,
    /// What goes wrong by the last of them.
    pub failure: Failure,
    /// The accepted calls of correct members.
    pub entries: Vec<Entry>,
}

/// What the steps come to, played again: the failure, after how many steps, and the calls.
fn replayed(plan: &Plan, parts: &dyn Parts, acts: &[Act]) -> Option<(Failure, usize, Vec<Entry>)> {
    let mut world = World::new(plan, parts).ok()?.recording();
    for (step, act) in (1..).zip(acts) {
        world.apply(act);
        if let Some(failure) = world.failure() {
            return Some((failure.clone(), step, world.recorded()));
        }
    }
    None
}

/// The shortest failing run that is found in the time: first without what faulty members do by themselves, then
/// without longer and shorter stretches of steps. Nothing where the steps do not fail.
#[must_use]
pub fn shrink(plan: &Plan, parts: &dyn Parts, acts: &[Act], time: Duration) -> Option<Short> {
    let until = Instant::now() + time;
    let (failure, steps, mut entries) = replayed(plan, parts, acts)?;
    let mut short = Short { acts: acts[..steps].to_vec(), failure, entries: Vec::new() };
    let kind = discriminant(&short.failure);
    let mut try_without = |short: &mut Short, keeps: &dyn Fn(usize, &Act) -> bool| {
        let kept = short.acts.iter().enumerate().filter(|(at, act)| keeps(*at, act)).map(|(_, act)| act.clone());
        let fewer: Vec<_> = kept.collect();
        let again = replayed(plan, parts, &fewer).filter(|(failure, ..)| discriminant(failure) == kind);
        let Some((failure, steps, calls)) = again else { return false };
        (short.acts, short.failure, entries) = (fewer[..steps].to_vec(), failure, calls);
        true
    };
    let correct = |act: &Act| act.at < plan.computers as usize && plan.faulty >> act.at & 1 == 0;
    // What faulty members have sent is in the messages, and their signatures are always good.
    try_without(&mut short, &|_, act| correct(act));
    for member in 0..plan.computers as usize {
        try_without(&mut short, &|_, act| act.at != member);
    }
    let mut length = short.acts.len() / 2;
    while length > 0 && Instant::now() < until {
        let before = short.acts.len();
        // From the end, so that what is left in front stays where it is.
        let mut start = before;
        while start > 0 && Instant::now() < until {
            start = start.saturating_sub(length);
            let end = start + length;
            try_without(&mut short, &|at, _| !(start..end).contains(&at));
            start = start.min(short.acts.len());
        }
        length = if length == 1 && short.acts.len() < before { 1 } else { length / 2 };
    }
    short.entries = entries;
    Some(short)
}
