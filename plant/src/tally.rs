//! What runs have come to, counted.

use crate::failure::Failure;
use crate::kind::Kind;
use crate::plan::Plan;
use crate::run::Outcome;
use std::time::Duration;

/// Runs of a kind, counted.
#[derive(Clone, Debug)]
pub struct Tally {
    kind: Kind,
    /// How many runs.
    pub runs: u64,
    /// How many of them failed.
    pub failed: u64,
    /// How many of these by a fork.
    pub forks: u64,
    /// The fewest, and the most, members.
    pub members: Option<(u32, u32)>,
    /// The lowest, and the highest, ceiling.
    pub ceilings: Option<(u32, u32)>,
    /// How many steps.
    pub steps: u64,
    /// How many blocks.
    pub blocks: u64,
    /// How many runs in which all correct members came to the ceiling.
    pub finished: u64,
    /// The first seeds of runs that neither failed nor came there.
    pub still: Vec<u64>,
    /// The most rounds between two blocks.
    pub widest: u32,
    /// Rounds that were left behind in all.
    pub rounds: u64,
    /// Of how many places correct members have signed different proposals.
    pub split: u64,
    /// How many times power has failed.
    pub power: u64,
    /// The fewest, and the most, steps to a failure.
    pub until: Option<(u32, u32)>,
}

impl Tally {
    /// No run yet.
    #[must_use]
    pub fn new(kind: Kind) -> Tally {
        Tally {
            kind,
            runs: 0,
            failed: 0,
            forks: 0,
            members: None,
            ceilings: None,
            steps: 0,
            blocks: 0,
            finished: 0,
            still: Vec::new(),
            widest: 0,
            rounds: 0,
            split: 0,
            power: 0,
            until: None,
        }
    }

    /// Counts a run; a line where it failed.
    pub fn add(&mut self, plan: &Plan, outcome: &Outcome) -> Option<String> {
        self.runs += 1;
        self.members = widened(self.members, plan.members);
        self.ceilings = widened(self.ceilings, plan.sheet.ceiling.unwrap_or_default());
        self.steps += u64::from(outcome.steps);
        self.blocks += outcome.blocks as u64;
        self.rounds += u64::from(outcome.lowest.get());
        self.finished += u64::from(outcome.finished);
        if !outcome.finished && outcome.failure.is_none() && self.still.len() < 5 {
            self.still.push(plan.seed);
        }
        self.split += outcome.split as u64;
        self.power += outcome.acts.iter().filter(|act| act.fails.is_some()).count() as u64;
        self.widest = self.widest.max(outcome.widest);
        let failure = outcome.failure.as_ref()?;
        self.failed += 1;
        self.forks += u64::from(matches!(failure, Failure::Fork { .. }));
        self.until = widened(self.until, outcome.steps);
        Some(format!("seed {}, {} members, after {} steps: {failure}", plan.seed, plan.members, outcome.steps))
    }

    /// Whether it went as it should: no run failed, or beyond the bound at least one.
    #[must_use]
    pub fn is_well(&self) -> bool {
        (self.failed > 0) == (self.kind == Kind::Beyond)
    }

    /// All of it in a few lines.
    #[must_use]
    pub fn told(&self, time: Duration) -> String {
        let seconds = time.as_secs_f64();
        let speed = self.steps as f64 / seconds.max(1e-9);
        let still: Vec<_> = self.still.iter().map(u64::to_string).collect();
        let still = if still.is_empty() { String::new() } else { format!(", not seeds {}", still.join(" ")) };
        let until = self.until.map_or(String::new(), |(least, most)| {
            format!(", {} by a fork, after {least} to {most} steps", self.forks)
        });
        let (few, many) = self.members.unwrap_or_default();
        let (low, high) = self.ceilings.unwrap_or_default();
        format!(
            "{}: {} runs, {} failed{until}\n{few} to {many} members, ceilings {low} to {high}\n{} steps in {seconds:.1} s, {speed:.0} a second\n{} blocks, rounds {} in \
             sum; {} runs came to the ceiling{still}; at most {} rounds between two blocks\n{} power failures; {} places of \
             which correct members signed two proposals",
            self.kind,
            self.runs,
            self.failed,
            self.steps,
            self.blocks,
            self.rounds,
            self.finished,
            self.widest,
            self.power,
            self.split
        )
    }
}

/// The range with one more number in it.
fn widened(range: Option<(u32, u32)>, number: u32) -> Option<(u32, u32)> {
    let (least, most) = range.unwrap_or((number, number));
    Some((least.min(number), most.max(number)))
}
