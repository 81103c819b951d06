//! Where a member's calls are made, and looked on: no other part of the plant changes an engine.
//!
//! The shape is that of the proved `host::runs`: an [`Entry`] is one call on one member's engine, and [`run`] makes
//! the calls of a list one after another, each on what its member's last one left. The contract of `runs::run` says
//! that chains never fork over such a list, where it is a run.

use crate::failure::Failure;
use forgelilac::ready::{Answer, Call, Calls};
use forgelilac::{Engine, Refusal, Round};
use std::cell::RefCell;

/// One call on one member's engine.
#[derive(Clone, PartialEq, Eq, Debug)]
pub struct Entry {
    /// Whose engine.
    pub who: usize,
    /// What it is asked.
    pub call: Call,
}

/// Makes the calls of a list, one after another, each on its member's engine. An entry of a member that is not
/// there is none.
pub fn run(engines: &mut [Engine], entries: &[Entry]) {
    for entry in entries {
        if let Some(engine) = engines.get_mut(entry.who) {
            // What it answers was seen when the list was made.
            let _answer = engine.make(&entry.call);
        }
    }
}

/// A call that was made, and what came of it.
#[derive(Clone, PartialEq, Eq, Debug)]
pub struct Made {
    /// The round in which it was made.
    pub round: Round,
    /// What was asked.
    pub call: Call,
    /// What was answered.
    pub answer: Result<Answer, Refusal>,
}

/// An engine that is looked at before and after each of its calls.
#[derive(Clone, Debug)]
pub struct Watched {
    engine: Engine,
    /// State and table before the last call.
    before: (Vec<u32>, Vec<u32>),
    made: RefCell<Vec<Made>>,
    failure: Option<Failure>,
}

impl Watched {
    /// Looks on from now on.
    #[must_use]
    pub fn new(engine: Engine) -> Watched {
        Watched { engine, before: (Vec::new(), Vec::new()), made: RefCell::default(), failure: None }
    }

    /// What a call did that no call may do.
    #[must_use]
    pub fn failure(&self) -> Option<&Failure> {
        self.failure.as_ref()
    }

    /// The calls that were made since the last time.
    pub(crate) fn take_made(&self) -> Vec<Made> {
        self.made.take()
    }

    fn look(&mut self, call: &Call, answer: &Result<Answer, Refusal>) {
        let (state, table) = self.engine.words();
        let changed = || self.before.0 != state || self.before.1 != table;
        let failure = match answer {
            Err(Refusal::Malformed) => Some(Failure::Malformed { member: self.engine.own() }),
            Err(refusal) if changed() => Some(Failure::WordsChanged { member: self.engine.own(), refusal: *refusal }),
            Ok(_) => crate::checks::wrong_draw(&self.engine, &self.before.1, call),
            Err(_) => None,
        };
        self.failure = self.failure.take().or(failure);
    }
}

impl Calls for Watched {
    fn make(&mut self, call: &Call) -> Result<Answer, Refusal> {
        let (state, table) = self.engine.words();
        self.before.0.clear();
        self.before.0.extend_from_slice(state);
        self.before.1.clear();
        self.before.1.extend_from_slice(table);
        let round = self.engine.round();
        let answer = self.engine.make(call);
        self.look(call, &answer);
        self.made.get_mut().push(Made { round, call: call.clone(), answer: answer.clone() });
        answer
    }

    fn engine(&self) -> &Engine {
        &self.engine
    }
}
