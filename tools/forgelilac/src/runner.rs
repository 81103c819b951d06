//! One member that answers records, as a runner does, by the engine (docs/RULES.md, "Records").

use crate::meaning::UNREADABLE;
use crate::records::{triples, Record, Unreadable};
use forgelilac::{Engine, Refusal, Round};

/// The ceilings that a runner's table serves.
pub const RUNNERS_CEILING: u32 = 64;

/// What a record is answered.
#[derive(Clone, PartialEq, Eq, Debug)]
pub enum Answer {
    Ok,
    /// By a commit: the number of blocks added.
    Added(u32),
    /// By a chain: its lines, without their ends.
    Listed(Vec<String>),
    Refused(u32),
}

impl Answer {
    /// Its lines, without their ends.
    pub fn lines(&self) -> Vec<String> {
        match self {
            Answer::Ok => vec!["ok".to_owned()],
            Answer::Added(blocks) => vec![format!("ok,{blocks}")],
            Answer::Listed(lines) => lines.iter().cloned().chain(["ok".to_owned()]).collect(),
            Answer::Refused(number) => vec![format!("refused,{number}")],
        }
    }
}

impl From<Result<(), Refusal>> for Answer {
    fn from(result: Result<(), Refusal>) -> Answer {
        match result {
            Ok(()) => Answer::Ok,
            Err(refusal) => Answer::Refused(refusal.number()),
        }
    }
}

pub struct Runner {
    /// The largest ceiling that it opens with.
    ceiling: u32,
    pub engine: Option<Engine>,
}

impl Runner {
    /// One as runners are.
    pub fn plain() -> Runner {
        Runner { ceiling: RUNNERS_CEILING, engine: None }
    }

    /// One that serves every ceiling.
    pub fn of_any_ceiling() -> Runner {
        Runner { ceiling: forgelilac::CEILING, engine: None }
    }

    pub fn answer(&mut self, record: &Result<Record, Unreadable>) -> Answer {
        let Ok(record) = record else { return Answer::Refused(UNREADABLE) };
        if let Record::Open { own, sheet } = record {
            return match Engine::open(*own, sheet) {
                Ok(_) if sheet.ceiling.unwrap_or(forgelilac::CEILING) > self.ceiling => Err(Refusal::Malformed).into(),
                Ok(engine) => {
                    self.engine = Some(engine);
                    Answer::Ok
                }
                Err(refusal) => Err(refusal).into(),
            };
        }
        let Some(engine) = &mut self.engine else { return Err(Refusal::Malformed).into() };
        match record {
            Record::Open { .. } => Answer::Ok,
            Record::Propose { previous, transactions } => engine.propose(*previous, transactions).into(),
            Record::Endorse(proposal) => engine.endorse(proposal).into(),
            Record::Certify { endorsers } => engine.certify(*endorsers).into(),
            Record::Accept(certificate) => engine.accept(certificate).into(),
            Record::Advance => engine.advance().into(),
            Record::Commit => match engine.commit() {
                Ok(blocks) => Answer::Added(blocks),
                Err(refusal) => Err(refusal).into(),
            },
            Record::Chain => match listing_of(engine, 0) {
                Ok(lines) => Answer::Listed(lines),
                Err(refusal) => Err(refusal).into(),
            },
        }
    }
}

/// The lines of a chain's listing, of the blocks after so many.
pub fn listing_of(engine: &Engine, known: u32) -> Result<Vec<String>, Refusal> {
    let mut rounds = Vec::new();
    for number in 1..=engine.blocks() {
        rounds.push(engine.block(number)?);
    }
    let of_block = |number: u32| rounds.get(number as usize - 1).copied().unwrap_or(Round::new(0));
    let held = engine.block_rows(known, engine.blocks().saturating_sub(known))?;
    let line = |held: &forgelilac::Held| {
        let (number, proposal) = (held.block.unwrap_or(1), &held.proposal);
        let (round, author) = (proposal.round, proposal.author);
        format!("{number},{},{round},{author}{}", of_block(number), triples(&proposal.transactions))
    };
    Ok(held.iter().map(line).collect())
}
