//! The engine of what a command is given: of a stream's records, or of stored words.

use crate::arguments::{Arguments, Choice};
use crate::failure::{input, Failure};
use crate::formed::first_fault;
use crate::progress::Progress;
use crate::records::{raws_of, read, Raw, Record};
use crate::runner::{Answer, Runner};
use crate::store::{source_of, Source, Words};
use forgelilac::Engine;

/// By it a stream's opens may have any ceiling.
pub const ANY_CEILING: Choice =
    Choice { name: "any-ceiling", value: None, about: "opens of ceilings above 64 too, which runners refuse with 1" };

/// A runner, or one that serves any ceiling where that is asked for.
pub fn runner_for(arguments: &Arguments) -> Runner {
    if arguments.has(ANY_CEILING.name) {
        Runner::of_any_ceiling()
    } else {
        Runner::plain()
    }
}

/// What a member answers to the records, one by one.
pub fn answers_to<'a>(runner: &'a mut Runner, raws: &'a [Raw<'a>]) -> impl Iterator<Item = Answer> + 'a {
    let mut progress = Progress::of("records");
    raws.iter().map(move |raw| {
        progress.at(raw.number, raws.len());
        runner.answer(&read(raw))
    })
}

/// That a member was opened, or why none was.
pub fn opened(runner: &Runner, raws: &[Raw<'_>]) -> Result<(), Failure> {
    if runner.engine.is_some() {
        return Ok(());
    }
    let above = |raw: &Raw<'_>| match read(raw) {
        Ok(Record::Open { own, sheet }) => {
            sheet.ceiling.is_none_or(|ceiling| ceiling > 64) && Engine::open(own, &sheet).is_ok()
        }
        _ => false,
    };
    if !raws.iter().any(|raw| raw.ended) {
        input("the stream opens no member: records end in CRLF, and in the stream there is none")
    } else if raws.iter().any(above) {
        input("the stream opens no member: its ceiling is above 64, which a runner refuses with 1; --any-ceiling serves it")
    } else {
        input("the stream opens no member: no open in it is accepted (forgelilac check --all tells why)")
    }
}

/// Words that are well formed.
pub fn formed(words: &Words) -> Result<Engine, Failure> {
    if let Some(note) = &words.note {
        say_beside(note);
    }
    match first_fault(&words.state, &words.table) {
        Some(fault) => input(format!("the stored words are not well formed: {fault}")),
        None => words.engine().or_else(|_| {
            input(
                "the stored words are well formed, and no calls leave them so: a certificate or the proposal names one \
                 that is not held, one in a block names one in none, or a block has a certificate above its own round, \
                 or one in a round below and none in the round after",
            )
        }),
    }
}

/// The engine at the end of a stream, or of stored words.
pub fn engine_of(arguments: &Arguments) -> Result<Engine, Failure> {
    match source_of(arguments)? {
        Source::Words(words) => formed(&words),
        Source::Stream(stream) => {
            let (mut runner, raws) = (runner_for(arguments), raws_of(&stream));
            answers_to(&mut runner, &raws).for_each(drop);
            opened(&runner, &raws)?;
            runner.engine.map_or_else(|| input("the stream opens no member"), Ok)
        }
    }
}

/// A line on standard error, for whoever listens.
pub fn say_beside(line: &str) {
    use std::io::Write;
    let _ = writeln!(std::io::stderr(), "{line}");
}
