//! The command line: `plant --help` has it.

use forgelilac::{Member, Refusal};
use plant::kind::Kind;
use plant::list::List;
use plant::options::{Command, Options, HELP};
use plant::plan::{Plan, Wanted};
use plant::run::{listed, play, recorded, Outcome};
use plant::shrink::shrink;
use plant::world::PlantParts;
use plant::{records, tally::Tally};
use std::fmt::Display;
use std::io::{self, Write};
use std::path::Path;
use std::process::ExitCode;
use std::time::{Duration, Instant};
use std::{env, fs};

fn main() -> ExitCode {
    let words: Vec<_> = env::args().skip(1).collect();
    let done = match Command::of(&words) {
        Ok(Command::Help) => say(HELP).map(|()| true),
        Ok(Command::Run(options)) => run(&options),
        Ok(Command::Seeds(options)) => seeds(&options),
        Ok(Command::Shrink(options)) => short(&options),
        Err(error) => Err(error),
    };
    match done {
        Ok(true) => ExitCode::SUCCESS,
        Ok(false) => ExitCode::from(1),
        Err(error) => {
            eprintln!("plant: {error}");
            ExitCode::from(2)
        }
    }
}

/// A line on standard output, which may be closed.
fn say(line: impl Display) -> Result<(), String> {
    writeln!(io::stdout(), "{line}").map_err(|error| format!("cannot write the result: {error}"))
}

fn played(kind: Kind, seed: u64, wanted: Wanted) -> Result<(Plan, Outcome), String> {
    let plan = Plan::new(kind, seed, wanted);
    let outcome = play(&plan, &PlantParts).map_err(|refusal: Refusal| refusal.to_string())?;
    Ok((plan, outcome))
}

/// Whether it went as runs of this kind go: without a failure, or beyond the bound with a fork.
fn run(options: &Options) -> Result<bool, String> {
    let mut tally = Tally::new(options.kind);
    let mut seed = options.seed;
    let start = Instant::now();
    loop {
        let (plan, outcome) = played(options.kind, seed, options.wanted)?;
        if let Some(line) = tally.add(&plan, &outcome) {
            say(line)?;
        }
        if let Some(folder) = &options.records {
            let entries = recorded(&plan, &PlantParts, &outcome.acts).map_err(|refusal| refusal.to_string())?;
            write_records(&plan, &entries, Path::new(folder))?;
        }
        if let Some(folder) = &options.calls {
            let list = listed(&plan, &PlantParts, &outcome.acts).map_err(|refusal| refusal.to_string())?;
            write_calls(&list, Path::new(folder))?;
        }
        seed = seed.wrapping_add(1);
        if options.steps.is_none_or(|steps| tally.steps >= steps) {
            break;
        }
    }
    say(tally.told(start.elapsed()))?;
    Ok(tally.is_well())
}

fn seeds(options: &Options) -> Result<bool, String> {
    let mut tally = Tally::new(options.kind);
    let start = Instant::now();
    let mut told = start;
    for seed in options.seed..options.seed.saturating_add(options.count) {
        let (plan, outcome) = played(options.kind, seed, options.wanted)?;
        if let Some(line) = tally.add(&plan, &outcome).filter(|_| tally.failed <= 10) {
            say(line)?;
        }
        if told.elapsed() > Duration::from_secs(10) {
            told = Instant::now();
            eprintln!("{}: {} of {} seeds", options.kind, tally.runs, options.count);
        }
    }
    say(tally.told(start.elapsed()))?;
    Ok(tally.is_well())
}

fn short(options: &Options) -> Result<bool, String> {
    let (plan, outcome) = played(options.kind, options.seed, options.wanted)?;
    let time = Duration::from_secs(options.seconds);
    let Some(short) = shrink(&plan, &PlantParts, &outcome.acts, time) else {
        say(format_args!("seed {} does not fail: {} steps", options.seed, outcome.steps))?;
        return Ok(options.kind != Kind::Beyond);
    };
    say(format_args!("seed {}: {} steps, of which {} are enough", options.seed, outcome.steps, short.acts.len()))?;
    for (number, act) in (1..).zip(&short.acts) {
        say(format_args!("{number}. member {}: {act}", act.at))?;
    }
    say(short.failure)?;
    if let Some(folder) = &options.records {
        write_records(&plan, &short.entries, Path::new(folder))?;
    }
    Ok(options.kind == Kind::Beyond)
}

fn write_records(plan: &Plan, entries: &[plant::calls::Entry], folder: &Path) -> Result<(), String> {
    let told = |error: std::io::Error| format!("{}: {error}", folder.display());
    fs::create_dir_all(folder).map_err(told)?;
    for member in Member::ALL.into_iter().filter(|one| entries.iter().any(|entry| entry.who == one.index())) {
        let stream = records::stream(plan, member, entries).map_err(|refusal| refusal.to_string())?;
        let file = folder.join(format!("member-{member}.stream"));
        fs::write(&file, stream).map_err(told)?;
        say(file.display())?;
    }
    Ok(())
}

fn write_calls(list: &List, folder: &Path) -> Result<(), String> {
    fs::create_dir_all(folder).map_err(|error| format!("{}: {error}", folder.display()))?;
    for (name, bytes) in [("calls.list", list.bytes()), ("calls.told", list.told())] {
        let file = folder.join(name);
        fs::write(&file, bytes).map_err(|error| format!("{}: {error}", file.display()))?;
        say(file.display())?;
    }
    Ok(())
}
