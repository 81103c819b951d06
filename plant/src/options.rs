//! What the command line asks for.

use crate::kind::Kind;
use crate::plan::Wanted;

/// The help of all commands.
pub const HELP: &str = "\
plant: a whole plant in one process, by one seed

    plant run --kind KIND [--seed N] [--members N] [--ceiling N] [--steps N] [--records FOLDER] [--calls FOLDER]
        plays runs one after another, the first by this seed, until so many steps are made, and says what came of
        them; without --steps one run. Writes of the last one, into FOLDER, the records of each correct member, as
        the runner takes them; or all calls of correct members, calls.list, as the replayer takes them, and what it
        is to tell of them, calls.told
    plant seeds --kind KIND [--from N] [--count N] [--members N] [--ceiling N]
        plays a run for each seed, and says how many failed
    plant shrink --kind KIND [--seed N] [--members N] [--ceiling N] [--seconds N] [--records FOLDER]
        plays a run, makes it short if it fails, for so many seconds at most, and tells it step by step; writes the
        records of each correct member into FOLDER
    plant --help, plant COMMAND --help

Seed, first seed and count are 1 where they are not given, and seconds 20; members and ceiling go by the seed.

KIND is one of
    lossy         messages are lost, delayed, doubled and overtake one another
    partitions    the plant falls into two parts and heals
    crashes       power fails between calls and in the middle of stores
    equivocation  faulty members within the bound make two proposals of a place, endorse both, and lie
    weights       bonds and unbonds on the chain move the weights
    guests        guests with queues, rights and serial ports make calls
    all           all of these
    beyond        faulty members weigh more than the fault bound: chains may part

The status is 0 where nothing went wrong, 1 where a run failed, and 2 where the command line is not understood or
something cannot be written. Of kind beyond a fork is what is looked for: the status is 0 where one was found.";

/// A command with what it is given.
#[derive(Clone, PartialEq, Eq, Debug)]
pub enum Command {
    /// The help is asked for.
    Help,
    /// Runs one after another.
    Run(Options),
    /// A run for each seed.
    Seeds(Options),
    /// A run, made short.
    Shrink(Options),
}

/// What a command is given.
#[derive(Clone, PartialEq, Eq, Debug)]
pub struct Options {
    /// Of which kind.
    pub kind: Kind,
    /// The first seed.
    pub seed: u64,
    /// How many seeds.
    pub count: u64,
    /// What is wanted of each run.
    pub wanted: Wanted,
    /// How many steps of all runs together.
    pub steps: Option<u64>,
    /// How long a run is made shorter.
    pub seconds: u64,
    /// Where records go.
    pub records: Option<String>,
    /// Where the list of all calls goes.
    pub calls: Option<String>,
}

impl Command {
    /// Of the words behind the program's name.
    ///
    /// # Errors
    /// In a line, what is not understood.
    pub fn of(words: &[String]) -> Result<Command, String> {
        let words: Vec<_> = words.iter().map(String::as_str).collect();
        match words[..] {
            [] | ["--help" | "-h" | "help", ..] | [_, "--help" | "-h"] => Ok(Command::Help),
            ["run", ref rest @ ..] => {
                let known = ["kind", "seed", "members", "ceiling", "steps", "records", "calls"];
                Options::of(rest, &known).map(Command::Run)
            }
            ["seeds", ref rest @ ..] => {
                Options::of(rest, &["kind", "from", "count", "members", "ceiling"]).map(Command::Seeds)
            }
            ["shrink", ref rest @ ..] => {
                Options::of(rest, &["kind", "seed", "members", "ceiling", "seconds", "records"]).map(Command::Shrink)
            }
            [other, ..] => Err(format!("there is no command '{other}': run, seeds, shrink")),
        }
    }
}

impl Options {
    fn of(words: &[&str], known: &[&str]) -> Result<Options, String> {
        let mut kind = None;
        let mut options = Options {
            kind: Kind::All,
            seed: 1,
            count: 1,
            wanted: Wanted::default(),
            steps: None,
            seconds: 20,
            records: None,
            calls: None,
        };
        for pair in words.chunks(2) {
            let name = pair[0].strip_prefix("--").filter(|name| known.contains(name));
            let name = name.ok_or_else(|| format!("there is no option '{}': --{}", pair[0], known.join(", --")))?;
            let value = *pair.get(1).ok_or_else(|| format!("--{name} wants a value"))?;
            match name {
                "kind" => kind = Some(value.parse()?),
                "seed" | "from" => options.seed = number(name, value, 0, u64::MAX)?,
                "count" => options.count = number(name, value, 1, u64::MAX)?,
                "members" => options.wanted.members = Some(number(name, value, 1, 16)? as u32),
                "ceiling" => options.wanted.ceiling = Some(number(name, value, 3, 1_024)? as u32),
                "steps" => options.steps = Some(number(name, value, 1, u64::MAX)?),
                "seconds" => options.seconds = number(name, value, 1, 3_600)?,
                "calls" => options.calls = Some(value.to_owned()),
                _ => options.records = Some(value.to_owned()),
            }
        }
        options.kind = kind.ok_or_else(|| format!("--kind is missing: {}", Kind::ALL.map(Kind::name).join(", ")))?;
        Ok(options)
    }
}

fn number(name: &str, value: &str, first: u64, last: u64) -> Result<u64, String> {
    let number = value.parse().ok().filter(|number| (first..=last).contains(number));
    number.ok_or_else(|| format!("--{name} wants a number from {first} to {last}, not '{value}'"))
}
