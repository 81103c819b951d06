//! `check`: the records of a stream, with those that cannot be read and why.

use crate::arguments::{bytes_of, Arguments, Choice, Command};
use crate::failure::{Failure, Outcome};
use crate::meaning;
use crate::progress::Progress;
use crate::records::{raws_of, read};
use crate::runner::{Answer, Runner};
use crate::weights::count;
use std::collections::BTreeMap;
use std::fmt::Write;

pub const COMMAND: Command = Command {
    name: "check",
    forms: &["[--all] STREAM"],
    about: "the records of a stream by number and line, and why damaged ones cannot be read",
    details: "\
Each record that cannot be read, and so is answered 24, is told with its number, the line that it begins in,
its first byte, and the reason; then how many records of which kind there are. With --all each record is told,
with what the engine answers as a runner does and what that means. The status is 1 where a record cannot be
read. docs/RULES.md, \"Records\", has what a record is.",
    choices: &[Choice { name: "all", value: None, about: "every record, with its answer" }],
    run,
};

fn run(arguments: &Arguments) -> Result<Outcome, Failure> {
    arguments.count(1..=1, "STREAM")?;
    let stream = bytes_of(&arguments.operands[0])?;
    let (raws, all) = (raws_of(&stream), arguments.has("all"));
    let (mut runner, mut progress) = (Runner::plain(), Progress::of("records"));
    let (mut text, mut kinds, mut damaged) = (String::new(), BTreeMap::new(), 0);
    for raw in &raws {
        let record = read(raw);
        match &record {
            Err(why) => {
                damaged += 1;
                let _ = writeln!(text, "{} cannot be read: {why}", raw.place());
                let _ = writeln!(text, "    {}", raw.shown());
            }
            Ok(record) => *kinds.entry(record.name()).or_insert(0) += 1,
        }
        if all {
            let answer = runner.answer(&record);
            if let Ok(record) = &record {
                let _ = writeln!(text, "record {} (line {}): {} {}", raw.number, raw.line, raw.shown(), told(&answer));
                let _ = writeln!(text, "    {}", record.told());
            }
        }
        progress.at(raw.number, raws.len());
    }
    let kinds: Vec<_> = kinds.iter().map(|(name, number): (_, &usize)| format!("{number} {name}")).collect();
    let kinds = if kinds.is_empty() { String::new() } else { format!(": {}", kinds.join(", ")) };
    let _ = writeln!(text, "{}{kinds}; {damaged} cannot be read", count(raws.len(), "record"));
    if raws.len() == 1 && stream.contains(&b'\n') && damaged == 1 {
        text.push_str("a record ends in CRLF, and here lines end in LF\n");
    }
    Ok(Outcome { text, fine: damaged == 0 })
}

fn told(answer: &Answer) -> String {
    match answer {
        Answer::Ok => "-> ok".to_owned(),
        Answer::Added(blocks) => format!("-> ok,{blocks}: {} made", count(*blocks as usize, "block")),
        Answer::Listed(lines) => format!("-> {}, then ok", count(lines.len(), "line")),
        Answer::Refused(number) => format!("-> refused,{number}: {}", meaning::of(*number)),
    }
}
