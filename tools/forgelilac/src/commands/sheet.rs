//! `sheet`: what a sheet of settings becomes: blanks filled, who may be away, and what its engine takes of memory.

use crate::arguments::{bytes_of, Arguments, Choice, Command};
use crate::failure::{input, usage, Failure, Outcome};
use crate::settings::{fault_of, record_of, start_of, write, Setting};
use crate::table;
use crate::weights::{count, grouped, Committee};
use forgelilac::layout::{preview_words, rows_words, STACK_BYTES, STATE_WORDS};
use forgelilac::{table_words, Engine, Member, Sheet, MEMBERS};
use std::fmt::Write;

pub const COMMAND: Command = Command {
    name: "sheet",
    forms: &["[--own N] [--file FILE] [NAME=NUMBER..]"],
    about: "a sheet of settings: blanks filled, bound and quorum, who may be away, memory",
    details: "\
Each setting is NAME=NUMBER; one that is not named, or has no number, is blank. Names are lookback, ceiling,
allowance, margin, weight.0 to weight.15, and weights, which takes the weights of members 0, 1, 2 .. between
commas, an empty one for a blank. FILE has the same, one to a line; an empty line, and one that begins with #,
says nothing. What is printed: the sheet with its blanks filled, the record that opens a member by it, what a
quorum weighs and how many may be away (docs/INTEGRATORS.md), and what one engine takes of memory
(docs/HOSTS.md, \"Memory\"). A sheet that an open refuses is told, with status 1; one whose lookback is too
short for those that may be away is told among the rest, with status 0.",
    choices: &[
        Choice { name: "own", value: Some("N"), about: "the member whose record is printed, 0 if not given" },
        Choice { name: "file", value: Some("FILE"), about: "settings from a file, before those that are named here" },
    ],
    run,
};

fn run(arguments: &Arguments) -> Result<Outcome, Failure> {
    let own = Member::new(arguments.number("own", 0, 15)?.unwrap_or(0));
    let sheet = sheet_of(arguments)?;
    if let Some(fault) = fault_of(&sheet) {
        return input(format!("no member opens by this sheet: {fault}"));
    }
    // The engine has the last word.
    Engine::open(own, &sheet)?;
    let start = start_of(&sheet);
    let mut text = settings(&sheet);
    let _ = write!(text, "\nas a record:\n{}\n", record_of(own, &sheet));
    let _ = write!(text, "\n{}\n{}\n{}", weights(&start), rounds(&sheet, &start), memory(&sheet));
    Ok(text.into())
}

fn sheet_of(arguments: &Arguments) -> Result<Sheet, Failure> {
    let mut sheet = Sheet::default();
    if let Some(path) = arguments.value("file") {
        let text = String::from_utf8_lossy(&bytes_of(path)?).into_owned();
        for (at, line) in (1..).zip(text.lines()) {
            if !line.trim().is_empty() && !line.trim_start().starts_with('#') {
                write(&mut sheet, line.trim()).or_else(|why| input(format!("{path}, line {at}: {why}")))?;
            }
        }
    }
    for words in &arguments.operands {
        write(&mut sheet, words).or_else(|why| usage(format!("sheet: {why}")))?;
    }
    Ok(sheet)
}

fn settings(sheet: &Sheet) -> String {
    // Members from some number on that are all blank and outside stand in one line.
    let outside = |member: &usize| sheet.weights[*member].is_none() && *member >= 4;
    let shown = MEMBERS - (0..MEMBERS).rev().take_while(outside).count();
    let written = |setting: Setting| setting.of(sheet).map_or("blank".to_owned(), grouped);
    let row = |setting: Setting| vec![setting.name(), written(setting), grouped(setting.filled(sheet))];
    let hidden = |setting: &Setting| matches!(setting, Setting::Weight(member) if *member >= shown);
    let mut rows: Vec<_> = Setting::all().filter(|setting| !hidden(setting)).map(row).collect();
    if shown < MEMBERS {
        let members = if shown == MEMBERS - 1 {
            "weight of member 15".to_owned()
        } else {
            format!("weights of members {shown} to 15")
        };
        rows.insert(3 + shown, vec![members, "blank".to_owned(), "0".to_owned()]);
    }
    table::of_names(&["setting", "written", "filled"], &rows)
}

fn weights(start: &Committee) -> String {
    let mut text = format!("the starting committee: {}\n", start.told());
    let _ = writeln!(
        text,
        "total {}, fault bound {}, a quorum weighs {}, votes that commit weigh {} or more",
        grouped(start.total()),
        grouped(start.bound()),
        grouped(start.quorum()),
        grouped(start.votes())
    );
    let (lightest, whoever) = start.may_be_away();
    let away = match (lightest, whoever) {
        (0, _) => "nobody may be away: every line stops with one away".to_owned(),
        (most, sure) if most == sure => {
            format!("{} may be away, whoever; with one more every line stops", count(most, "member"))
        }
        (1, _) => "1 member may be away, if it is the lightest; a heavy one alone stops every line".to_owned(),
        (most, 0) => format!(
            "{} may be away, if they are the lightest; a heavy one alone stops every line",
            count(most, "member")
        ),
        (most, sure) => {
            format!("{} may be away, whoever they are; up to {most}, if they are the lightest", count(sure, "member"))
        }
    };
    let _ = writeln!(text, "{away}");
    let needed: Vec<_> = start.needed().iter().map(ToString::to_string).collect();
    if !needed.is_empty() && lightest > 0 {
        let _ = writeln!(
            text,
            "needed in every quorum: member{} {}",
            if needed.len() == 1 { "" } else { "s" },
            needed.join(" ")
        );
    }
    text
}

fn rounds(sheet: &Sheet, start: &Committee) -> String {
    let (lookback, ceiling) = (Setting::Lookback.filled(sheet), Setting::Ceiling.filled(sheet));
    let least = 2 * start.may_be_away().0 as u32 + 1;
    let mut text = format!("a bond or an unbond counts {} rounds after its block\n", grouped(lookback + 1));
    let anchors = lookback.div_ceil(2);
    if lookback + 2 >= ceiling {
        text.push_str("every round is known from the start\n");
    } else {
        let anchors = count(anchors as usize, "anchor");
        let _ = writeln!(
            text,
            "the next block must be made within {} rounds of the last one's; {anchors} may make it",
            grouped(lookback + 2)
        );
        let enough = if lookback < least { "too short for" } else { "enough for" };
        let _ = writeln!(text, "that is {enough} those that may be away: they ask for a lookback of {least} or more");
    }
    // Commits are for odd rounds.
    let last_commit = if ceiling % 2 == 0 { ceiling - 1 } else { ceiling };
    let _ = writeln!(
        text,
        "the last block: of round {}, by the commit in round {}",
        grouped(last_commit - 1),
        grouped(last_commit)
    );
    text
}

fn memory(sheet: &Sheet) -> String {
    let ceiling = Setting::Ceiling.filled(sheet);
    let list = 4 * preview_words(ceiling) as u64;
    let (table, state, stack) = (4 * table_words(ceiling), 4 * STATE_WORDS as u64, STACK_BYTES as u64);
    let row = |what: &str, bytes: u64| vec![what.to_owned(), grouped(bytes)];
    let rows = [
        row("table", table),
        row("state", state),
        row("stack of the thread that calls", stack),
        row("list of a chain, or of a preview", list),
        row("one engine with one such list", table + state + stack + list),
        row("list of the rows of all blocks, where it is read", 4 * rows_words(ceiling) as u64),
        row("signatures of 64 bytes that the host keeps, at most", 64 * 16 * 16 * u64::from(ceiling)),
    ];
    table::of_names(&["memory", "bytes"], &rows)
}
