//! `register`: the register of weights of a chain.

use crate::answers::{bare, said_in};
use crate::arguments::{bytes_of, number, Arguments, Choice, Command};
use crate::chain::{blocks_of, lines_of, Listed};
use crate::failure::{input, usage, Failure, Outcome};
use crate::records::{raws_of, read, Record};
use crate::register::Register;
use crate::runner::listing_of;
use crate::settings::{sheet_of, start_of, Setting};
use crate::source;
use crate::store::{holds_words, AT};
use forgelilac::{Engine, Sheet, MEMBERS};

pub const COMMAND: Command = Command {
    name: "register",
    forms: &[
        "[--members] STREAM",
        "[--members] STORE",
        "[--members] STATE TABLE",
        "[--members] --answers ANSWERS STREAM",
        "[--members] --weights W,W,.. [--lookback L] LISTING",
    ],
    about: "the register of weights of a chain, as plant owners keep it",
    details: "\
Of the chain at the end of STREAM, whose records the engine answers, or of stored words: STORE is what
Engine::to_bytes wrote, STATE and TABLE are the words of both. With --answers it is the chain that another
runner listed: STREAM ends in an accepted chain then, and only records that were refused may follow. Or
LISTING is a listing alone, up to its ok, and the starting weights are those that are given, member 0 first, a
blank one what a blank means; whether it has all blocks cannot be told then. First a line for each block: what
it bonds, what it releases, the total after it, and the round from which on it counts. Then a line for each
member whose weight was bonded to or released. What cannot be read, or is in no order that a chain has, is
told with its line or block.",
    choices: &[
        Choice { name: "members", value: None, about: "also what each block bonds to and releases of each member" },
        Choice { name: "answers", value: Some("FILE"), about: "what another runner answered to STREAM" },
        Choice { name: "weights", value: Some("W,W,.."), about: "the starting weights of a listing" },
        Choice { name: "lookback", value: Some("L"), about: "the lookback of a listing, 20 if not given" },
        AT,
        source::ANY_CEILING,
    ],
    run,
};

fn run(arguments: &Arguments) -> Result<Outcome, Failure> {
    let register = match (arguments.value("weights"), arguments.value("answers")) {
        (Some(_), Some(_)) => {
            return usage("register: --weights goes with a listing, --answers with a stream; give one")
        }
        (Some(weights), None) => of_listing(arguments, weights)?,
        (None, _) if arguments.has("lookback") => return usage("register: --lookback goes with --weights"),
        (None, Some(answers)) => of_answers(arguments, answers)?,
        (None, None) => {
            arguments.count(1..=2, "STREAM, STORE, or STATE and TABLE")?;
            of_engine(&source::engine_of(arguments)?)?
        }
    };
    let mut parts = vec![register.by_block(), register.by_member()];
    if arguments.has("members") {
        parts.push(register.by_both());
    }
    Ok(parts.join("\n").into())
}

fn of_engine(engine: &Engine) -> Result<Register, Failure> {
    let lines = listing_of(engine, 0)?;
    let blocks = blocks_of((1..).zip(lines.iter().map(String::as_str)))?;
    let sheet = sheet_of(engine);
    Ok(Register::of(start_of(&sheet).weights, Setting::Lookback.filled(&sheet), &blocks))
}

fn of_listing(arguments: &Arguments, weights: &str) -> Result<Register, Failure> {
    arguments.count(1..=1, "LISTING")?;
    let mut sheet = Sheet { lookback: arguments.number("lookback", 1, 1_000)?, ..Sheet::default() };
    let fields: Vec<_> = weights.split(',').collect();
    if fields.len() > MEMBERS {
        return usage("register: there are sixteen weights at most");
    }
    for (member, field) in fields.iter().enumerate().filter(|(_, field)| !field.is_empty()) {
        let weight = number(field).filter(|weight| *weight <= 1_000_000);
        let Some(weight) = weight else {
            return usage(format!(
                "register: the weight of member {member} is '{field}', not a number from 0 to 1000000"
            ));
        };
        sheet.weights[member] = Some(weight);
    }
    let start = start_of(&sheet);
    if start.total() == 0 {
        return usage("register: the weights are all 0: no such sheet is opened");
    }
    let path = &arguments.operands[0];
    let text = bytes_of(path)?;
    if holds_words(&text) {
        return input(format!("{path} has stored words, and with them the starting weights: leave --weights out"));
    }
    let lines = lines_of(&text)?;
    let Some(((_, "ok"), lines)) = lines.split_last() else { return input("a listing ends in ok") };
    Ok(Register::of(start.weights, Setting::Lookback.filled(&sheet), &blocks_of(lines.iter().copied())?))
}

/// What another runner listed to the last of the records that it accepted.
fn of_answers(arguments: &Arguments, answers: &str) -> Result<Register, Failure> {
    arguments.count(1..=1, "STREAM")?;
    let (stream, written) = (bytes_of(&arguments.operands[0])?, bytes_of(answers)?);
    lines_of(&written)?;
    let (raws, said) = (raws_of(&stream), said_in(&written));
    if raws.len() != said.len() {
        let how = if said.len() < raws.len() { "fewer" } else { "more" };
        return input(format!("{how} answers than records: the answers are not those to this stream"));
    }
    let (mut opened, mut listing, mut made) = (None, None, 0);
    for (raw, said) in raws.iter().zip(&said) {
        let Ok(record) = read(raw) else { continue };
        let closing = String::from_utf8_lossy(said.closing()).into_owned();
        if said.lines.len() > 1 && !(record == Record::Chain && closing == "ok") {
            return input(format!("record {}: lines are listed to what is no accepted chain", raw.number));
        }
        if !said.accepted() {
            continue;
        }
        listing = None;
        match record {
            Record::Open { sheet, .. } => (opened, made) = (Some(sheet), 0),
            Record::Commit => match closing.strip_prefix("ok,").and_then(number) {
                Some(blocks) => made += blocks as usize,
                None => return input(format!("record {}: {closing} is no answer to a commit", raw.number)),
            },
            Record::Chain => listing = Some(said),
            _ => {}
        }
    }
    let (Some(sheet), Some(listing)) = (opened, listing) else {
        return input("the stream must end in an accepted chain");
    };
    let lines: Vec<_> = listing.lines.iter().map(|line| String::from_utf8_lossy(bare(line)).into_owned()).collect();
    let blocks: Vec<Listed> = blocks_of((1..).zip(lines.iter().map(String::as_str)).take(lines.len() - 1))?;
    if blocks.len() != made {
        return input(format!(
            "not the whole chain: {} blocks are listed, commits since the last accepted open made {made}",
            blocks.len()
        ));
    }
    Ok(Register::of(start_of(&sheet).weights, Setting::Lookback.filled(&sheet), &blocks))
}
