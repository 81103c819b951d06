//! `listing`: the listing of a member's chain, from records or from stored words.

use crate::arguments::{Arguments, Choice, Command};
use crate::failure::{input, Failure, Outcome};
use crate::runner::listing_of;
use crate::source;
use crate::store::AT;

pub const COMMAND: Command = Command {
    name: "listing",
    forms: &["[--after N] STREAM", "[--after N] STORE", "[--after N] STATE TABLE"],
    about: "the listing of a member's chain, from records or from stored words",
    details: "\
STREAM are records as a runner takes them; the engine answers them. STORE is what Engine::to_bytes wrote;
STATE and TABLE are the words of both, four bytes each, the lowest first. A line for each certificate of each
block, in the order of the chain: block, block round, round, author, triples (docs/RULES.md, \"Records\"), and
then ok.",
    choices: &[
        Choice { name: "after", value: Some("N"), about: "only the blocks after the first N" },
        AT,
        source::ANY_CEILING,
    ],
    run,
};

fn run(arguments: &Arguments) -> Result<Outcome, Failure> {
    arguments.count(1..=2, "STREAM, STORE, or STATE and TABLE")?;
    let engine = source::engine_of(arguments)?;
    let known = arguments.number("after", 0, u32::MAX)?.unwrap_or(0);
    if known > engine.blocks() {
        return input(format!("there are {} blocks, and not {known}", engine.blocks()));
    }
    let lines = listing_of(&engine, known)?;
    Ok(lines.into_iter().chain(["ok".to_owned()]).map(|line| line + "\n").collect::<String>().into())
}
