//! `effect`: how far a bond moves everybody's share, in three lines and as a picture.

use crate::arguments::{write_to, Arguments, Choice, Command};
use crate::failure::{usage, Failure, Outcome};
use crate::picture::effect::drawn;
use crate::settings::write;
use crate::source;
use crate::store::AT;
use crate::weights::grouped;
use forgelilac::{Engine, Member, Round, Share, Sheet};
use std::fmt::Write;

pub const COMMAND: Command = Command {
    name: "effect",
    forms: &[
        "--member M --amount K [--round R] [--svg FILE] STREAM",
        "--member M --amount K [--round R] [--svg FILE] STORE",
        "--member M --amount K [--round R] [--svg FILE] STATE TABLE",
        "--member M --amount K [--svg FILE] --sheet NAME=NUMBER..",
    ],
    about: "how far a bond moves everybody's share, before it is made",
    details: "\
Of the committee of round R, if not given that of the present round, at the end of STREAM, whose records the
engine answers, or of stored words; with --sheet of the starting committee of a sheet, written as for
forgelilac sheet. Three lines: the sixteen shares before the bond, in thousandths, those after it, and the
largest difference; then the round, and the most that the difference may be by its total and the amount alone.
Nothing is bonded (docs/RECIPES.md, \"Before you bond\").",
    choices: &[
        Choice { name: "member", value: Some("M"), about: "who bonds, 0 to 15" },
        Choice { name: "amount", value: Some("K"), about: "by how much, 1 to 1000" },
        Choice { name: "round", value: Some("R"), about: "whose committee" },
        Choice { name: "sheet", value: None, about: "the operands are settings" },
        Choice { name: "svg", value: Some("FILE"), about: "the bars of before and after, as a picture" },
        AT,
        source::ANY_CEILING,
    ],
    run,
};

fn run(arguments: &Arguments) -> Result<Outcome, Failure> {
    let (Some(member), Some(amount)) = (arguments.number("member", 0, 15)?, arguments.number("amount", 1, 1_000)?)
    else {
        return usage("effect: wanted are --member and --amount (forgelilac effect --help)");
    };
    let engine = if arguments.has("sheet") {
        of_sheet(arguments)?
    } else {
        arguments.count(1..=2, "STREAM, STORE, or STATE and TABLE")?;
        source::engine_of(arguments)?
    };
    let round = arguments.number("round", 1, forgelilac::CEILING)?.map_or(engine.round(), Round::new);
    let effect = engine.bond_effect(Member::new(member), round, amount)?;
    if let Some(path) = arguments.value("svg") {
        write_to(path, &drawn(&effect))?;
    }
    let shares = |shares: &[Share]| shares.iter().map(|share| format!(" {share}")).collect::<String>();
    let total: u32 = engine.committee(round)?.iter().sum();
    let mut text =
        format!("before{}\nafter{}\nlargest {}\n", shares(&effect.before), shares(&effect.after), effect.largest);
    let most = 1 + 1_000 * amount / (total + amount);
    let _ = writeln!(text, "round {round}, total {}, so never more than {most}", grouped(total));
    Ok(text.into())
}

fn of_sheet(arguments: &Arguments) -> Result<Engine, Failure> {
    let mut sheet = Sheet::default();
    for words in &arguments.operands {
        write(&mut sheet, words).or_else(|why| usage(format!("effect: {why}")))?;
    }
    Ok(Engine::open(Member::new(0), &sheet)?)
}
