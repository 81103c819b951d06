//! The commands: each takes its arguments and says what it found.

mod check;
mod diff;
mod effect;
mod listing;
mod register;
mod run;
mod sheet;
mod state;

use crate::arguments::Command;

pub const ALL: [&Command; 8] = [
    &sheet::COMMAND,
    &state::COMMAND,
    &run::COMMAND,
    &register::COMMAND,
    &listing::COMMAND,
    &effect::COMMAND,
    &check::COMMAND,
    &diff::COMMAND,
];
