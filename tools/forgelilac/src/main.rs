//! `forgelilac`: looks into sheets, stored words, runs, registers, listings and streams, and tells where two runners part.
//!
//! What it answers about an engine is the engine's: it links the proved library through the Rust package, and what
//! stands around that is plain Rust, unproved (README.md beside it says what is whose).

mod answers;
mod arguments;
mod chain;
mod commands;
mod failure;
mod formed;
mod meaning;
mod picture;
mod progress;
mod records;
mod register;
mod runner;
mod settings;
mod source;
mod store;
mod table;
mod weights;

use failure::{usage, Failure, Outcome};
use std::ffi::OsString;
use std::fmt::Write as _;
use std::io::Write;
use std::process::ExitCode;

fn main() -> ExitCode {
    match told(std::env::args_os().skip(1)) {
        // A reader that goes has read enough.
        Ok(Outcome { text, fine }) => match std::io::stdout().write_all(text.as_bytes()) {
            Err(error) if error.kind() != std::io::ErrorKind::BrokenPipe => {
                ended(&Failure::Input(format!("cannot write the result: {}", arguments::plain(&error))))
            }
            _ => ExitCode::from(u8::from(!fine)),
        },
        Err(failure) => ended(&failure),
    }
}

fn ended(failure: &Failure) -> ExitCode {
    let _ = writeln!(std::io::stderr(), "forgelilac: {failure}");
    ExitCode::from(failure.status())
}

fn told(words: impl Iterator<Item = OsString>) -> Result<Outcome, Failure> {
    let words = words.map(OsString::into_string).collect::<Result<Vec<_>, _>>();
    let words = words.or_else(|word| usage(format!("an argument is no text: {}", word.to_string_lossy())))?;
    let Some((name, rest)) = words.split_first() else {
        return usage("wanted is a command; forgelilac --help lists them");
    };
    match name.as_str() {
        "--help" | "-h" | "help" => return Ok(overview().into()),
        "--version" => {
            return Ok(format!(
                "forgelilac {}, of the engine {}\n",
                env!("CARGO_PKG_VERSION"),
                forgelilac::ENGINE_VERSION
            )
            .into())
        }
        _ => {}
    }
    let Some(command) = commands::ALL.into_iter().find(|command| command.name == name) else {
        return usage(format!("no command {name}; forgelilac --help lists them"));
    };
    let arguments = command.read(rest)?;
    if arguments.has("help") {
        return Ok(command.help().into());
    }
    (command.run)(&arguments)
}

fn overview() -> String {
    let mut page =
        "usage: forgelilac COMMAND ..\n\nLooks into what Forgelilac's members hold, and tells it in words.\n\n"
            .to_owned();
    for command in commands::ALL {
        let _ = writeln!(page, "  {:<9} {}", command.name, command.about);
    }
    page.push_str("\nforgelilac COMMAND --help has the arguments of each. Status 0: all is as it should be; 1: something is not,\n");
    page.push_str("and a line tells what; 2: the arguments are not those of the command.\n");
    page
}
