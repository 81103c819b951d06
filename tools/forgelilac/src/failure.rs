//! How a command ends: with its text and whether it found what it looks for, or with a line for whoever called it.

use forgelilac::Refusal;
use std::fmt;

/// What a command has to say on standard output, and its exit status.
pub struct Outcome {
    pub text: String,
    /// Whether all is as it should be: else the status is 1.
    pub fine: bool,
}

impl From<String> for Outcome {
    fn from(text: String) -> Outcome {
        Outcome { text, fine: true }
    }
}

/// Why a command has no result.
#[derive(Debug, PartialEq, Eq)]
pub enum Failure {
    /// The arguments are not those of the command: status 2.
    Usage(String),
    /// What they name cannot be used: status 1.
    Input(String),
}

impl Failure {
    pub fn status(&self) -> u8 {
        match self {
            Failure::Usage(_) => 2,
            Failure::Input(_) => 1,
        }
    }
}

impl fmt::Display for Failure {
    fn fmt(&self, f: &mut fmt::Formatter<'_>) -> fmt::Result {
        match self {
            Failure::Usage(words) | Failure::Input(words) => f.write_str(words),
        }
    }
}

impl From<Refusal> for Failure {
    fn from(refusal: Refusal) -> Failure {
        Failure::Input(format!("the engine's answer: {refusal}"))
    }
}

/// A failure of an input, as a result.
pub fn input<T>(words: impl Into<String>) -> Result<T, Failure> {
    Err(Failure::Input(words.into()))
}

/// A failure of the arguments, as a result.
pub fn usage<T>(words: impl Into<String>) -> Result<T, Failure> {
    Err(Failure::Usage(words.into()))
}
