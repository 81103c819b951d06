//! What answers mean, and which section of docs/RULES.md decides.

use forgelilac::Refusal;

/// What a record cannot be read for; no call answers it, so the package has no name for it.
pub const UNREADABLE: u32 = 24;

/// What a number says, in words.
pub fn of(number: u32) -> String {
    match Refusal::of(number) {
        Some(Refusal::LengthRange) => "a row is too long, or a lent list too short".to_owned(),
        Some(refusal) => refusal.meaning().to_owned(),
        None if number == UNREADABLE => "the record cannot be read".to_owned(),
        None => "no number of a rule".to_owned(),
    }
}

/// The checks of a call, in their order, and where they stand.
pub struct Rule {
    pub section: &'static str,
    pub checks: &'static [u32],
}

/// By the name of its record.
pub fn rule_of(name: &str) -> Rule {
    let (section, checks): (_, &[u32]) = match name {
        "open" => ("Open", &[24, 4, 2, 3, 1]),
        "propose" => ("Propose", &[24, 1, 6, 7, 10, 8, 9, 11, 12]),
        "endorse" => ("Endorse", &[24, 1, 4, 5, 6, 7, 14, 10, 8, 11, 12]),
        "certify" => ("Certify", &[24, 1, 15, 10, 14, 8, 9, 13]),
        "accept" => ("Accept", &[24, 1, 4, 5, 6, 7, 14, 16, 17, 8, 9, 13, 11]),
        "advance" => ("Advance", &[24, 1, 18, 8, 28]),
        "commit" => ("Commit", &[24, 1, 19, 20, 8, 21, 22]),
        "chain" => ("Order inside a block", &[24, 1]),
        _ => ("Records", &[24]),
    };
    Rule { section, checks }
}

/// The sections that say what a number is about, beside the table of the call.
pub fn sections_of(number: u32) -> &'static [&'static str] {
    match number {
        1 => &["A member's state"],
        2 | 3 => &["The sheet"],
        8 => &["Committees"],
        9 => &["Committees"],
        12 | 13 | 28 => &["Weights", "Committees"],
        21 => &["Leader and anchor", "Committees"],
        22 => &["Weights", "Leader and anchor", "Committees"],
        16 | 17 => &["Terms"],
        24 => &["Records"],
        _ => &[],
    }
}
