//! Records: where each begins and ends in a stream, and what it asks; or why it cannot be read (docs/RULES.md, "Records").

use crate::arguments::number;
use forgelilac::{Certificate, Member, Proposal, Round, Set, Sheet, Transaction, MEMBERS};
use std::fmt;

/// With its CRLF.
const LONGEST: usize = 1_024;
/// Fields of an open behind its name: own number, lookback, ceiling, allowance, weights; the margin may follow.
const OPEN_FIELDS: usize = 4 + MEMBERS;

/// A stretch of a stream that answers once.
#[derive(Clone, Copy, Debug)]
pub struct Raw<'a> {
    /// From 1.
    pub number: usize,
    /// The line that it begins in, from 1, as an editor counts.
    pub line: usize,
    /// Its first byte in the stream, from 0.
    pub at: usize,
    /// Without its CRLF.
    pub bytes: &'a [u8],
    /// Whether it has one.
    pub ended: bool,
}

impl Raw<'_> {
    /// As it can be shown: what is no printable letter stands as a number.
    pub fn shown(&self) -> String {
        let mut shown: String =
            self.bytes.iter().take(200).flat_map(|byte| byte.escape_ascii().map(char::from)).collect();
        if self.bytes.len() > 200 {
            shown.push_str(" ..");
        }
        shown.replace("\\\"", "\"").replace("\\'", "'")
    }

    /// Its number, and its line and byte where these may be looked for.
    pub fn place(&self) -> String {
        format!("record {} (line {}, byte {})", self.number, self.line, self.at)
    }
}

/// The records of a stream, in their order.
pub fn raws_of(stream: &[u8]) -> Vec<Raw<'_>> {
    let (mut raws, mut at, mut line) = (Vec::new(), 0, 1);
    while at < stream.len() {
        let rest = &stream[at..];
        let end = rest.windows(2).position(|two| two == b"\r\n");
        let bytes = &rest[..end.unwrap_or(rest.len())];
        raws.push(Raw { number: raws.len() + 1, line, at, bytes, ended: end.is_some() });
        line += 1 + bytes.iter().filter(|byte| **byte == b'\n').count();
        at += bytes.len() + 2;
    }
    raws
}

#[derive(Clone, PartialEq, Eq, Debug)]
pub enum Record {
    Open { own: Member, sheet: Sheet },
    Propose { previous: Set, transactions: Vec<Transaction> },
    Endorse(Proposal),
    Certify { endorsers: Set },
    Accept(Certificate),
    Advance,
    Commit,
    Chain,
}

impl Record {
    pub fn name(&self) -> &'static str {
        match self {
            Record::Open { .. } => "open",
            Record::Propose { .. } => "propose",
            Record::Endorse(_) => "endorse",
            Record::Certify { .. } => "certify",
            Record::Accept(_) => "accept",
            Record::Advance => "advance",
            Record::Commit => "commit",
            Record::Chain => "chain",
        }
    }

    /// What it asks, in words.
    pub fn told(&self) -> String {
        match self {
            Record::Open { own, .. } => format!("opens member {own}"),
            Record::Propose { previous, transactions } => {
                format!("proposes: {}; {}", named(*previous), listed(transactions))
            }
            Record::Endorse(proposal) => format!("endorses {}", of_proposal(proposal)),
            Record::Certify { endorsers } => format!("certifies its proposal, endorsed by {}", members_in(*endorsers)),
            Record::Accept(certificate) => format!(
                "accepts {}; endorsed by {}",
                of_proposal(&certificate.proposal),
                members_in(certificate.endorsers)
            ),
            Record::Advance => "goes on to the next round".to_owned(),
            Record::Commit => "makes blocks".to_owned(),
            Record::Chain => "lists the chain".to_owned(),
        }
    }
}

fn of_proposal(proposal: &Proposal) -> String {
    let Proposal { author, round, previous, transactions } = proposal;
    format!("{round}/{author} (round {round}, author {author}): {}; {}", named(*previous), listed(transactions))
}

fn named(previous: Set) -> String {
    format!("names {}", members_in(previous))
}

/// The members of a set, as `0 1 3`.
pub fn members_in(set: Set) -> String {
    let members: Vec<_> = Member::all_in(set).map(|member| member.to_string()).collect();
    if members.is_empty() {
        "nobody".to_owned()
    } else {
        members.join(" ")
    }
}

/// Transactions as the drawings have them: `E 7`, `B 4 2`, `U 4`.
pub fn listed(transactions: &[Transaction]) -> String {
    let words: Vec<_> = transactions.iter().map(|transaction| short(*transaction)).collect();
    if words.is_empty() {
        "no transactions".to_owned()
    } else {
        words.join(", ")
    }
}

pub fn short(transaction: Transaction) -> String {
    match transaction.to_words() {
        [0, member, amount] => format!("B {member} {amount}"),
        [1, member, _] => format!("U {member}"),
        [_, number, _] => format!("E {number}"),
    }
}

/// Transactions as a record or a listing has them, each behind a comma.
pub fn triples(transactions: &[Transaction]) -> String {
    let triple = |transaction: &Transaction| {
        let [kind, number, amount] = transaction.to_words();
        format!(",{},{number},{amount}", ["B", "U", "E"][(kind as usize).min(2)])
    };
    transactions.iter().map(triple).collect()
}

/// Why a record answers 24.
#[derive(Clone, PartialEq, Eq, Debug)]
pub enum Unreadable {
    TooLong(usize),
    NoEnd,
    Byte { at: usize, what: &'static str },
    Name(String),
    Count { name: &'static str, fields: usize, wanted: &'static str },
    Field { number: usize, name: String, text: String, why: &'static str },
}

impl fmt::Display for Unreadable {
    fn fmt(&self, f: &mut fmt::Formatter<'_>) -> fmt::Result {
        match self {
            Unreadable::TooLong(bytes) => write!(f, "it has {bytes} bytes, and {LONGEST} with the CRLF are the most"),
            Unreadable::NoEnd => f.write_str("it lacks its CRLF"),
            Unreadable::Byte { at, what } => write!(f, "its byte {at} is {what}"),
            Unreadable::Name(name) => write!(f, "no record has the name '{name}'"),
            Unreadable::Count { name, fields, wanted } => {
                write!(
                    f,
                    "{name} has {fields} field{} behind its name, not {wanted}",
                    if *fields == 1 { "" } else { "s" }
                )
            }
            Unreadable::Field { number, name, text, why } => write!(f, "field {number}, {name}, is '{text}': {why}"),
        }
    }
}

const NO_NUMBER: &str = "no number in decimal, without sign, blank or leading zero";
const TOO_LARGE: &str = "above 4,294,967,295";

/// A field of a record, and where it stands behind the name.
#[derive(Clone, Copy)]
struct Field<'a> {
    number: usize,
    text: &'a str,
}

impl Field<'_> {
    fn wrong(&self, name: &str, why: &'static str) -> Unreadable {
        let text = self.text.escape_debug().to_string();
        Unreadable::Field { number: self.number, name: name.to_owned(), text, why }
    }

    fn number(&self, name: &str) -> Result<u32, Unreadable> {
        let digits = !self.text.is_empty() && self.text.bytes().all(|byte| byte.is_ascii_digit());
        let plain = digits && (self.text == "0" || !self.text.starts_with('0'));
        number(self.text).ok_or_else(|| self.wrong(name, if plain { TOO_LARGE } else { NO_NUMBER }))
    }

    fn blank_or_number(&self, name: &str) -> Result<Option<u32>, Unreadable> {
        if self.text.is_empty() {
            Ok(None)
        } else {
            self.number(name).map(Some)
        }
    }

    fn set(&self, name: &str) -> Result<Set, Unreadable> {
        Set::try_from(self.number(name)?).map_err(|_| self.wrong(name, "a set is at most 65,535"))
    }
}

/// What a record asks.
pub fn read(raw: &Raw<'_>) -> Result<Record, Unreadable> {
    if raw.bytes.len() + 2 > LONGEST {
        return Err(Unreadable::TooLong(raw.bytes.len() + 2 * usize::from(raw.ended)));
    }
    for (byte, what) in [(b'"', "a quote mark"), (b'\r', "a lone CR"), (b'\n', "a lone LF")] {
        if let Some(at) = raw.bytes.iter().position(|one| *one == byte) {
            return Err(Unreadable::Byte { at, what });
        }
    }
    if !raw.ended {
        return Err(Unreadable::NoEnd);
    }
    // A byte above 127 is in no name, no number and no kind.
    let text = String::from_utf8_lossy(raw.bytes);
    let mut words = text.split(',');
    let name = words.next().unwrap_or_default();
    let fields: Vec<_> = (1..).zip(words).map(|(number, text)| Field { number, text }).collect();
    match name {
        "open" => open(&fields),
        "propose" => propose(&fields),
        "endorse" => endorse(&fields),
        "certify" => certify(&fields),
        "accept" => accept(&fields),
        "advance" => alone("advance", &fields, Record::Advance),
        "commit" => alone("commit", &fields, Record::Commit),
        "chain" => alone("chain", &fields, Record::Chain),
        other => Err(Unreadable::Name(other.escape_debug().to_string())),
    }
}

fn open(fields: &[Field<'_>]) -> Result<Record, Unreadable> {
    if fields.len() != OPEN_FIELDS && fields.len() != OPEN_FIELDS + 1 {
        let wanted = "20: own number, lookback, ceiling, allowance, sixteen weights; or 21, with a margin";
        return Err(Unreadable::Count { name: "open", fields: fields.len(), wanted });
    }
    let own = Member::new(fields[0].number("the own number")?);
    let mut sheet = Sheet {
        lookback: fields[1].blank_or_number("the lookback")?,
        ceiling: fields[2].blank_or_number("the ceiling")?,
        allowance: fields[3].blank_or_number("the allowance")?,
        ..Sheet::default()
    };
    for (member, field) in fields[4..OPEN_FIELDS].iter().enumerate() {
        sheet.weights[member] = field.blank_or_number(&format!("the weight of member {member}"))?;
    }
    if let Some(field) = fields.get(OPEN_FIELDS) {
        sheet.margin = field.blank_or_number("the margin")?;
    }
    Ok(Record::Open { own, sheet })
}

fn propose(fields: &[Field<'_>]) -> Result<Record, Unreadable> {
    let count = Unreadable::Count { name: "propose", fields: fields.len(), wanted: "a previous set and triples" };
    let ([previous], transactions) = split(fields).ok_or(count)?;
    Ok(Record::Propose { previous: previous.set("the previous set")?, transactions: transactions_of(transactions)? })
}

fn endorse(fields: &[Field<'_>]) -> Result<Record, Unreadable> {
    let wanted = "author, round, previous set and triples";
    let count = Unreadable::Count { name: "endorse", fields: fields.len(), wanted };
    let ([author, round, previous], transactions) = split(fields).ok_or(count)?;
    Ok(Record::Endorse(Proposal {
        author: Member::new(author.number("the author")?),
        round: Round::new(round.number("the round")?),
        previous: previous.set("the previous set")?,
        transactions: transactions_of(transactions)?,
    }))
}

fn certify(fields: &[Field<'_>]) -> Result<Record, Unreadable> {
    match fields {
        [endorsers] => Ok(Record::Certify { endorsers: endorsers.set("the endorsers")? }),
        _ => Err(Unreadable::Count { name: "certify", fields: fields.len(), wanted: "one: the endorsers" }),
    }
}

fn accept(fields: &[Field<'_>]) -> Result<Record, Unreadable> {
    let wanted = "author, round, previous set, endorsers and triples";
    let count = Unreadable::Count { name: "accept", fields: fields.len(), wanted };
    let ([author, round, previous, endorsers], transactions) = split(fields).ok_or(count)?;
    let author = Member::new(author.number("the author")?);
    let round = Round::new(round.number("the round")?);
    let previous = previous.set("the previous set")?;
    let endorsers = endorsers.set("the endorsers")?;
    let proposal = Proposal { author, round, previous, transactions: transactions_of(transactions)? };
    Ok(Record::Accept(Certificate { proposal, endorsers }))
}

fn alone(name: &'static str, fields: &[Field<'_>], record: Record) -> Result<Record, Unreadable> {
    if fields.is_empty() {
        Ok(record)
    } else {
        Err(Unreadable::Count { name, fields: fields.len(), wanted: "none" })
    }
}

/// The first fields, and the triples behind them.
fn split<'a, 'b, const N: usize>(fields: &'b [Field<'a>]) -> Option<(&'b [Field<'a>; N], &'b [Field<'a>])> {
    let (first, rest) = fields.split_first_chunk()?;
    (rest.len() % 3 == 0).then_some((first, rest))
}

fn transactions_of(fields: &[Field<'_>]) -> Result<Vec<Transaction>, Unreadable> {
    fields.chunks_exact(3).map(|triple| transaction_of(triple[0], triple[1], triple[2])).collect()
}

fn transaction_of(kind: Field<'_>, subject: Field<'_>, amount: Field<'_>) -> Result<Transaction, Unreadable> {
    let none = |transaction, of| match amount.number(of)? {
        0 => Ok(transaction),
        _ => Err(amount.wrong(of, "it must be 0")),
    };
    match kind.text {
        "B" => Ok(Transaction::Bond {
            member: Member::new(subject.number("a bond's member")?),
            amount: amount.number("a bond's amount")?,
        }),
        "U" => none(
            Transaction::Unbond { member: Member::new(subject.number("an unbond's member")?) },
            "an unbond's amount",
        ),
        "E" => none(Transaction::Entry { number: subject.number("an entry")? }, "an entry's amount"),
        _ => Err(kind.wrong("a kind", "a kind is B, U or E")),
    }
}
