//! A runner (docs/RULES.md, "Records") by the rules as they stand here: records of bytes, and
//! what each is answered.

use crate::{Answer, Certificate, Member, Proposal, Set, Setting, Sheet, Transaction};
use std::io::{self, BufRead, Write};

/// The runner's tables serve ceilings up to this one.
pub const SERVES: u32 = 64;

/// The longest record, with its CRLF.
pub const LONGEST: usize = 1_024;

pub enum Record {
    Open { own: u32, sheet: Sheet },
    Propose { previous: Set, transactions: Vec<Transaction> },
    Endorse(Proposal),
    Certify { endorsers: Set },
    Accept(Certificate),
    Advance,
    Commit,
    Chain,
}

// -------------------------------------------------------------- reading ---

/// Decimal, no leading zeros, no sign, no blanks, at most 4,294,967,295.
pub fn read_number(field: &[u8]) -> Option<u32> {
    if field.is_empty() || (field.len() > 1 && field[0] == b'0') {
        return None;
    }
    let mut n: u32 = 0;
    for &byte in field {
        if !byte.is_ascii_digit() {
            return None;
        }
        n = n.checked_mul(10)?.checked_add(u32::from(byte - b'0'))?;
    }
    Some(n)
}

fn read_set(field: &[u8]) -> Option<Set> {
    Set::try_from(read_number(field)?).ok()
}

fn read_setting(field: &[u8]) -> Option<Setting> {
    if field.is_empty() {
        Some(Setting::Blank)
    } else {
        Some(Setting::Written(read_number(field)?))
    }
}

/// Triples to the end of the record: kind, number, amount.
fn read_triples(fields: &[&[u8]]) -> Option<Vec<Transaction>> {
    if fields.len() % 3 != 0 {
        return None;
    }
    let mut transactions = Vec::new();
    for triple in fields.chunks(3) {
        let number = read_number(triple[1])?;
        let amount = read_number(triple[2])?;
        transactions.push(match (triple[0], amount) {
            (b"B", _) => Transaction::Bond { member: number, amount },
            (b"U", 0) => Transaction::Unbond { member: number },
            (b"E", 0) => Transaction::Entry { number },
            _ => return None,
        });
    }
    Some(transactions)
}

/// Reads a record, without its CRLF; nothing when it is unreadable.
pub fn read_record(text: &[u8]) -> Option<Record> {
    if text.len() + 2 > LONGEST {
        return None;
    }
    if text.iter().any(|&b| b == b'"' || b == b'\r' || b == b'\n') {
        return None;
    }
    let fields: Vec<&[u8]> = text.split(|&b| b == b',').collect();
    let rest = &fields[1..];
    match (fields[0], rest.len()) {
        (b"open", 20 | 21) => {
            let own = read_number(rest[0])?;
            let mut sheet = Sheet::all_blank();
            sheet.lookback = read_setting(rest[1])?;
            sheet.ceiling = read_setting(rest[2])?;
            sheet.allowance = read_setting(rest[3])?;
            for m in 0..16 {
                sheet.weights[m] = read_setting(rest[4 + m])?;
            }
            // The margin may be left out (docs/RULES.md, "Weights").
            sheet.margin = rest.get(20).map_or(Some(Setting::Blank), |field| read_setting(field))?;
            Some(Record::Open { own, sheet })
        }
        (b"propose", 1..) => Some(Record::Propose {
            previous: read_set(rest[0])?,
            transactions: read_triples(&rest[1..])?,
        }),
        (b"endorse", 3..) => Some(Record::Endorse(Proposal {
            author: read_number(rest[0])?,
            round: read_number(rest[1])?,
            previous: read_set(rest[2])?,
            transactions: read_triples(&rest[3..])?,
        })),
        (b"certify", 1) => Some(Record::Certify { endorsers: read_set(rest[0])? }),
        (b"accept", 4..) => Some(Record::Accept(Certificate {
            proposal: Proposal {
                author: read_number(rest[0])?,
                round: read_number(rest[1])?,
                previous: read_set(rest[2])?,
                transactions: read_triples(&rest[4..])?,
            },
            endorsers: read_set(rest[3])?,
        })),
        (b"advance", 0) => Some(Record::Advance),
        (b"commit", 0) => Some(Record::Commit),
        (b"chain", 0) => Some(Record::Chain),
        _ => None,
    }
}

// ------------------------------------------------------------ answering ---

/// What a record other than chain is answered: accepted, accepted with a
/// count, or refused with a number.
#[derive(Clone, Copy, PartialEq, Eq, Debug)]
pub enum Outcome {
    Accepted,
    Count(u32),
    Refused(u32),
}

impl From<Answer<()>> for Outcome {
    fn from(answer: Answer<()>) -> Outcome {
        match answer {
            Ok(()) => Outcome::Accepted,
            Err(number) => Outcome::Refused(number),
        }
    }
}

#[derive(Clone, Default)]
pub struct Runner {
    pub member: Option<Member>,
}

impl Runner {
    /// Executes one record, `None` for an unreadable one, and writes its lines.
    pub fn answer(&mut self, record: Option<&Record>, out: &mut Vec<u8>) -> Outcome {
        let outcome = self.outcome(record, out);
        match outcome {
            Outcome::Accepted => out.extend_from_slice(b"ok\r\n"),
            Outcome::Count(n) => write!(out, "ok,{n}\r\n").unwrap(),
            Outcome::Refused(n) => write!(out, "refused,{n}\r\n").unwrap(),
        }
        outcome
    }

    fn outcome(&mut self, record: Option<&Record>, out: &mut Vec<u8>) -> Outcome {
        let Some(record) = record else {
            return Outcome::Refused(24);
        };
        if let Record::Open { own, sheet } = record {
            return match Member::open(*own, sheet, SERVES) {
                Ok(member) => {
                    self.member = Some(member);
                    Outcome::Accepted
                }
                Err(number) => Outcome::Refused(number),
            };
        }
        let Some(member) = &mut self.member else {
            return Outcome::Refused(1);
        };
        match record {
            Record::Open { .. } => unreachable!(),
            Record::Propose { previous, transactions } => {
                member.propose(*previous, transactions).into()
            }
            Record::Endorse(proposal) => member.endorse(proposal).into(),
            Record::Certify { endorsers } => member.certify(*endorsers).into(),
            Record::Accept(certificate) => member.accept(certificate).into(),
            Record::Advance => member.advance().into(),
            Record::Commit => match member.commit() {
                Ok(count) => Outcome::Count(count),
                Err(number) => Outcome::Refused(number),
            },
            Record::Chain => {
                out.extend(member.listing());
                Outcome::Accepted
            }
        }
    }
}

// -------------------------------------------------------------- records ---

/// Hands over the records of the input one by one: `Some` with the text
/// before the CRLF, or `None` for a record that is too long or lacks its
/// CRLF. Keeps no more of a record than the longest readable one.
pub fn for_each_record(
    input: &mut impl BufRead,
    mut handle: impl FnMut(Option<&[u8]>) -> io::Result<()>,
) -> io::Result<()> {
    let mut kept: Vec<u8> = Vec::with_capacity(LONGEST + 1);
    let mut long = false; // the record is over the longest one already
    let mut after_cr = false; // the byte before, in this record, is a CR
    loop {
        let piece = match input.fill_buf() {
            Ok(piece) => piece,
            Err(e) if e.kind() == io::ErrorKind::Interrupted => continue,
            Err(e) => return Err(e),
        };
        if piece.is_empty() {
            break;
        }
        // Up to and with the next LF, or the whole piece.
        let (taken, ends_in_lf) = match piece.iter().position(|&b| b == b'\n') {
            Some(i) => (i + 1, true),
            None => (piece.len(), false),
        };
        let part = &piece[..taken];
        let before_lf_is_cr = if taken >= 2 { part[taken - 2] == b'\r' } else { after_cr };
        if long || kept.len() + part.len() > LONGEST {
            long = true;
        } else {
            kept.extend_from_slice(part);
        }
        after_cr = part[taken - 1] == b'\r';
        if ends_in_lf && before_lf_is_cr {
            if long {
                handle(None)?;
            } else {
                handle(Some(&kept[..kept.len() - 2]))?;
            }
            kept.clear();
            long = false;
            after_cr = false;
        }
        input.consume(taken);
    }
    if long || !kept.is_empty() {
        handle(None)?;
    }
    Ok(())
}

pub fn run(input: &mut impl BufRead, output: &mut impl Write) -> io::Result<()> {
    const PIECE: usize = 1 << 18;
    let mut runner = Runner::default();
    let mut out: Vec<u8> = Vec::with_capacity(2 * PIECE);
    for_each_record(input, |text| {
        let record = text.and_then(read_record);
        runner.answer(record.as_ref(), &mut out);
        if out.len() >= PIECE {
            output.write_all(&out)?;
            out.clear();
        }
        Ok(())
    })?;
    output.write_all(&out)?;
    output.flush()
}
