//! `rights < stream`: records of a runner, LF ended, and guests' calls, for which
//! a runner has no record. `rights` and four sets of callers, those who may propose,
//! sign, drive and read, are the rights of the opens that follow. `guest`, a caller
//! and a call is that guest's call, `host` and a call the host's own: `propose`,
//! `endorse`, `certify`, `accept`, `advance` and `commit` as in a record; `draw` and
//! a previous set; `enqueue` and a triple, before it the guest where it is the
//! host's; `batch`, of what `offer` lines before it offer; `committee`, `share`,
//! `certificate`, `block`, `effect` and their numbers; `preview` and `critical` and a
//! number of words; `port_read` and an offset, `port_write`, an offset and a byte, which
//! are a guest's alone; `port_reset` and a port, which is the host's alone. Its line is
//! the answer and its values. What cannot be read gets 1, after 26 and 29. `waiting` says
//! how many wait for each guest. `naive.py rights` gives the same lines.

use reference::runner::{read_number, read_record, Record, Runner, SERVES};
use reference::*;
use std::io::{stdin, stdout, BufRead, BufWriter, Write};

/// No block number, no round and no author.
const BLANK: u32 = u32::MAX;

fn request(name: &str) -> Option<Request> {
    Some(match name {
        "propose" => Request::Propose,
        "draw" => Request::Draw,
        "enqueue" => Request::Enqueue,
        "endorse" => Request::Endorse,
        "certify" => Request::Certify,
        "accept" => Request::Accept,
        "batch" => Request::Batch,
        "advance" => Request::Advance,
        "commit" => Request::Commit,
        "committee" => Request::Committee,
        "share" => Request::Share,
        "certificate" => Request::Certificate,
        "block" => Request::Block,
        "preview" => Request::Preview,
        "critical" => Request::Critical,
        "effect" => Request::Effect,
        "port_read" => Request::PortRead,
        "port_write" => Request::PortWrite,
        _ => return None,
    })
}

fn numbers(fields: &str) -> Answer<Vec<u32>> {
    fields.split(',').map(|field| read_number(field.as_bytes()).ok_or(1)).collect()
}

fn one(fields: &str) -> Answer<u32> {
    numbers(fields)?.try_into().map(|[one]: [u32; 1]| one).map_err(|_| 1)
}

fn two(fields: &str) -> Answer<[u32; 2]> {
    numbers(fields)?.try_into().map_err(|_| 1)
}

fn three(fields: &str) -> Answer<[u32; 3]> {
    numbers(fields)?.try_into().map_err(|_| 1)
}

/// The values of a propose of these fields.
fn proposed(fields: &str) -> Answer<(Set, Vec<Transaction>)> {
    match read_record(format!("propose,{fields}").as_bytes()) {
        Some(Record::Propose { previous, transactions }) => Ok((previous, transactions)),
        _ => Err(1),
    }
}

fn joined(values: &[u32]) -> String {
    values.iter().map(|value| format!(",{value}")).collect()
}

fn triples(transactions: &[Transaction]) -> String {
    let mut bytes = Vec::new();
    write_triples(transactions, &mut bytes);
    String::from_utf8(bytes).expect("letters and digits")
}

/// A list of so many words: the count, and the list as far as it was written.
fn list(words: u32, ask: impl FnOnce(&mut [u32]) -> Answer<u32>) -> Answer<String> {
    let mut list = vec![BLANK; words as usize];
    let count = ask(&mut list)?;
    let written = list.iter().rposition(|&word| word != BLANK).map_or(0, |last| last + 1);
    Ok(format!(",{count}") + &joined(&list[..written]))
}

/// The values that a call gives; `caller` is the guest whose call it is.
fn call(
    member: &mut Member,
    caller: Option<u32>,
    text: &str,
    row: &[Option<Certificate>],
) -> Answer<String> {
    let nothing = |()| String::new();
    let (name, fields) = split(text);
    match request(name).ok_or(1u32)? {
        Request::Draw => {
            let (previous, handed) = proposed(fields)?;
            if !handed.is_empty() {
                return Err(1);
            }
            member.draw(previous)?;
            Ok(triples(&member.proposal().expect("just drawn").transactions))
        }
        Request::Enqueue => {
            let (guest, triple) = match caller {
                Some(guest) => (guest, fields),
                None => {
                    let (guest, triple) = fields.split_once(',').ok_or(1u32)?;
                    (one(guest)?, triple)
                }
            };
            match proposed(&format!("0,{triple}"))?.1[..] {
                [transaction] => member.enqueue(guest, &transaction).map(nothing),
                _ => Err(1),
            }
        }
        Request::Batch => {
            let mut answers = vec![0; row.len()];
            member.batch(row, &mut answers)?;
            Ok(joined(&answers))
        }
        Request::Committee => Ok(joined(&member.read_committee(one(fields)?)?.map(|weight| weight as u32))),
        Request::Share => {
            let [of, round] = two(fields)?;
            member.read_share(of, round).map(|share| format!(",{share}"))
        }
        Request::Certificate => {
            let [author, round] = two(fields)?;
            let (proposal, _, block) = member.read_certificate(author, round)?;
            Ok(joined(&[u32::from(proposal.previous), block]) + &triples(&proposal.transactions))
        }
        Request::Block => member.read_block(one(fields)?).map(|round| format!(",{round}")),
        Request::Preview => list(one(fields)?, |list| member.preview(list)),
        Request::Critical => list(one(fields)?, |list| member.critical(list)),
        Request::Effect => {
            let [of, round, amount] = three(fields)?;
            member.read_effect(of, round, amount).map(|effect| joined(&effect.words()))
        }
        Request::PortRead => {
            let caller = caller.expect("a guest's call");
            member.guest_port_read(caller, one(fields)?).map(|value| format!(",{value}"))
        }
        Request::PortWrite => {
            let (caller, [offset, value]) = (caller.expect("a guest's call"), two(fields)?);
            member.guest_port_write(caller, offset, u8::try_from(value).map_err(|_| 1u32)?).map(nothing)
        }
        _ => match read_record(text.as_bytes()).ok_or(1u32)? {
            Record::Commit => return member.commit().map(|count| format!(",{count}")),
            Record::Propose { previous, transactions } => member.propose(previous, &transactions),
            Record::Endorse(proposal) => member.endorse(&proposal),
            Record::Certify { endorsers } => member.certify(endorsers),
            Record::Accept(certificate) => member.accept(&certificate),
            Record::Advance => member.advance(),
            _ => Err(1),
        }
        .map(nothing),
    }
}

/// A guest's call. Before an open nobody has a right.
fn guests_call(
    member: Option<&mut Member>,
    caller: u32,
    text: &str,
    row: &[Option<Certificate>],
) -> Answer<String> {
    let request = request(split(text).0).expect("a call that a guest has");
    match member {
        None => may_ask(&NO_RIGHTS, caller, request).and(Err(1)),
        Some(member) => {
            member.by_guest(caller, request, |member| call(member, Some(caller), text, row))
        }
    }
}

/// A call of the host's own. Before an open there is nothing but the 26 of a reset.
fn hosts_call(
    member: Option<&mut Member>,
    text: &str,
    row: &[Option<Certificate>],
) -> Answer<String> {
    if let ("port_reset", port) = split(text) {
        let port = one(port)?;
        may_reset(port)?;
        return member.ok_or(1u32)?.port_reset(port).map(|()| String::new());
    }
    call(member.ok_or(1u32)?, None, text, row)
}

/// Four sets of callers: those who may propose, sign, drive, read.
fn rights_of(fields: &str) -> Rights {
    let sets = numbers(fields).expect("sets of callers");
    let mut rights = NO_RIGHTS;
    for (right, set) in sets.into_iter().enumerate() {
        (0..GUESTS).for_each(|caller| rights[caller as usize][right] = in_set(set as Set, caller));
    }
    rights
}

fn split(line: &str) -> (&str, &str) {
    line.split_once(',').unwrap_or((line, ""))
}

fn main() -> std::io::Result<()> {
    let mut out = BufWriter::new(stdout().lock());
    let (mut runner, mut rights, mut row) = (Runner::default(), NO_RIGHTS, Vec::new());
    for line in stdin().lock().lines() {
        let line = line?;
        let (name, fields) = split(&line);
        let answer = match name {
            "rights" => {
                rights = rights_of(fields);
                continue;
            }
            "offer" => {
                row.push(match read_record(format!("accept,{fields}").as_bytes()) {
                    Some(Record::Accept(certificate)) => Some(certificate),
                    _ => None,
                });
                continue;
            }
            "guest" => {
                let (caller, text) = split(fields);
                let caller = one(caller).expect("a caller");
                guests_call(runner.member.as_mut(), caller, text, &row)
            }
            "host" => hosts_call(runner.member.as_mut(), fields, &row),
            "waiting" => runner.member.as_ref().ok_or(1).map(|member| {
                (0..GUESTS).map(|guest| format!(",{}", member.waiting(guest))).collect()
            }),
            _ => {
                let record = read_record(line.as_bytes());
                let mut lines = Vec::new();
                runner.answer(record.as_ref(), &mut lines);
                if let (Some(Record::Open { own, sheet }), true) = (record, lines.starts_with(b"ok")) {
                    runner.member = Member::open_with(own, &sheet, &rights, SERVES).ok();
                }
                lines.retain(|&byte| byte != b'\r');
                out.write_all(&lines)?;
                continue;
            }
        };
        if line.ends_with("batch") {
            row.clear();
        }
        match answer {
            Ok(values) => writeln!(out, "ok{values}")?,
            Err(number) => writeln!(out, "refused,{number}")?,
        }
    }
    out.flush()
}
