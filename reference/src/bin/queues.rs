//! `queues < stream`: records of a runner, LF ended, and the calls on queues,
//! for which a runner has no record. `enqueue`, guest and a triple adds a
//! transaction to a queue; `draw` and a previous set proposes what is drawn,
//! and its line has that; `waiting` says how many wait for each guest, and the
//! guest served last. What cannot be read gets 1. `naive.py queues` gives the
//! same lines.

use reference::runner::{read_number, read_record, Record, Runner};
use reference::{Answer, Member, Transaction, GUESTS};
use std::io::{stdin, stdout, BufRead, BufWriter, Write};

/// The values of a propose of these fields, nothing where it cannot be read.
fn proposed(fields: &str) -> Option<(u16, Vec<Transaction>)> {
    match read_record(format!("propose,{fields}").as_bytes()) {
        Some(Record::Propose { previous, transactions }) => Some((previous, transactions)),
        _ => None,
    }
}

fn enqueue(member: &mut Member, fields: &str) -> Answer<()> {
    let (guest, triple) = fields.split_once(',').ok_or(1u32)?;
    let guest = read_number(guest.as_bytes()).ok_or(1u32)?;
    let (_, transactions) = proposed(&format!("0,{triple}")).ok_or(1u32)?;
    match transactions[..] {
        [transaction] => member.enqueue(guest, &transaction),
        _ => Err(1),
    }
}

/// The triples of the proposal that a draw makes.
fn draw(member: &mut Member, fields: &str) -> Answer<String> {
    let (previous, transactions) = proposed(fields).ok_or(1u32)?;
    if !transactions.is_empty() {
        return Err(1);
    }
    member.draw(previous)?;
    let triple = |transaction: &Transaction| match *transaction {
        Transaction::Bond { member, amount } => format!(",B,{member},{amount}"),
        Transaction::Unbond { member } => format!(",U,{member},0"),
        Transaction::Entry { number } => format!(",E,{number},0"),
    };
    Ok(member.proposal().expect("just drawn").transactions.iter().map(triple).collect())
}

fn waiting(member: &Member) -> String {
    let counts: String = (0..GUESTS).map(|guest| format!(",{}", member.waiting(guest))).collect();
    counts + "," + &member.served.map_or("none".to_string(), |guest| guest.to_string())
}

/// The line of a call on queues; nothing where the line is no such call.
fn answer(member: Option<&mut Member>, line: &str) -> Option<String> {
    let (name, fields) = line.split_once(',').unwrap_or((line, ""));
    let call = |member: &mut Member| match name {
        "enqueue" => enqueue(member, fields).map(|()| String::new()),
        "draw" => draw(member, fields),
        _ => Ok(waiting(member)),
    };
    if !["enqueue", "draw", "waiting"].contains(&name) {
        return None;
    }
    Some(match member.map_or(Err(1), call) {
        Ok(values) => format!("ok{values}"),
        Err(number) => format!("refused,{number}"),
    })
}

fn main() -> std::io::Result<()> {
    let mut out = BufWriter::new(stdout().lock());
    let mut runner = Runner::default();
    for line in stdin().lock().lines() {
        let line = line?;
        if let Some(answer) = answer(runner.member.as_mut(), &line) {
            writeln!(out, "{answer}")?;
            continue;
        }
        let mut lines = Vec::new();
        runner.answer(read_record(line.as_bytes()).as_ref(), &mut lines);
        lines.retain(|&byte| byte != b'\r');
        out.write_all(&lines)?;
    }
    out.flush()
}
