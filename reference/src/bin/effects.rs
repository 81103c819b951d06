//! `effects < stream`: records of a runner, LF ended, and reads of how far a bond
//! moves the shares, for which a runner has no record. `effect`, a member, a round
//! and an amount asks for one. Its line is the answer, and where that is ok sixteen
//! shares before the bond, sixteen after it and the largest difference; that
//! difference is within its bound, or the program stops there. `naive.py effects`
//! gives the same lines.

use reference::runner::{read_record, Runner};
use reference::{most_moved, total, Answer, Effect, Member};
use std::io::{stdin, stdout, BufRead, BufWriter, Write};

fn read(member: &Member, of: u32, round: u32, amount: u32) -> Answer<Effect> {
    let effect = member.read_effect(of, round, amount)?;
    let n = total(member.committee_of(round).expect("a known round"));
    assert!(effect.largest <= most_moved(n, amount), "{effect:?}: a bond of {amount} to a total of {n}");
    Ok(effect)
}

/// The line of a read.
fn effect(member: Option<&Member>, fields: &str) -> String {
    let numbers: Vec<u32> = fields.split(',').map(|field| field.parse().expect("a number")).collect();
    let &[of, round, amount] = &numbers[..] else { panic!("a member, a round and an amount") };
    match member.map_or(Err(1), |member| read(member, of, round, amount)) {
        Ok(effect) => effect.words().iter().fold("ok".to_string(), |line, word| format!("{line},{word}")),
        Err(number) => format!("refused,{number}"),
    }
}

fn main() -> std::io::Result<()> {
    let mut out = BufWriter::new(stdout().lock());
    let mut runner = Runner::default();
    for line in stdin().lock().lines() {
        let line = line?;
        if let Some(fields) = line.strip_prefix("effect,") {
            writeln!(out, "{}", effect(runner.member.as_ref(), fields))?;
            continue;
        }
        let mut lines = Vec::new();
        runner.answer(read_record(line.as_bytes()).as_ref(), &mut lines);
        lines.retain(|&byte| byte != b'\r');
        out.write_all(&lines)?;
    }
    out.flush()
}
