//! `batches < rows`: records of a runner, LF ended, and batches, for which a
//! runner has no record. `offer` and the fields of an accept puts a certificate
//! into the row; `batch` hands the row over, and its line has what each got, as
//! `naive.py batches` gives it.

use reference::runner::{read_record, Record, Runner};
use reference::{Certificate, Member};
use std::io::{stdin, stdout, BufRead, BufWriter, Write};

/// The certificate of an offer, nothing where it cannot be read.
fn offered(fields: &str) -> Option<Certificate> {
    match read_record(format!("accept{fields}").as_bytes()) {
        Some(Record::Accept(certificate)) => Some(certificate),
        _ => None,
    }
}

fn batch(member: &mut Member, row: &[Option<Certificate>]) -> String {
    let mut answers = vec![0; row.len()];
    match member.batch(row, &mut answers) {
        Ok(()) => answers.iter().fold("ok".to_string(), |line, answer| format!("{line},{answer}")),
        Err(number) => format!("refused,{number}"),
    }
}

fn main() -> std::io::Result<()> {
    let mut out = BufWriter::new(stdout().lock());
    let (mut runner, mut row) = (Runner::default(), Vec::new());
    for line in stdin().lock().lines() {
        let line = line?;
        if let Some(fields) = line.strip_prefix("offer") {
            row.push(offered(fields));
        } else if line == "batch" {
            let row = std::mem::take(&mut row);
            let answer = runner.member.as_mut().map(|member| batch(member, &row));
            writeln!(out, "{}", answer.unwrap_or("refused,1".to_string()))?;
        } else {
            let mut lines = Vec::new();
            runner.answer(read_record(line.as_bytes()).as_ref(), &mut lines);
            lines.retain(|&byte| byte != b'\r');
            out.write_all(&lines)?;
        }
    }
    out.flush()
}
