//! `previews < stream`: records of a runner, LF ended, and previews of commit,
//! for which a runner has no record. `preview` and a number asks for one into a
//! list of so many words, all of them the largest number before. Its line is the
//! answer, and then the list as far as a word of it was written. `naive.py
//! previews` gives the same lines.

use reference::runner::{read_record, Runner};
use reference::Member;
use std::io::{stdin, stdout, BufRead, BufWriter, Write};

/// No block number, no round and no author.
const BLANK: u32 = u32::MAX;

/// The line of a preview into a list of so many words.
fn preview(member: Option<&Member>, words: usize) -> String {
    let mut list = vec![BLANK; words];
    let line = match member.map_or(Err(1), |member| member.preview(&mut list)) {
        Ok(count) => format!("ok,{count}"),
        Err(number) => format!("refused,{number}"),
    };
    let written = list.iter().rposition(|&word| word != BLANK).map_or(0, |last| last + 1);
    line + &list[..written].iter().map(|word| format!(",{word}")).collect::<String>()
}

fn main() -> std::io::Result<()> {
    let mut out = BufWriter::new(stdout().lock());
    let mut runner = Runner::default();
    for line in stdin().lock().lines() {
        let line = line?;
        if let Some(words) = line.strip_prefix("preview,") {
            let words = words.parse().expect("a number of words");
            writeln!(out, "{}", preview(runner.member.as_ref(), words))?;
            continue;
        }
        let mut lines = Vec::new();
        runner.answer(read_record(line.as_bytes()).as_ref(), &mut lines);
        lines.retain(|&byte| byte != b'\r');
        out.write_all(&lines)?;
    }
    out.flush()
}
