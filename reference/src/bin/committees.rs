//! `committees < stream`: of the chain that a stream of records leaves, a line for
//! each block: its number, its round, and the sixteen weights of the committee of
//! the round from which on it counts, lookback + block's round + 1, as read; where
//! that is above the ceiling no read shows it, and the reference's own committee is
//! taken. `owners.py` compares a register of weights with these lines.

use reference::runner::{for_each_record, read_record, Runner};
use std::io::{stdin, stdout, BufWriter, Write};

fn main() -> std::io::Result<()> {
    let (mut runner, mut lines) = (Runner::default(), Vec::new());
    for_each_record(&mut stdin().lock(), |text| {
        runner.answer(text.and_then(read_record).as_ref(), &mut lines);
        lines.clear();
        Ok(())
    })?;
    let mut out = BufWriter::new(stdout().lock());
    let Some(member) = runner.member else { return Ok(()) };
    for (number, block) in (1..).zip(member.chain()) {
        write!(out, "{number},{}", block.round)?;
        let counts = member.settings().lookback + block.round + 1;
        let weights = match member.read_committee(counts) {
            Err(5) => *member.committee_of(counts).expect("a round from which on a block counts is known"),
            read => read.expect("a round from which on a block counts is known"),
        };
        weights.iter().try_for_each(|weight| write!(out, ",{weight}"))?;
        writeln!(out)?;
    }
    out.flush()
}
