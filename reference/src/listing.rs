//! The chain listing: what a runner's chain shows before its ok, line by line.

use crate::{Member, Transaction};
use std::io::Write;

/// Triples as they stand in a record, each with a comma before it.
pub fn write_triples(transactions: &[Transaction], out: &mut Vec<u8>) {
    for t in transactions {
        match *t {
            Transaction::Bond { member, amount } => write!(out, ",B,{member},{amount}"),
            Transaction::Unbond { member } => write!(out, ",U,{member},0"),
            Transaction::Entry { number } => write!(out, ",E,{number},0"),
        }
        .unwrap();
    }
}

/// The line of a certificate, with its CRLF.
pub struct Line {
    pub round: u32,
    pub author: u32,
    pub bytes: Vec<u8>,
}

impl Member {
    /// Block, block round, certificate round, author, triples.
    pub fn lines(&self) -> Vec<Line> {
        let mut lines = Vec::new();
        for (i, block) in self.chain().iter().enumerate() {
            for &(round, author) in &block.certificates {
                let held = self.held_at(author, round).expect("a block's certificates are held");
                let mut bytes = Vec::new();
                write!(bytes, "{},{},{},{}", i + 1, block.round, round, author).unwrap();
                write_triples(&held.certificate.proposal.transactions, &mut bytes);
                bytes.extend_from_slice(b"\r\n");
                lines.push(Line { round, author, bytes });
            }
        }
        lines
    }

    pub fn listing(&self) -> Vec<u8> {
        self.lines().into_iter().flat_map(|line| line.bytes).collect()
    }
}
