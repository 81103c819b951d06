//! `shares < pairs`: a pair is a line, weight and total; the answer is its
//! share, a line each, as `naive.py shares` gives it.

use reference::thousandths;
use std::io::{stdin, stdout, BufRead, BufWriter, Write};

fn main() -> std::io::Result<()> {
    let mut out = BufWriter::new(stdout().lock());
    for line in stdin().lock().lines() {
        let line = line?;
        let (weight, n) = line.split_once(' ').expect("weight and total");
        let number = |text: &str| text.parse().expect("a number");
        writeln!(out, "{}", thousandths(number(weight), number(n)))?;
    }
    out.flush()
}
