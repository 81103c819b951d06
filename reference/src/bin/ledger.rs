//! `ledger < stream`, or `ledger STREAM...`: a ledger of weights against committees, after
//! each accepted open and commit of streams of records. Says how much was compared; status 1
//! at a difference.

use reference::ledger::Figures;
use std::io::BufRead;

fn main() {
    let (mut figures, mut streams) = (Figures::default(), 0);
    let paths: Vec<String> = std::env::args().skip(1).collect();
    let mut one = |name: &str, input: &mut dyn BufRead| {
        streams += 1;
        if let Err(why) = figures.stream(&mut Box::new(input)) {
            println!("{name}: {why}");
            std::process::exit(1);
        }
    };
    if paths.is_empty() {
        one("standard input", &mut std::io::stdin().lock());
    }
    for path in &paths {
        let file = std::fs::File::open(path).unwrap_or_else(|error| panic!("{path}: {error}"));
        one(path, &mut std::io::BufReader::new(file));
    }
    let [unbonds, of_start, of_bonds, of_nothing] = figures.unbonds;
    println!(
        "{streams} streams, {} opens and commits: the weights add up. Committees after all blocks: {} read, {} above the ceiling; \
         {} committees in all, at most {} together. Counted each time anew: {} transactions, {} bonded, {} released by {unbonds} unbonds, \
         {of_start} of them of a starting weight, {of_bonds} of bonds alone, {of_nothing} of nothing",
        figures.commits, figures.read, figures.above, figures.committees, figures.most, figures.transactions, figures.bonded, figures.released
    );
}
