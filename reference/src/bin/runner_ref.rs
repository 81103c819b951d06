//! `runner_ref < stream`: a runner by the reference: records on standard input, answers on
//! standard output; streamed, any size. Status 2 where input or output fails.

use reference::runner::run;
use std::io::{self, BufReader};

fn main() {
    let mut input = BufReader::with_capacity(1 << 18, io::stdin().lock());
    let mut output = io::stdout().lock();
    if let Err(e) = run(&mut input, &mut output) {
        if e.kind() != io::ErrorKind::BrokenPipe {
            eprintln!("{e}");
        }
        std::process::exit(2);
    }
}
