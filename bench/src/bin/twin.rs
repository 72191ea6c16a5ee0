//! Reads a script from standard input and prints what `run` prints.

use celimbuk_bench::twin::run::run;
use std::io::{self, BufWriter, Read, Write};

fn main() -> io::Result<()> {
    let mut script = Vec::new();
    io::stdin().lock().read_to_end(&mut script)?;
    let mut out = BufWriter::new(io::stdout().lock());
    run(&script, &mut out)?;
    out.flush()
}
