//! Reads a script from standard input and prints what happened.

use plants::script::Runner;
use plants::text::each_line;
use std::io::{self, BufWriter, Write};

fn main() -> io::Result<()> {
    let mut runner = Runner::new(BufWriter::with_capacity(1 << 16, io::stdout().lock()));
    each_line(io::stdin().lock(), |line| runner.read(line))?;
    runner.close()?;
    runner.out().flush()
}
