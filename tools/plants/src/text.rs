//! Text in and out: lines that are read, and values that may be missing.

use std::fmt::{self, Display};
use std::io::{self, BufRead};

/// Hands on line after line, each with its end. Bytes that are no text become
/// the character that stands for such.
pub fn each_line(
    mut input: impl BufRead,
    mut take: impl FnMut(&str) -> io::Result<()>,
) -> io::Result<()> {
    let mut line = Vec::new();
    while input.read_until(b'\n', &mut line)? > 0 {
        take(&String::from_utf8_lossy(&line))?;
        line.clear();
    }
    Ok(())
}

/// Something or none.
pub struct Maybe<T>(pub Option<T>);

impl<T: Display> Display for Maybe<T> {
    fn fmt(&self, f: &mut fmt::Formatter<'_>) -> fmt::Result {
        match &self.0 {
            Some(something) => something.fmt(f),
            None => f.write_str("none"),
        }
    }
}
