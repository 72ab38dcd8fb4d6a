//! Holds what another program printed against what this one prints.

use crate::{Runner, Sums};
use std::fmt;

/// Where two programs part.
#[derive(Clone, PartialEq, Eq, Debug)]
pub struct Difference {
    /// The line of what is printed, counted from 1.
    pub printed: usize,
    /// The line of the input at which this one printed it, and that line; none
    /// after the end of the input.
    pub read: Option<(usize, String)>,
    pub here: String,
    pub there: String,
}

/// What ran, how many lines are the same, and where the first one is not.
#[derive(Clone, PartialEq, Eq, Debug, Default)]
pub struct Comparison {
    pub sums: Sums,
    pub same: usize,
    pub difference: Option<Difference>,
}

/// The lines of some bytes, each with its end.
fn lines(bytes: &[u8]) -> impl Iterator<Item = &[u8]> {
    bytes.split_inclusive(|&byte| byte == b'\n')
}

/// Runs scenarios and compares byte for byte.
pub fn compare(input: &[u8], printed: &[u8]) -> Comparison {
    let mut runner = Runner::new(Vec::new());
    let mut others = lines(printed);
    let mut out = Comparison::default();
    let mut hold = |mine: Vec<u8>, read: Option<(usize, &[u8])>, out: &mut Comparison| {
        for here in lines(&mine) {
            let there = others.next().unwrap_or_default();
            if out.difference.is_none() {
                if here == there {
                    out.same += 1;
                } else {
                    out.difference = Some(Difference {
                        printed: out.same + 1,
                        read: read.map(|(number, line)| (number, text(line))),
                        here: text(here),
                        there: text(there),
                    });
                }
            }
        }
    };
    for (i, line) in lines(input).enumerate() {
        runner
            .read(&String::from_utf8_lossy(line))
            .expect("memory takes it");
        let mine = std::mem::take(runner.out());
        hold(mine, Some((i + 1, line)), &mut out);
    }
    runner.close().expect("memory takes it");
    let mine = std::mem::take(runner.out());
    hold(mine, None, &mut out);
    out.sums = runner.sums();
    if let (None, Some(there)) = (&out.difference, others.next()) {
        out.difference = Some(Difference {
            printed: out.same + 1,
            read: None,
            here: text(b""),
            there: text(there),
        });
    }
    out
}

/// A line as it is shown.
fn text(line: &[u8]) -> String {
    if line.is_empty() {
        return "(nothing)".to_string();
    }
    let text = String::from_utf8_lossy(line);
    text.strip_suffix('\n').unwrap_or(&text).to_string()
}

impl fmt::Display for Comparison {
    fn fmt(&self, f: &mut fmt::Formatter<'_>) -> fmt::Result {
        let Sums {
            scenarios,
            frames,
            bursts,
        } = self.sums;
        writeln!(f, "same\t{scenarios}\t{}\t{frames}\t{bursts}", self.same)?;
        if let Some(difference) = &self.difference {
            write!(
                f,
                "line {} of what is printed differs, ",
                difference.printed
            )?;
            match &difference.read {
                Some((number, line)) => writeln!(f, "at line {number} of the input: {line}")?,
                None => writeln!(f, "at the end of the input")?,
            }
            writeln!(f, "  here:  {}", difference.here)?;
            writeln!(f, "  there: {}", difference.there)?;
        }
        Ok(())
    }
}

#[cfg(test)]
mod tests {
    use super::*;

    #[test]
    fn differences() {
        let input = b"scenario a\nlook 3\n\n# x\nhold 3\n";
        let whole = b"scenario a\nframe 0: look 3: empty\n\
            frame 0: hold 3: refused 8: the place is empty or held\n\
            a: frames 0, bursts 0, refusals 1\na: no two bursts\n\
            a: in service 0, waiting 0, held 0, empty 64\n";
        let same = compare(input, whole);
        assert_eq!((same.same, &same.difference), (6, &None));
        let mut parted = whole.to_vec();
        parted[50] = b'X';
        let parted = compare(input, &parted).difference.unwrap();
        assert_eq!(parted.printed, 3);
        assert_eq!(parted.read, Some((5, "hold 3".to_string())));
        let short = compare(input, &whole[..whole.len() - 1]);
        assert_eq!(short.difference.unwrap().printed, 6);
        let none = compare(input, b"").difference.unwrap();
        assert_eq!((none.printed, none.there.as_str()), (1, "(nothing)"));
        let more = [&whole[..], b"more\n"].concat();
        assert_eq!(compare(input, &more).difference.unwrap().printed, 7);
    }
}
