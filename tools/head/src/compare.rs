//! Holds the answers of another program against those of this one.

use crate::replay::Session;
use std::collections::BTreeMap;
use std::fmt;

/// Where two programs part.
#[derive(Clone, PartialEq, Eq, Debug)]
pub struct Difference {
    /// The line of the script, counted from 1; none if the answers go on after
    /// its end.
    pub line: Option<usize>,
    pub call: String,
    pub here: String,
    pub there: String,
}

/// How many answers of each kind agree, and where the first one does not.
#[derive(Clone, PartialEq, Eq, Debug, Default)]
pub struct Comparison {
    pub equal: BTreeMap<String, u64>,
    pub difference: Option<Difference>,
}

/// What kind of answer this is.
fn kind(answer: &str) -> String {
    let mut words = answer.split(' ');
    match words.next() {
        Some("refused") => answer.to_string(),
        Some("?") => "no call".to_string(),
        Some(word) if word.starts_with("serial=") => {
            format!("look {}", words.next().unwrap_or_default())
        }
        Some(word) if word.starts_with(|first: char| first.is_ascii_digit()) => {
            "row of a dump".to_string()
        }
        Some(word) => word.to_string(),
        None => String::new(),
    }
}

/// Answers to lines that are no call agree up to the text.
fn agree(here: &str, there: &str) -> bool {
    let head = |answer: &str| match answer.split_once(':') {
        Some((head, _)) if answer.starts_with("? ") => head.to_string(),
        _ => answer.to_string(),
    };
    head(here) == head(there)
}

/// Runs a script and compares, answer by answer.
pub fn compare(script: &str, answers: &str) -> Comparison {
    let mut session = Session::new();
    let mut others = answers.lines();
    let mut out = Comparison::default();
    for (i, line) in script.lines().enumerate() {
        let mut mine = Vec::new();
        session.read(line, &mut mine).expect("memory takes it");
        for here in String::from_utf8(mine).expect("plain text").lines() {
            match others.next() {
                Some(there) if agree(here, there) => {
                    *out.equal.entry(kind(here)).or_default() += 1;
                }
                there => {
                    out.difference = Some(Difference {
                        line: Some(i + 1),
                        call: line.to_string(),
                        here: here.to_string(),
                        there: there.unwrap_or("(nothing)").to_string(),
                    });
                    return out;
                }
            }
        }
    }
    if let Some(there) = others.next() {
        out.difference = Some(Difference {
            line: None,
            call: "(the end)".to_string(),
            here: "(nothing)".to_string(),
            there: there.to_string(),
        });
    }
    out
}

/// Long calls and answers, shortened in the middle.
fn short(text: &str) -> String {
    if text.len() > 400 && text.is_ascii() {
        format!("{} .. {}", &text[..200], &text[text.len() - 150..])
    } else {
        text.to_string()
    }
}

impl fmt::Display for Comparison {
    fn fmt(&self, f: &mut fmt::Formatter<'_>) -> fmt::Result {
        for (kind, count) in &self.equal {
            writeln!(f, "equal\t{count}\t{kind}")?;
        }
        if let Some(difference) = &self.difference {
            match difference.line {
                Some(line) => writeln!(f, "differs at line {line}: {}", short(&difference.call))?,
                None => writeln!(f, "differs after the last line")?,
            }
            writeln!(f, "  here:  {}", short(&difference.here))?;
            writeln!(f, "  there: {}", short(&difference.there))?;
        }
        Ok(())
    }
}

#[cfg(test)]
mod tests {
    use super::*;

    #[test]
    fn differences() {
        let script = "look 3\nwhat\n\n# x\nhold 3\n";
        let whole = "empty\n? line 2: something else\nrefused 8\n";
        let same = compare(script, whole);
        assert_eq!(same.difference, None);
        assert_eq!(same.equal.values().sum::<u64>(), 3);
        let parted = compare(script, "empty\n? line 2: x\nrefused 9\n");
        assert_eq!(parted.difference.unwrap().line, Some(5));
        let parted = compare(script, "empty\n? line 3: x\nrefused 8\n");
        assert_eq!(parted.difference.unwrap().line, Some(2));
        let parted = compare(script, "empty\n");
        assert_eq!(parted.difference.unwrap().there, "(nothing)");
        let parted = compare(script, &format!("{whole}ok\n"));
        assert_eq!(parted.difference.unwrap().line, None);
    }
}
