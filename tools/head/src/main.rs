//! Answers a replay script, or makes one.
//!
//! Without arguments it reads a script from standard input and prints the
//! answers. `random` and `line` print scripts, of calls at random and of a whole
//! line; `compare` holds another program's answers against its own, and `check`
//! runs the self-test.

use codec::random::Random;
use head::check::check;
use head::compare::compare;
use head::random::Maker;
use head::replay::Session;
use head::whole;
use plants::text::each_line;
use std::io::{self, BufWriter, Write};
use std::process::ExitCode;

const USAGE: &str = "usage: head < SCRIPT
       head random DRAW
       head line DRAW [FRAMES]
       head compare SCRIPT ANSWERS
       head check";

fn replay() -> io::Result<()> {
    let mut session = Session::new();
    let mut out = BufWriter::with_capacity(1 << 16, io::stdout().lock());
    each_line(io::stdin().lock(), |line| session.read(line, &mut out))?;
    out.flush()
}

/// Prints where the answers agree and where they part.
fn held_against(script: &str, answers: &str, mut out: impl Write) -> ExitCode {
    let read = |path: &str| {
        let bytes = std::fs::read(path)?;
        Ok::<_, io::Error>(String::from_utf8_lossy(&bytes).into_owned())
    };
    let both = read(script).and_then(|script| Ok((script, read(answers)?)));
    let compared = both.and_then(|(script, answers)| {
        let compared = compare(&script, &answers);
        write!(out, "{compared}")?;
        out.flush()?;
        Ok(compared.difference.is_none())
    });
    match compared {
        Ok(true) => ExitCode::SUCCESS,
        Ok(false) => ExitCode::FAILURE,
        Err(error) => {
            eprintln!("head: {error}");
            ExitCode::from(2)
        }
    }
}

fn number(word: &str) -> Option<u64> {
    word.parse().ok()
}

fn main() -> ExitCode {
    let words: Vec<String> = std::env::args().skip(1).collect();
    let words: Vec<&str> = words.iter().map(String::as_str).collect();
    let out = BufWriter::with_capacity(1 << 16, io::stdout().lock());
    let done = match words[..] {
        [] => {
            drop(out);
            Some(replay())
        }
        ["random", draw] => number(draw).map(|draw| {
            let start = Random::new(draw).next_u64();
            Maker::new(start, out).script()
        }),
        ["line", draw] => number(draw).map(|draw| whole::script(draw, None, out)),
        ["line", draw, frames] => number(draw)
            .zip(number(frames))
            .map(|(draw, frames)| whole::script(draw, Some(frames), out)),
        ["compare", script, answers] => return held_against(script, answers, out),
        ["check"] => return check(out),
        _ => None,
    };
    match done {
        Some(Ok(())) => ExitCode::SUCCESS,
        Some(Err(error)) => {
            eprintln!("head: {error}");
            ExitCode::FAILURE
        }
        None => {
            eprintln!("{USAGE}");
            ExitCode::from(2)
        }
    }
}
