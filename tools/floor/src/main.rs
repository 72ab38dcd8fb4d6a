//! Reads scenarios and prints what happens, makes some, or holds what another
//! program printed against its own.

use floor::compare::compare;
use floor::{draw, Runner};
use plants::text::each_line;
use std::io::{self, BufWriter, Write};
use std::process::ExitCode;

const USAGE: &str = "usage: floor < SCENARIOS
       floor draw DRAW
       floor compare SCENARIOS PRINTED";

fn run() -> io::Result<()> {
    let mut runner = Runner::new(BufWriter::with_capacity(1 << 16, io::stdout().lock()));
    each_line(io::stdin().lock(), |line| runner.read(line))?;
    runner.close()?;
    runner.out().flush()
}

/// Prints what ran and where the two part, if they do.
fn held_against(scenarios: &str, printed: &str) -> io::Result<ExitCode> {
    let found = compare(&std::fs::read(scenarios)?, &std::fs::read(printed)?);
    print!("{found}");
    Ok(match found.difference {
        None => ExitCode::SUCCESS,
        Some(_) => ExitCode::FAILURE,
    })
}

fn main() -> ExitCode {
    let words: Vec<String> = std::env::args().skip(1).collect();
    let words: Vec<&str> = words.iter().map(String::as_str).collect();
    let done = match words[..] {
        [] => run().map(|()| ExitCode::SUCCESS),
        ["draw", number] if number.parse::<u64>().is_ok() => {
            let number = number.parse().expect("it is one");
            let file = draw::file(number);
            io::stdout()
                .lock()
                .write_all(&file)
                .map(|()| ExitCode::SUCCESS)
        }
        ["compare", scenarios, printed] => held_against(scenarios, printed),
        _ => {
            eprintln!("{USAGE}");
            return ExitCode::from(2);
        }
    };
    done.unwrap_or_else(|error| {
        eprintln!("floor: {error}");
        ExitCode::from(2)
    })
}
