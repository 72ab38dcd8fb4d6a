//! Prints random scripts: `scripts START COUNT`, the same ones for the same
//! start. A line of ONUs is kept along with each script, so that most cells can
//! be made to lead some ONU on.

mod calls;
mod cells;
mod messages;
mod ports;
mod reports;
mod timers;

use codec::cell::CELL;
use codec::hex::Hex;
use codec::random::Random;
use codec::Grant;
use plants::script::Runner;
use plants::{Timer, FRAME_SLOTS};
use std::io::{self, BufWriter, Write};

/// What a script is mostly about.
#[derive(Clone, Copy, PartialEq, Eq, Debug)]
enum Theme {
    /// A few ONUs that come, go and come back.
    Few,
    /// Many ONUs, sometimes one too many.
    Crowd,
    /// Signal lost while operating, up to the end of the second timer.
    Popup,
    /// Rangings that take too long, up to the end of the first timer.
    Late,
    /// Full lists, last slots, wrong lengths.
    Limits,
    /// Losses before losses, wrong check bytes, wrong messages.
    Noise,
}

struct Maker {
    random: Random,
    theme: Theme,
    /// Runs along; what it prints is looked at only for lines it cannot read.
    runner: Runner<Vec<u8>>,
    lines: Vec<String>,
    /// The first slot of the next cell.
    slot: u64,
    /// Codes that grants are drawn from beside those in force.
    codes: [u8; 6],
    /// PON_IDs that are given out, few enough to meet.
    pon_ids: [u8; 5],
    /// The ONU that is led on now, and for how many more cells.
    focus: (usize, usize),
    /// Cells spent on waiting for the first timer.
    waited: u32,
}

fn bytes_text(bytes: &[u8]) -> String {
    if bytes.is_empty() {
        "-".to_string()
    } else {
        Hex(bytes).to_string()
    }
}

impl Maker {
    fn new(start: u64) -> Maker {
        let mut random = Random::new(start);
        let theme = match random.below(100) {
            0 => Theme::Late,
            1..=11 => Theme::Crowd,
            12..=26 => Theme::Popup,
            27..=41 => Theme::Limits,
            42..=56 => Theme::Noise,
            _ => Theme::Few,
        };
        let frame = match random.below(5) {
            0 => 0,
            1 => (1 << 48) - random.below(40) - 1,
            2 => random.below(1 << 48),
            _ => random.below(5_000),
        };
        let mut pon_ids = [0; 5];
        pon_ids.fill_with(|| random.up_to(63));
        if random.flag() {
            pon_ids[0] = 0;
            pon_ids[4] = 63;
        }
        let mut codes = [0; 6];
        codes.fill_with(|| random.up_to(Grant::LAST_CODE));
        if random.flag() {
            codes[5] = Grant::LAST_CODE;
        }
        Maker {
            random,
            theme,
            runner: Runner::new(Vec::new()),
            lines: Vec::new(),
            slot: FRAME_SLOTS * frame,
            codes,
            pon_ids,
            focus: (0, 0),
            waited: 0,
        }
    }

    /// Adds a line and does what it says.
    fn say(&mut self, line: String) {
        self.runner.out().clear();
        self.runner
            .read(&line)
            .expect("a buffer takes all that is written");
        let wrong = self.runner.out().starts_with(b"line ");
        assert!(!wrong, "cannot be read: {line}");
        self.lines.push(line);
    }

    fn script(mut self) -> Vec<String> {
        self.say("new".to_string());
        self.build();
        let steps = match self.theme {
            Theme::Crowd => self.random.between(20, 60),
            Theme::Late => self.random.between(20, 50),
            _ => self.random.between(30, 110),
        };
        for _ in 0..steps {
            self.step();
        }
        match self.theme {
            Theme::Late => {
                for _ in 0..3 {
                    self.run_out(Timer::First);
                }
            }
            Theme::Popup => self.run_out(Timer::Second),
            _ => {}
        }
        self.say("show".to_string());
        self.lines
    }

    fn step(&mut self) {
        let limits = self.theme == Theme::Limits;
        let noise = self.theme == Theme::Noise;
        match self.random.below(100) {
            0..=5 => self.host(),
            6..=7 => self.works(),
            8..=9 => self.report(),
            10 => self.room(),
            11 => self.say("clear".to_string()),
            12 => self.wrong_length(),
            13..=15 => self.few_repeats(),
            16..=20 => {
                let bytes = self.damaged();
                self.hear(&bytes);
            }
            21 => {
                let bytes: [u8; CELL] = self.random.array();
                self.hear(&bytes);
            }
            22..=30 if limits => self.room(),
            31..=33 if limits => self.wrong_length(),
            34..=40 if limits => self.report(),
            22..=40 if noise => {
                let bytes = self.damaged();
                self.hear(&bytes);
            }
            22..=26 if self.theme == Theme::Popup => self.lose_operating(),
            27 if self.theme == Theme::Popup => self.wait(Timer::Second),
            22..=23 if self.theme == Theme::Crowd => self.fill(),
            22..=24 => self.give_signal(),
            _ => {
                let bytes = self.cell();
                self.hear(&bytes);
            }
        }
        let seldom = match self.theme {
            Theme::Crowd => self.random.once_in(15),
            _ => !self.random.once_in(4),
        };
        if seldom {
            self.say("show".to_string());
        }
    }
}

fn main() -> io::Result<()> {
    let numbers: Vec<u64> = std::env::args()
        .skip(1)
        .filter_map(|word| word.parse().ok())
        .collect();
    let [start, count] = numbers[..] else {
        eprintln!("usage: scripts START COUNT");
        std::process::exit(2);
    };
    let mut starts = Random::new(start);
    let mut out = BufWriter::new(io::stdout().lock());
    for _ in 0..count {
        for line in Maker::new(starts.next_u64()).script() {
            writeln!(out, "{line}")?;
        }
    }
    out.flush()
}
