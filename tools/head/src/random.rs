//! Random successions of calls, the same ones for the same start value.

mod errors;
mod operators;
mod records;
mod reports;
mod rounds;
mod service;
mod setups;

use crate::call::Call;
use crate::head::{FRAME_LIMIT, MOST_OUT};
use crate::replay::Session;
use crate::PLACES;
use codec::random::Random;
use plants::REPORT;
use service::Mood;
use std::io::{self, Write};

/// What a script is about.
#[derive(Clone, Copy, PartialEq, Eq, Debug)]
enum Theme {
    /// Set-ups, good and bad, and operators' errors.
    SetUps,
    /// Reports of random bytes.
    Noise,
    /// Bring-ups, good and bad, with operators at work.
    Operators,
    /// Rounds that fail more often than not.
    Failures,
    /// ONUs in service, with alarms.
    Service,
    /// The same for longer, with failures after the alarms.
    Long,
    /// The last frames of all.
    Limits,
}

pub struct Maker<W> {
    random: Random,
    session: Session,
    out: W,
    theme: Theme,
    /// Serial numbers that are entered, some of them more than once.
    serials: Vec<u64>,
    /// Places that are filled in this script, mostly.
    places: Vec<usize>,
    moods: [Mood; PLACES],
    /// How many dockets are left out after a send.
    late: usize,
    /// Once in how many frames operators, lookers and errors come.
    operators: u64,
    looks: u64,
    errors: u64,
    dumps: u64,
    /// One round in so many fails.
    failing: u64,
}

impl<W: Write> Maker<W> {
    pub fn new(start: u64, out: W) -> Maker<W> {
        let mut random = Random::new(start);
        let theme = match random.below(20) {
            0..=3 => Theme::SetUps,
            4..=5 => Theme::Noise,
            6..=9 => Theme::Operators,
            10..=12 => Theme::Failures,
            13..=15 => Theme::Service,
            16..=18 => Theme::Long,
            _ => Theme::Limits,
        };
        let count = match random.below(8) {
            0 => PLACES,
            1..=2 => random.between(10, 40),
            _ => random.between(1, 8),
        };
        let mut serials: Vec<u64> = (0..count as u64)
            .map(|i| 0x4D55_4C4B_0000_0001 + i * random.one_of(&[1, 1, 1, 1 << 8]))
            .collect();
        let odd = [0, u64::MAX, random.next_u64(), 1 << 63];
        for serial in odd {
            if random.once_in(4) {
                serials.push(serial);
            }
        }
        let places = if count == PLACES {
            (0..PLACES).collect()
        } else {
            let low = random.flag(); // those that come early
            (0..count)
                .map(|_| match random.below(6) {
                    0 => random.one_of(&[0, 63, 62, 15, 46, 1, 31, 32]),
                    _ if low => random.between(0, 16),
                    _ => random.between(0, PLACES - 1),
                })
                .collect()
        };
        let late = random.between(0, MOST_OUT);
        let operators = match theme {
            Theme::Operators => random.one_of(&[10, 40, 150]),
            Theme::Noise => 60,
            _ => random.one_of(&[300, 1000, 3000]),
        };
        let looks = random.one_of(&[2, 8, 40]);
        let errors = random.one_of(&[10, 60, 400]);
        let dumps = match theme {
            Theme::Long => random.one_of(&[50, 200]),
            _ => random.one_of(&[100, 300, 900]),
        };
        let failing = match theme {
            Theme::Failures => random.one_of(&[1, 1, 2]),
            Theme::Operators => 4,
            _ => random.one_of(&[8, 20, 1000]),
        };
        Maker {
            random,
            session: Session::new(),
            out,
            theme,
            serials,
            places,
            moods: [Mood::Good; PLACES],
            late,
            operators,
            looks,
            errors,
            dumps,
            failing,
        }
    }

    /// Writes a call and does it.
    fn say(&mut self, call: impl Into<Call>) -> io::Result<()> {
        let call = call.into();
        writeln!(self.out, "{call}")?;
        self.session.run(&call, &mut io::sink())
    }

    /// Writes the whole script.
    pub fn script(&mut self) -> io::Result<()> {
        if self.random.once_in(4) {
            self.say(Call::Dump)?;
        }
        if self.random.once_in(3) {
            self.errors()?;
        }
        let tries = match self.theme {
            Theme::SetUps => self.random.between(5, 60),
            _ => self.random.between(0, 3),
        };
        for _ in 0..tries {
            self.bad_set_up()?;
            if self.theme == Theme::SetUps && self.random.once_in(4) {
                self.good_set_up()?;
            }
        }
        // A head that is not set up has nobody in its calendar.
        let bare = self.theme != Theme::Limits && self.random.once_in(12);
        if !bare {
            self.good_set_up()?;
        }
        if self.theme == Theme::SetUps && self.random.once_in(3) {
            self.random_calls()?;
        }
        if !self.random.once_in(10) {
            self.enter_all()?;
        }
        if self.random.once_in(4) {
            self.bad_set_up()?;
            self.good_set_up()?;
        }
        let frames = match self.theme {
            Theme::SetUps => self.random.between(0, 60),
            Theme::Noise => self.random.between(100, 1_500),
            Theme::Operators => self.random.between(800, 3_500),
            Theme::Failures => self.random.between(2_000, 5_500),
            Theme::Service => self.random.between(2_400, 6_000),
            Theme::Long => self.random.between(7_000, 12_000),
            Theme::Limits => {
                let left = (FRAME_LIMIT - self.session.head().frame()).min(5_000) as usize;
                left + self.random.between(2, 40)
            }
        };
        for _ in 0..frames {
            self.frame()?;
        }
        while self.session.oldest().is_some() {
            self.settle()?;
        }
        self.say(Call::Settle(vec![0; REPORT]))?;
        self.say(Call::Dump)?;
        self.out.flush()
    }

    // Frames.

    /// What comes between the calls of the schedule.
    fn between(&mut self) -> io::Result<()> {
        if self.random.once_in(2 * self.operators) {
            self.operator()?;
        }
        if self.random.once_in(2 * self.looks) {
            self.look()?;
        }
        if self.random.once_in(2 * self.errors) {
            self.errors()?;
        }
        if self.random.once_in(2 * self.dumps) {
            self.say(Call::Dump)?;
        }
        Ok(())
    }

    fn frame(&mut self) -> io::Result<()> {
        if self.theme == Theme::Long && self.random.once_in(2_000) {
            self.failing = self.random.one_of(&[1, 2, 8, 1000, 1000, 1000]);
        }
        if self.random.once_in(100) {
            self.late = self.random.between(0, MOST_OUT);
        }
        if self.session.head().out() == MOST_OUT {
            if self.random.once_in(30) {
                self.say(Call::Send(96))?; // refused
            }
            self.settle()?;
        }
        self.between()?;
        self.say(Call::Send(96))?;
        self.between()?;
        while self.session.head().out() > self.late {
            self.settle()?;
        }
        Ok(())
    }

    fn settle(&mut self) -> io::Result<()> {
        let report = match self.session.oldest() {
            Some(frame) => self.report(frame),
            None => vec![0; REPORT],
        };
        self.say(Call::Settle(report))
    }
}
