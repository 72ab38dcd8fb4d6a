//! Scenarios at random: the same ones for the same draw.

mod events;
mod kinds;
mod lines;
mod ports;
mod setups;

use codec::random::Random;
use head::PLACES;

/// A file of scenarios.
pub fn file(draw: u64) -> Vec<u8> {
    let mut maker = Maker {
        random: Random::new(draw ^ 0x464C_4F4F_5200_0000),
        out: Vec::new(),
        onus: Vec::new(),
        places: Vec::new(),
        guard: 4,
        next: 0,
        out_now: 0,
        budget: 0,
        bad: 0,
    };
    maker.random.next_u64();
    maker.all(draw);
    maker.out
}

/// One ONU of a scenario, as the maker knows it.
#[derive(Clone, Copy)]
struct Known {
    port: u64,
    serial: u64,
    /// Its own round trip when it was put in, and the fibre of its port.
    trip: u64,
    fibre: u64,
    place: u64,
}

struct Maker {
    random: Random,
    out: Vec<u8>,
    onus: Vec<Known>,
    /// Places that were entered, rightly or not.
    places: Vec<u64>,
    guard: u64,
    /// About the number of the next frame.
    next: u64,
    out_now: u64,
    /// Frames that may still be sent.
    budget: u64,
    /// Once in how many lines one is spoiled; 0 is never.
    bad: u64,
}

const NAMES: [&str; 8] = [
    "a",
    "line-7",
    "x1",
    "good",
    "scenario",
    "#5",
    "run",
    "near.and.far",
];

impl Maker {
    fn all(&mut self, draw: u64) {
        self.bad = self.random.one_of(&[0, 200, 40, 8]);
        if self.random.once_in(12) {
            // Before any scenario.
            self.bare();
        }
        let scenarios = self.random.between(4, 10);
        for scenario in 0..scenarios {
            self.scenario(draw, scenario);
        }
        if self.random.once_in(10) {
            self.out.extend_from_slice(b"run 3"); // with no end of its line
        }
    }

    /// A few commands that need nothing before them.
    fn bare(&mut self) {
        for _ in 0..self.random.between(1, 4) {
            let line = self.random.one_of::<&str>(&[
                "show",
                "run 3",
                "send",
                "settle",
                "look 0",
                "picture 0",
                "progress on",
                "enter 0 4142434400000001",
                "feeder 5",
                "onu 0 4142434400000001 20000",
                "setup 4 aaaaaa 0 nobody",
                "miss 1 1",
                "hold 0",
                "cut 0",
                "what",
            ]);
            self.line(line);
        }
    }

    fn scenario(&mut self, draw: u64, number: usize) {
        self.onus.clear();
        self.places.clear();
        self.guard = 4;
        self.next = 0;
        self.out_now = 0;
        let name = if self.random.once_in(8) {
            self.random.one_of::<&str>(&NAMES).to_string()
        } else {
            format!("draw-{draw}-{number}")
        };
        self.line(&format!("scenario {name}"));
        match self.random.below(40) {
            0..=4 => self.short(),
            5 | 6 => self.last_frames(),
            7 => self.long(),
            11 | 12 => self.turns(),
            13 | 14 => self.twins(),
            8..=10 => {
                let count = match self.random.below(4) {
                    0 => PLACES as u64,
                    _ => self.random.between(12, 60) as u64,
                };
                self.good(count, 4_200);
            }
            _ => {
                let count = self.random.between(1, 8) as u64;
                let budget = self
                    .random
                    .one_of(&[1_500, 2_600, 3_500, 5_000, 5_000, 9_000]);
                self.good(count, budget);
            }
        }
    }
}
