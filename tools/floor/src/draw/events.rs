//! What happens in a scenario: runs, and what befalls the line between them.

use super::Maker;
use head::head::{FRAME_LIMIT, ROUND};

impl Maker {
    pub(super) fn run_for(&mut self, frames: u64) {
        let frames = frames.min(self.budget);
        let late = match self.random.below(6) {
            0 => Some(0),
            1 => Some(1),
            2 => Some(2),
            3 => Some(3),
            _ => None,
        };
        match late {
            None => self.line(&format!("run {frames}")),
            Some(late) => self.line(&format!("run {frames} late {late}")),
        }
        self.out_now = late.unwrap_or(0);
        self.next += frames;
        self.budget -= frames;
    }

    /// Runs until shortly before or after something that happens to a place:
    /// the end of its window, the start of a round, a turn.
    fn run_to(&mut self) {
        let place = self.place() % 64;
        let r = &mut self.random;
        let at = match r.below(5) {
            0 => 16 * place + 23,
            1 => 16 * place + 14,
            2 => 16 * place + 23 + 32 * r.below(10) + (place / 2 + 9) % 32,
            _ => 16 * place + 15,
        };
        let near = at + r.one_of(&[0, 1, 2, 3, 4, 1_023, 1_022]);
        let frames = (near + 2 * ROUND - self.next % ROUND) % ROUND;
        self.run_for(frames);
    }

    fn run_somehow(&mut self) {
        match self.random.below(10) {
            0..=2 => self.run_to(),
            3 => {
                let frames = self.random.below(6);
                self.run_for(frames);
            }
            4 | 5 => {
                let frames = self.random.below(100);
                self.run_for(frames);
            }
            6 | 7 => {
                let frames = self.random.below(1_100);
                self.run_for(frames);
            }
            8 => {
                let frames = self.random.one_of(&[1_024, 2_064, 1_040, 655, 656, 657]);
                self.run_for(frames);
            }
            _ => {
                let frames = 1_024 + self.random.below(2_000);
                self.run_for(frames);
            }
        }
    }

    fn by_hand(&mut self) {
        for _ in 0..self.random.between(1, 12) {
            match self.random.below(9) {
                0..=4 => {
                    self.line("send");
                    if self.out_now < 4 {
                        self.out_now += 1;
                        self.next += 1;
                    }
                }
                5..=7 => {
                    self.line("settle");
                    self.out_now = self.out_now.saturating_sub(1);
                }
                _ => self.line("settle newest"),
            }
        }
    }

    fn miss(&mut self) {
        let r = &mut self.random;
        let slot = match r.below(6) {
            0 | 1 => 1,
            2 => 53,
            _ => r.between(1, 53) as u64,
        };
        let frames = match r.below(8) {
            0 => r.between(100, 300),
            1 => r.between(0, 2),
            2 => r.between(1_000, 1_100),
            3 => 8,
            _ => r.between(1, 14),
        };
        let line = format!("miss {slot} {frames}");
        self.line(&line);
    }

    fn trip(&mut self) {
        let Some(onu) = self.onu() else { return };
        let far = match self.random.below(6) {
            0 => self.random.below(1_000_200),
            1 => self.random.below(2_000),
            _ => self.random.below(self.guard / 2 + 3),
        };
        let trip = if self.random.flag() {
            onu.trip + far
        } else {
            onu.trip.saturating_sub(far)
        };
        self.line(&format!("trip {} {trip}", onu.port));
    }

    fn fibre(&mut self) {
        let Some(onu) = self.onu() else { return };
        let far = self.random.below(self.guard + 3);
        let bits = match self.random.below(8) {
            0 => self.random.below(40_000),
            1..=3 => onu.fibre + far,
            _ => onu.fibre.saturating_sub(far),
        };
        if self.random.once_in(6) {
            self.line(&format!("feeder {bits}"));
        } else {
            self.line(&format!("fibre {} {bits}", onu.port));
        }
    }

    /// Takes the messages of a place from its ONU, and moves that too far: it is
    /// told to stop and does not hear it.
    fn deaf(&mut self) {
        let Some(onu) = self.onu() else { return };
        let cell = (onu.place + 64 - 2 * (self.next % 32)) % 64;
        self.line(&format!("loss {} {:016x}", onu.port, 1u64 << cell));
        let trip = onu.trip + self.guard / 2 + self.random.below(3);
        self.line(&format!("trip {} {trip}", onu.port));
        let rounds = self.random.between(1, 6) as u64;
        self.run_for(rounds * ROUND);
        self.line(&format!("look {}", onu.place));
        if self.random.flag() {
            self.line(&format!("loss {} 0000000000000000", onu.port));
        }
    }

    pub(super) fn picture(&mut self) {
        let next = self.next;
        let r = &mut self.random;
        let frame = match r.below(12) {
            0 => next,
            1 => next + r.below(40),
            2 => next.saturating_sub(r.one_of(&[63, 64, 65])),
            3 => r.one_of(&[
                0,
                12,
                FRAME_LIMIT - 1,
                FRAME_LIMIT,
                FRAME_LIMIT + 15,
                u64::MAX,
                u64::MAX / 53,
            ]),
            4 => r.next_u64(),
            5 => {
                // The last window.
                let end = next.saturating_sub(1) / 16 * 16;
                end.saturating_sub(r.below(3))
            }
            _ => next.saturating_sub(1 + r.below(5)),
        };
        self.line(&format!("picture {frame}"));
    }

    fn plant_event(&mut self) {
        let port = self.port();
        match self.random.below(12) {
            0 => self.line(&format!("power {port} lost")),
            1 => self.line(&format!("power {port} back")),
            2 => self.line(&format!("signal {port} lost")),
            3 => self.line(&format!("signal {port} back")),
            4 => self.line(&format!("cut {port}")),
            5 => self.line(&format!("mend {port}")),
            6 => {
                let pattern = self.pattern();
                self.line(&format!("loss {port} {pattern:016x}"));
            }
            7 if self.random.once_in(3) => {
                let pattern = self.pattern();
                self.line(&format!("feederloss {pattern:016x}"));
            }
            7 if self.random.flag() => self.deaf(),
            7 | 8 => self.fibre(),
            9 => {
                // Loses it and gets it back after a while.
                let what = self.random.one_of::<&str>(&["power", "signal"]);
                self.line(&format!("{what} {port} lost"));
                self.run_somehow();
                self.line(&format!("{what} {port} back"));
            }
            10 => {
                self.line(&format!("cut {port}"));
                self.run_somehow();
                self.line(&format!("mend {port}"));
            }
            _ => self.trip(),
        }
    }

    pub(super) fn action(&mut self) {
        match self.random.below(34) {
            0..=11 => self.run_somehow(),
            12..=18 => self.plant_event(),
            19 => {
                let place = self.place();
                self.line(&format!("hold {place}"));
            }
            20 => {
                let place = self.place();
                self.line(&format!("release {place}"));
            }
            21 => {
                let place = self.place();
                self.line(&format!("hold {place}"));
                self.run_somehow();
                self.line(&format!("release {place}"));
            }
            22 | 23 => {
                let place = self.place();
                self.line(&format!("look {place}"));
            }
            24 => self.enter(),
            25 | 26 => self.by_hand(),
            27 | 28 => self.miss(),
            29 | 30 => self.picture(),
            31 => self.line("show"),
            32 => {
                let on = self.random.one_of::<&str>(&["on", "on", "off"]);
                self.line(&format!("progress {on}"));
            }
            _ => match self.random.below(4) {
                0 => self.set_up_wrongly(),
                1 => self.set_up(1),
                2 => {
                    let port = self.random.below(65);
                    self.line(&format!("onu {port} 0000000000000009 20000"));
                }
                _ => self.bare(),
            },
        }
    }
}
