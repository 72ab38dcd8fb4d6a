//! Kinds of scenarios.

use super::{Known, Maker};
use codec::hex::Hex;
use head::head::{CALENDAR, FRAME_LIMIT, NOBODY, ROUND};

impl Maker {
    /// A line that comes into service, and what befalls it.
    pub(super) fn good(&mut self, count: u64, budget: u64) {
        self.budget = budget;
        let sound = !self.random.once_in(3);
        let count = if count == 64 && !sound { 65 } else { count };
        self.put_in(count, sound);
        if self.random.once_in(4) {
            self.line("progress on");
        }
        self.set_up(count);
        self.enter_all();
        // Mostly all come into service before anything happens.
        if !self.random.once_in(4) {
            let frames = 2_064 + 16 * count.min(63);
            if self.random.flag() {
                self.run_for(frames);
            } else {
                self.run_for(1_024 + self.guard);
                self.action();
                self.run_for(frames.saturating_sub(1_024));
            }
        }
        while self.budget > 0 {
            self.action();
            if self.random.once_in(60) {
                break;
            }
        }
        self.end();
    }

    fn end(&mut self) {
        if self.random.once_in(3) {
            self.line("show");
        }
        if self.random.once_in(3) {
            for place in self.places.clone() {
                self.line(&format!("look {place}"));
            }
        }
        if self.random.once_in(3) {
            self.picture();
        }
    }

    /// Two ONUs of which one misses about three PLOAM turns and about eight slots
    /// in succession.
    pub(super) fn turns(&mut self) {
        self.budget = 6_000;
        self.put_in(2, true);
        self.guard = self.random.one_of(&[4, 8, 12, 16]);
        let slots = self.random.between(6, 8);
        let mut calendar = [self.random.one_of(&[1, NOBODY]); CALENDAR];
        let from = self.random.between(0, CALENDAR - slots);
        calendar[from..from + slots].fill(0);
        let guard = self.guard;
        self.line(&format!("setup {guard} 555555 0 {}", Hex(&calendar)));
        let onus = self.onus.clone();
        for (place, onu) in onus.iter().enumerate() {
            self.line(&format!("enter {place} {:016x}", onu.serial));
            self.places.push(place as u64);
        }
        self.run_for(2_100);
        while self.budget > 0 {
            let r = &mut self.random;
            // The turns of place 0 that come next.
            let turn =
                |frame: u64| (15 * (frame / 16) + frame % 16).is_multiple_of(64) && frame % 16 < 15;
            let mut turns = (self.next..).filter(|&frame| turn(frame));
            let first = turns.next().expect("they do not end");
            let last = turns.nth(r.between(0, 2)).expect("they do not end");
            let missed = last - first + r.one_of(&[0, 1, 1]);
            let early = r.one_of(&[0, 1, 1, 1, 2]);
            let at = first - self.next;
            self.run_for(at);
            self.line(&format!("miss 1 {missed}"));
            self.run_for(last - first - early);
            match self.random.below(4) {
                0 => self.line(&format!("cut {}", onus[0].port)),
                1 => self.line(&format!("signal {} lost", onus[0].port)),
                2 => {
                    for slot in from + 2..from + 2 + slots {
                        if !self.random.once_in(12) {
                            self.line(&format!("miss {slot} {early}"));
                        }
                    }
                }
                _ => self.line(&format!("power {} lost", onus[0].port)),
            }
            let frames = self.random.below(4);
            self.run_for(frames);
            self.line("look 0");
            self.picture();
            self.line(&format!("mend {}", onus[0].port));
            let frames = self.random.below(1_200);
            self.run_for(frames);
            if !self.random.once_in(3) {
                self.line(&format!("power {} back", onus[0].port));
                self.run_for(3_200);
            }
        }
        self.end();
    }

    /// Two ONUs with one serial number. The second hears nothing while the first
    /// comes into service, and then both answer.
    pub(super) fn twins(&mut self) {
        self.budget = 14_000;
        self.guard = self.random.one_of(&[4, 8, 12, 16]);
        let trip = 4_000 + self.random.below(30_000);
        for port in 0..2 {
            let trip = trip + self.random.below(3);
            self.line(&format!("onu {port} 0000000000000007 {trip}"));
            self.onus.push(Known {
                port,
                serial: 7,
                trip,
                fibre: 0,
                place: 0,
            });
        }
        // A few slots, so that eight in succession take some frames.
        let mut calendar = [NOBODY; CALENDAR];
        for _ in 0..self.random.between(0, 8) {
            calendar[self.random.between(0, CALENDAR - 1)] = 0;
        }
        let guard = self.guard;
        self.line(&format!("setup {guard} 0f0f0f 0 {}", Hex(&calendar)));
        self.line("enter 0 0000000000000007");
        self.places.push(0);
        if self.random.once_in(3) {
            self.run_for(4_200); // both answer from the first
        } else {
            self.line("loss 1 ffffffffffffffff");
            self.run_for(2_100);
            self.line("loss 0 ffffffffffffffff");
            self.line("loss 1 0000000000000000");
            self.run_for(5_300);
            self.line("show");
            self.line("loss 0 0000000000000000");
            for _ in 0..3 {
                let frames = self.random.one_of(&[1, 2, 3, 60]);
                self.run_for(frames);
                self.picture();
                self.line("look 0");
            }
        }
        while self.budget > 6_000 {
            self.action();
        }
        self.end();
    }

    /// Anything in any order, in few frames.
    pub(super) fn short(&mut self) {
        self.budget = 300;
        if self.random.flag() {
            let count = self.random.between(1, 4) as u64;
            self.put_in(count, false);
        }
        for _ in 0..self.random.between(0, 30) {
            match self.random.below(12) {
                0 => self.set_up(3),
                1 => self.enter(),
                2 if self.random.flag() => self.set_up_wrongly(),
                3 => self.bare(),
                _ => self.action(),
            }
        }
        self.end();
    }

    /// The last frames that there are.
    pub(super) fn last_frames(&mut self) {
        let count = self.random.between(1, 3) as u64;
        self.put_in(count, true);
        let rounds = self.random.between(1, 4) as u64;
        self.guard = self.random.one_of(&[4, 8, 12, 16]);
        let calendar = self.calendar(count);
        let (guard, first) = (self.guard, FRAME_LIMIT - rounds * ROUND);
        self.line(&format!("setup {guard} 00ff00 {first} {calendar}"));
        self.next = first;
        self.enter_all();
        self.budget = rounds * ROUND - self.random.below(20);
        while self.budget > 0 {
            self.action();
        }
        self.budget = 60;
        while self.budget > 0 {
            self.action();
        }
        self.end();
    }

    /// One ONU that waits for its delay for longer than it bears: it was told
    /// its codes and hears nothing any more, or nothing of some cells.
    pub(super) fn long(&mut self) {
        if !self.random.once_in(3) {
            let count = self.random.between(1, 4) as u64;
            return self.good(count, 12_000);
        }
        self.budget = 80_000;
        self.put_in(1, false);
        self.line("setup 8 123456 0 nobody");
        self.next = 0;
        self.guard = 8;
        self.enter_all();
        // The first message of its first round, and with it the timer.
        let place = self.onus[0].place;
        let start = (16 * place + 23) % ROUND;
        let first = start + (place / 2 + 32 - start % 32) % 32;
        let frames = self.random.one_of(&[1, 40, 120, 200, 300, 420, 1_200]);
        self.run_for(first + frames);
        let port = self.onus[0].port;
        let pattern = match self.random.below(8) {
            0 => u64::MAX >> 1,
            1 => 1,
            _ => u64::MAX,
        };
        self.line(&format!("loss {port} {pattern:016x}"));
        self.line("show");
        self.run_for(first + 65_536 - 6 - self.next);
        for _ in 0..12 {
            self.run_for(1);
            self.line("show");
        }
        self.line(&format!("loss {port} 0000000000000000"));
        self.run_for(2_100);
        self.end();
    }
}
