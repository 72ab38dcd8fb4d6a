//! The ONUs that are put in, and one of them, its port or its place.

use super::{Known, Maker};
use head::head::LAST_DELAY;
use plants::{PORTS, TARGET};

/// The round trips that a delay of 0 to 32,000 bits brings to the target.
const LEAST_TRIP: u64 = TARGET - LAST_DELAY as u64;
const LAST_TRIP: u64 = TARGET;

impl Maker {
    /// Puts in so many ONUs. `sound` says that all can be brought up.
    pub(super) fn put_in(&mut self, count: u64, sound: bool) {
        let feeder = match self.random.below(4) {
            0 => self.random.below(3_000),
            1 => self.random.below(300),
            _ => 0,
        };
        if feeder > 0 || self.random.once_in(6) {
            self.line(&format!("feeder {feeder}"));
        }
        let mut ports: Vec<u64> = (0..PORTS as u64).collect();
        if self.random.flag() || count == PORTS as u64 {
            for i in (1..PORTS).rev() {
                ports.swap(i, self.random.between(0, i));
            }
        }
        let first = self.random.next_u64();
        for i in 0..count {
            let port = ports[i as usize];
            let total = match self.random.below(12) {
                0 => LEAST_TRIP,
                1 => LAST_TRIP,
                2 if !sound => self.random.one_of(&[
                    LEAST_TRIP - 1,
                    LAST_TRIP + 1,
                    LAST_TRIP + 2,
                    0,
                    40_000,
                    100_000,
                    1_000_000,
                    2_000_000,
                    u64::from(u32::MAX),
                ]),
                _ => LEAST_TRIP + self.random.below(LAST_TRIP - LEAST_TRIP + 1),
            };
            let rest = total.saturating_sub(feeder);
            let fibre = if self.random.flag() {
                self.random.below(rest.min(32_001) + 1)
            } else {
                0
            };
            let trip = rest - fibre;
            let serial = match self.random.below(30) {
                0 => i,
                1 if !sound && !self.onus.is_empty() => {
                    self.onus[self.random.between(0, self.onus.len() - 1)].serial
                }
                _ => first.wrapping_add(i),
            };
            if fibre > 0 {
                self.line(&format!("fibre {port} {fibre}"));
            }
            let digits = if self.random.once_in(5) {
                format!("{serial:016X}")
            } else {
                format!("{serial:016x}")
            };
            self.line(&format!("onu {port} {digits} {trip}"));
            self.onus.push(Known {
                port,
                serial,
                trip,
                fibre,
                place: i % 64,
            });
            if self.random.once_in(25) {
                let pattern = self.pattern();
                self.line(&format!("loss {port} {pattern:016x}"));
            }
        }
        if self.random.once_in(20) {
            let pattern = self.pattern();
            self.line(&format!("feederloss {pattern:016x}"));
        }
        if self.random.once_in(20) {
            self.line("show");
        }
    }

    /// A place, mostly one that somebody has.
    pub(super) fn place(&mut self) -> u64 {
        match self.random.below(30) {
            0 => self.random.below(64),
            1 => self
                .random
                .one_of(&[64, 65, 127, 255, 256, 1 << 16, 1 << 32, u64::MAX]),
            _ if self.places.is_empty() => 0,
            _ => {
                let at = self.random.between(0, self.places.len() - 1);
                self.places[at]
            }
        }
    }

    pub(super) fn onu(&mut self) -> Option<Known> {
        if self.onus.is_empty() {
            None
        } else {
            let at = self.random.between(0, self.onus.len() - 1);
            Some(self.onus[at])
        }
    }

    /// A port, mostly one with an ONU.
    pub(super) fn port(&mut self) -> u64 {
        match self.onu() {
            Some(onu) if !self.random.once_in(30) => onu.port,
            _ => self.random.below(65),
        }
    }

    pub(super) fn pattern(&mut self) -> u64 {
        let r = &mut self.random;
        match r.below(8) {
            0 | 1 => 1 << r.below(64),
            2 | 3 => r.next_u64() & r.next_u64() & r.next_u64() & r.next_u64(),
            4 => r.next_u64(),
            5 => u64::MAX,
            6 => (1 << r.below(64)) | (1 << r.below(64)),
            _ => 0,
        }
    }
}
