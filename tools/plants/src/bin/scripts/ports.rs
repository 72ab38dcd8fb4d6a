//! The line and what is done to it: ONUs, fibres and losses.

use crate::{Maker, Theme};
use plants::{Onu, State, PORTS};

fn serial_text(serial: u64) -> String {
    format!("{serial:016x}")
}

impl Maker {
    fn trip(&mut self) -> u64 {
        match self.random.below(10) {
            0 => 0,
            1 => self
                .random
                .one_of(&[999_999, 1_000_000, 1_000_001, 4_294_967_295]),
            2 => self.random.below(1 << 32),
            3 => self.random.below(1_000_001),
            _ => self.random.below(36_000),
        }
    }

    fn fibre(&mut self) -> u64 {
        match self.random.below(8) {
            0 => self
                .random
                .one_of(&[0, 1, 31_999, 32_000, 32_001, 4_294_967_295]),
            1 => self.random.below(1 << 32),
            _ => self.random.below(32_001),
        }
    }

    fn pattern(&mut self) -> u64 {
        let r = &mut self.random;
        match r.below(12) {
            0 => r.one_of(&[0, 0, u64::MAX]),
            1 => 1 << r.below(64),
            2 => 1 << 63,
            3 => 1,
            4 => r.next_u64(),
            5 => 0x1111_1111_1111_1111 << r.below(4),
            _ => r.next_u64() & r.next_u64() & r.next_u64(),
        }
    }

    fn serial(&mut self) -> u64 {
        let known = self.onus();
        let r = &mut self.random;
        if known.is_empty() || r.below(3) == 0 {
            return match r.below(6) {
                0 => 0,
                1 => u64::MAX,
                _ => r.next_u64(),
            };
        }
        let like = known[r.between(0, known.len() - 1)].1.serial;
        match r.below(8) {
            0 => like,
            // Equal up to some bit.
            _ => like ^ (1 << r.below(64)),
        }
    }

    pub(super) fn build(&mut self) {
        let count = match self.theme {
            Theme::Crowd => {
                let many = self.random.between(7, 64);
                self.random.one_of(&[many, 63, 64, 65])
            }
            Theme::Late => self.random.between(1, 4),
            _ => self.random.between(1, 6),
        };
        let mut ports: Vec<usize> = (0..PORTS).collect();
        for i in 0..count {
            // Often port 64, which goes dark in a full line.
            let choice = if self.random.once_in(8) && i == 0 {
                PORTS - 1
            } else {
                self.random.between(i, PORTS - 1)
            };
            ports.swap(i, choice);
            let port = ports[i];
            if self.random.once_in(3) {
                let bits = self.fibre();
                self.say(format!("fibre {port} {bits}"));
            }
            let lossy = match self.theme {
                Theme::Noise => 2,
                Theme::Crowd => 20,
                _ => 8,
            };
            if self.random.once_in(lossy) {
                let pattern = self.pattern();
                self.say(format!("loss {port} {pattern:016x}"));
            }
            self.put(port);
        }
        if self.random.once_in(3) {
            let bits = self.fibre();
            self.say(format!("feeder {bits}"));
        }
        if self.theme == Theme::Noise && self.random.flag() || self.random.once_in(20) {
            let pattern = self.pattern();
            self.say(format!("feederloss {pattern:016x}"));
        }
    }

    fn put(&mut self, port: usize) {
        let (serial, trip) = (self.serial(), self.trip());
        self.say(format!("onu {port} {} {trip}", serial_text(serial)));
    }

    /// Puts an ONU into an empty port: the last one makes port 64 dark.
    pub(super) fn fill(&mut self) {
        let filled = self.onus();
        let empty = (0..PORTS).find(|port| filled.iter().all(|(other, _)| other != port));
        if let Some(port) = empty {
            self.put(port);
        }
    }

    /// The filled ports and their ONUs.
    pub(super) fn onus(&mut self) -> Vec<(usize, Onu)> {
        let mut onus = Vec::new();
        self.runner
            .line()
            .each(|port, bench| onus.push((port, *bench.onu())));
        onus
    }

    /// One of the filled ports.
    pub(super) fn some_onu(&mut self) -> (usize, Onu) {
        let onus = self.onus();
        let choice = self.random.between(0, onus.len() - 1);
        onus[choice]
    }

    /// A filled port mostly, sometimes any.
    fn some_port(&mut self) -> usize {
        if self.random.once_in(25) {
            self.random.between(0, PORTS - 1)
        } else {
            self.some_onu().0
        }
    }

    /// Takes signal from an ONU, from one in operation if there is any.
    pub(super) fn lose_operating(&mut self) {
        let operating: Vec<usize> = self
            .onus()
            .iter()
            .filter(|(_, onu)| onu.state == State::O8)
            .map(|(port, _)| *port)
            .collect();
        let port = if operating.is_empty() {
            self.some_onu().0
        } else {
            self.random.one_of(&operating)
        };
        self.say(format!("signal {port} lost"));
    }

    /// Gives signal to those that wait for it.
    pub(super) fn give_signal(&mut self) {
        for (port, onu) in self.onus() {
            if onu.state == State::O1 && self.random.flag() {
                self.say(format!("signal {port} back"));
            }
        }
    }

    /// What the host does between cells.
    pub(super) fn host(&mut self) {
        let port = self.some_port();
        match self.random.below(8) {
            0..=2 => self.say(format!("signal {port} lost")),
            3..=5 => self.say(format!("signal {port} back")),
            6 => self.say(format!("power {port} lost")),
            _ => {
                let bits = self.trip();
                self.say(format!("trip {port} {bits}"));
            }
        }
    }

    /// Somebody works at the fibres.
    pub(super) fn works(&mut self) {
        let port = self.some_port();
        match self.random.below(6) {
            0 | 1 => {
                let bits = self.fibre();
                self.say(format!("fibre {port} {bits}"));
            }
            2 => {
                let pattern = self.pattern();
                self.say(format!("loss {port} {pattern:016x}"));
            }
            3 => {
                let bits = self.fibre();
                self.say(format!("feeder {bits}"));
            }
            4 => {
                let pattern = self.pattern();
                self.say(format!("feederloss {pattern:016x}"));
            }
            _ => self.put(port),
        }
    }
}
