//! What happens in the plant: drift, losses, light that goes and comes back.

use super::{Port, Run};
use plants::{BenchOnu, Event, State};
use std::io::Write;

impl<W: Write> Run<W> {
    /// Somewhat more than the least round trip, within the guard.
    fn drift(&mut self, port: usize) {
        let range = if self.lawful {
            u64::from(self.session.head().guard()) / 4
        } else {
            self.random.one_of(&[3, 20, 2_000])
        };
        let trip = self.ports[port].least + self.random.below(range + 1);
        if let Some(onu) = self.line.onu(port) {
            onu.set_trip(trip as u32);
        }
    }

    /// Something that happens in the plant between two cells.
    pub(super) fn event(&mut self) {
        let port = self.random.between(0, self.ports.len() - 1);
        let r = &mut self.random;
        let pattern = match r.below(10) {
            0..=3 => 1 << r.below(64),
            4..=6 => r.next_u64() & r.next_u64() & r.next_u64(),
            7 => r.next_u64(),
            8 => u64::MAX,
            _ => 0,
        };
        let event = match self.random.below(10) {
            0 => Event::SignalLost,
            1 if self.random.flag() => Event::PowerLost,
            2..=5 => {
                self.drift(port);
                return;
            }
            6 if self.random.once_in(4) => {
                self.line.set_feeder_loss(pattern);
                return;
            }
            7 | 8 => {
                self.line.set_loss(port, pattern);
                return;
            }
            9 if self.random.once_in(8) => {
                // Another one with the same number, in the same place.
                let Port { serial, least } = self.ports[port];
                self.line.put(port, BenchOnu::new(serial, least as u32));
                return;
            }
            _ => Event::SignalBack,
        };
        if let Some(onu) = self.line.onu(port) {
            onu.take(&event);
        }
    }

    /// Light comes back where it is missing, and losses end.
    pub(super) fn repair(&mut self) {
        self.line.set_feeder_loss(0);
        for port in 0..self.ports.len() {
            if self.random.flag() {
                self.line.set_loss(port, 0);
            }
            if let Some(onu) = self.line.onu(port) {
                if onu.onu().state == State::O1 {
                    onu.take(&Event::SignalBack);
                }
            }
        }
    }
}
