//! One line with 65 ports: a feeder of fibre and drop, a tree of splitters, and
//! at each port a drop and a fibre with an ONU at its end, or none.

use crate::bench::BenchOnu;
use crate::plant::{BurstList, Pattern, Plant, Refusal, LAST_FIBRE};

/// Ports of a line. The last one is dark if all are filled.
pub const PORTS: usize = 65;

pub struct Line {
    plant: Plant,
}

impl Default for Line {
    fn default() -> Line {
        Line::new()
    }
}

/// Splitters to `count` ports, a power of two.
fn fan(count: usize) -> Plant {
    if count == 1 {
        Plant::drop(0, Plant::fibre(0, Plant::Nothing))
    } else {
        Plant::splitter(fan(count / 2), fan(count / 2))
    }
}

/// Lays another piece of fibre in place of the one that begins here.
fn set_fibre(plant: &mut Plant, bits: u32) {
    match plant {
        Plant::Fibre(length, _) => *length = bits.min(LAST_FIBRE),
        _ => unreachable!("a fibre begins here"),
    }
}

/// Gives the drop that begins here another pattern.
fn set_loss(plant: &mut Plant, bits: u64) {
    match plant {
        Plant::Drop(pattern, _) => *pattern = Pattern::new(bits),
        _ => unreachable!("a drop begins here"),
    }
}

/// What lies behind a fibre or drop.
fn behind(plant: &mut Plant) -> &mut Plant {
    match plant {
        Plant::Fibre(_, behind) | Plant::Drop(_, behind) => behind,
        _ => unreachable!("a fibre or drop begins here"),
    }
}

/// Calls `see` with the number of each port from `port` on that has an ONU.
/// Answers the number of the port after the last one.
fn walk(plant: &Plant, port: usize, see: &mut impl FnMut(usize, &BenchOnu)) -> usize {
    match plant {
        Plant::Nothing => port + 1,
        Plant::Onu(onu) => {
            see(port, onu);
            port + 1
        }
        Plant::Fibre(_, behind) | Plant::Drop(_, behind) => walk(behind, port, see),
        Plant::Splitter(sides) => {
            let port = walk(&sides[0], port, see);
            walk(&sides[1], port, see)
        }
    }
}

impl Line {
    /// A line with all ports empty, no fibre and no loss.
    pub fn new() -> Line {
        let ports = Plant::splitter(fan(PORTS - 1), fan(1));
        Line {
            plant: Plant::fibre(0, Plant::drop(0, ports)),
        }
    }

    /// The drop at a port.
    fn port(&mut self, port: usize) -> &mut Plant {
        let mut plant = behind(behind(&mut self.plant));
        let mut ports = PORTS - 1;
        // The outermost splitter parts the last port from all others, the rest
        // part equal halves.
        if port == ports {
            return match plant {
                Plant::Splitter(sides) => &mut sides[1],
                _ => unreachable!("the outermost splitter"),
            };
        }
        if let Plant::Splitter(sides) = plant {
            plant = &mut sides[0];
        }
        while let Plant::Splitter(sides) = plant {
            ports /= 2;
            plant = &mut sides[usize::from(port & ports != 0)];
        }
        plant
    }

    pub fn set_feeder(&mut self, bits: u32) {
        set_fibre(&mut self.plant, bits);
    }

    pub fn set_feeder_loss(&mut self, pattern: u64) {
        set_loss(behind(&mut self.plant), pattern);
    }

    pub fn set_fibre(&mut self, port: usize, bits: u32) {
        set_fibre(behind(self.port(port)), bits);
    }

    pub fn set_loss(&mut self, port: usize, pattern: u64) {
        set_loss(self.port(port), pattern);
    }

    /// Puts an ONU into a port, in place of what was there.
    pub fn put(&mut self, port: usize, onu: BenchOnu) {
        *behind(behind(self.port(port))) = Plant::Onu(onu);
    }

    /// The ONU at a port.
    pub fn onu(&mut self, port: usize) -> Option<&mut BenchOnu> {
        match behind(behind(self.port(port))) {
            Plant::Onu(onu) => Some(onu),
            _ => None,
        }
    }

    /// Calls `see` with each filled port, in order.
    pub fn each(&self, mut see: impl FnMut(usize, &BenchOnu)) {
        walk(&self.plant, 0, &mut see);
    }

    pub fn count(&self) -> usize {
        self.plant.count()
    }

    pub fn hear(
        &mut self,
        payload: &[u8],
        first: u64,
        list: &mut BurstList,
    ) -> Result<(), Refusal> {
        self.plant.hear(payload, first, list)
    }
}

#[cfg(test)]
mod tests {
    use super::*;

    #[test]
    fn ports_are_in_order() {
        let mut line = Line::new();
        for port in (0..PORTS).rev() {
            assert!(line.onu(port).is_none());
            line.put(port, BenchOnu::new(port as u64, 0));
        }
        let mut seen = 0;
        line.each(|port, onu| {
            assert_eq!((port, onu.onu().serial), (seen, seen as u64));
            seen += 1;
        });
        assert_eq!(seen, PORTS);
        assert_eq!(line.count(), PORTS - 1);
    }
}
