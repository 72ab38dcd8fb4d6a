//! What operators do.

use super::Maker;
use crate::call::Order;
use crate::row::Phase;
use std::io::{self, Write};

impl<W: Write> Maker<W> {
    pub(super) fn serial(&mut self) -> u64 {
        if self.random.once_in(20) {
            return self.random.next_u64();
        }
        self.random.one_of(&self.serials)
    }

    /// A place, most often one that is used here.
    fn place(&mut self) -> u64 {
        let r = &mut self.random;
        match r.below(24) {
            0 => r.one_of(&[64, 65, 255, 256, 319, 1 << 32, (1 << 32) + 3, u64::MAX]),
            1 | 2 => r.below(64),
            _ => r.one_of(&self.places) as u64,
        }
    }

    pub(super) fn enter_all(&mut self) -> io::Result<()> {
        let serials = self.serials.clone();
        for (i, place) in self.places.clone().into_iter().enumerate() {
            if self.random.once_in(16) {
                continue; // left for later
            }
            self.say(Order::Enter {
                place: place as u64,
                serial: serials[i % serials.len()],
            })?;
        }
        Ok(())
    }

    pub(super) fn operator(&mut self) -> io::Result<()> {
        let place = self.place();
        let phase = self
            .session
            .head()
            .look(place)
            .ok()
            .flatten()
            .map(|row| row.phase);
        let likely = !self.random.once_in(5);
        let order = match phase {
            None if likely => Order::Enter {
                place,
                serial: self.serial(),
            },
            Some(Phase::Held) if likely => Order::Release(place),
            Some(_) if likely => Order::Hold(place),
            _ => match self.random.below(3) {
                0 => Order::Enter {
                    place,
                    serial: self.serial(),
                },
                1 => Order::Hold(place),
                _ => Order::Release(place),
            },
        };
        self.say(order)
    }

    pub(super) fn look(&mut self) -> io::Result<()> {
        let place = self.place();
        self.say(Order::Look(place))
    }
}
