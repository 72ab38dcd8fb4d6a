//! Set-ups of the head, right and wrong, and the ONUs that are entered.

use super::Maker;
use codec::hex::Hex;
use head::head::{CALENDAR, FRAME_LIMIT, NOBODY, ROUND};
use head::PLACES;

impl Maker {
    pub(super) fn calendar(&mut self, count: u64) -> String {
        let r = &mut self.random;
        match r.below(8) {
            0 => "nobody".to_string(),
            1 | 2 => format!("places {}", count.clamp(1, 64)),
            3 => format!("places {}", r.between(1, 64)),
            4 => {
                // One place has nearly all.
                let place = r.below(count) as u8;
                let bytes = [(); CALENDAR].map(|()| if r.once_in(9) { NOBODY } else { place });
                Hex(&bytes).to_string()
            }
            5 => {
                let bytes =
                    [(); CALENDAR].map(|()| if r.once_in(4) { r.up_to(63) } else { NOBODY });
                Hex(&bytes).to_string()
            }
            _ => {
                let bytes = [(); CALENDAR].map(|()| {
                    if r.once_in(5) {
                        NOBODY
                    } else {
                        r.below(count.min(64)) as u8
                    }
                });
                Hex(&bytes).to_string()
            }
        }
    }

    pub(super) fn set_up(&mut self, count: u64) {
        while self.random.once_in(7) {
            self.set_up_wrongly();
        }
        if self.random.once_in(25) {
            return; // guard 4, pattern 0, frame 0 and nobody
        }
        self.guard = self.random.one_of(&[4, 8, 12, 16]);
        let pattern: [u8; 3] = self.random.array();
        self.next = match self.random.below(8) {
            0 => self.random.below(FRAME_LIMIT / ROUND - 100) * ROUND,
            1 => self.random.below(5_000) * ROUND,
            2 => 1 << 47,
            _ => 0,
        };
        let calendar = self.calendar(count);
        let (guard, first) = (self.guard, self.next);
        self.line(&format!(
            "setup {guard} {} {first} {calendar}",
            Hex(&pattern)
        ));
    }

    /// A set-up with one thing wrong, or with more.
    pub(super) fn set_up_wrongly(&mut self) {
        let r = &mut self.random;
        let wrong = r.below(4);
        let guard = match wrong {
            0 | 3 => r.one_of(&[0, 3, 5, 17, 20, 24, 260, 1 << 32, u64::MAX]),
            _ => r.one_of(&[4, 8, 12, 16]),
        };
        let first = match wrong {
            1 | 3 => r.one_of(&[1, 1_023, 1_025, FRAME_LIMIT, FRAME_LIMIT + ROUND, u64::MAX]),
            _ => r.one_of(&[0, ROUND, FRAME_LIMIT - ROUND]),
        };
        let length = match wrong {
            2 | 3 => r.one_of(&[1, 51, 53, 52, 52, 104]),
            _ => CALENDAR,
        };
        let mut calendar = vec![NOBODY; length];
        if wrong >= 2 {
            let at = r.between(0, length - 1);
            calendar[at] = r.one_of(&[0, 63, 64, 128, 254]);
        }
        let line = format!("setup {guard} aaaaaa {first} {}", Hex(&calendar));
        self.line(&line);
    }

    pub(super) fn enter_all(&mut self) {
        let mut places: Vec<u64> = (0..PLACES as u64).collect();
        if self.random.once_in(3) {
            for i in (1..PLACES).rev() {
                places.swap(i, self.random.between(0, i));
            }
        }
        for (i, place) in places.into_iter().take(self.onus.len()).enumerate() {
            self.onus[i].place = place;
            let onu = self.onus[i];
            if self.random.once_in(25) {
                continue; // it comes later, or never
            }
            let serial = if self.random.once_in(40) {
                self.random.next_u64()
            } else {
                onu.serial
            };
            self.line(&format!("enter {place} {serial:016x}"));
            self.places.push(place);
        }
        if self.random.once_in(8) {
            self.enter();
        }
    }

    pub(super) fn enter(&mut self) {
        let place = match self.random.below(6) {
            0 => self.random.one_of(&[64, 65, 255, 256, 1 << 32, u64::MAX]),
            1 => self.place(),
            _ => self.random.below(64),
        };
        let serial = match self.random.below(4) {
            0 => self.random.below(3),
            1 => self.random.next_u64(),
            _ => self.onu().map_or(7, |onu| onu.serial),
        };
        self.line(&format!("enter {place} {serial:016x}"));
        self.places.push(place);
    }
}
