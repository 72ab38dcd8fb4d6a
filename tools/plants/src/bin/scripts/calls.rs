//! Calls: the slot of the next one, its length and how often it is repeated.

use crate::{bytes_text, Maker, Theme};
use plants::{FRAME_SLOTS, SLOT_LIMIT};

impl Maker {
    /// The slot of the next cell. A frame has two cells, 27 and 26 slots on.
    fn next_slot(&mut self) -> u64 {
        let slot = self.slot;
        let second = slot % FRAME_SLOTS == 27;
        self.slot += if second { 26 } else { 27 };
        if self.slot >= SLOT_LIMIT {
            self.slot = 0;
        }
        let odd = match self.theme {
            Theme::Limits => 8,
            _ => 60,
        };
        if self.random.once_in(odd) {
            return match self.random.below(8) {
                0 => SLOT_LIMIT - 1,
                1 => SLOT_LIMIT,
                2 => SLOT_LIMIT - self.random.below(60),
                3 => SLOT_LIMIT + self.random.below(60),
                4 => self.random.one_of(&[u64::MAX, 1 << 63, 1 << 48]),
                5 => self.random.next_u64(),
                _ => self.random.below(300),
            };
        }
        slot
    }

    pub(super) fn hear(&mut self, bytes: &[u8]) {
        let slot = self.next_slot();
        self.say(format!("cell {slot} {}", bytes_text(bytes)));
    }

    /// A call that has not 48 bytes.
    pub(super) fn wrong_length(&mut self) {
        let mut bytes = self.cell().to_vec();
        let length = match self.random.below(6) {
            0 => 0,
            1 => 1,
            2 => 47,
            3 => 49,
            4 => 96,
            _ => self.random.between(0, 120),
        };
        bytes.resize(length, 0x40);
        self.hear(&bytes);
    }

    /// Calls of the same bytes, few enough to answer.
    pub(super) fn few_repeats(&mut self) {
        let bytes = if self.random.flag() {
            self.cell()
        } else {
            self.idle()
        };
        let count = self.random.between(1, 5) as u64;
        let slot = self.next_slot();
        self.say(format!("repeat {count} {slot} {}", bytes_text(&bytes)));
        self.slot = (self.slot + 27 * count) % SLOT_LIMIT;
    }
}
