//! Burst lists and reports.

use crate::{bytes_text, Maker};
use plants::script::FRESH_ROOM;
use plants::FRAME_SLOTS;

impl Maker {
    /// Another burst list, often just large enough or not.
    pub(super) fn room(&mut self) {
        let needed = 27 * self.runner.line().count() as u64;
        let entries = match self.random.below(8) {
            0 => needed - 1,
            1 => needed,
            2 => needed + 1,
            3 => 0,
            4 => 1_000_000,
            5 => needed + self.random.below(needed),
            6 => FRESH_ROOM as u64,
            _ => 4 * needed + self.random.below(2_000),
        };
        self.say(format!("room {entries}"));
        for _ in 0..self.random.between(0, 3) {
            let bytes = self.cell();
            self.hear(&bytes);
            if self.random.flag() {
                self.say("show".to_string());
            }
            if self.random.once_in(4) {
                self.say("clear".to_string());
            }
        }
        // A list that stays full teaches nothing more.
        if self.runner.list().free() < 4 * needed as usize && !self.random.once_in(8) {
            self.say(format!("room {FRESH_ROOM}"));
        }
    }

    fn marks(&mut self) -> Vec<u8> {
        let r = &mut self.random;
        let mut marks = vec![0; FRAME_SLOTS as usize];
        match r.below(8) {
            0 => marks.fill_with(|| r.byte() & r.byte() & r.byte()),
            1 => marks.fill_with(|| r.one_of(&[0, 0, 1, 128, 255])),
            2 => {
                let length = r.between(0, 120);
                let length = r.one_of(&[0, 52, 54, length]);
                marks.resize(length, 0);
            }
            3 => marks[r.between(0, 52)] = 1,
            _ => {}
        }
        marks
    }

    /// A report, mostly of a frame that has bursts.
    pub(super) fn report(&mut self) {
        let bursts = self.runner.list().bursts();
        let recent = match bursts.last() {
            Some(last) => last.slot / FRAME_SLOTS,
            None => self.slot / FRAME_SLOTS,
        };
        let some = if bursts.is_empty() {
            recent
        } else {
            bursts[self.random.between(0, bursts.len() - 1)].slot / FRAME_SLOTS
        };
        let r = &mut self.random;
        let frame = match r.below(16) {
            0 => r.one_of(&[(1 << 48) - 1, 1 << 48, (1 << 48) + 1, 1 << 60]),
            // About where the slots no longer fit 64 bits, and past it.
            1 => {
                let last = u64::MAX / FRAME_SLOTS;
                r.one_of(&[last - 1, last, last + 1, last + 2, u64::MAX])
            }
            2 => r.next_u64(),
            // The product comes round to the slots of a frame with bursts.
            3 => {
                let round = (u128::from(r.below(FRAME_SLOTS)) << 64) / u128::from(FRAME_SLOTS);
                recent.wrapping_add(round as u64).wrapping_add(r.below(2))
            }
            4 => recent.saturating_sub(1),
            5 => recent + 1,
            6..=8 => some,
            _ => recent,
        };
        let marks = self.marks();
        self.say(format!("report {frame} {}", bytes_text(&marks)));
    }
}
