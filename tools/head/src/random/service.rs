//! ONUs in service and their moods.

use super::records::{offset_about, write_record};
use super::{Maker, Theme};
use crate::head::Slot;
use crate::FRAME_SLOTS;
use std::io::Write;

/// How an ONU in service behaves for a while.
#[derive(Clone, Copy, PartialEq, Eq, Debug)]
pub(super) enum Mood {
    Good,
    Dark,
    Broken,
    /// Everything but PLOAM cells in the PLOAM turns.
    NoPloam,
    /// Offsets about the bound.
    Edge,
    /// Silence, or broken light, that is to reach its end with the third PLOAM
    /// grant.
    Together,
    /// Anything, record by record.
    Mixed,
}

const MOODS: [Mood; 7] = [
    Mood::Good,
    Mood::Dark,
    Mood::Broken,
    Mood::NoPloam,
    Mood::Edge,
    Mood::Together,
    Mood::Mixed,
];

impl<W: Write> Maker<W> {
    pub(super) fn new_mood(&mut self) {
        let place = self.random.one_of(&self.places);
        let seldom = match self.theme {
            Theme::Service | Theme::Limits => 3,
            Theme::Long => 4,
            _ => 2,
        };
        self.moods[place] = if self.random.once_in(seldom) {
            self.random.one_of(&MOODS)
        } else {
            Mood::Good
        };
    }

    /// How many slots of a place, this one counted, come before its next PLOAM
    /// turn, 8 for more.
    fn before_turn(&self, place: usize, frame: u64, x: usize) -> usize {
        let mut count = 0;
        let (mut frame, mut x) = (frame, x);
        while count < 8 {
            match self.session.head().slot(frame, x) {
                Slot::Turn(turn) if turn == place => break,
                Slot::Calendar(own) if own == place => count += 1,
                _ => {}
            }
            x += 1;
            if x > FRAME_SLOTS {
                x = 1;
                frame += 1;
            }
        }
        count
    }

    /// The slot of an ONU in service.
    pub(super) fn serve(
        &mut self,
        place: usize,
        turn: bool,
        frame: u64,
        x: usize,
        record: &mut [u8],
    ) {
        let far = i64::from(self.session.head().guard()) / 2;
        let own = if turn { 2 } else { 3 };
        let message = self.up();
        let parity = self.parity();
        let mood = self.moods[place];
        let missed = self.session.head().row(place).map_or(0, |row| row.missed);
        let last = mood == Mood::Together
            && (turn || (missed == 2 && self.before_turn(place, frame, x) <= 7));
        let r = &mut self.random;
        let offset = r.below(2 * far as u64 + 1) as i64 - far;
        let mut offset = offset as i32;
        let mut kind = own;
        let mut bits = parity;
        let slips = !r.once_in(24);
        match mood {
            Mood::Good => {
                if r.once_in(400) {
                    kind = r.one_of(&[0, 1, 2, 3, 4]);
                }
            }
            Mood::Dark if slips => {
                kind = 0;
                if r.once_in(60) {
                    bits = 9;
                }
            }
            Mood::Broken if slips => {
                kind = r.one_of(&[1, 1, 4, 200]);
                if r.once_in(4) {
                    kind = r.one_of(&[0, 2, 3]);
                    bits = r.one_of(&[9, 200]);
                }
            }
            Mood::NoPloam if turn && slips => {
                kind = r.one_of(&[0, 1, 3, 3, 3]);
                if missed == 2 && r.once_in(4) {
                    offset = offset_about(r, far);
                }
            }
            Mood::Together if last => kind = (place % 2) as u8,
            Mood::Edge => {
                if r.once_in(40) {
                    offset = offset_about(r, far);
                } else {
                    offset = (if r.flag() { far } else { -far }) as i32;
                }
            }
            Mood::Mixed => {
                kind = r.one_of(&[0, 0, 0, 1, 1, 1, 2, 3, 4]);
                if r.once_in(8) {
                    bits = r.one_of(&[8, 9]);
                }
            }
            Mood::Dark | Mood::Broken | Mood::NoPloam | Mood::Together => {}
        }
        // An offset of a slot without a cell says nothing.
        if !(2..=3).contains(&kind) && r.flag() {
            offset = offset_about(r, far);
        }
        write_record(record, kind, bits, offset, &message);
        if kind == 0 && bits == 0 && r.flag() {
            record.fill(0);
        }
    }
}
