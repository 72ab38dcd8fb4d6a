//! Whole reports.

use super::{Maker, Theme};
use crate::head::Slot;
use crate::row::Job;
use crate::FRAME_SLOTS;
use plants::receiver::RECORD;
use plants::REPORT;
use std::io::Write;

impl<W: Write> Maker<W> {
    pub(super) fn report(&mut self, frame: u64) -> Vec<u8> {
        let mut report = vec![0; REPORT];
        let noisy = match self.theme {
            Theme::Noise => true,
            Theme::SetUps => self.random.flag(),
            _ => self.random.once_in(400),
        };
        if noisy {
            self.noise(&mut report);
            return report;
        }
        if self.random.once_in(30) {
            self.new_mood();
        }
        // Light where nobody is expected.
        let stray = self.random.once_in(40);
        for x in 1..=FRAME_SLOTS {
            let slot = self.session.head().slot(frame, x);
            let record = &mut report[(x - 1) * RECORD..x * RECORD];
            match slot {
                Slot::Window {
                    place,
                    judged: true,
                } => {
                    let row = self.session.head().row(place).copied();
                    match row.and_then(|row| row.running.map(|job| (row.serial, job))) {
                        Some((serial, Job::BringUp)) => self.bring_up(place, serial, record),
                        Some((serial, Job::Tell)) => self.tell(place, serial, record),
                        _ => self.stray(record),
                    }
                }
                Slot::Turn(place) | Slot::Calendar(place) => {
                    let turn = x == 1;
                    let serves = |place: usize| {
                        let row = self.session.head().row(place);
                        row.is_some_and(|row| row.in_service())
                    };
                    if serves(place) {
                        self.serve(place, turn, frame, x, record);
                    } else if stray {
                        self.stray(record);
                    }
                }
                _ if stray => self.stray(record),
                _ => {}
            }
        }
        report
    }

    /// Random bytes, all of them or here and there, with kinds that mean
    /// something or not.
    fn noise(&mut self, report: &mut [u8]) {
        let r = &mut self.random;
        match r.below(4) {
            0 => {}
            1 => r.fill(report),
            2 => {
                r.fill(report);
                for record in report.chunks_exact_mut(RECORD) {
                    record[0] &= 3;
                    record[1] = r.one_of(&[0, 0, 0, 1, 8, 9, 255]);
                    if r.flag() {
                        record[2..6].copy_from_slice(&[0; 4]);
                    }
                }
            }
            _ => {
                for _ in 0..r.between(1, 20) {
                    let at = r.between(0, REPORT - 1);
                    report[at] = r.byte();
                }
            }
        }
    }
}
