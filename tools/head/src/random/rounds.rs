//! The records that end rounds: of bring-ups, and of ONUs that were told their delay.

use super::records::{offset_about, write_record};
use super::Maker;
use std::io::Write;

impl<W: Write> Maker<W> {
    pub(super) fn bring_up(&mut self, place: usize, serial: u64, record: &mut [u8]) {
        let message = self.serial_message(place, serial);
        let far = self.random.below(32_001) as i32;
        let offset = -self
            .random
            .one_of(&[0, 1, 15_392, 31_999, 32_000, far, far, far]);
        let parity = self.parity();
        write_record(record, 2, parity, offset, &message);
        if self.random.once_in(self.failing) {
            self.spoil_bring_up(serial, record);
        }
    }

    /// One thing that is wrong, as a rule.
    fn spoil_bring_up(&mut self, serial: u64, record: &mut [u8]) {
        let other = self.serial();
        let r = &mut self.random;
        match r.below(20) {
            14..=16 => record[2..6].copy_from_slice(&1i32.to_be_bytes()),
            17..=19 => record[2..6].copy_from_slice(&(-32_001i32).to_be_bytes()),
            0 => record.fill(0),
            1 => record[0] = 0,
            2 => record[0] = 1,
            3 => record[0] = 3,
            4 => record[0] = r.between(4, 255) as u8,
            5 => record[1] = r.between(9, 255) as u8,
            6 => {
                let any = r.next_u64() as i32;
                let offset = r.one_of(&[1, 2, -32_001, i32::MIN, i32::MAX, 32_000, any]);
                record[2..6].copy_from_slice(&offset.to_be_bytes());
            }
            7 => record[6] = r.between(65, 255) as u8,
            8 => record[7] = r.one_of(&[0, 1, 2, 4, 131]),
            9 => record[8] = r.one_of(&[1, 128, 255]),
            10 => record[9..17].copy_from_slice(&other.to_be_bytes()),
            11 => {
                let near = serial ^ (1 << r.below(64));
                record[9..17].copy_from_slice(&near.to_be_bytes());
            }
            12 => {
                record[0] = 0;
                record[1] = r.one_of(&[8, 9, 255]);
            }
            _ => r.fill(record),
        }
    }

    pub(super) fn tell(&mut self, place: usize, serial: u64, record: &mut [u8]) {
        let close = i64::from(self.session.head().guard()) / 4;
        let message = match self.random.below(4) {
            0 => self.serial_message(place, serial),
            1 => self.random.array(),
            _ => self.up(),
        };
        let parity = self.parity();
        let r = &mut self.random;
        let offset = r.below(2 * close as u64 + 1) as i64 - close;
        let edge = if r.flag() { close } else { -close };
        let offset = r.one_of(&[offset, edge, 0]);
        write_record(record, 2, parity, offset as i32, &message);
        if r.once_in(self.failing) {
            match r.below(11) {
                10 => record[2..6].copy_from_slice(&i32::MIN.to_be_bytes()),
                0 => record.fill(0),
                1 => record[0] = r.one_of(&[0, 1, 3, 4, 255]),
                2 => record[1] = r.one_of(&[9, 10, 255]),
                3 | 4 | 8 | 9 => {
                    let past = if r.flag() { close + 1 } else { -close - 1 };
                    record[2..6].copy_from_slice(&(past as i32).to_be_bytes());
                }
                5 => {
                    let offset = offset_about(r, close);
                    record[2..6].copy_from_slice(&offset.to_be_bytes());
                }
                6 => {
                    record[0] = 0;
                    record[1] = 9;
                }
                _ => r.fill(record),
            }
        }
    }
}
