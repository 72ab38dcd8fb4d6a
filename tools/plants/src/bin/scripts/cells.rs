//! Cells, sound ones and others.

use crate::{Maker, Theme};
use codec::cell::{check_place, set_checks, Cell, CELL, GRANTS, MESSAGE_AT, MESSAGE_CHECK};
use codec::random::near::near_down;
use codec::random::noise::noisy_cell;
use codec::{Down, Grant};

impl Maker {
    /// Grants: codes in force, ranging, few others.
    fn grants(&mut self) -> [Grant; GRANTS] {
        let mut known: Vec<u8> = Vec::new();
        for (_, onu) in self.onus() {
            known.extend(onu.data);
            known.extend(onu.ploam);
        }
        known.truncate(24);
        // A whole crowd answers a ranging grant.
        let ranging = if self.theme == Theme::Crowd { 60 } else { 5 };
        let r = &mut self.random;
        let mut grants = [Grant::IDLE; GRANTS];
        // Most cells grant little, so that their bursts can be told apart.
        let sparse = r.one_of(&[0, 2, 6, 9, 20]);
        for grant in &mut grants {
            let special = if r.flag() {
                Grant::UNASSIGNED
            } else {
                Grant::IDLE
            };
            *grant = match r.below(20) {
                n if n < sparse => special,
                _ if r.once_in(ranging) => Grant::RANGING,
                _ if r.once_in(12) => Grant(r.one_of(&self.codes)),
                _ if r.once_in(20) => Grant(r.byte()),
                _ if known.is_empty() => special,
                _ => Grant(r.one_of(&known)),
            };
        }
        grants
    }

    /// A cell with sound check bytes.
    pub(super) fn cell(&mut self) -> [u8; CELL] {
        let cell = Cell {
            first: self.random.flag(),
            grants: self.grants(),
            message: self.message(),
        };
        noisy_cell(&mut self.random, &cell)
    }

    /// A cell that nobody answers and nobody acts on.
    pub(super) fn idle(&mut self) -> [u8; CELL] {
        let cell = Cell {
            first: self.random.flag(),
            grants: [self.random.one_of(&[Grant::IDLE, Grant::UNASSIGNED]); GRANTS],
            message: Down::NoMessage,
        };
        noisy_cell(&mut self.random, &cell)
    }

    /// A cell with something wrong in it.
    pub(super) fn damaged(&mut self) -> [u8; CELL] {
        let mut bytes = self.cell();
        match self.random.below(6) {
            0 | 1 => {
                let group = self.random.between(1, 5);
                bytes[check_place(group)] ^= self.random.byte() | 1;
            }
            2 => {
                for group in 1..=5 {
                    if self.random.flag() {
                        bytes[check_place(group)] ^= 1 << self.random.below(8);
                    }
                }
            }
            3 => {
                bytes[MESSAGE_AT..MESSAGE_CHECK].copy_from_slice(&near_down(&mut self.random));
                set_checks(&mut bytes);
            }
            4 => self.near_miss(&mut bytes),
            _ => {
                let count = self.random.between(1, 3);
                self.random.flip(&mut bytes, count);
            }
        }
        bytes
    }

    /// A message that would act but for one field or its address.
    fn near_miss(&mut self, bytes: &mut [u8; CELL]) {
        let message = &mut bytes[MESSAGE_AT..MESSAGE_CHECK];
        match message[1] {
            0x02 => {
                // Guard, or the pre-assigned delay with its flag.
                if self.random.flag() {
                    message[2] = self.random.one_of(&[0, 3, 4, 24, 25, 255]);
                } else {
                    message[8] = self.random.byte();
                    message[9] = self.random.one_of(&[0, 0, 0, 1]);
                    message[10] = self.random.one_of(&[0x7C, 0x7D]);
                    message[11] = self.random.one_of(&[0, 1]);
                }
            }
            0x03 => {
                message[2] = self.random.one_of(&[0, 0, 0, 1]);
                message[3] = self.random.one_of(&[0x7C, 0x7D]);
                message[4] = self.random.one_of(&[0, 1, 255]);
            }
            0x04 => message[2] = self.random.one_of(&[64, 65, 255]),
            0x05 => message[2] = self.random.one_of(&[63, 64, 65, 255]),
            0x07 => {
                message[2] = self
                    .random
                    .one_of(&[0, 1, 0x0E, 0x0F, 0x10, 0xF0, 0xFE, 0xFF])
            }
            0x0A => {
                let place = self.random.between(2, 5);
                message[place] = self.random.one_of(&[0, 1, 2, 252, 253, 254, 255]);
            }
            _ => message[0] = self.random.one_of(&[0, 63, 64, 65, 128]),
        }
        set_checks(bytes);
    }
}
