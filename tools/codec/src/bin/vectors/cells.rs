//! Edge cases of cells.

use crate::Vectors;
use codec::cell::{check_place, set_checks, CELL, GRANTS, MESSAGE_AT};
use codec::crc::crc8;
use codec::random::messages::random_down;
use codec::{write_cell, Cell, Down, Grant};
use std::io::{self, Write};

impl<W: Write> Vectors<W> {
    pub(super) fn cell_edges(&mut self) -> io::Result<()> {
        // Grants: special ones, codes, each value somewhere.
        for byte in [0, 1, 9, 10, 99, 100, 251, 252, 253, 254, 255] {
            for first in [false, true] {
                let cell = Cell {
                    first,
                    grants: [Grant(byte); GRANTS],
                    message: Down::NoMessage,
                };
                self.cell(&write_cell(&cell))?;
            }
        }
        for start in (0..256).step_by(GRANTS) {
            let mut cell = Cell {
                first: true,
                grants: [Grant::IDLE; GRANTS],
                message: Down::Popup,
            };
            for (i, grant) in cell.grants.iter_mut().enumerate() {
                *grant = Grant((start + i) as u8);
            }
            self.cell(&write_cell(&cell))?;
        }
        for place in 0..GRANTS {
            let mut cell = Cell {
                first: false,
                grants: [Grant::UNASSIGNED; GRANTS],
                message: Down::NoMessage,
            };
            cell.grants[place] = Grant::RANGING;
            self.cell(&write_cell(&cell))?;
        }
        for count in 1..=7 {
            let mut cell = Cell {
                first: true,
                grants: [Grant::IDLE; GRANTS],
                message: Down::NoMessage,
            };
            for (i, grant) in cell.grants.iter_mut().enumerate() {
                *grant = [Grant(7), Grant::IDLE, Grant::RANGING, Grant::UNASSIGNED][i / count % 4];
            }
            self.cell(&write_cell(&cell))?;
        }
        // Bytes that are not read, and the frame bit.
        let sound = self.sound_cell(12);
        for value in [0, 1, 2, 3, 0x7F, 0x80, 0x81, 0xFE, 0xFF] {
            for place in [0, 1, 2, 47] {
                let mut bytes = sound;
                bytes[place] = value;
                self.cell(&bytes)?;
            }
        }
        // Check bytes: each set of them damaged, with a sound message, with an
        // unknown one and with one for nobody.
        for (address, identifier) in [(5, 12), (5, 0x11), (65, 12)] {
            let mut base = sound;
            base[MESSAGE_AT] = address;
            base[MESSAGE_AT + 1] = identifier;
            set_checks(&mut base);
            for wrong in 0..32u32 {
                let mut bytes = base;
                for group in 1..=5 {
                    if wrong >> (group - 1) & 1 == 1 {
                        bytes[check_place(group)] ^= self.random.byte() | 1;
                    }
                }
                self.cell(&bytes)?;
            }
        }
        for group in 1..=5 {
            for value in [0, 1, 0xFE, 0xFF] {
                let mut bytes = sound;
                bytes[check_place(group)] = value;
                self.cell(&bytes)?;
            }
        }
        // The last group checked without its added zero byte.
        for fill in [1, 7, 0x80, 0xFF] {
            let mut bytes = sound;
            bytes[27..33].fill(fill);
            bytes[33] = crc8(&bytes[27..33]);
            self.cell(&bytes)?;
        }
        // Every single bit turned over.
        for bit in 0..CELL * 8 {
            let mut bytes = sound;
            bytes[bit / 8] ^= 0x80 >> (bit % 8);
            self.cell(&bytes)?;
        }
        // Lengths.
        for length in [0, 1, 12, 46, 47, 49, 50, 95, 96, 97, 144] {
            let mut bytes = sound.repeat(3);
            bytes.truncate(length);
            self.cell(&bytes)?;
            let bytes = vec![0; length];
            self.cell(&bytes)?;
        }
        self.cell(&[0; CELL])?;
        self.cell(&[0xFF; CELL])
    }

    fn sound_cell(&mut self, kind: usize) -> [u8; CELL] {
        let mut grants = [Grant::UNASSIGNED; GRANTS];
        for (i, grant) in grants.iter_mut().enumerate().step_by(2) {
            *grant = Grant(i as u8 * 9);
        }
        let cell = Cell {
            first: true,
            grants,
            message: random_down(&mut self.random, kind),
        };
        write_cell(&cell)
    }
}
