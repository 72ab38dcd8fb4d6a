//! Edge cases of frames.

use crate::Vectors;
use codec::cell::{check_place, set_checks, CELL, MESSAGE_AT, MESSAGE_CHECK};
use codec::frame::{FRAME, FRAME_GRANTS};
use codec::random::messages::{random_down, DOWN_KINDS};
use codec::random::noise::noisy_frame;
use codec::{write_frame, Down, Frame, Grant, Target, MESSAGE};
use std::io::{self, Write};

impl<W: Write> Vectors<W> {
    pub(super) fn frame_edges(&mut self) -> io::Result<()> {
        for byte in [0, 252, 253, 254, 255] {
            let frame = Frame {
                grants: [Grant(byte); FRAME_GRANTS],
                messages: [Down::NoMessage; 2],
            };
            self.frame(&write_frame(&frame))?;
        }
        for kind in 0..DOWN_KINDS {
            let mut grants = [Grant::IDLE; FRAME_GRANTS];
            let split = self.random.between(1, FRAME_GRANTS - 1);
            grants[split..].fill(Grant(kind as u8));
            let messages =
                [kind, DOWN_KINDS - 1 - kind].map(|kind| random_down(&mut self.random, kind));
            let frame = Frame { grants, messages };
            self.frame(&write_frame(&frame))?;
            let noisy = noisy_frame(&mut self.random, &frame);
            self.frame(&noisy)?;
        }
        // Each value once, with a run across the two cells.
        for shift in 0..5 {
            let mut frame = Frame {
                grants: [Grant(26); FRAME_GRANTS],
                messages: [Down::NoMessage, Down::Popup],
            };
            for (i, grant) in frame.grants.iter_mut().enumerate() {
                *grant = Grant((shift * FRAME_GRANTS + i) as u8);
            }
            frame.grants[27] = frame.grants[26];
            self.frame(&write_frame(&frame))?;
        }
        let sound = write_frame(&Frame {
            grants: [Grant::UNASSIGNED; FRAME_GRANTS],
            messages: [
                Down::RangingTime {
                    pon_id: 7,
                    delay: 1024,
                },
                Down::DeactivatePonId { to: Target::All },
            ],
        });
        // Frame bits and the place after the last grant.
        for first in [0, 1, 0xFE, 0xFF] {
            for second in [0, 1, 0xFE, 0xFF] {
                let mut bytes = sound;
                bytes[0] = first;
                bytes[CELL] = second;
                self.frame(&bytes)?;
            }
        }
        for last in [0, 1, 252, 253, 254, 255] {
            let mut bytes = sound;
            bytes[CELL + 32] = last;
            fix(&mut bytes);
            self.frame(&bytes)?;
        }
        // One check byte wrong, and two, one in each cell.
        for group in 1..=5 {
            for cell in [0, CELL] {
                let mut bytes = sound;
                bytes[cell + check_place(group)] ^= 0x10;
                self.frame(&bytes)?;
            }
            for other in 1..=5 {
                let mut bytes = sound;
                bytes[check_place(group)] ^= 1;
                bytes[CELL + check_place(other)] ^= 0x80;
                self.frame(&bytes)?;
            }
        }
        // Messages that are refused, in the first cell, in the second, in both,
        // and with a wrong check byte in the other cell.
        let refused: [[u8; MESSAGE]; 6] = [
            [64, 0x11, 0, 0, 0, 0, 0, 0, 0, 0, 0, 0],
            [64, 0xFF, 0, 0, 0, 0, 0, 0, 0, 0, 0, 0],
            [63, 0x00, 0, 0, 0, 0, 0, 0, 0, 0, 0, 0],
            [64, 0x03, 0, 0, 0, 0, 0, 0, 0, 0, 0, 0],
            [64, 0x02, 25, 0, 0, 0, 0, 0, 0, 0, 0, 0],
            [9, 0x0A, 0, 0, 253, 0, 0, 0, 0, 0, 0, 0],
        ];
        for message in &refused {
            for place in 1..=3 {
                let mut bytes = sound;
                for cell in 0..2 {
                    if place >> cell & 1 == 1 {
                        let at = cell * CELL;
                        bytes[at + MESSAGE_AT..at + MESSAGE_CHECK].copy_from_slice(message);
                    }
                }
                fix(&mut bytes);
                self.frame(&bytes)?;
                if place != 3 {
                    let other = if place == 1 { CELL } else { 0 };
                    bytes[other + check_place(4)] ^= 4;
                    self.frame(&bytes)?;
                }
            }
        }
        for length in [0, 1, 47, 48, 49, 95, 97, 144, 192] {
            let mut bytes = sound.repeat(2);
            bytes.truncate(length);
            self.frame(&bytes)?;
        }
        self.frame(&[0; FRAME])?;
        self.frame(&[0xFF; FRAME])
    }
}

/// Gives both cells of a frame the check bytes they should have.
fn fix(frame: &mut [u8; FRAME]) {
    for cell in frame.chunks_mut(CELL) {
        set_checks(cell.try_into().unwrap());
    }
}
