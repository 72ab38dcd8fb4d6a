//! One vector of any kind, at random.

use crate::Vectors;
use codec::cell::CELL;
use codec::frame::FRAME;
use codec::random::cells::{random_cell, random_frame};
use codec::random::messages::{random_up, UP_KINDS};
use codec::random::near::{checked_cell, near_up};
use codec::random::noise::{noisy_cell, noisy_frame, noisy_up};
use std::io::{self, Write};

impl<W: Write> Vectors<W> {
    pub(super) fn one(&mut self) -> io::Result<()> {
        let r = &mut self.random;
        match r.below(100) {
            0..=4 => {
                let length = r.between(0, 20);
                let bytes = r.bytes(length);
                self.crc(&bytes)
            }
            5..=29 => {
                let cell = random_cell(r);
                let bytes = noisy_cell(r, &cell);
                self.cell(&bytes)
            }
            30..=49 => {
                let bytes = checked_cell(r);
                self.cell(&bytes)
            }
            50..=56 => {
                let cell = random_cell(r);
                let mut bytes = noisy_cell(r, &cell);
                let count = r.between(1, 3);
                r.flip(&mut bytes, count);
                self.cell(&bytes)
            }
            57..=58 => {
                let bytes: [u8; CELL] = r.array();
                self.cell(&bytes)
            }
            59 => {
                let length = r.between(0, 100);
                let bytes = r.bytes(length);
                self.cell(&bytes)
            }
            60..=66 => {
                let frame = random_frame(r);
                let bytes = noisy_frame(r, &frame);
                self.frame(&bytes)
            }
            67..=71 => {
                let bytes = [checked_cell(r), checked_cell(r)].concat();
                self.frame(&bytes)
            }
            72..=74 => {
                let frame = random_frame(r);
                let mut bytes = noisy_frame(r, &frame);
                let count = r.between(1, 3);
                r.flip(&mut bytes, count);
                self.frame(&bytes)
            }
            75 => {
                let length = if r.flag() { FRAME } else { r.between(0, 100) };
                let bytes = r.bytes(length);
                self.frame(&bytes)
            }
            76..=85 => {
                let kind = r.between(0, UP_KINDS - 1);
                let message = random_up(r, kind);
                let bytes = noisy_up(r, &message);
                self.up(&bytes)
            }
            86..=97 => {
                let bytes = near_up(r);
                self.up(&bytes)
            }
            _ => {
                let bytes = r.array();
                self.up(&bytes)
            }
        }
    }
}
