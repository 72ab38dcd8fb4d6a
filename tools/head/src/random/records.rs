//! Records and what they are made of.

use super::Maker;
use codec::random::messages::{random_up, UP_KINDS};
use codec::random::Random;
use codec::{Up, UpBody, MESSAGE};
use std::io::Write;

/// An offset that is near a bound, or anything.
pub(super) fn offset_about(random: &mut Random, bound: i64) -> i32 {
    let sign = if random.flag() { 1 } else { -1 };
    let offset = match random.below(8) {
        0 => sign * bound,
        1 => sign * (bound + 1),
        2 => sign * (bound - 1),
        3 => 0,
        4 => -32_000 + i64::from(random.up_to(2)) - 1,
        5 => random.one_of(&[i64::from(i32::MIN), i64::from(i32::MAX), -32_768, 65_536]),
        6 => sign * random.below(2 * bound as u64 + 2) as i64,
        _ => i64::from(random.next_u64() as i32),
    };
    offset as i32
}

pub(super) fn write_record(
    out: &mut [u8],
    kind: u8,
    parity: u8,
    offset: i32,
    message: &[u8; MESSAGE],
) {
    out[0] = kind;
    out[1] = parity;
    out[2..6].copy_from_slice(&offset.to_be_bytes());
    out[6..].copy_from_slice(message);
}

impl<W: Write> Maker<W> {
    /// Any message that an ONU can send, and some that none can.
    pub(super) fn up(&mut self) -> [u8; MESSAGE] {
        let r = &mut self.random;
        if r.once_in(6) {
            return r.array();
        }
        let kind = r.between(0, UP_KINDS - 1);
        random_up(r, kind).write()
    }

    pub(super) fn serial_message(&mut self, place: usize, serial: u64) -> [u8; MESSAGE] {
        let r = &mut self.random;
        let source = match r.below(6) {
            0 => r.up_to(64),
            1 => 64,
            _ => place as u8,
        };
        let body = UpBody::SerialNumberOnu {
            serial: serial.to_be_bytes(),
        };
        let mut message = Up { source, body }.write();
        if r.once_in(3) {
            message[11] = r.byte();
        }
        message
    }

    /// Parity that counts for nothing.
    pub(super) fn parity(&mut self) -> u8 {
        let any = self.random.up_to(8);
        self.random.one_of(&[0, 0, 0, 8, any])
    }

    /// Anything.
    pub(super) fn stray(&mut self, record: &mut [u8]) {
        if self.random.once_in(3) {
            return;
        }
        let kind = self.random.one_of(&[0, 1, 2, 2, 2, 3, 3, 4, 255]);
        let parity = self.random.one_of(&[0, 0, 0, 8, 9, 255]);
        let offset = offset_about(&mut self.random, 8);
        let place = self.random.one_of(&self.places);
        let serial = self.serial();
        let message = match self.random.below(3) {
            0 => self.up(),
            1 => self.random.array(),
            _ => self.serial_message(place, serial),
        };
        write_record(record, kind, parity, offset, &message);
    }
}
