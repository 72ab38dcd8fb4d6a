//! The payload of one downstream cell, 48 bytes.

use crate::crc::{crc8, step};
use crate::down::Down;
use crate::fault::Fault;
use crate::grant::{Grant, Runs};
use crate::MESSAGE;
use std::fmt;

/// Bytes of a cell.
pub const CELL: usize = 48;
/// Grants of a cell.
pub const GRANTS: usize = 27;

/// Where the grants of each group begin, and how many they are. The check byte
/// follows the last one.
pub const GROUPS: [(usize, usize); 4] = [(3, 7), (11, 7), (19, 7), (27, 6)];
/// Where the message begins.
pub const MESSAGE_AT: usize = 34;
/// Where the check byte of the message is.
pub const MESSAGE_CHECK: usize = 46;

/// The contents of a cell.
#[derive(Clone, Copy, PartialEq, Eq, Debug)]
pub struct Cell {
    /// Whether the cell is the first one of its frame.
    pub first: bool,
    pub grants: [Grant; GRANTS],
    pub message: Down,
}

/// The check byte of a group of grants. One of six has a zero byte added.
#[inline]
pub fn group_check(grants: &[u8]) -> u8 {
    let check = crc8(grants);
    if grants.len() == 6 {
        step(check, 0)
    } else {
        check
    }
}

/// Reads a cell, or says what is wrong with it first.
pub fn read_cell(bytes: &[u8]) -> Result<Cell, Fault> {
    let bytes: &[u8; CELL] = bytes.try_into().map_err(|_| Fault::Length)?;

    let mut grants = [Grant::IDLE; GRANTS];
    let mut place = 0;
    for (i, &(at, count)) in GROUPS.iter().enumerate() {
        let group = &bytes[at..at + count];
        if group_check(group) != bytes[at + count] {
            return Err(Fault::Group(i as u8 + 1));
        }
        for (grant, &byte) in grants[place..place + count].iter_mut().zip(group) {
            *grant = Grant(byte);
        }
        place += count;
    }

    let mut message = [0; MESSAGE];
    message.copy_from_slice(&bytes[MESSAGE_AT..MESSAGE_CHECK]);
    if crc8(&message) != bytes[MESSAGE_CHECK] {
        return Err(Fault::Group(5));
    }
    let message = Down::read(&message).map_err(Fault::Message)?;

    Ok(Cell {
        first: bytes[0] & 1 == 1,
        grants,
        message,
    })
}

/// Writes a cell whose message is sound. The synchronization and parity bytes
/// are left zero: they belong to the line, not to the contents.
pub fn write_cell(cell: &Cell) -> [u8; CELL] {
    let mut out = [0; CELL];
    out[0] = u8::from(cell.first);
    let mut place = 0;
    for (at, count) in GROUPS {
        for (byte, grant) in out[at..at + count]
            .iter_mut()
            .zip(&cell.grants[place..place + count])
        {
            *byte = grant.0;
        }
        out[at + count] = group_check(&out[at..at + count]);
        place += count;
    }
    let message = cell.message.write();
    out[MESSAGE_AT..MESSAGE_CHECK].copy_from_slice(&message);
    out[MESSAGE_CHECK] = crc8(&message);
    out
}

/// Reads a cell and writes its contents again.
pub fn rewrite_cell(bytes: &[u8]) -> Result<[u8; CELL], Fault> {
    read_cell(bytes).map(|cell| write_cell(&cell))
}

/// Gives the five groups of a cell the check bytes they should have.
pub fn set_checks(bytes: &mut [u8; CELL]) {
    for (at, count) in GROUPS {
        bytes[at + count] = group_check(&bytes[at..at + count]);
    }
    bytes[MESSAGE_CHECK] = crc8(&bytes[MESSAGE_AT..MESSAGE_CHECK]);
}

/// Where the check byte of a group is, 1 to 5.
pub fn check_place(group: usize) -> usize {
    match group {
        1..=4 => GROUPS[group - 1].0 + GROUPS[group - 1].1,
        5 => MESSAGE_CHECK,
        _ => panic!("no group {group}"),
    }
}

impl fmt::Display for Cell {
    fn fmt(&self, f: &mut fmt::Formatter<'_>) -> fmt::Result {
        write!(
            f,
            "cell bit={} grants={} {}",
            u8::from(self.first),
            Runs(&self.grants),
            self.message
        )
    }
}

/// The line of a cell: its contents, or its fault.
pub fn cell_line(bytes: &[u8]) -> String {
    match read_cell(bytes) {
        Ok(cell) => cell.to_string(),
        Err(fault) => fault.to_string(),
    }
}

#[cfg(test)]
mod tests {
    use super::*;
    use crate::random::cells::random_cell;
    use crate::random::noise::noisy_cell;
    use crate::random::Random;

    #[test]
    fn written_is_read_again() {
        let mut random = Random::new(5);
        for _ in 0..20_000 {
            let cell = random_cell(&mut random);
            let bytes = write_cell(&cell);
            assert_eq!(read_cell(&bytes), Ok(cell));
            assert_eq!(rewrite_cell(&bytes), Ok(bytes));
            let noisy = noisy_cell(&mut random, &cell);
            assert_eq!(rewrite_cell(&noisy), Ok(bytes));
        }
    }

    /// One to three wrong bits in the covered bytes never pass.
    #[test]
    fn flips_are_seen() {
        let mut random = Random::new(6);
        for _ in 0..40_000 {
            let mut bytes = write_cell(&random_cell(&mut random));
            let sound = bytes;
            for _ in 0..random.between(1, 3) {
                let bit = random.between(3 * 8, 47 * 8 - 1);
                bytes[bit / 8] ^= 1 << (bit % 8);
            }
            if bytes != sound {
                assert!(matches!(read_cell(&bytes), Err(Fault::Group(_))));
            }
        }
    }

    #[test]
    fn places() {
        assert_eq!([1, 2, 3, 4, 5].map(check_place), [10, 18, 26, 33, 46]);
    }

    #[test]
    fn line() {
        let mut grants = [Grant(5); GRANTS];
        grants[3] = Grant(69);
        grants[4..24].fill(Grant::UNASSIGNED);
        grants[24] = Grant::RANGING;
        grants[25..].fill(Grant::IDLE);
        let cell = Cell {
            first: true,
            grants,
            message: Down::RangingTime {
                pon_id: 5,
                delay: 12345,
            },
        };
        let mut bytes = write_cell(&cell);
        assert_eq!(
            cell_line(&bytes),
            "cell bit=1 grants=5*3,69,unassigned*20,ranging,idle*2 message=Ranging_time pon_id=5 delay=12345"
        );
        bytes[26] ^= 1;
        bytes[33] ^= 1;
        assert_eq!(cell_line(&bytes), "fault 16 group=3");
        assert_eq!(cell_line(&bytes[1..]), "fault 15 length");
    }
}
