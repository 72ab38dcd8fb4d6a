//! What of a downstream cell arrives.

use codec::cell::{group_check, CELL, GRANTS, GROUPS, MESSAGE_AT, MESSAGE_CHECK};
use codec::crc::crc8;
use codec::{Down, Grant, MESSAGE};

/// The sound parts of a cell. A group whose check byte is wrong is left out
/// alone, and so is a message that is not sound.
#[derive(Clone, Debug, PartialEq, Eq)]
pub struct Reception {
    /// Places (0 to 26) and codes, in order. Unassigned and idle grants, which
    /// nobody answers, are not among them.
    grants: [(u8, u8); GRANTS],
    count: usize,
    message: Option<Down>,
}

impl Reception {
    /// A cell with all its check bytes wrong: nothing of it arrives.
    pub const SPOILED: Reception = Reception {
        grants: [(0, 0); GRANTS],
        count: 0,
        message: None,
    };

    /// Takes the sound parts out of a cell.
    pub fn read(bytes: &[u8; CELL]) -> Reception {
        let mut reception = Reception::SPOILED;
        let mut place = 0;
        for (at, count) in GROUPS {
            let group = &bytes[at..at + count];
            if group_check(group) == bytes[at + count] {
                for (i, &code) in group.iter().enumerate() {
                    reception.grant(place + i as u8, code);
                }
            }
            place += count as u8;
        }
        let mut message = [0; MESSAGE];
        message.copy_from_slice(&bytes[MESSAGE_AT..MESSAGE_CHECK]);
        if crc8(&message) == bytes[MESSAGE_CHECK] {
            reception.message = Down::read(&message).ok();
        }
        reception
    }

    fn grant(&mut self, place: u8, code: u8) {
        if code != Grant::UNASSIGNED.0 && code != Grant::IDLE.0 {
            self.grants[self.count] = (place, code);
            self.count += 1;
        }
    }

    /// Places and codes of the grants that can be answered, in order.
    pub fn grants(&self) -> &[(u8, u8)] {
        &self.grants[..self.count]
    }

    pub fn message(&self) -> Option<&Down> {
        self.message.as_ref()
    }
}

#[cfg(test)]
mod tests {
    use super::*;
    use codec::cell::check_place;
    use codec::random::cells::random_cell;
    use codec::random::noise::noisy_cell;
    use codec::random::Random;

    #[test]
    fn sound_cells_arrive_whole() {
        let mut random = Random::new(1);
        for _ in 0..2_000 {
            let cell = random_cell(&mut random);
            let heard = Reception::read(&noisy_cell(&mut random, &cell));
            assert_eq!(heard.message(), Some(&cell.message));
            let mut grants = [0xFE; GRANTS];
            for &(place, code) in heard.grants() {
                grants[usize::from(place)] = code;
            }
            for (grant, code) in cell.grants.iter().zip(grants) {
                assert!(grant.0 == code || (grant.0 == 0xFF && code == 0xFE));
            }
        }
    }

    /// A wrong check byte costs its own group and nothing else.
    #[test]
    fn groups_are_lost_alone() {
        let mut random = Random::new(2);
        for _ in 0..2_000 {
            let cell = random_cell(&mut random);
            let mut bytes = noisy_cell(&mut random, &cell);
            let whole = Reception::read(&bytes);
            let lost: [bool; 5] = [(); 5].map(|()| random.flag());
            for group in 1..=5 {
                if lost[group - 1] {
                    bytes[check_place(group)] ^= random.byte() | 1;
                }
            }
            let heard = Reception::read(&bytes);
            let kept: Vec<_> = whole
                .grants()
                .iter()
                .filter(|(place, _)| !lost[usize::from(*place) / 7])
                .collect();
            assert_eq!(heard.grants().iter().collect::<Vec<_>>(), kept);
            assert_eq!(heard.message().is_some(), !lost[4]);
            if lost == [true; 5] {
                assert_eq!(heard.grants(), Reception::SPOILED.grants());
            }
        }
    }
}
