//! Edge cases of the messages of both directions.

use crate::fields::{
    put, Edge, Together, ADDRESSES, DELAYS, DOWN_EDGES, DOWN_TOGETHER, UP_EDGES, UP_TOGETHER,
};
use crate::Vectors;
use codec::down::BROADCAST;
use codec::random::messages::{random_down, random_up, DOWN_KINDS, UP_KINDS};
use codec::random::noise::{noisy_down, noisy_up};
use codec::{Down, Up, MESSAGE};
use std::io::{self, Write};

/// A direction of messages.
#[derive(Clone, Copy, PartialEq, Eq)]
enum Way {
    Down,
    Up,
}

impl<W: Write> Vectors<W> {
    pub(super) fn down_edges(&mut self) -> io::Result<()> {
        self.kinds(Way::Down, DOWN_KINDS)?;
        self.fields(Way::Down, DOWN_EDGES)?;
        // The delay of the overhead message, with and without its flag.
        for flag in [0, 1, 2, 3, 0x80, 0x81, 0xFE, 0xFF] {
            for value in DELAYS {
                let mut bytes = self.noisy_of(Way::Down, 2);
                put(&mut bytes, 7, &[flag]);
                put(&mut bytes, 8, value);
                self.down(&bytes)?;
            }
        }
        // Length and offset of a minislot.
        for offset in [0, 1, 26, 51, 52, 53, 54, 128, 255] {
            let left = 53u8.saturating_sub(offset);
            let mut lengths = vec![
                0,
                1,
                2,
                left.wrapping_sub(1),
                left,
                left + 1,
                left + 2,
                53,
                54,
                255,
            ];
            lengths.sort_unstable();
            lengths.dedup();
            for length in lengths {
                let mut bytes = self.noisy_of(Way::Down, 11);
                put(&mut bytes, 3, &[length, offset]);
                self.down(&bytes)?;
            }
        }
        self.together(Way::Down, DOWN_TOGETHER)?;
        self.identifiers(Way::Down, [BROADCAST, 5])?;
        self.addresses(Way::Down, &[0, 3, 6, 17])
    }

    pub(super) fn up_edges(&mut self) -> io::Result<()> {
        self.kinds(Way::Up, UP_KINDS)?;
        self.fields(Way::Up, UP_EDGES)?;
        self.together(Way::Up, UP_TOGETHER)?;
        self.identifiers(Way::Up, [5, 64])?;
        self.addresses(Way::Up, &[0, 3, 8])?;
        self.up(&[0xFF; MESSAGE])
    }

    fn message(&mut self, way: Way, bytes: &[u8; MESSAGE]) -> io::Result<()> {
        match way {
            Way::Down => self.down(bytes),
            Way::Up => self.up(bytes),
        }
    }

    fn sound_of(&mut self, way: Way, kind: usize) -> [u8; MESSAGE] {
        match way {
            Way::Down => random_down(&mut self.random, kind).write(),
            Way::Up => random_up(&mut self.random, kind).write(),
        }
    }

    fn noisy(&mut self, way: Way, sound: &[u8; MESSAGE]) -> [u8; MESSAGE] {
        match way {
            Way::Down => noisy_down(&mut self.random, &Down::read(sound).expect("it is sound")),
            Way::Up => noisy_up(&mut self.random, &Up::read(sound).expect("it is sound")),
        }
    }

    fn noisy_of(&mut self, way: Way, kind: usize) -> [u8; MESSAGE] {
        let sound = self.sound_of(way, kind);
        self.noisy(way, &sound)
    }

    /// Each kind, with many addresses.
    fn kinds(&mut self, way: Way, kinds: usize) -> io::Result<()> {
        for kind in 0..kinds {
            let sound = self.sound_of(way, kind);
            self.message(way, &sound)?;
            let noisy = self.noisy(way, &sound);
            self.message(way, &noisy)?;
            for address in ADDRESSES {
                let mut bytes = self.noisy_of(way, kind);
                bytes[0] = address;
                self.message(way, &bytes)?;
            }
        }
        Ok(())
    }

    fn fields(&mut self, way: Way, edges: &[Edge]) -> io::Result<()> {
        for &(kind, field, values) in edges {
            for value in values {
                let mut bytes = self.noisy_of(way, kind);
                put(&mut bytes, field, value);
                self.message(way, &bytes)?;
            }
        }
        Ok(())
    }

    /// Several things wrong at once: the first one is told.
    fn together(&mut self, way: Way, all: &[Together]) -> io::Result<()> {
        for &(kind, fields) in all {
            for wrong in 0..1u32 << (fields.len() + 1) {
                let mut bytes = self.noisy_of(way, kind);
                if way == Way::Down && kind == 2 {
                    put(&mut bytes, 7, &[1, 0]);
                }
                for (i, &(field, good, bad)) in fields.iter().enumerate() {
                    put(
                        &mut bytes,
                        field,
                        &[if wrong >> i & 1 == 1 { bad } else { good }],
                    );
                }
                if wrong >> fields.len() & 1 == 1 {
                    bytes[0] = 65;
                }
                self.message(way, &bytes)?;
                if way == Way::Down && wrong + 1 == 1 << (fields.len() + 1) {
                    bytes[1] = 0x11;
                    self.message(way, &bytes)?;
                }
            }
        }
        Ok(())
    }

    /// Every identifier, with each of two addresses.
    fn identifiers(&mut self, way: Way, addresses: [u8; 2]) -> io::Result<()> {
        for address in addresses {
            for identifier in 0..=255 {
                let mut bytes = [0; MESSAGE];
                bytes[0] = address;
                bytes[1] = identifier;
                self.message(way, &bytes)?;
            }
        }
        Ok(())
    }

    /// Every address, for each of these kinds.
    fn addresses(&mut self, way: Way, kinds: &[usize]) -> io::Result<()> {
        for &kind in kinds {
            for address in 0..=255 {
                let mut bytes = self.sound_of(way, kind);
                bytes[0] = address;
                self.message(way, &bytes)?;
            }
        }
        Ok(())
    }
}
