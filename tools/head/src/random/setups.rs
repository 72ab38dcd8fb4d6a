//! Set-ups, good and bad.

use super::{Maker, Theme};
use crate::call::Order;
use crate::head::{CALENDAR, FRAME_LIMIT, NOBODY, ROUND};
use std::io::{self, Write};

impl<W: Write> Maker<W> {
    fn calendar(&mut self) -> Vec<u8> {
        let filled: Vec<u8> = self.places.iter().map(|&place| place as u8).collect();
        let r = &mut self.random;
        let style = r.below(6);
        (0..CALENDAR)
            .map(|x| match style {
                0 => NOBODY,
                1 => r.up_to(63),
                2 => x as u8,
                3 if r.flag() => NOBODY,
                4 if r.once_in(3) => r.one_of(&[NOBODY, 0, 63]),
                _ => r.one_of(&filled),
            })
            .collect()
    }

    pub(super) fn good_set_up(&mut self) -> io::Result<()> {
        let r = &mut self.random;
        let last = FRAME_LIMIT / ROUND - 1;
        let first = match (self.theme, r.below(8)) {
            (Theme::Limits, _) => last - r.below(4),
            (_, 0..=3) => 0,
            (_, 4) => 1 + r.below(70),
            (_, 5) => r.one_of(&[63, 64, 1 << 20, (1 << 22) - 1, 1 << 22]),
            _ => r.below(last - 6),
        };
        let guard = r.one_of(&[4, 8, 12, 16]);
        let pattern = r.one_of(&[[0xAA; 3], [0; 3], [0xFF, 0, 0xD5]]);
        let pattern = if r.flag() { r.array() } else { pattern };
        let calendar = self.calendar();
        self.say(Order::SetUp {
            guard,
            pattern,
            first: first * ROUND,
            calendar,
        })
    }

    /// A set-up with one wrong part, or more.
    pub(super) fn bad_set_up(&mut self) -> io::Result<()> {
        let mut calendar = self.calendar();
        let r = &mut self.random;
        let mut guard = r.one_of(&[4, 8, 12, 16]);
        let mut first = r.below(100) * ROUND;
        for _ in 0..r.one_of(&[1, 1, 1, 2, 3]) {
            match r.below(4) {
                0 => {
                    let any = r.next_u64();
                    guard = r.one_of(&[0, 1, 5, 6, 20, 24, 256 + 8, (1 << 32) + 4, u64::MAX, any]);
                }
                1 => {
                    let any = r.next_u64();
                    let near = r.below(5_000);
                    first = r.one_of(&[
                        1,
                        512,
                        1023,
                        1025,
                        FRAME_LIMIT - 1,
                        FRAME_LIMIT,
                        FRAME_LIMIT + ROUND,
                        u64::MAX - 1023,
                        any,
                        near,
                    ]);
                }
                2 => {
                    let length = r.between(0, 120);
                    let length = r.one_of(&[0, 1, 51, 53, 104, length]);
                    calendar.resize(length, NOBODY);
                }
                _ => {
                    if !calendar.is_empty() {
                        let x = r.between(0, calendar.len() - 1);
                        calendar[x] = r.one_of(&[64, 65, 127, 128, 253, 254]);
                    }
                }
            }
        }
        let pattern = r.array();
        self.say(Order::SetUp {
            guard,
            pattern,
            first,
            calendar,
        })
    }
}
