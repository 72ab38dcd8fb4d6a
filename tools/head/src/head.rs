//! The head end: the table of places, the schedule of slots and the operator's
//! calls.

mod send;
mod settle;

use crate::row::{Job, Phase, Row};
use crate::{FRAME_SLOTS, PLACES};
use std::collections::VecDeque;

/// Slots of a frame that the calendar gives away: X 2 to 53.
pub const CALENDAR: usize = 52;
/// The calendar's entry for nobody.
pub const NOBODY: u8 = 255;
/// Frame numbers are below this one.
pub const FRAME_LIMIT: u64 = 1 << 48;
/// Frames from one round of a place to its next.
pub const ROUND: u64 = 1024;
/// The most dockets that may be out.
pub const MOST_OUT: usize = 4;
/// The greatest delay, in bits.
pub const LAST_DELAY: i64 = 32_000;

/// What is refused, each with its number.
#[derive(Clone, Copy, PartialEq, Eq, Debug)]
pub enum Refusal {
    Begun = 1,
    Guard = 2,
    FirstFrame = 3,
    Calendar = 4,
    Place = 5,
    Filled = 6,
    Serial = 7,
    Held = 8,
    NotHeld = 9,
    Buffer = 10,
    Dockets = 11,
    FrameLimit = 12,
    NotOldest = 13,
    Report = 14,
}

impl Refusal {
    pub fn number(self) -> u8 {
        self as u8
    }
}

/// Whose a slot is.
#[derive(Clone, Copy, PartialEq, Eq, Debug)]
pub enum Slot {
    /// A slot of a window, and whether it is the one that is judged.
    Window {
        place: usize,
        judged: bool,
    },
    Turn(usize),
    Calendar(usize),
    Nobody,
}

/// One sent frame, to be settled with its report.
#[derive(PartialEq, Eq, Debug)]
pub struct Docket {
    pub frame: u64,
}

/// A frame that was sent and is not settled yet.
#[derive(Clone, PartialEq, Eq, Debug)]
struct Sent {
    frame: u64,
    grants: [u8; FRAME_SLOTS],
}

#[derive(Clone, Debug)]
pub struct Head {
    guard: u8,
    pattern: [u8; 3],
    /// The frame that is sent next.
    frame: u64,
    calendar: [u8; CALENDAR],
    /// Whether a frame was sent or an ONU entered.
    begun: bool,
    rows: [Option<Row>; PLACES],
    out: VecDeque<Sent>,
}

impl Default for Head {
    fn default() -> Head {
        Head::new()
    }
}

impl Head {
    pub fn new() -> Head {
        Head {
            guard: 4,
            pattern: [0; 3],
            frame: 0,
            calendar: [NOBODY; CALENDAR],
            begun: false,
            rows: [None; PLACES],
            out: VecDeque::new(),
        }
    }

    pub fn guard(&self) -> u8 {
        self.guard
    }

    pub fn frame(&self) -> u64 {
        self.frame
    }

    /// How many dockets are out.
    pub fn out(&self) -> usize {
        self.out.len()
    }

    pub fn row(&self, place: usize) -> Option<&Row> {
        self.rows[place].as_ref()
    }

    /// Whose slot X of a frame is, X from 1 to 53.
    pub fn slot(&self, frame: u64, x: usize) -> Slot {
        let cycle = frame / 16;
        let step = frame % 16;
        if step == 15 || (step == 14 && x >= 34) {
            return Slot::Window {
                place: (cycle % 64) as usize,
                judged: step == 15 && x == 53,
            };
        }
        if x == 1 {
            return Slot::Turn(((15 * cycle + step) % 64) as usize);
        }
        match self.calendar[x - 2] {
            NOBODY => Slot::Nobody,
            place => Slot::Calendar(usize::from(place)),
        }
    }

    // The operator's calls.

    pub fn set_up(
        &mut self,
        guard: u64,
        pattern: [u8; 3],
        first: u64,
        calendar: &[u8],
    ) -> Result<(), Refusal> {
        if self.begun {
            return Err(Refusal::Begun);
        }
        if ![4, 8, 12, 16].contains(&guard) {
            return Err(Refusal::Guard);
        }
        if !first.is_multiple_of(ROUND) || first >= FRAME_LIMIT {
            return Err(Refusal::FirstFrame);
        }
        let calendar: [u8; CALENDAR] = calendar.try_into().map_err(|_| Refusal::Calendar)?;
        if calendar
            .iter()
            .any(|&entry| entry != NOBODY && usize::from(entry) >= PLACES)
        {
            return Err(Refusal::Calendar);
        }
        self.guard = guard as u8;
        self.pattern = pattern;
        self.frame = first;
        self.calendar = calendar;
        Ok(())
    }

    fn place(place: u64) -> Result<usize, Refusal> {
        if place < PLACES as u64 {
            Ok(place as usize)
        } else {
            Err(Refusal::Place)
        }
    }

    pub fn enter(&mut self, place: u64, serial: u64) -> Result<(), Refusal> {
        let place = Head::place(place)?;
        if self.rows[place].is_some() {
            return Err(Refusal::Filled);
        }
        if self.rows.iter().flatten().any(|row| row.serial == serial) {
            return Err(Refusal::Serial);
        }
        self.rows[place] = Some(Row::new(serial));
        self.begun = true;
        Ok(())
    }

    pub fn hold(&mut self, place: u64) -> Result<(), Refusal> {
        let place = Head::place(place)?;
        match &mut self.rows[place] {
            Some(row) if row.phase != Phase::Held => {
                row.phase = Phase::Held;
                row.running = None;
                row.next = Some(Job::Hold);
                Ok(())
            }
            _ => Err(Refusal::Held),
        }
    }

    pub fn release(&mut self, place: u64) -> Result<(), Refusal> {
        let place = Head::place(place)?;
        match &mut self.rows[place] {
            Some(row) if row.phase == Phase::Held => {
                row.phase = Phase::Waiting;
                row.running = None;
                row.next = Some(Job::Free);
                Ok(())
            }
            _ => Err(Refusal::NotHeld),
        }
    }

    pub fn look(&self, place: u64) -> Result<Option<&Row>, Refusal> {
        let place = Head::place(place)?;
        Ok(self.rows[place].as_ref())
    }
}
