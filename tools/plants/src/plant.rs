//! Plants: ONUs and the passive parts before them, and the call that lets a
//! plant hear a cell.

use crate::bench::{BenchOnu, LAST_TRIP};
use crate::reception::Reception;
use crate::SLOT_LIMIT;
use codec::cell::{CELL, GRANTS};
use codec::MESSAGE;

/// The kind of a burst that is a PLOAM cell.
pub const PLOAM_CELL: u8 = 2;
/// The kind of a burst that is a data cell.
pub const DATA_CELL: u8 = 3;

/// The most ONUs of a line.
pub const MOST_ONUS: usize = 64;
/// The longest piece of fibre, in bits of round trip.
pub const LAST_FIBRE: u32 = 32_000;

/// A burst, as the place where it is listed sees it.
#[derive(Clone, Copy, PartialEq, Eq, Debug)]
pub struct Burst {
    pub serial: u64,
    pub slot: u64,
    pub start: u64,
    pub trip: u32,
    pub kind: u8,
    pub message: [u8; MESSAGE],
}

/// A list of bursts with room for so many.
#[derive(Clone, Debug)]
pub struct BurstList {
    capacity: usize,
    bursts: Vec<Burst>,
}

impl BurstList {
    pub fn new(capacity: usize) -> BurstList {
        BurstList {
            capacity,
            bursts: Vec::new(),
        }
    }

    pub fn free(&self) -> usize {
        self.capacity - self.bursts.len()
    }

    pub fn clear(&mut self) {
        self.bursts.clear();
    }

    pub fn bursts(&self) -> &[Burst] {
        &self.bursts
    }
}

/// Why a call is refused.
#[derive(Clone, Copy, PartialEq, Eq, Debug)]
pub enum Refusal {
    /// The marks of a report are not 53.
    Marks,
    /// The payload is not 48 bytes.
    Length,
    /// The burst list is too full.
    Room,
    /// The slot is past the last frame.
    Slot,
}

impl Refusal {
    pub fn number(self) -> u32 {
        match self {
            Refusal::Marks => 14,
            Refusal::Length => 15,
            Refusal::Room => 18,
            Refusal::Slot => 19,
        }
    }
}

/// Cells spoiled by a 64-bit pattern, lowest bit first, over and over.
#[derive(Clone, Copy, PartialEq, Eq, Debug)]
pub struct Pattern(u64);

impl Pattern {
    pub fn new(bits: u64) -> Pattern {
        Pattern(bits)
    }

    /// Whether the next cell is spoiled.
    fn next(&mut self) -> bool {
        let spoiled = self.0 & 1 == 1;
        self.0 = self.0.rotate_right(1);
        spoiled
    }
}

/// A plant, seen from its receiver outward.
#[derive(Clone, Debug)]
pub enum Plant {
    /// An open end.
    Nothing,
    Onu(BenchOnu),
    Fibre(u32, Box<Plant>),
    Drop(Pattern, Box<Plant>),
    Splitter(Box<[Plant; 2]>),
}

impl Plant {
    /// Fibre that adds so many bits to every round trip.
    pub fn fibre(bits: u32, behind: Plant) -> Plant {
        Plant::Fibre(bits.min(LAST_FIBRE), Box::new(behind))
    }

    /// A drop that spoils the cells at the ones of its pattern.
    pub fn drop(pattern: u64, behind: Plant) -> Plant {
        Plant::Drop(Pattern::new(pattern), Box::new(behind))
    }

    pub fn splitter(first: Plant, second: Plant) -> Plant {
        Plant::Splitter(Box::new([first, second]))
    }

    /// How many ONUs there are, those on a dark side too.
    fn ends(&self) -> usize {
        match self {
            Plant::Nothing => 0,
            Plant::Onu(_) => 1,
            Plant::Fibre(_, behind) | Plant::Drop(_, behind) => behind.ends(),
            Plant::Splitter(sides) => sides[0].ends() + sides[1].ends(),
        }
    }

    /// How many ONUs there are that can be reached.
    pub fn count(&self) -> usize {
        match self {
            Plant::Nothing => 0,
            Plant::Onu(_) => 1,
            Plant::Fibre(_, behind) | Plant::Drop(_, behind) => behind.count(),
            Plant::Splitter(sides) => {
                let [first, second] = [sides[0].count(), sides[1].count()];
                if first + second > MOST_ONUS {
                    first // the second side is dark
                } else {
                    first + second
                }
            }
        }
    }

    /// One cell, whose first grant is for slot `first`. The answers are added
    /// to the list, or the call is refused and nothing has changed.
    pub fn hear(
        &mut self,
        payload: &[u8],
        first: u64,
        list: &mut BurstList,
    ) -> Result<(), Refusal> {
        let payload: &[u8; CELL] = payload.try_into().map_err(|_| Refusal::Length)?;
        // Without more than the most ONUs no side is dark.
        let ends = self.ends();
        let lit = ends <= MOST_ONUS;
        let count = if lit { ends } else { self.count() };
        if list.free() < GRANTS * count {
            return Err(Refusal::Room);
        }
        if first >= SLOT_LIMIT {
            return Err(Refusal::Slot);
        }
        self.pass(lit, &Reception::read(payload), first, &mut list.bursts);
        Ok(())
    }

    /// Lets an accepted cell go outward and the bursts come back. `lit` says
    /// that no side can be dark.
    fn pass(&mut self, lit: bool, cell: &Reception, first: u64, bursts: &mut Vec<Burst>) {
        match self {
            Plant::Nothing => {}
            Plant::Onu(onu) => onu.hear(cell, first, bursts),
            Plant::Fibre(bits, behind) => {
                let already = bursts.len();
                behind.pass(lit, cell, first, bursts);
                for burst in &mut bursts[already..] {
                    let trip = (burst.trip + *bits).min(LAST_TRIP);
                    burst.start += u64::from(trip - burst.trip);
                    burst.trip = trip;
                }
            }
            Plant::Drop(pattern, behind) => {
                if pattern.next() {
                    behind.pass(lit, &Reception::SPOILED, first, bursts);
                } else {
                    behind.pass(lit, cell, first, bursts);
                }
            }
            Plant::Splitter(sides) => {
                let dark = !lit && sides[0].count() + sides[1].count() > MOST_ONUS;
                sides[0].pass(lit, cell, first, bursts);
                if !dark {
                    sides[1].pass(lit, cell, first, bursts);
                }
            }
        }
    }
}
