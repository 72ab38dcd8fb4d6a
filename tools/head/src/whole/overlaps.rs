//! Bursts of which one bit time lies in both.

use plants::{Burst, SLOT_BITS};
use std::collections::BTreeMap;

/// Looks for bursts of which one bit time lies in both.
pub struct Overlaps {
    /// Starts and ends of those that may still meet another.
    pub near: BTreeMap<u64, u64>,
    pub length: u64,
    pub found: u64,
}

impl Overlaps {
    pub fn add(&mut self, burst: &Burst) {
        let (start, end) = (burst.start, burst.start + self.length);
        let before = self.near.range(..=start).next_back();
        let after = self.near.range(start..).next();
        if before.is_some_and(|(_, &other)| other > start)
            || after.is_some_and(|(&other, _)| other < end)
        {
            self.found += 1;
        }
        self.near.insert(start, end);
    }

    /// Forgets those that end before any burst of this slot could start.
    pub fn pass(&mut self, slot: u64) {
        let now = SLOT_BITS * slot;
        while let Some((&start, &end)) = self.near.first_key_value() {
            if end > now {
                break;
            }
            self.near.remove(&start);
        }
    }
}
