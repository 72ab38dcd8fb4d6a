//! The bench ONU: the state table with timers and a round trip, good signal at
//! its first cell and a power set-up that takes no time.

use crate::plant::{Burst, DATA_CELL, PLOAM_CELL};
use crate::reception::Reception;
use crate::table::{Answer, Event, Onu, State};
use crate::SLOT_BITS;

/// Cells that the ranging may take.
pub const FIRST_TIMER: u32 = 131_072;
/// Cells that a POPUP message may take.
pub const SECOND_TIMER: u32 = 1_310;
/// The longest round trip, in bits.
pub const LAST_TRIP: u32 = 1_000_000;

#[derive(Clone, Copy, PartialEq, Eq, Debug)]
pub enum Timer {
    First,
    Second,
}

impl Timer {
    /// The timer that runs in a state.
    pub fn of(state: State) -> Option<Timer> {
        match state {
            State::O5 | State::O6 | State::O7 => Some(Timer::First),
            State::O10 => Some(Timer::Second),
            _ => None,
        }
    }

    pub fn cells(self) -> u32 {
        match self {
            Timer::First => FIRST_TIMER,
            Timer::Second => SECOND_TIMER,
        }
    }

    fn expiry(self) -> Event {
        match self {
            Timer::First => Event::FirstTimer,
            Timer::Second => Event::SecondTimer,
        }
    }
}

#[derive(Clone, Copy, PartialEq, Eq, Debug)]
pub struct BenchOnu {
    onu: Onu,
    trip: u32,
    /// Whether a cell has ever reached it.
    heard: bool,
    /// Cells since the running timer started; of no meaning if none runs.
    elapsed: u32,
}

impl BenchOnu {
    /// A new ONU in O1. A longer round trip than the longest counts as that.
    pub fn new(serial: u64, trip: u32) -> BenchOnu {
        BenchOnu {
            onu: Onu::new(serial),
            trip: trip.min(LAST_TRIP),
            heard: false,
            elapsed: 0,
        }
    }

    pub fn onu(&self) -> &Onu {
        &self.onu
    }

    /// Its own round trip, without the fibre before it.
    pub fn trip(&self) -> u32 {
        self.trip
    }

    pub fn set_trip(&mut self, trip: u32) {
        self.trip = trip.min(LAST_TRIP);
    }

    /// The running timer and the cells it will still bear.
    pub fn timer(&self) -> Option<(Timer, u32)> {
        Timer::of(self.onu.state).map(|timer| (timer, timer.cells() - self.elapsed))
    }

    /// Takes an event now: from the host between cells, or in a cell. A timer
    /// starts when its states are entered and runs on from one to the other.
    pub fn take(&mut self, event: &Event) {
        let before = Timer::of(self.onu.state);
        self.onu.step(event);
        if Timer::of(self.onu.state) != before {
            self.elapsed = 0;
        }
    }

    /// The events of its own that come before a cell.
    fn own_events(&mut self) {
        let setting_up = matches!(self.onu.state, State::O3 | State::O4);
        if !self.heard {
            self.heard = true;
            self.take(&Event::SignalBack);
        }
        if let Some((timer, 0)) = self.timer() {
            self.take(&timer.expiry());
        }
        if setting_up {
            self.take(&Event::PowerSetUp);
        }
    }

    /// One cell: own events, grants in order, then the message.
    pub fn hear(&mut self, cell: &Reception, first: u64, bursts: &mut Vec<Burst>) {
        self.own_events();
        for &(place, code) in cell.grants() {
            if let Some(answer) = self.onu.answer(code) {
                bursts.push(self.burst(first + u64::from(place), answer));
            }
        }
        if let Some(message) = cell.message() {
            self.take(&Event::Message(*message));
        }
        if Timer::of(self.onu.state).is_some() {
            self.elapsed += 1;
        }
    }

    fn burst(&self, slot: u64, answer: Answer) -> Burst {
        let (kind, message) = match answer {
            Answer::Ploam(message) => (PLOAM_CELL, message),
            Answer::Data(message) => (DATA_CELL, message),
        };
        Burst {
            serial: self.onu.serial,
            slot,
            start: SLOT_BITS * slot + u64::from(self.trip) + u64::from(self.onu.register),
            trip: self.trip,
            kind,
            message,
        }
    }
}
