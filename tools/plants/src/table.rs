//! The state table of an ONU.

use codec::up::NO_PON_ID;
use codec::{Access, Down, Grant, Target, Up, UpBody, MESSAGE};
use std::fmt;

/// The ten states.
#[derive(Clone, Copy, PartialEq, Eq, Debug)]
pub enum State {
    /// Initial.
    O1,
    /// Ranging standby 1: waits for the overhead.
    O2,
    /// Ranging standby 2: sets up its optical power.
    O3,
    /// Ranging standby 3: the same, and answers ranging grants.
    O4,
    /// Operating standby 1: waits for its PON_ID.
    O5,
    /// Operating standby 2: the same, and answers ranging grants.
    O6,
    /// Operating standby 3: its delay is being measured.
    O7,
    /// Operating.
    O8,
    /// Emergency stop.
    O9,
    /// POPUP: lost signal while operating.
    O10,
}

use State::*;

impl State {
    pub const ALL: [State; 10] = [O1, O2, O3, O4, O5, O6, O7, O8, O9, O10];
}

impl fmt::Display for State {
    fn fmt(&self, f: &mut fmt::Formatter<'_>) -> fmt::Result {
        write!(f, "O{}", *self as usize + 1)
    }
}

/// What can happen to an ONU, grants aside.
#[derive(Clone, Copy, PartialEq, Eq, Debug)]
pub enum Event {
    Message(Down),
    /// LOS, LCD, OAML or FRML is detected.
    SignalLost,
    /// All four are cleared.
    SignalBack,
    /// The ranging took too long.
    FirstTimer,
    /// No POPUP came in time.
    SecondTimer,
    PowerSetUp,
    PowerLost,
}

/// The lines of the table that lead somewhere, with their conditions met.
#[derive(Clone, Copy, PartialEq, Eq, Debug)]
enum Row {
    Overhead,
    PowerSetUp,
    MaskFits,
    MaskDiffers,
    Assign,
    Allocate,
    Popup,
    SecondTimer,
    FirstTimer,
    RangingTime,
    Deactivate,
    Deny,
    Allow,
    SignalLost,
    SignalBack,
    PowerLost,
}

/// Nothing happens.
const NO: Option<State> = None;

const fn to(state: State) -> Option<State> {
    Some(state)
}

impl Row {
    /// Where the line leads from each state, O1 first.
    #[rustfmt::skip]
    const fn targets(self) -> [Option<State>; 10] {
        match self {
            //                     O1      O2      O3      O4      O5      O6      O7      O8       O9      O10
            Row::Overhead    => [NO,     to(O3), NO,     NO,     NO,     NO,     NO,     NO,      NO,     NO],
            Row::PowerSetUp  => [NO,     NO,     to(O5), to(O5), NO,     NO,     NO,     NO,      NO,     NO],
            Row::MaskFits    => [NO,     NO,     to(O4), NO,     to(O6), NO,     NO,     NO,      NO,     NO],
            Row::MaskDiffers => [NO,     NO,     NO,     to(O3), NO,     to(O5), NO,     NO,      NO,     NO],
            Row::Assign      => [NO,     NO,     NO,     NO,     to(O5), to(O6), NO,     NO,      NO,     NO],
            Row::Allocate    => [NO,     NO,     NO,     NO,     to(O7), to(O7), NO,     NO,      NO,     NO],
            Row::Popup       => [NO,     NO,     NO,     NO,     NO,     NO,     NO,     NO,      NO,     to(O7)],
            Row::SecondTimer => [NO,     NO,     NO,     NO,     NO,     NO,     NO,     NO,      NO,     to(O1)],
            Row::FirstTimer  => [NO,     NO,     NO,     NO,     to(O3), to(O3), to(O3), NO,      NO,     NO],
            Row::RangingTime => [NO,     NO,     NO,     NO,     NO,     NO,     to(O8), to(O8),  NO,     NO],
            Row::Deactivate  => [NO,     NO,     to(O2), to(O2), to(O2), to(O2), to(O2), to(O2),  NO,     NO],
            Row::Deny        => [NO,     to(O9), to(O9), to(O9), to(O9), to(O9), to(O9), to(O9),  NO,     NO],
            Row::Allow       => [NO,     NO,     NO,     NO,     NO,     NO,     NO,     NO,      to(O1), NO],
            Row::SignalLost  => [NO,     to(O1), to(O1), to(O1), to(O1), to(O1), to(O1), to(O10), NO,     to(O10)],
            Row::SignalBack  => [to(O2), NO,     NO,     NO,     NO,     NO,     NO,     NO,      NO,     NO],
            Row::PowerLost   => [to(O1), to(O1), to(O1), to(O1), to(O1), to(O1), to(O1), to(O1),  NO,     to(O1)],
        }
    }
}

/// What a grant is answered with.
#[derive(Clone, Copy, PartialEq, Eq, Debug)]
pub enum Answer {
    /// A PLOAM cell with this message.
    Ploam([u8; MESSAGE]),
    /// A data cell, and the message that is carried along with it.
    Data([u8; MESSAGE]),
}

/// An ONU, its round trip and timers aside.
#[derive(Clone, Copy, PartialEq, Eq, Debug)]
pub struct Onu {
    pub serial: u64,
    pub state: State,
    pub pon_id: Option<u8>,
    pub data: Option<u8>,
    pub ploam: Option<u8>,
    /// The pre-assigned delay, in bits.
    pub pre: u32,
    /// The equalization delay in force, in bits.
    pub register: u32,
}

impl Onu {
    pub fn new(serial: u64) -> Onu {
        Onu {
            serial,
            state: O1,
            pon_id: None,
            data: None,
            ploam: None,
            pre: 0,
            register: 0,
        }
    }

    /// Takes one event.
    pub fn step(&mut self, event: &Event) {
        let Some(row) = self.row(event) else { return };
        let Some(next) = row.targets()[self.state as usize] else {
            return;
        };
        self.learn(event);
        if next != self.state {
            self.enter(next);
        }
        if row == Row::PowerLost {
            self.enter(O1);
            self.register = 0;
        }
    }

    /// The line of the table that an event falls under, if it concerns this
    /// ONU at all.
    fn row(&self, event: &Event) -> Option<Row> {
        let own = |serial: [u8; 8]| u64::from_be_bytes(serial) == self.serial;
        let mine = |pon_id: u8| self.pon_id == Some(pon_id);
        let message = match event {
            Event::Message(message) => message,
            Event::SignalLost => return Some(Row::SignalLost),
            Event::SignalBack => return Some(Row::SignalBack),
            Event::FirstTimer => return Some(Row::FirstTimer),
            Event::SecondTimer => return Some(Row::SecondTimer),
            Event::PowerSetUp => return Some(Row::PowerSetUp),
            Event::PowerLost => return Some(Row::PowerLost),
        };
        let (row, concerned) = match *message {
            Down::UpstreamOverhead { .. } => (Row::Overhead, true),
            Down::SerialNumberMask { bits, serial } if self.fits(bits, serial) => {
                (Row::MaskFits, true)
            }
            Down::SerialNumberMask { .. } => (Row::MaskDiffers, true),
            Down::AssignPonId { serial, .. } => (Row::Assign, own(serial)),
            Down::GrantAllocation { pon_id, .. } => (Row::Allocate, mine(pon_id)),
            Down::Popup => (Row::Popup, true),
            Down::RangingTime { pon_id, .. } => (Row::RangingTime, mine(pon_id)),
            Down::DeactivatePonId { to: Target::All } => (Row::Deactivate, true),
            Down::DeactivatePonId {
                to: Target::One(pon_id),
            } => (Row::Deactivate, mine(pon_id)),
            Down::DisableSerialNumber(Access::Deny(serial)) => (Row::Deny, own(serial)),
            Down::DisableSerialNumber(Access::Allow(serial)) => (Row::Allow, own(serial)),
            Down::DisableSerialNumber(Access::AllowAll) => (Row::Allow, true),
            // All else is of no concern to the ranging.
            Down::NoMessage
            | Down::UpstreamRxControl(_)
            | Down::NewChurningKeyRequest { .. }
            | Down::ChurningKeyUpdate { .. }
            | Down::DividedSlotGrantConfiguration { .. }
            | Down::ConfigureVpVc { .. }
            | Down::PhysicalEquipmentError
            | Down::RequestPassword { .. }
            | Down::ChurnedVp { .. }
            | Down::VendorSpecific { .. }
            | Down::Pst { .. }
            | Down::BerInterval { .. } => return None,
        };
        concerned.then_some(row)
    }

    /// Whether the lowest bits of a serial number are those of this ONU's.
    fn fits(&self, bits: u8, serial: [u8; 8]) -> bool {
        let differing = u64::from_be_bytes(serial) ^ self.serial;
        // Counted from the lowest one: 64 if there is none.
        differing.trailing_zeros() >= u32::from(bits)
    }

    /// Takes what a message that is acted on says.
    fn learn(&mut self, event: &Event) {
        let Event::Message(message) = event else {
            return;
        };
        match *message {
            Down::UpstreamOverhead { delay, .. } => self.pre = delay,
            Down::AssignPonId { pon_id, .. } => self.pon_id = Some(pon_id),
            Down::GrantAllocation {
                data,
                data_active,
                ploam,
                ploam_active,
                ..
            } => {
                self.data = data_active.then_some(data);
                self.ploam = ploam_active.then_some(ploam);
            }
            Down::RangingTime { delay, .. } => self.register = delay,
            _ => {}
        }
    }

    /// Goes to a state, and forgets what may not be kept there.
    fn enter(&mut self, state: State) {
        self.state = state;
        if matches!(state, O1 | O2 | O3 | O9) {
            self.pon_id = None;
            self.data = None;
            self.ploam = None;
        }
        if matches!(state, O1 | O2) {
            self.pre = 0;
        }
        if matches!(state, O3 | O4 | O5 | O6 | O7) {
            self.register = self.pre;
        }
    }

    /// What this ONU sends into a slot granted with `code`, if anything.
    pub fn answer(&self, code: u8) -> Option<Answer> {
        let granted = Some(code);
        match self.state {
            O4 if code == Grant::RANGING.0 => Some(Answer::Ploam(self.no_message())),
            O6 if code == Grant::RANGING.0 => Some(Answer::Ploam(self.own_serial(NO_PON_ID))),
            O7 if granted == self.ploam => {
                let source = self.pon_id.unwrap_or(NO_PON_ID);
                Some(Answer::Ploam(self.own_serial(source)))
            }
            O8 if granted == self.data => Some(Answer::Data(self.no_message())),
            O8 if granted == self.ploam => Some(Answer::Ploam(self.no_message())),
            _ => None,
        }
    }

    fn own_serial(&self, source: u8) -> [u8; MESSAGE] {
        let serial = self.serial.to_be_bytes();
        Up {
            source,
            body: UpBody::SerialNumberOnu { serial },
        }
        .write()
    }

    /// Without a PON_ID its source is 64, which the codec holds for unsound here.
    fn no_message(&self) -> [u8; MESSAGE] {
        let sound = Up {
            source: 0,
            body: UpBody::NoMessage,
        };
        let mut message = sound.write();
        message[0] = self.pon_id.unwrap_or(NO_PON_ID);
        message
    }
}
