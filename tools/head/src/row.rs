//! What the head keeps of a place: jobs, phases, alarms and counts.

/// What a round of a place is for.
#[derive(Clone, Copy, PartialEq, Eq, Debug)]
pub enum Job {
    BringUp,
    Tell,
    Stop,
    Hold,
    Free,
}

#[derive(Clone, Copy, PartialEq, Eq, Debug)]
pub enum Phase {
    Held,
    Waiting,
    InService,
}

/// The alarms of one ONU, in the order in which they are told.
#[derive(Clone, Copy, PartialEq, Eq, Debug)]
pub enum Alarm {
    Los,
    Lcd,
    Oaml,
    Cpe,
    Suf,
}

impl Alarm {
    pub const ALL: [Alarm; 5] = [Alarm::Los, Alarm::Lcd, Alarm::Oaml, Alarm::Cpe, Alarm::Suf];
}

/// A set of alarms.
#[derive(Clone, Copy, PartialEq, Eq, Debug, Default)]
pub struct Alarms([bool; 5]);

impl Alarms {
    pub fn has(&self, alarm: Alarm) -> bool {
        self.0[alarm as usize]
    }

    pub fn raise(&mut self, alarm: Alarm) {
        self.0[alarm as usize] = true;
    }

    pub fn any(&self) -> bool {
        self.0.contains(&true)
    }
}

/// What the head keeps of a filled place.
#[derive(Clone, Copy, PartialEq, Eq, Debug)]
pub struct Row {
    pub serial: u64,
    pub phase: Phase,
    pub running: Option<Job>,
    pub next: Option<Job>,
    pub delay: Option<u32>,
    pub alarms: Alarms,
    pub cause: Option<Alarm>,
    /// Records without light in succession.
    pub dark: u32,
    /// Broken records in succession.
    pub broken: u32,
    /// PLOAM grants in succession that no PLOAM cell answered.
    pub missed: u32,
    /// Rounds that failed with light.
    pub failures: u64,
    /// The head's frame number when service began.
    pub since: u64,
    /// Message turns that the running job has had.
    pub(crate) turns: usize,
}

impl Row {
    pub(crate) fn new(serial: u64) -> Row {
        Row {
            serial,
            phase: Phase::Waiting,
            running: None,
            next: Some(Job::BringUp),
            delay: None,
            alarms: Alarms::default(),
            cause: None,
            dark: 0,
            broken: 0,
            missed: 0,
            failures: 0,
            since: 0,
            turns: 0,
        }
    }

    pub fn in_service(&self) -> bool {
        self.phase == Phase::InService
    }
}
