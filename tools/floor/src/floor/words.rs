//! The words for refusals, phases, causes and alarms.

use head::row::{Alarm, Alarms, Phase};
use head::Refusal;
use std::fmt::{self, Display};

/// The words for a refusal.
pub(super) fn why(refusal: Refusal) -> &'static str {
    match refusal {
        Refusal::Begun => "a frame was sent or an ONU entered",
        Refusal::Guard => "the guard is not 4, 8, 12 or 16",
        Refusal::FirstFrame => "the first frame is no multiple of 1024 below 2^48",
        Refusal::Calendar => "the calendar is not 52 bytes of 0 to 63 or 255",
        Refusal::Place => "no place",
        Refusal::Filled => "the place is taken",
        Refusal::Serial => "another place has the serial number",
        Refusal::Held => "the place is empty or held",
        Refusal::NotHeld => "the place is not held",
        Refusal::Buffer => "the buffer is not 96 bytes",
        Refusal::Dockets => "four dockets are out",
        Refusal::FrameLimit => "no frame number is left",
        Refusal::NotOldest => "not the docket of the oldest frame out",
        Refusal::Report => "the report is not 954 bytes",
    }
}

pub(super) fn phase(phase: Phase) -> &'static str {
    match phase {
        Phase::Held => "held",
        Phase::Waiting => "waiting",
        Phase::InService => "in service",
    }
}

pub(super) fn cause(alarm: Alarm) -> &'static str {
    match alarm {
        Alarm::Los => "loss of signal",
        Alarm::Lcd => "loss of cell delineation",
        Alarm::Oaml => "PLOAM cells missing",
        Alarm::Cpe => "cell phase error",
        Alarm::Suf => "start-up failed",
    }
}

/// The alarms that are on, with blanks between them, or none.
pub(super) struct Raised(pub Alarms);

impl Display for Raised {
    fn fmt(&self, f: &mut fmt::Formatter<'_>) -> fmt::Result {
        let raised: Vec<String> = Alarm::ALL
            .into_iter()
            .filter(|&alarm| self.0.has(alarm))
            .map(|alarm| alarm.to_string())
            .collect();
        if raised.is_empty() {
            f.write_str("none")
        } else {
            f.write_str(&raised.join(" "))
        }
    }
}
