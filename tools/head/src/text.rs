//! Rows as text, whole or what a look tells.

use crate::row::{Alarm, Alarms, Job, Phase, Row};
use plants::text::Maybe;
use std::fmt;

impl fmt::Display for Job {
    fn fmt(&self, f: &mut fmt::Formatter<'_>) -> fmt::Result {
        f.write_str(match self {
            Job::BringUp => "BringUp",
            Job::Tell => "Tell",
            Job::Stop => "Stop",
            Job::Hold => "Hold",
            Job::Free => "Free",
        })
    }
}

impl fmt::Display for Phase {
    fn fmt(&self, f: &mut fmt::Formatter<'_>) -> fmt::Result {
        f.write_str(match self {
            Phase::Held => "Held",
            Phase::Waiting => "Waiting",
            Phase::InService => "InService",
        })
    }
}

impl fmt::Display for Alarm {
    fn fmt(&self, f: &mut fmt::Formatter<'_>) -> fmt::Result {
        f.write_str(match self {
            Alarm::Los => "LOS",
            Alarm::Lcd => "LCD",
            Alarm::Oaml => "OAML",
            Alarm::Cpe => "CPE",
            Alarm::Suf => "SUF",
        })
    }
}

impl fmt::Display for Alarms {
    fn fmt(&self, f: &mut fmt::Formatter<'_>) -> fmt::Result {
        if !self.any() {
            return f.write_str("none");
        }
        let raised = Alarm::ALL.into_iter().filter(|&alarm| self.has(alarm));
        for (i, alarm) in raised.enumerate() {
            if i > 0 {
                f.write_str(",")?;
            }
            alarm.fmt(f)?;
        }
        Ok(())
    }
}

/// What a look tells of a filled place.
pub fn look_line(row: &Row) -> String {
    format!(
        "serial={:016x} phase={} delay={} alarms={} cause={} failures={}",
        row.serial,
        row.phase,
        Maybe(row.delay),
        row.alarms,
        Maybe(row.cause),
        row.failures
    )
}

/// All that is kept of a place.
pub fn row_line(place: usize, row: Option<&Row>) -> String {
    let Some(row) = row else {
        return format!("{place} empty");
    };
    format!(
        "{place} serial={:016x} phase={} running={} next={} delay={} alarms={} cause={} \
         dark={} broken={} missed={} failures={} since={}",
        row.serial,
        row.phase,
        Maybe(row.running),
        Maybe(row.next),
        Maybe(row.delay),
        row.alarms,
        Maybe(row.cause),
        row.dark,
        row.broken,
        row.missed,
        row.failures,
        row.since
    )
}
