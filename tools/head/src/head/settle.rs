//! Settling: rounds that end, and records that count.

use super::{Docket, Head, Refusal, Slot, LAST_DELAY};
use crate::record::{Light, Record};
use crate::row::{Alarm, Alarms, Job, Phase};
use codec::{Up, UpBody};
use plants::receiver::RECORD;
use plants::REPORT;

impl Head {
    /// Takes the report of the oldest frame that is out. A refused docket comes
    /// back.
    pub fn settle(&mut self, docket: Docket, report: &[u8]) -> Result<(), (Refusal, Docket)> {
        let sent = match self.out.front() {
            Some(sent) if sent.frame == docket.frame => sent.clone(),
            _ => return Err((Refusal::NotOldest, docket)),
        };
        if report.len() != REPORT {
            return Err((Refusal::Report, docket));
        }
        self.out.pop_front();
        for (i, bytes) in report.chunks_exact(RECORD).enumerate() {
            let record = Record::read(bytes.try_into().expect("a whole record"));
            match self.slot(sent.frame, i + 1) {
                Slot::Window {
                    place,
                    judged: true,
                } => self.judge(place, &record),
                Slot::Turn(place) => {
                    let granted = sent.grants[i] == Head::ploam_code(place);
                    self.count(place, sent.frame, granted, true, &record);
                }
                Slot::Calendar(place) => {
                    let granted = sent.grants[i] == Head::data_code(place);
                    self.count(place, sent.frame, granted, false, &record);
                }
                Slot::Window { judged: false, .. } | Slot::Nobody => {}
            }
        }
        Ok(())
    }

    /// The end of a round.
    fn judge(&mut self, place: usize, record: &Record) {
        let close = i64::from(self.guard / 4);
        let frame = self.frame;
        let Some(row) = &mut self.rows[place] else {
            return;
        };
        let ploam = record.light == Light::Ploam;
        let success = match row.running.take() {
            None | Some(Job::Hold) => return,
            Some(Job::Stop | Job::Free) => {
                row.next = Some(Job::BringUp);
                return;
            }
            Some(Job::BringUp) => {
                let said = Up::read(&record.message).map(|up| up.body);
                let serial = row.serial.to_be_bytes();
                let own = said == Ok(UpBody::SerialNumberOnu { serial });
                let measured = ploam && own && (-LAST_DELAY..=0).contains(&record.offset);
                if measured {
                    row.delay = Some(-record.offset as u32);
                    row.next = Some(Job::Tell);
                }
                measured
            }
            Some(Job::Tell) => {
                let told = ploam && record.offset.abs() <= close;
                if told {
                    row.phase = Phase::InService;
                    row.alarms = Alarms::default();
                    row.cause = None;
                    row.dark = 0;
                    row.broken = 0;
                    row.missed = 0;
                    row.failures = 0;
                    row.since = frame;
                }
                told
            }
        };
        if !success {
            row.next = Some(Job::Stop);
            if record.light != Light::Dark {
                row.failures += 1;
                if row.failures == 2 {
                    row.alarms.raise(Alarm::Suf);
                }
            }
        }
    }

    /// The record of a slot outside the windows. It counts if the slot granted
    /// a code of an ONU that is still in service.
    fn count(&mut self, place: usize, frame: u64, granted: bool, turn: bool, record: &Record) {
        let far = i64::from(self.guard / 2);
        let Some(row) = &mut self.rows[place] else {
            return;
        };
        if !row.in_service() {
            return;
        }
        // The two ways to say which frames count.
        debug_assert_eq!(granted, frame >= row.since);
        if !granted {
            return;
        }
        let add = |count: u32, goes_on: bool| if goes_on { count + 1 } else { 0 };
        row.dark = add(row.dark, record.light == Light::Dark);
        row.broken = add(row.broken, record.light == Light::Broken);
        if turn {
            row.missed = add(row.missed, record.light != Light::Ploam);
        }
        let cell = matches!(record.light, Light::Ploam | Light::Data);
        let reached = [
            (Alarm::Los, row.dark == 8),
            (Alarm::Lcd, row.broken == 8),
            (Alarm::Oaml, row.missed == 3),
            (Alarm::Cpe, cell && record.offset.abs() > far),
        ];
        for (alarm, _) in reached.into_iter().filter(|&(_, raised)| raised) {
            if row.in_service() {
                row.phase = Phase::Waiting;
                row.next = Some(Job::Stop);
                row.cause = Some(alarm);
            }
            row.alarms.raise(alarm);
        }
    }
}
