//! Frames that are sent and settled, and what that changes.

use super::pictures::{grants, Kept, KEPT};
use super::words::{cause, phase, Raised};
use super::Floor;
use codec::cell::{CELL, GRANTS};
use codec::FRAME;
use head::head::MOST_OUT;
use head::row::{Job, Phase, Row};
use head::{Head, Refusal, PLACES};
use plants::{report, FRAME_SLOTS as SLOTS};
use std::io::{self, Write};

/// Frames between two lines of progress.
pub const PROGRESS: u64 = 1_024;

impl Floor {
    /// One frame: sent, heard by the line, and its report made.
    pub(super) fn send(&mut self) -> Result<u64, Refusal> {
        let mut bytes = [0; FRAME];
        let docket = self.head.send(&mut bytes)?;
        let frame = docket.frame;
        self.dockets.push_back(docket);
        self.list.clear();
        for (i, cell) in bytes.chunks_exact(CELL).enumerate() {
            self.line
                .hear(cell, SLOTS * frame + (GRANTS * i) as u64, &mut self.list)
                .expect("a frame is heard");
        }
        let bursts = self.list.bursts();
        self.starts.extend(bursts.iter().map(|burst| burst.start));
        self.frames += 1;
        let marks = self.missed.map(|frames| u8::from(frames > 0));
        self.missed = self.missed.map(|frames| frames.saturating_sub(1));
        self.kept.push_back(Kept {
            frame,
            grants: grants(&bytes),
            report: report(frame, bursts, &marks).expect("53 marks"),
        });
        if self.kept.len() as u64 > KEPT {
            self.kept.pop_front();
        }
        Ok(frame)
    }

    /// Settles the oldest frame that is out and tells what that changed.
    pub(super) fn settle(&mut self, out: &mut impl Write) -> io::Result<()> {
        let Some(docket) = self.dockets.pop_front() else {
            return Ok(());
        };
        let frame = docket.frame;
        let kept = self.kept.iter().find(|kept| kept.frame == frame);
        let report = &kept.expect("at most four are out").report;
        let rows = |head: &Head| -> [Option<Row>; PLACES] {
            std::array::from_fn(|place| head.row(place).copied())
        };
        let before = rows(&self.head);
        self.head
            .settle(docket, report)
            .expect("the oldest one, with a whole report");
        for (place, (before, after)) in before.into_iter().zip(rows(&self.head)).enumerate() {
            if let (Some(before), Some(after)) = (before, after) {
                self.tell(frame, place, &before, &after, out)?;
            }
        }
        Ok(())
    }

    /// What settling a frame changed of one place.
    fn tell(
        &self,
        frame: u64,
        place: usize,
        before: &Row,
        after: &Row,
        out: &mut impl Write,
    ) -> io::Result<()> {
        let raised = Raised(after.alarms);
        if before.running == Some(Job::BringUp) && after.next == Some(Job::Tell) {
            if let Some(delay) = after.delay {
                let offset = -i64::from(delay);
                writeln!(
                    out,
                    "frame {frame} place {place} measured offset {offset} delay {delay}"
                )?;
            }
        }
        if after.failures > before.failures {
            let failures = after.failures;
            writeln!(
                out,
                "frame {frame} place {place} round failed with light, failures {failures}"
            )?;
        }
        match (before.phase, after.phase) {
            (Phase::InService, Phase::Waiting) => writeln!(
                out,
                "frame {frame} place {place} out of service, alarms {raised}, cause: {}",
                after.cause.map_or("none", cause)
            ),
            (old, new) if old != new => {
                writeln!(out, "frame {frame} place {place} {}", phase(new))
            }
            _ if before.alarms != after.alarms => {
                writeln!(out, "frame {frame} place {place} alarms {raised}")
            }
            _ => Ok(()),
        }
    }

    pub(super) fn run(&mut self, frames: u64, late: usize, out: &mut impl Write) -> io::Result<()> {
        for _ in 0..frames {
            if self.dockets.len() == MOST_OUT {
                self.settle(out)?;
            }
            if let Err(refusal) = self.send() {
                return self.refused("send", refusal, out);
            }
            while self.dockets.len() > late {
                self.settle(out)?;
            }
            let frame = self.head.frame();
            if self.progress && frame.is_multiple_of(PROGRESS) {
                write!(out, "frame {frame}: ")?;
                self.write_places(out)?;
                writeln!(out, ", bursts {}", self.bursts())?;
            }
        }
        Ok(())
    }

    pub(super) fn write_places(&self, out: &mut impl Write) -> io::Result<()> {
        let count = |phase: Option<Phase>| {
            let rows = (0..PLACES).map(|place| self.head.row(place).map(|row| row.phase));
            rows.filter(|&row| row == phase).count()
        };
        write!(
            out,
            "in service {}, waiting {}, held {}, empty {}",
            count(Some(Phase::InService)),
            count(Some(Phase::Waiting)),
            count(Some(Phase::Held)),
            count(None)
        )
    }
}
