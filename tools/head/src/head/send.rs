//! Sending: the grants and messages of the next frame.

use super::{Docket, Head, Refusal, Sent, Slot, FRAME_LIMIT, MOST_OUT, ROUND};
use crate::row::Job;
use crate::{FRAME_SLOTS, PLACES};
use codec::frame::{write_frame, Frame, FRAME};
use codec::{Access, Down, Grant, Target};

/// Whether the round of a place begins with this frame.
fn begins(place: usize, frame: u64) -> bool {
    frame % ROUND == (16 * place as u64 + 23) % ROUND
}

impl Head {
    /// Writes the next frame into a buffer.
    pub fn send(&mut self, buffer: &mut [u8]) -> Result<Docket, Refusal> {
        if buffer.len() != FRAME {
            return Err(Refusal::Buffer);
        }
        if self.out.len() >= MOST_OUT {
            return Err(Refusal::Dockets);
        }
        let frame = self.frame;
        if frame >= FRAME_LIMIT {
            return Err(Refusal::FrameLimit);
        }
        for place in 0..PLACES {
            if begins(place, frame) {
                if let Some(row) = &mut self.rows[place] {
                    row.running = row.next.take();
                    row.turns = 0;
                }
            }
        }
        let messages = [0, 1].map(|cell| self.say(((2 * frame + cell) % 64) as usize));
        let mut grants = [0; FRAME_SLOTS];
        for (i, grant) in grants.iter_mut().enumerate() {
            *grant = self.grant(frame, i + 1);
        }
        buffer.copy_from_slice(&write_frame(&Frame {
            grants: grants.map(Grant),
            messages,
        }));
        self.out.push_back(Sent { frame, grants });
        self.frame += 1;
        self.begun = true;
        Ok(Docket { frame })
    }

    pub(super) fn data_code(place: usize) -> u8 {
        place as u8
    }

    pub(super) fn ploam_code(place: usize) -> u8 {
        64 + place as u8
    }

    /// The grant of slot X of a frame that is being sent.
    fn grant(&self, frame: u64, x: usize) -> u8 {
        let serves = |place: usize| self.rows[place].is_some_and(|row| row.in_service());
        let code = match self.slot(frame, x) {
            Slot::Window {
                place,
                judged: true,
            } => {
                let running = self.rows[place].and_then(|row| row.running);
                matches!(running, Some(Job::BringUp | Job::Tell)).then(|| Head::ploam_code(place))
            }
            Slot::Turn(place) => serves(place).then(|| Head::ploam_code(place)),
            Slot::Calendar(place) => serves(place).then(|| Head::data_code(place)),
            Slot::Window { judged: false, .. } | Slot::Nobody => None,
        };
        code.unwrap_or(Grant::UNASSIGNED.0)
    }

    /// A place's turn to be told something.
    fn say(&mut self, place: usize) -> Down {
        let (guard, overhead) = (self.guard, self.pattern);
        let Some(row) = &mut self.rows[place] else {
            return Down::NoMessage;
        };
        let Some(job) = row.running else {
            return Down::NoMessage;
        };
        let step = row.turns / 3;
        row.turns += 1;
        let pon_id = place as u8;
        let serial = row.serial.to_be_bytes();
        match (job, step) {
            (Job::BringUp, 0) => Down::UpstreamOverhead {
                guard,
                overhead,
                delay: 0,
            },
            (Job::BringUp, 1) => Down::AssignPonId { pon_id, serial },
            (Job::BringUp, 2) => Down::GrantAllocation {
                pon_id,
                data: Head::data_code(place),
                data_active: true,
                ploam: Head::ploam_code(place),
                ploam_active: true,
            },
            (Job::Tell, 0) => Down::RangingTime {
                pon_id,
                delay: row.delay.expect("measured by the bring-up"),
            },
            (Job::Stop, 0) => Down::DeactivatePonId {
                to: Target::One(pon_id),
            },
            (Job::Hold, 0) => Down::DisableSerialNumber(Access::Deny(serial)),
            (Job::Free, 0) => Down::DisableSerialNumber(Access::Allow(serial)),
            _ => Down::NoMessage,
        }
    }
}
