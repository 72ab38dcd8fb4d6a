//! Pictures of frames that were heard.

use super::Floor;
use codec::cell::{CELL, GRANTS, GROUPS};
use codec::{Grant, FRAME};
use head::head::Slot;
use head::record::{Light, Record};
use head::FRAME_SLOTS;
use plants::receiver::RECORD;
use plants::REPORT;
use std::io::{self, Write};

/// Frames of which a picture is kept.
pub const KEPT: u64 = 64;

/// A frame as it was sent, and what the receiver says of it.
pub struct Kept {
    pub frame: u64,
    pub grants: [u8; FRAME_SLOTS],
    pub report: [u8; REPORT],
}

/// The 53 grants of a frame as its two cells carry them.
pub fn grants(bytes: &[u8; FRAME]) -> [u8; FRAME_SLOTS] {
    let mut grants = [0; 2 * GRANTS];
    let groups = bytes
        .chunks_exact(CELL)
        .flat_map(|cell| GROUPS.map(|(at, count)| &cell[at..at + count]));
    for (grant, byte) in grants.iter_mut().zip(groups.flatten()) {
        *grant = *byte;
    }
    grants[..FRAME_SLOTS].try_into().expect("53 of 54")
}

/// Lines that are the same stand together.
fn write_slots(out: &mut impl Write, lines: &[String]) -> io::Result<()> {
    let mut from = 0;
    for same in lines.chunk_by(|one, next| one == next) {
        let to = from + same.len();
        if same.len() == 1 {
            writeln!(out, "  slot {to}: {}", same[0])?;
        } else {
            writeln!(out, "  slots {}-{to}: {}", from + 1, same[0])?;
        }
        from = to;
    }
    Ok(())
}

impl Floor {
    pub(super) fn picture(&self, frame: u64, out: &mut impl Write) -> io::Result<()> {
        let owners = (1..=FRAME_SLOTS).map(|x| match self.head.slot(frame, x) {
            Slot::Window { place, .. } => format!("window of place {place}"),
            Slot::Turn(place) | Slot::Calendar(place) => format!("place {place}"),
            Slot::Nobody => "nobody".to_string(),
        });
        if frame >= self.head.frame() {
            writeln!(out, "picture of frame {frame}, still to come")?;
            return write_slots(out, &owners.collect::<Vec<_>>());
        }
        let Some(kept) = self.kept.iter().find(|kept| kept.frame == frame) else {
            return writeln!(
                out,
                "picture of frame {frame}: only the last {KEPT} frames are kept"
            );
        };
        writeln!(out, "picture of frame {frame}")?;
        let settled = self.dockets.iter().all(|docket| docket.frame != frame);
        let records = kept.report.chunks_exact(RECORD);
        let lines: Vec<String> = owners
            .zip(kept.grants)
            .zip(records)
            .map(|((owner, grant), bytes)| {
                let grant = match Grant(grant) {
                    Grant::UNASSIGNED => "no grant".to_string(),
                    Grant(code) => format!("grant {code}"),
                };
                let record = Record::read(bytes.try_into().expect("a whole record"));
                let offset = record.offset;
                let heard = match record.light {
                    _ if !settled => "no report yet".to_string(),
                    Light::Dark => "dark".to_string(),
                    Light::Broken => "broken".to_string(),
                    Light::Ploam => format!("PLOAM cell, offset {offset}"),
                    Light::Data => format!("data cell, offset {offset}"),
                };
                format!("{owner}, {grant}, {heard}")
            })
            .collect();
        write_slots(out, &lines)
    }
}
