//! The bench receiver: the report of a frame from the bursts that came.

use crate::plant::{Burst, Refusal};
use crate::{FRAME_SLOTS, SLOT_BITS, TARGET};

/// Bytes of the record of one slot.
pub const RECORD: usize = 18;
/// Bytes of a report.
pub const REPORT: usize = FRAME_SLOTS as usize * RECORD;

/// No light.
pub const DARK: u8 = 0;
/// Light that is no cell.
pub const BROKEN: u8 = 1;

/// The offset of a burst from the target of its slot, in bits.
pub fn offset(burst: &Burst) -> i128 {
    i128::from(burst.start) - i128::from(SLOT_BITS) * i128::from(burst.slot) - i128::from(TARGET)
}

/// The report of frame `frame`. A slot whose mark is not 0 was missed.
pub fn report(frame: u64, bursts: &[Burst], marks: &[u8]) -> Result<[u8; REPORT], Refusal> {
    if marks.len() != FRAME_SLOTS as usize {
        return Err(Refusal::Marks);
    }
    let mut out = [0; REPORT];
    for (x, record) in out.chunks_exact_mut(RECORD).enumerate() {
        if marks[x] != 0 {
            continue;
        }
        let slot = u128::from(frame) * u128::from(FRAME_SLOTS) + x as u128;
        let mut here = bursts.iter().filter(|burst| u128::from(burst.slot) == slot);
        match (here.next(), here.next()) {
            (None, _) => record[0] = DARK,
            (Some(burst), None) => write_record(record, burst),
            (Some(_), Some(_)) => record[0] = BROKEN,
        }
    }
    Ok(out)
}

/// The record of the only burst of a slot: kind, parity, offset, message.
fn write_record(record: &mut [u8], burst: &Burst) {
    match i32::try_from(offset(burst)) {
        Ok(offset) => {
            record[0] = burst.kind;
            record[2..6].copy_from_slice(&offset.to_be_bytes());
            record[6..].copy_from_slice(&burst.message);
        }
        Err(_) => record[0] = BROKEN,
    }
}

#[cfg(test)]
mod tests {
    use super::*;

    fn burst(slot: u64, offset: i64) -> Burst {
        Burst {
            serial: 1,
            slot,
            start: (SLOT_BITS * slot + TARGET).wrapping_add_signed(offset),
            trip: 0,
            kind: 2,
            message: [9; 12],
        }
    }

    const NO_MARKS: [u8; 53] = [0; 53];

    #[test]
    fn records() {
        let bursts = [
            burst(53 * 7, -15_392),
            burst(53 * 7 + 2, i64::from(i32::MAX)),
            burst(53 * 7 + 3, i64::from(i32::MAX) + 1),
            burst(53 * 7 + 52, 1),
            burst(53 * 8, 0),
            burst(53 * 7 + 5, 0),
            burst(53 * 7 + 5, 0),
            burst(53 * 7 + 6, 0),
            burst(53 * 7 + 6, 0),
            burst(53 * 7 + 6, 0),
        ];
        let out = report(7, &bursts, &NO_MARKS).unwrap();
        let record = |x: usize| &out[(x - 1) * RECORD..x * RECORD];
        assert_eq!(record(1)[..7], [2, 0, 0xFF, 0xFF, 0xC3, 0xE0, 9]);
        assert_eq!(record(2), [0; RECORD]);
        assert_eq!(record(3)[..6], [2, 0, 0x7F, 0xFF, 0xFF, 0xFF]);
        for x in [4, 6, 7] {
            assert_eq!(record(x)[0], 1);
            assert_eq!(record(x)[1..], [0; RECORD - 1]);
        }
        assert_eq!(record(53)[..6], [2, 0, 0, 0, 0, 1]);
    }

    /// A mark wins over one burst and over two.
    #[test]
    fn marks() {
        let bursts = [burst(0, 0), burst(1, 0), burst(1, 0)];
        let mut marks = NO_MARKS;
        marks[0] = 1;
        marks[1] = 255;
        assert_eq!(report(0, &bursts, &marks), Ok([0; REPORT]));
        for length in [0, 52, 54] {
            assert_eq!(report(0, &bursts, &vec![0; length]), Err(Refusal::Marks));
        }
    }

    /// A frame number whose slots are none is dark, even where the product
    /// would come round to slots that are.
    #[test]
    fn far_frames() {
        let bursts: Vec<Burst> = (0..300).map(|slot| burst(slot, 0)).collect();
        for frame in [u64::MAX, u64::MAX / 53, u64::MAX / 53 + 1, 1 << 60] {
            assert_eq!(report(frame, &bursts, &NO_MARKS), Ok([0; REPORT]));
        }
    }
}
