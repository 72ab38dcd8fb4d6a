//! The two cells of a frame at the lower rate, 96 bytes, with 53 grants.

use crate::cell::{read_cell, write_cell, Cell, CELL, GRANTS};
use crate::down::Down;
use crate::fault::FrameFault;
use crate::grant::{Grant, Runs};
use std::fmt;

/// Bytes of a frame.
pub const FRAME: usize = 2 * CELL;
/// Grants of a frame: the last place of the second cell is left idle.
pub const FRAME_GRANTS: usize = 2 * GRANTS - 1;

/// The contents of a frame.
#[derive(Clone, Copy, PartialEq, Eq, Debug)]
pub struct Frame {
    pub grants: [Grant; FRAME_GRANTS],
    pub messages: [Down; 2],
}

/// Reads a frame, or says what is wrong with it first.
pub fn read_frame(bytes: &[u8]) -> Result<Frame, FrameFault> {
    if bytes.len() != FRAME {
        return Err(FrameFault::Length);
    }
    let (first, second) = bytes.split_at(CELL);
    let first = read_cell(first).map_err(|fault| FrameFault::Cell(1, fault))?;
    let second = read_cell(second).map_err(|fault| FrameFault::Cell(2, fault))?;
    let mut grants = [Grant::IDLE; FRAME_GRANTS];
    grants[..GRANTS].copy_from_slice(&first.grants);
    grants[GRANTS..].copy_from_slice(&second.grants[..GRANTS - 1]);
    Ok(Frame {
        grants,
        messages: [first.message, second.message],
    })
}

/// Writes a frame whose messages are sound.
pub fn write_frame(frame: &Frame) -> [u8; FRAME] {
    let mut first = Cell {
        first: true,
        grants: [Grant::IDLE; GRANTS],
        message: frame.messages[0],
    };
    let mut second = Cell {
        first: false,
        grants: [Grant::IDLE; GRANTS],
        message: frame.messages[1],
    };
    first.grants.copy_from_slice(&frame.grants[..GRANTS]);
    second.grants[..GRANTS - 1].copy_from_slice(&frame.grants[GRANTS..]);
    let mut out = [0; FRAME];
    out[..CELL].copy_from_slice(&write_cell(&first));
    out[CELL..].copy_from_slice(&write_cell(&second));
    out
}

/// Reads a frame and writes its contents again.
pub fn rewrite_frame(bytes: &[u8]) -> Result<[u8; FRAME], FrameFault> {
    read_frame(bytes).map(|frame| write_frame(&frame))
}

impl fmt::Display for Frame {
    fn fmt(&self, f: &mut fmt::Formatter<'_>) -> fmt::Result {
        write!(
            f,
            "frame grants={} {} ; {}",
            Runs(&self.grants),
            self.messages[0],
            self.messages[1]
        )
    }
}

/// The line of a frame: its contents, or its fault.
pub fn frame_line(bytes: &[u8]) -> String {
    match read_frame(bytes) {
        Ok(frame) => frame.to_string(),
        Err(fault) => fault.to_string(),
    }
}

#[cfg(test)]
mod tests {
    use super::*;
    use crate::cell::set_checks;
    use crate::random::cells::random_frame;
    use crate::random::Random;

    #[test]
    fn written_is_read_again() {
        let mut random = Random::new(9);
        for _ in 0..10_000 {
            let frame = random_frame(&mut random);
            let bytes = write_frame(&frame);
            assert_eq!(read_frame(&bytes), Ok(frame));
            assert_eq!((bytes[0], bytes[48]), (1, 0));
            assert_eq!(bytes[48 + 32], 0xFF);
        }
    }

    /// The frame bits and the last place are not asked for when reading.
    #[test]
    fn loose_places() {
        let mut random = Random::new(10);
        let frame = random_frame(&mut random);
        let written = write_frame(&frame);
        let mut bytes = written;
        bytes[0] = 0;
        bytes[48] = 0xFF;
        bytes[48 + 32] = 17;
        let mut second: [u8; CELL] = bytes[48..].try_into().unwrap();
        set_checks(&mut second);
        bytes[48..].copy_from_slice(&second);
        assert_eq!(rewrite_frame(&bytes), Ok(written));
    }

    #[test]
    fn lines() {
        let frame = Frame {
            grants: [Grant::IDLE; FRAME_GRANTS],
            messages: [Down::Popup, Down::NoMessage],
        };
        let mut bytes = write_frame(&frame);
        assert_eq!(
            frame_line(&bytes),
            "frame grants=idle*53 message=POPUP ; message=No_message"
        );
        bytes[48 + 46] ^= 1;
        assert_eq!(frame_line(&bytes), "cell=2 fault 16 group=5");
        bytes[18] ^= 1;
        assert_eq!(frame_line(&bytes), "cell=1 fault 16 group=2");
        assert_eq!(frame_line(&bytes[..95]), "fault 15 length");
    }
}
