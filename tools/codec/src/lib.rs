//! A plain codec for the payload of downstream PLOAM cells and for the
//! messages of both directions.
//!
//! It is written apart from the proved code, so that the two can be held
//! against each other.

pub mod cell;
pub mod crc;
pub mod down;
pub mod fault;
pub mod frame;
pub mod grant;
pub mod hex;
pub mod random;
pub mod up;

pub use cell::{read_cell, rewrite_cell, write_cell, Cell, CELL};
pub use down::{Access, Down, RxControl, Target};
pub use fault::{Cause, Fault, Field, FrameFault, UpCause};
pub use frame::{read_frame, rewrite_frame, write_frame, Frame, FRAME, FRAME_GRANTS};
pub use grant::Grant;
pub use up::{Up, UpBody};

/// Bytes of a message, of either direction, without its check byte.
pub const MESSAGE: usize = 12;
