//! The head end of one line, and the scripts that try it.
//!
//! It is written apart from the proved code, so that the two can be held
//! against each other.
//!
//! # How open points are read here
//!
//! 1. A set-up is possible again and again until a frame was sent or an ONU
//!    entered; a refused send or entry does not end that.
//! 2. A record counts by the grant that was written for its slot and by the
//!    service of its ONU just before it. No slot of a window counts, so that the
//!    record that begins service does not count either.
//! 3. A hold or release between the sending of a judged slot and its settling
//!    takes the running job away: then nothing is judged and the next job stays.
//! 4. Kind 0 with parity above 8 is light.
//! 5. A serial number message is one that reads as such: source at most 64, the
//!    third byte 0. Whom its source names is not asked.
//! 6. SUF comes with the second failure and leaves the cause as it is. Failures
//!    go on counting, and no hold or release forgets them.
//! 7. Alarms, cause, delay and counts stay as they are when service ends, and so
//!    does the number of the frame with which it began.
//! 8. A PLOAM turn that a data cell answers is a missed one, but no dark and no
//!    broken one.
//! 9. The cause is the first alarm of those that ended service. Alarms that come
//!    together are all raised.
//!
//! The replay:
//!
//! 10. A number is digits alone and fits 64 bits; `send N` takes any such
//!     length. Anything else is no call.
//! 11. A line of blanks is blank.

pub mod call;
pub mod check;
pub mod compare;
pub mod head;
pub mod random;
pub mod record;
pub mod replay;
pub mod row;
pub mod text;
pub mod whole;

pub use head::{Head, Refusal};

/// Places of a head.
pub const PLACES: usize = 64;
/// Slots of a frame.
pub const FRAME_SLOTS: usize = plants::FRAME_SLOTS as usize;
