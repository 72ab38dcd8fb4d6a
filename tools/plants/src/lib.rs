//! The ONU side of one line, and the bench receiver at its head end: the state
//! table of an ONU, the bench ONU, the passive parts between (splitter, fibre,
//! lossy drop), the burst list and the report of a frame.
//!
//! It is written apart from the proved code, so that the two can be held
//! against each other.
//!
//! # How open points are read here
//!
//! The table:
//!
//! 1. PON_ID and codes are cleared on every transition to O1, O2, O3 and O9,
//!    the pre-assigned delay on those to O1 and O2. O9 keeps the pre-assigned
//!    delay it came with.
//! 2. The delay register is written on four occasions only: a transition to
//!    one of O3 to O7 makes it the pre-assigned delay, Ranging_time acted on in
//!    O7 or O8 sets it, power loss makes it 0. So O1, O2, O9 and O10 still show
//!    what the last of O3 to O8 had, also when the pre-assigned delay itself
//!    has been cleared on the way.
//! 3. O3 and O4 never have a PON_ID, so that only a broadcast Deactivate_PON_ID
//!    moves them. O2 ignores it even as a broadcast.
//! 4. Grant_allocation counts in O5 and O6 alone: a second one in O7 or O8
//!    changes no code. One with both grants inactive leads to an O7 that
//!    answers nothing and can still be told its delay.
//! 5. Assign_PON_ID for a serial number of another ONU takes nothing away from
//!    an ONU that has the same PON_ID.
//! 6. The table alone decides whether a message is acted on. An ONU without
//!    signal is one in O1, O9 or O10; there is no signal kept besides the
//!    state, and POPUP is acted on in O10 whether or not signal came back.
//! 7. Power loss acts in every state but O9, O1 included, where it clears the
//!    delay register. In O9 it clears nothing.
//! 8. Every one of the 27 places of a cell is answered, the last one of a
//!    second cell too: its slot is the first of the next frame.
//! 9. No message carries the PON_ID as its source, in data bursts as well. An
//!    ONU without PON_ID (O4) writes 0x40 there.
//!
//! The bench ONU:
//!
//! 10. Its first cell is the first one of an accepted call that reaches it,
//!     spoiled or not. The signal of that cell comes whatever the host did
//!     before (signal given, taken, power cut), and never again.
//! 11. Own events are taken one after the other before a cell: signal, timers,
//!     set-up. Set-up comes at the cell after the one at which O3 was reached,
//!     so that O3 reached by the first timer lasts for one cell.
//! 12. The first timer runs in O5, O6 and O7, the second in O10. It starts when
//!     that group of states is entered from outside it. The cell in which, or
//!     before which, it starts is the first one counted.
//!
//! The passive parts:
//!
//! 13. The pattern of a drop moves on at every accepted call that reaches the
//!     drop, with or without an ONU behind it.
//! 14. A splitter looks at the counts of its sides at each call, so that a side
//!     is dark only as long as both together exceed 64.
//!
//! The trace:
//!
//! 15. The closing line counts all calls as heard, the refused ones too.
//! 16. Digits alone make a number, and one outside its range is no number. Two
//!     hex digits make a byte, an odd digit none.

pub mod bench;
pub mod line;
pub mod plant;
pub mod receiver;
pub mod reception;
pub mod script;
pub mod table;
pub mod text;

pub use bench::{BenchOnu, Timer, FIRST_TIMER, LAST_TRIP, SECOND_TIMER};
pub use line::{Line, PORTS};
pub use plant::{Burst, BurstList, Plant, Refusal};
pub use receiver::{report, REPORT};
pub use reception::Reception;
pub use table::{Answer, Event, Onu, State};

/// Bits of an upstream slot.
pub const SLOT_BITS: u64 = 448;
/// Slots of an upstream frame.
pub const FRAME_SLOTS: u64 = 53;
/// The phase at which bursts are to arrive, in bits: 79 slots.
pub const TARGET: u64 = 79 * SLOT_BITS;
/// The first slot of a call must lie below this one.
pub const SLOT_LIMIT: u64 = FRAME_SLOTS << 48;
