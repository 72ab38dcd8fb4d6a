//! The schedule, rounds and alarms, one at a time.

mod alarms;
mod bench;
mod rounds;
mod settling;
