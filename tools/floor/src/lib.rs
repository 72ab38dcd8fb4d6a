//! Scenarios over a head, a line of bench ONUs and a receiver.
//!
//! It is written apart from the proved code, so that the two can be held
//! against each other. Head, line and receiver are those of the tools beside it.
//!
//! # How open points are read here
//!
//! Those marked + were read otherwise at first, or not at all, and follow what the
//! proved program was seen to print; so do "no delay" and some of the words for
//! what was expected. Of these points the comparison says only that they stay so.
//!
//! Lines:
//!
//! 1. + Blanks are all white space of Unicode, and bytes that are no text are read
//!    as the character that stands for such. A line ends with LF alone.
//! 2. The first thing in a line that is wrong is told, from left to right, and
//!    words after the last one that is wanted at the end.
//! 3. + An empty calendar has no form: `-` is no calendar.
//! 4. + What comes before the first scenario belongs to one named `scenario`, whose
//!    own line is not printed.
//! 5. + A scenario in which no command from `setup` on was read has no summary.
//!    One that is refused counts, a line that is no command does not.
//!
//! The line:
//!
//! 6. An ONU takes the place of the one in its port. Two may have one serial
//!    number.
//! 7. Commands for an ONU that is not there do nothing and print nothing, and so
//!    do changes of state.
//! 8. `mend` leaves a drop that spoils nothing, whatever it spoiled before `cut`.
//!    `power back` and `mend` are the return of the signal.
//!
//! The run:
//!
//! 9. + A run sends a frame, and settles while more than K are out. So it leaves K
//!    out. Frames that were out before are settled after its first one was sent,
//!    but the oldest of four before.
//! 10. A run ends with the first frame that is refused.
//! 11. + Progress is told after a frame of a run if 1,024 divides the number of the
//!     next one, when the run has settled what it settles then. It stays on in
//!     the scenarios that follow.
//! 12. + What a settling changed is told by place, before the line that it is done.
//! 13. `miss` sets for how many frames a slot is still missed, in place of what
//!     was said before; so 0 ends it. The frame is missed when it is sent.
//! 14. + A picture of a frame that is out has grants, and no report yet. A missed
//!     slot is dark. Pictures are kept of frames that were sent.

pub mod command;
pub mod compare;
pub mod draw;
pub mod floor;
pub mod gaps;

use command::{Command, Work};
use floor::Floor;
use std::io::{self, Write};

/// What ran, over all scenarios.
#[derive(Clone, Copy, PartialEq, Eq, Debug, Default)]
pub struct Sums {
    pub scenarios: u64,
    pub frames: u64,
    pub bursts: u64,
}

/// Reads scenarios line by line and writes what happens.
pub struct Runner<W> {
    out: W,
    floor: Option<Floor>,
    /// Lines read.
    lines: u64,
    sums: Sums,
}

impl<W: Write> Runner<W> {
    pub fn new(out: W) -> Runner<W> {
        Runner {
            out,
            floor: None,
            lines: 0,
            sums: Sums::default(),
        }
    }

    pub fn out(&mut self) -> &mut W {
        &mut self.out
    }

    /// What ran in the scenarios that have ended.
    pub fn sums(&self) -> Sums {
        self.sums
    }

    /// Reads one line and does what it says.
    pub fn read(&mut self, text: &str) -> io::Result<()> {
        self.lines += 1;
        let expected = match (Command::read(text), &mut self.floor) {
            (Ok(Command::Nothing), _) => return Ok(()),
            (Ok(Command::Scenario(name)), _) => {
                let next = Floor::after(self.floor.as_ref(), name);
                self.close()?;
                writeln!(self.out, "scenario {}", next.name())?;
                self.floor = Some(next);
                return Ok(());
            }
            (Ok(Command::Plant(Work::Onu { .. })), Some(floor)) if !floor.open() => {
                "no ONU after the first call"
            }
            (Ok(command), _) => {
                // Before the first scenario there is one without a line of its own.
                let floor = self
                    .floor
                    .get_or_insert_with(|| Floor::new("scenario".to_string()));
                return floor.take(command, &mut self.out);
            }
            (Err(expected), _) => expected,
        };
        writeln!(self.out, "line {}: expected {expected}", self.lines)
    }

    /// Ends the scenario under way.
    pub fn close(&mut self) -> io::Result<()> {
        if let Some(mut floor) = self.floor.take() {
            floor.close(&mut self.out)?;
            self.sums.scenarios += 1;
            self.sums.frames += floor.frames();
            self.sums.bursts += floor.bursts();
        }
        Ok(())
    }
}
