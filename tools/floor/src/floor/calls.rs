//! The calls of a scenario, and what they answer.

use super::words::{cause, phase, why, Raised};
use super::Floor;
use crate::command::Call;
use head::call::Order;
use head::{Head, Refusal};
use plants::REPORT;
use std::fmt::Display;
use std::io::{self, Write};

impl Floor {
    pub(super) fn refused(
        &mut self,
        call: impl Display,
        refusal: Refusal,
        out: &mut impl Write,
    ) -> io::Result<()> {
        self.refusals += 1;
        let (number, why) = (refusal.number(), why(refusal));
        let frame = self.head.frame();
        writeln!(out, "frame {frame}: {call}: refused {number}: {why}")
    }

    /// A call of the operator, and the change that it makes to its place.
    fn operate(
        &mut self,
        call: impl Display,
        place: u64,
        done: impl FnOnce(&mut Head) -> Result<(), Refusal>,
        out: &mut impl Write,
    ) -> io::Result<()> {
        let frame = self.head.frame();
        if let Err(refusal) = done(&mut self.head) {
            return self.refused(call, refusal, out);
        }
        writeln!(out, "frame {frame}: {call}: done")?;
        let row = self.head.row(place as usize).expect("a filled place");
        writeln!(out, "frame {frame} place {place} {}", phase(row.phase))
    }

    fn order(&mut self, order: Order, out: &mut impl Write) -> io::Result<()> {
        let frame = self.head.frame();
        match order {
            Order::SetUp {
                guard,
                pattern,
                first,
                calendar,
            } => match self.head.set_up(guard, pattern, first, &calendar) {
                Ok(()) => writeln!(out, "frame {frame}: setup: done"),
                Err(refusal) => self.refused("setup", refusal, out),
            },
            Order::Enter { place, serial } => {
                let enter = |head: &mut Head| head.enter(place, serial);
                self.operate(format!("enter {place}"), place, enter, out)
            }
            Order::Hold(place) => {
                let hold = |head: &mut Head| head.hold(place);
                self.operate(format!("hold {place}"), place, hold, out)
            }
            Order::Release(place) => {
                let release = |head: &mut Head| head.release(place);
                self.operate(format!("release {place}"), place, release, out)
            }
            Order::Look(place) => self.look(place, out),
        }
    }

    pub(super) fn call(&mut self, call: Call, out: &mut impl Write) -> io::Result<()> {
        let frame = self.head.frame();
        match call {
            Call::Order(order) => self.order(order, out),
            Call::Run { frames, late } => self.run(frames, late, out),
            Call::Send => match self.send() {
                Ok(frame) => writeln!(out, "frame {frame}: sent"),
                Err(refusal) => self.refused("send", refusal, out),
            },
            Call::Settle => match self.dockets.front() {
                None => writeln!(out, "frame {frame}: settle: no frame is out"),
                Some(docket) => {
                    let settled = docket.frame;
                    self.settle(out)?;
                    writeln!(out, "frame {settled}: settled")
                }
            },
            Call::SettleNewest => {
                if self.dockets.len() < 2 {
                    return writeln!(
                        out,
                        "frame {frame}: settle newest: fewer than two frames are out"
                    );
                }
                let newest = self.dockets.pop_back().expect("two are out");
                match self.head.settle(newest, &[0; REPORT]) {
                    Ok(()) => unreachable!("an older one is out"),
                    Err((refusal, docket)) => {
                        self.dockets.push_back(docket);
                        self.refused("settle newest", refusal, out)
                    }
                }
            }
            Call::Miss { slot, frames } => {
                self.missed[slot - 1] = frames;
                Ok(())
            }
            Call::Picture(frame) => self.picture(frame, out),
        }
    }

    fn look(&mut self, place: u64, out: &mut impl Write) -> io::Result<()> {
        let frame = self.head.frame();
        let row = match self.head.look(place) {
            Err(refusal) => return self.refused(format!("look {place}"), refusal, out),
            Ok(None) => return writeln!(out, "frame {frame}: look {place}: empty"),
            Ok(Some(row)) => row,
        };
        write!(
            out,
            "frame {frame}: look {place}: serial {:016x} {}, {}, alarms {}, failures {}",
            row.serial,
            phase(row.phase),
            row.delay
                .map_or("no delay".to_string(), |bits| format!("delay {bits}")),
            Raised(row.alarms),
            row.failures
        )?;
        match row.cause {
            Some(alarm) => writeln!(out, ", cause: {}", cause(alarm)),
            None => writeln!(out),
        }
    }
}
