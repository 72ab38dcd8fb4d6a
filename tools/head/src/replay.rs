//! Replays: one call on the head a line, one answer a line.

use crate::call::{Call, Order};
use crate::head::{Docket, Head, Refusal};
use crate::text::{look_line, row_line};
use crate::PLACES;
use codec::hex::Hex;
use codec::FRAME;
use std::collections::VecDeque;
use std::io::{self, Write};

/// A head and the dockets that are held beside it.
#[derive(Default)]
pub struct Session {
    head: Head,
    held: VecDeque<Docket>,
    /// Lines read.
    lines: u64,
}

impl Session {
    pub fn new() -> Session {
        Session::default()
    }

    pub fn head(&self) -> &Head {
        &self.head
    }

    /// The frame of the oldest docket held.
    pub fn oldest(&self) -> Option<u64> {
        self.held.front().map(|docket| docket.frame)
    }

    /// Sends into a buffer and keeps the docket.
    pub fn send(&mut self, buffer: &mut [u8]) -> Result<u64, Refusal> {
        let docket = self.head.send(buffer)?;
        let frame = docket.frame;
        self.held.push_back(docket);
        Ok(frame)
    }

    /// Offers the oldest docket held.
    pub fn settle(&mut self, report: &[u8]) -> Result<(), Refusal> {
        let docket = self.held.pop_front().ok_or(Refusal::NotOldest)?;
        self.head
            .settle(docket, report)
            .map_err(|(refusal, docket)| {
                self.held.push_front(docket);
                refusal
            })
    }

    /// Reads one line, does what it says and writes the answer.
    pub fn read(&mut self, text: &str, out: &mut impl Write) -> io::Result<()> {
        self.lines += 1;
        match Call::read(text) {
            Ok(call) => self.run(&call, out),
            Err(form) => writeln!(out, "? line {}: {form}", self.lines),
        }
    }

    /// Does what an operator asks, and says the answer.
    fn order(&mut self, order: &Order) -> Result<String, Refusal> {
        let done = match order {
            Order::SetUp {
                guard,
                pattern,
                first,
                calendar,
            } => self.head.set_up(*guard, *pattern, *first, calendar),
            Order::Enter { place, serial } => self.head.enter(*place, *serial),
            Order::Hold(place) => self.head.hold(*place),
            Order::Release(place) => self.head.release(*place),
            Order::Look(place) => {
                return self.head.look(*place).map(|row| match row {
                    Some(row) => look_line(row),
                    None => "empty".to_string(),
                });
            }
        };
        done.map(|()| "ok".to_string())
    }

    /// Does a call and writes the answer.
    pub fn run(&mut self, call: &Call, out: &mut impl Write) -> io::Result<()> {
        let answer = match call {
            Call::Nothing => return Ok(()),
            Call::Dump => {
                for place in 0..PLACES {
                    writeln!(out, "{}", row_line(place, self.head.row(place)))?;
                }
                return Ok(());
            }
            Call::Send(length) => {
                let mut buffer = [0; FRAME];
                let sent = match *length {
                    // A length that no frame has, whatever it is.
                    length if length != FRAME as u64 => self.send(&mut []),
                    _ => self.send(&mut buffer),
                };
                sent.map(|frame| format!("docket {frame} {}", Hex(&buffer)))
            }
            Call::Order(order) => self.order(order),
            Call::Settle(report) => self.settle(report).map(|()| "done".to_string()),
        };
        match answer {
            Ok(answer) => writeln!(out, "{answer}"),
            Err(refusal) => writeln!(out, "refused {}", refusal.number()),
        }
    }
}

#[cfg(test)]
mod tests {
    use super::*;

    fn answers(script: &str) -> String {
        let mut session = Session::new();
        let mut out = Vec::new();
        for line in script.lines() {
            session.read(line, &mut out).unwrap();
        }
        String::from_utf8(out).unwrap()
    }

    #[test]
    fn a_few() {
        let out = answers(
            "# nothing yet\n\nlook 3\nsettle dark\nenter 3 4d554c4b00000001\n\
             enter 3 4d554c4b00000002\nenter 4 4d554c4b00000001\nenter 64 0000000000000000\n\
             setup 8 aa55aa 0 -\nlook 3\nhold 4\nrelease 3\nhold 3\nhold 3\nlook 3\nrelease 3\n\
             send 95\nsend\nsettle -\nsettle dark\nsettle -\nwhat",
        );
        let lines: Vec<&str> = out.lines().collect();
        assert_eq!(
            lines[..15],
            [
                "empty",
                "refused 13",
                "ok",
                "refused 6",
                "refused 7",
                "refused 5",
                "refused 1",
                "serial=4d554c4b00000001 phase=Waiting delay=none alarms=none cause=none failures=0",
                "refused 8",
                "refused 9",
                "ok",
                "refused 8",
                "serial=4d554c4b00000001 phase=Held delay=none alarms=none cause=none failures=0",
                "ok",
                "refused 10"
            ]
        );
        assert!(lines[15].starts_with("docket 0 010000fefefefefefefe"));
        assert_eq!(lines[15].len(), "docket 0 ".len() + 2 * FRAME);
        assert_eq!(
            lines[16..],
            ["refused 14", "done", "refused 13", "? line 22: a call"]
        );
    }
}
