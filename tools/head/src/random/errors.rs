//! Lines that are no call, and calls that are refused.

use super::Maker;
use crate::call::Call;
use plants::receiver::RECORD;
use plants::REPORT;
use std::io::{self, Write};

impl<W: Write> Maker<W> {
    /// A line that is no call, or none at all.
    fn no_call(&mut self) -> io::Result<()> {
        let line = self.random.one_of(&[
            "",
            "# a remark",
            "#",
            "sent",
            "Send",
            "send 96 96",
            "send x",
            "send -1",
            "send 18446744073709551616",
            "settle",
            "settle 0",
            "settle 0g",
            "settle dark dark",
            "settle Dark",
            "setup",
            "setup 8",
            "setup 8 aa55aa 0",
            "setup 8 aa55 0 -",
            "setup 8 aa55aaaa 0 -",
            "setup 8 - 0 -",
            "setup 8 aa55aa x -",
            "setup 8 aa55aa 0 0",
            "setup 8 aa55aa 0 - -",
            "setup 18446744073709551616 aa55aa 0 -",
            "enter",
            "enter 3",
            "enter 3 4d554c4b0000001",
            "enter 3 4d554c4b000000011",
            "enter 3 4d554c4b0000000100",
            "enter 3 4d554c4b0000000g",
            "enter x 4d554c4b00000001",
            "enter 18446744073709551616 4d554c4b00000001",
            "enter 3 4d554c4b00000001 1",
            "hold",
            "hold x",
            "hold -3",
            "hold 3 3",
            "release",
            "release 3 x",
            "release 3.0",
            "look",
            "look all",
            "dump 3",
            "look 3 3",
        ]);
        writeln!(self.out, "{line}")?;
        self.session.read(line, &mut io::sink())
    }

    fn bad_send(&mut self) -> io::Result<()> {
        let any = self.random.below(300);
        let length = self.random.one_of(&[95, 97, 0, 48, 1, 192, any]);
        if length == 96 {
            return Ok(());
        }
        self.say(Call::Send(length))
    }

    fn bad_settle(&mut self) -> io::Result<()> {
        let r = &mut self.random;
        let any = r.between(0, 2_000);
        let length = r.one_of(&[0, 1, REPORT - 1, REPORT + 1, REPORT - RECORD, 53, any]);
        if length == REPORT {
            return Ok(());
        }
        let report = if r.flag() {
            r.bytes(length)
        } else {
            vec![0; length]
        };
        self.say(Call::Settle(report))
    }

    /// Something that is refused, most likely.
    pub(super) fn errors(&mut self) -> io::Result<()> {
        match self.random.below(8) {
            0 | 1 => self.no_call(),
            2 => self.bad_send(),
            3 => self.bad_settle(),
            4 => self.bad_set_up(),
            5 => self.good_set_up(),
            6 => {
                // Without a docket, or one too early for nobody.
                if self.session.oldest().is_none() {
                    self.say(Call::Settle(vec![0; REPORT]))
                } else {
                    self.bad_settle()
                }
            }
            _ => self.look(),
        }
    }

    /// Calls without order.
    pub(super) fn random_calls(&mut self) -> io::Result<()> {
        for _ in 0..self.random.between(20, 200) {
            match self.random.below(10) {
                0..=2 => self.operator()?,
                3 => self.look()?,
                4 => self.errors()?,
                5..=7 => self.say(Call::Send(96))?,
                _ => self.settle()?,
            }
        }
        Ok(())
    }
}
