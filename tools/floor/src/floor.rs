//! A scenario under way: a head, a line of bench ONUs and the receiver.

mod calls;
mod pictures;
mod run;
mod words;

use crate::command::{Command, Work};
use crate::gaps;
use codec::cell::GRANTS;
use head::head::Docket;
use head::{Head, FRAME_SLOTS, PLACES};
use pictures::Kept;
use plants::script::show;
use plants::{BenchOnu, BurstList, Event, Line, SLOT_BITS};
use std::collections::VecDeque;
use std::io::{self, Write};

/// One scenario.
pub struct Floor {
    name: String,
    head: Head,
    dockets: VecDeque<Docket>,
    line: Line,
    list: BurstList,
    /// For how many frames each slot is still missed.
    missed: [u64; FRAME_SLOTS],
    kept: VecDeque<Kept>,
    /// A call was read: no ONU comes any more.
    called: bool,
    progress: bool,
    frames: u64,
    refusals: u64,
    starts: Vec<u64>,
}

impl Floor {
    pub fn new(name: String) -> Floor {
        Floor {
            name,
            head: Head::new(),
            dockets: VecDeque::new(),
            line: Line::new(),
            list: BurstList::new(2 * GRANTS * PLACES),
            missed: [0; FRAME_SLOTS],
            kept: VecDeque::new(),
            called: false,
            progress: false,
            frames: 0,
            refusals: 0,
            starts: Vec::new(),
        }
    }

    /// The scenario that follows. Progress is told as before.
    pub fn after(before: Option<&Floor>, name: String) -> Floor {
        Floor {
            progress: before.is_some_and(|floor| floor.progress),
            ..Floor::new(name)
        }
    }

    /// Whether an ONU may still come.
    pub fn open(&self) -> bool {
        !self.called
    }

    pub fn name(&self) -> &str {
        &self.name
    }

    pub fn frames(&self) -> u64 {
        self.frames
    }

    pub fn bursts(&self) -> u64 {
        self.starts.len() as u64
    }

    /// Does what a line says.
    pub fn take(&mut self, command: Command, out: &mut impl Write) -> io::Result<()> {
        match command {
            Command::Nothing | Command::Scenario(_) => Ok(()),
            Command::Plant(work) => {
                self.work(work);
                Ok(())
            }
            Command::Show => show(&self.line, out),
            Command::Progress(on) => {
                self.progress = on;
                Ok(())
            }
            Command::Call(call) => {
                self.called = true;
                self.call(call, out)
            }
        }
    }

    fn work(&mut self, work: Work) {
        match work {
            Work::Onu { port, serial, trip } => self.line.put(port, BenchOnu::new(serial, trip)),
            Work::Feeder(bits) => self.line.set_feeder(bits),
            Work::Fibre { port, bits } => self.line.set_fibre(port, bits),
            Work::FeederLoss(pattern) => self.line.set_feeder_loss(pattern),
            Work::Loss { port, pattern } => self.line.set_loss(port, pattern),
            Work::Trip { port, bits } => {
                if let Some(onu) = self.line.onu(port) {
                    onu.set_trip(bits);
                }
            }
            Work::Power { port, back: false } => self.event(port, Event::PowerLost),
            Work::Signal { port, back: false } => self.event(port, Event::SignalLost),
            Work::Power { port, back: true } | Work::Signal { port, back: true } => {
                self.event(port, Event::SignalBack);
            }
            Work::Cut(port) => {
                self.line.set_loss(port, u64::MAX);
                self.event(port, Event::SignalLost);
            }
            Work::Mend(port) => {
                self.line.set_loss(port, 0);
                self.event(port, Event::SignalBack);
            }
        }
    }

    fn event(&mut self, port: usize, event: Event) {
        if let Some(onu) = self.line.onu(port) {
            onu.take(&event);
        }
    }

    /// Settles what is out and tells the sums, if any call was read.
    pub fn close(&mut self, out: &mut impl Write) -> io::Result<()> {
        if !self.called {
            return Ok(());
        }
        while !self.dockets.is_empty() {
            self.settle(out)?;
        }
        let (frames, bursts, refusals) = (self.frames, self.bursts(), self.refusals);
        let length = SLOT_BITS - u64::from(self.head.guard());
        let least = gaps::least(&mut self.starts, length);
        let name = &self.name;
        writeln!(
            out,
            "{name}: frames {frames}, bursts {bursts}, refusals {refusals}"
        )?;
        match least {
            Some(bits) => writeln!(out, "{name}: smallest distance between bursts {bits} bits")?,
            None => writeln!(out, "{name}: no two bursts")?,
        }
        write!(out, "{name}: ")?;
        self.write_places(out)?;
        writeln!(out)
    }
}
