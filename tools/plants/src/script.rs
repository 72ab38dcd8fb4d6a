//! Scripts: lines of text that build a line, let it hear cells and print what
//! happened.

pub mod command;

use crate::bench::BenchOnu;
use crate::line::{Line, PORTS};
use crate::plant::{Burst, BurstList};
use crate::receiver::{offset, report};
use crate::table::{Event, State};
use crate::text::Maybe;
use codec::hex::Hex;
use command::Command;
use std::io::{self, Write};

/// Free entries of a fresh burst list.
pub const FRESH_ROOM: usize = 65_536;
/// Slots from one cell of a repetition to the next.
pub const STRIDE: u64 = 27;

/// Runs scripts and writes their trace.
pub struct Runner<W> {
    out: W,
    line: Line,
    list: BurstList,
    /// Calls since the line was fresh.
    calls: u64,
    /// Lines read.
    lines: u64,
    heard: u64,
    refused: u64,
    sent: u64,
}

impl<W: Write> Runner<W> {
    pub fn new(out: W) -> Runner<W> {
        Runner {
            out,
            line: Line::new(),
            list: BurstList::new(FRESH_ROOM),
            calls: 0,
            lines: 0,
            heard: 0,
            refused: 0,
            sent: 0,
        }
    }

    /// The line as it is.
    pub fn line(&mut self) -> &mut Line {
        &mut self.line
    }

    pub fn list(&self) -> &BurstList {
        &self.list
    }

    pub fn out(&mut self) -> &mut W {
        &mut self.out
    }

    /// Reads one line and does what it says.
    pub fn read(&mut self, text: &str) -> io::Result<()> {
        self.lines += 1;
        match Command::read(text) {
            Ok(command) => self.run(command),
            Err(form) => writeln!(self.out, "line {}: expected {form}", self.lines),
        }
    }

    /// The closing line.
    pub fn close(&mut self) -> io::Result<()> {
        writeln!(
            self.out,
            "heard {} cells, {} refused, {} bursts",
            self.heard, self.refused, self.sent
        )
    }

    fn run(&mut self, command: Command) -> io::Result<()> {
        match command {
            Command::Nothing => {}
            Command::New => {
                self.line = Line::new();
                self.list = BurstList::new(FRESH_ROOM);
                self.calls = 0;
            }
            Command::Onu { port, serial, trip } => {
                self.line.put(port, BenchOnu::new(serial, trip));
            }
            Command::Fibre { port, bits } => self.line.set_fibre(port, bits),
            Command::Loss { port, pattern } => self.line.set_loss(port, pattern),
            Command::Feeder { bits } => self.line.set_feeder(bits),
            Command::FeederLoss { pattern } => self.line.set_feeder_loss(pattern),
            Command::Room { entries } => self.list = BurstList::new(entries),
            Command::Clear => self.list.clear(),
            Command::Hear { count, slot, bytes } => {
                let mut slot = slot;
                let mut states = self.states();
                for _ in 0..count {
                    self.hear(slot, &bytes, &mut states)?;
                    slot = slot.saturating_add(STRIDE);
                }
            }
            Command::Host { port, event } => return self.host(port, &event),
            Command::Trip { port, bits } => match self.line.onu(port) {
                Some(onu) => onu.set_trip(bits),
                None => return writeln!(self.out, "port {port}: empty"),
            },
            Command::Show => return show(&self.line, &mut self.out),
            Command::Report { frame, marks } => match report(frame, self.list.bursts(), &marks) {
                Ok(bytes) => return writeln!(self.out, "report {frame}: {}", Hex(&bytes)),
                Err(refusal) => {
                    let number = refusal.number();
                    return writeln!(self.out, "report {frame}: refused {number}");
                }
            },
        }
        Ok(())
    }

    /// The state at each filled port.
    fn states(&self) -> [Option<State>; PORTS] {
        let mut states = [None; PORTS];
        self.line
            .each(|port, onu| states[port] = Some(onu.onu().state));
        states
    }

    /// One call. `states` are those before it, and then those after it.
    fn hear(
        &mut self,
        slot: u64,
        bytes: &[u8],
        states: &mut [Option<State>; PORTS],
    ) -> io::Result<()> {
        self.calls += 1;
        self.heard += 1;
        let already = self.list.bursts().len();
        if let Err(refusal) = self.line.hear(bytes, slot, &mut self.list) {
            self.refused += 1;
            return writeln!(self.out, "{}: refused {}", self.calls, refusal.number());
        }
        let bursts = &self.list.bursts()[already..];
        self.sent += bursts.len() as u64;
        for burst in bursts {
            write_burst(&mut self.out, self.calls, burst)?;
        }
        let before = std::mem::replace(states, self.states());
        for (port, states) in before.iter().zip(states).enumerate() {
            if let (Some(old), Some(new)) = states {
                if old != new {
                    writeln!(self.out, "{}: port {port} {old} -> {new}", self.calls)?;
                }
            }
        }
        Ok(())
    }

    fn host(&mut self, port: usize, event: &Event) -> io::Result<()> {
        let Some(onu) = self.line.onu(port) else {
            return writeln!(self.out, "port {port}: empty");
        };
        let old = onu.onu().state;
        onu.take(event);
        let new = onu.onu().state;
        if old != new {
            writeln!(self.out, "port {port} {old} -> {new}")?;
        }
        Ok(())
    }
}

/// Prints what each ONU of a line is at.
pub fn show(line: &Line, out: &mut impl Write) -> io::Result<()> {
    let mut result = Ok(());
    line.each(|port, bench| {
        if result.is_ok() {
            let onu = bench.onu();
            result = writeln!(
                out,
                "port {port} {:016x} {} pon_id={} data={} ploam={} pre={} register={} trip={}",
                onu.serial,
                onu.state,
                Maybe(onu.pon_id),
                Maybe(onu.data),
                Maybe(onu.ploam),
                onu.pre,
                onu.register,
                bench.trip(),
            );
        }
    });
    result
}

fn write_burst(out: &mut impl Write, call: u64, burst: &Burst) -> io::Result<()> {
    writeln!(
        out,
        "{call}: burst {:016x} slot={} start={} offset={} trip={} kind={} message={}",
        burst.serial,
        burst.slot,
        burst.start,
        offset(burst),
        burst.trip,
        burst.kind,
        Hex(&burst.message),
    )
}
