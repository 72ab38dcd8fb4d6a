//! Whole lines: the head, a tree of bench ONUs and the bench receiver. The
//! script of a run has what the receiver said, so that it can be replayed
//! without the tree.

mod overlaps;
mod trouble;

use crate::call::{Call, Order};
use crate::head::{FRAME_LIMIT, MOST_OUT, NOBODY, ROUND};
use crate::replay::Session;
use crate::row::Phase;
use crate::{FRAME_SLOTS, PLACES};
use codec::random::Random;
use codec::{CELL, FRAME};
use overlaps::Overlaps;
use plants::receiver::RECORD;
use plants::{report, BenchOnu, Burst, BurstList, Line, FRAME_SLOTS as SLOTS, SLOT_BITS, TARGET};
use std::collections::{BTreeMap, VecDeque};
use std::io::{self, Write};

/// The least round trip that can be brought up, and the greatest.
const LEAST_TRIP: u64 = TARGET - 32_000;
const LAST_TRIP: u64 = TARGET;

struct Port {
    serial: u64,
    /// The least round trip of the ONU alone.
    least: u64,
}

struct Run<W> {
    random: Random,
    session: Session,
    line: Line,
    list: BurstList,
    /// By port; the ports are filled in order.
    ports: Vec<Port>,
    places: Vec<u64>,
    /// Whether round trips and numbers are such that no bursts may overlap.
    lawful: bool,
    /// Bursts of the frames that are out.
    heard: VecDeque<Vec<Burst>>,
    overlaps: Overlaps,
    late: usize,
    /// Once in how many frames something goes wrong in the plant, somebody
    /// operates, the receiver errs, and all is told.
    trouble: u64,
    operators: u64,
    lies: u64,
    dumps: u64,
    bursts: u64,
    services: u64,
    ends: u64,
    out: W,
}

impl<W: Write> Run<W> {
    fn say(&mut self, call: impl Into<Call>) -> io::Result<()> {
        let call = call.into();
        writeln!(self.out, "{call}")?;
        self.session.run(&call, &mut io::sink())
    }

    fn serving(&self) -> u64 {
        let rows = (0..PLACES).filter_map(|place| self.session.head().row(place));
        rows.filter(|row| row.in_service()).count() as u64
    }

    fn operate(&mut self) -> io::Result<()> {
        let place = self.random.one_of(&self.places);
        let phase = self.session.head().row(place as usize).map(|row| row.phase);
        match phase {
            None => {
                let port = self.random.between(0, self.ports.len() - 1);
                let serial = self.ports[port].serial;
                self.say(Order::Enter { place, serial })
            }
            Some(Phase::Held) => self.say(Order::Release(place)),
            Some(_) => self.say(Order::Hold(place)),
        }
    }

    fn frame(&mut self) -> io::Result<()> {
        if self.random.once_in(200) {
            self.late = self.random.between(0, MOST_OUT);
        }
        if self.session.head().out() == MOST_OUT {
            self.settle()?;
        }
        if self.random.once_in(self.operators) {
            self.operate()?;
        }
        if self.random.once_in(20) {
            let place = self.random.one_of(&self.places);
            self.say(Order::Look(place))?;
        }
        if self.random.once_in(self.dumps) {
            self.say(Call::Dump)?;
        }
        self.send()?;
        while self.session.head().out() > self.late {
            self.settle()?;
        }
        Ok(())
    }

    fn send(&mut self) -> io::Result<()> {
        writeln!(self.out, "send")?;
        let mut buffer = [0; FRAME];
        let Ok(frame) = self.session.send(&mut buffer) else {
            return Ok(()); // the frames are at their end
        };
        self.list.clear();
        for (i, cell) in buffer.chunks_exact(CELL).enumerate() {
            if self.random.once_in(self.trouble) {
                self.event();
            }
            if self.random.once_in(500) {
                self.repair();
            }
            let first = SLOTS * frame + 27 * i as u64;
            self.line
                .hear(cell, first, &mut self.list)
                .expect("a frame is heard");
        }
        let bursts = self.list.bursts().to_vec();
        if self.lawful {
            self.overlaps.pass(SLOTS * frame);
            for burst in &bursts {
                self.overlaps.add(burst);
            }
        }
        self.bursts += bursts.len() as u64;
        self.heard.push_back(bursts);
        Ok(())
    }

    fn settle(&mut self) -> io::Result<()> {
        let (Some(frame), Some(bursts)) = (self.session.oldest(), self.heard.pop_front()) else {
            return Ok(());
        };
        let mut marks = [0; FRAME_SLOTS];
        let r = &mut self.random;
        let blind = r.once_in(self.lies);
        if blind {
            for _ in 0..r.between(1, FRAME_SLOTS) {
                marks[r.between(0, FRAME_SLOTS - 1)] = 1;
            }
        }
        let mut report = report(frame, &bursts, &marks).expect("53 marks");
        if r.once_in(self.lies) {
            for _ in 0..r.between(1, FRAME_SLOTS) {
                let at = RECORD * r.between(0, FRAME_SLOTS - 1);
                report[at] = 1;
                report[at + 1..at + RECORD].fill(0);
                if r.flag() {
                    // The same with something in it.
                    report[at + 1] = r.up_to(8);
                }
            }
        }
        let before = self.serving();
        self.say(Call::Settle(report.to_vec()))?;
        let after = self.serving();
        self.services += after.saturating_sub(before);
        self.ends += before.saturating_sub(after);
        Ok(())
    }
}

/// Builds a line and its head, lets them run for so many frames and writes the
/// script. What came of it goes to the error output.
pub fn script(draw: u64, frames: Option<u64>, out: impl Write) -> io::Result<()> {
    let mut random = Random::new(draw ^ 0x4C49_4E45);
    let guard = random.one_of(&[4, 8, 12, 16]);
    let lawful = !random.once_in(4);
    let count = match random.below(6) {
        0 => PLACES,
        1 => random.between(20, 40),
        _ => random.between(1, 12),
    };
    let mut line = Line::new();
    let mut ports = Vec::new();
    let feeder = random.below(10_001);
    line.set_feeder(feeder as u32);
    for port in 0..count {
        let least = random.between(1_000, 4_000) as u64;
        let slack = guard / 4;
        let low = LEAST_TRIP.max(feeder + least);
        let total = match random.below(6) {
            0 => LAST_TRIP - slack,
            1 => low,
            _ => low + random.below(LAST_TRIP - slack - low + 1),
        };
        let mut fibre = total - feeder - least;
        if !lawful && random.once_in(6) {
            fibre = random.below(33_000);
        }
        let serial = match random.below(12) {
            0 if !lawful => 0x4D55_4C4B_0000_0000,
            _ => 0x4D55_4C4B_0000_0000 + port as u64,
        };
        line.set_fibre(port, fibre as u32);
        line.put(port, BenchOnu::new(serial, least as u32));
        ports.push(Port { serial, least });
    }

    // Places: one for each ONU, and some for ONUs that are not there.
    let mut places: Vec<u64> = (0..PLACES as u64).collect();
    for i in (1..PLACES).rev() {
        places.swap(i, random.between(0, i));
    }
    let spare = random.between(0, 3);
    places.truncate((count + spare).min(PLACES));
    let calendar = (0..FRAME_SLOTS - 1)
        .map(|_| {
            if random.once_in(8) {
                NOBODY
            } else {
                random.one_of(&places) as u8
            }
        })
        .collect();
    let first = match random.below(4) {
        0 => random.below(FRAME_LIMIT / ROUND - 10) * ROUND,
        1 => random.below(100) * ROUND,
        _ => 0,
    };
    // About as much for each ONU, however many there are.
    let calm = random.one_of(&[2_000, 8_000, 30_000, 1_000_000]) / count as u64;
    let frames = frames.unwrap_or_else(|| random.between(2_300, 7_000) as u64);
    let mut run = Run {
        late: random.between(0, MOST_OUT),
        trouble: calm,
        operators: random.one_of(&[200, 2_000, 100_000]),
        lies: random.one_of(&[30, 300, 100_000]),
        dumps: random.one_of(&[500, 2_000]),
        session: Session::new(),
        line,
        list: BurstList::new(2 * 27 * PLACES),
        ports,
        places,
        lawful,
        heard: VecDeque::new(),
        overlaps: Overlaps {
            near: BTreeMap::new(),
            length: SLOT_BITS - guard,
            found: 0,
        },
        bursts: 0,
        services: 0,
        ends: 0,
        random,
        out,
    };
    let pattern = run.random.array();
    run.say(Order::SetUp {
        guard,
        pattern,
        first,
        calendar,
    })?;
    for (i, place) in run.places.clone().into_iter().enumerate() {
        let serial = match run.ports.get(i) {
            Some(port) => port.serial,
            None => run.random.next_u64(),
        };
        run.say(Order::Enter { place, serial })?;
    }
    for _ in 0..frames {
        run.frame()?;
    }
    while run.session.oldest().is_some() {
        run.settle()?;
    }
    for place in 0..PLACES as u64 {
        run.say(Order::Look(place))?;
    }
    run.say(Call::Dump)?;
    run.out.flush()?;
    eprintln!(
        "draw {draw}: {frames} frames, {count} ONUs, {} bursts, service began {} times and \
         ended {} times, {} in service, {}",
        run.bursts,
        run.services,
        run.ends,
        run.serving(),
        if lawful {
            format!("{} overlaps", run.overlaps.found)
        } else {
            "overlaps not counted".to_string()
        }
    );
    if run.overlaps.found > 0 {
        return Err(io::Error::other("bursts overlap"));
    }
    Ok(())
}
