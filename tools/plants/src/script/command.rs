//! The lines of a script, and how they are read.

use crate::line::PORTS;
use crate::table::Event;
use codec::hex;

pub const LAST_ROOM: usize = 1_000_000;
pub const LAST_COUNT: u64 = 10_000_000;

/// One line of a script.
#[derive(Clone, PartialEq, Eq, Debug)]
pub enum Command {
    Nothing,
    New,
    Onu {
        port: usize,
        serial: u64,
        trip: u32,
    },
    Fibre {
        port: usize,
        bits: u32,
    },
    Loss {
        port: usize,
        pattern: u64,
    },
    Feeder {
        bits: u32,
    },
    FeederLoss {
        pattern: u64,
    },
    Room {
        entries: usize,
    },
    Clear,
    Hear {
        count: u64,
        slot: u64,
        bytes: Vec<u8>,
    },
    Host {
        port: usize,
        event: Event,
    },
    Trip {
        port: usize,
        bits: u32,
    },
    Show,
    Report {
        frame: u64,
        marks: Vec<u8>,
    },
}

/// A number of digits alone, at most `last`.
fn number(word: &str, last: u64) -> Option<u64> {
    if !word.bytes().all(|byte| byte.is_ascii_digit()) {
        return None; // a sign, say
    }
    word.parse().ok().filter(|&number| number <= last)
}

fn bits(word: &str) -> Option<u32> {
    number(word, u64::from(u32::MAX)).map(|bits| bits as u32)
}

fn port(word: &str) -> Option<usize> {
    number(word, PORTS as u64 - 1).map(|port| port as usize)
}

/// 16 hex digits.
fn sixteen(word: &str) -> Option<u64> {
    let bytes: [u8; 8] = hex::parse(word)?.try_into().ok()?;
    Some(u64::from_be_bytes(bytes))
}

fn bytes(word: &str) -> Option<Vec<u8>> {
    if word == "-" {
        Some(Vec::new())
    } else {
        hex::parse(word)
    }
}

impl Command {
    /// Reads a line, or says what was expected instead.
    pub fn read(line: &str) -> Result<Command, &'static str> {
        if line.starts_with('#') {
            return Ok(Command::Nothing);
        }
        let words: Vec<&str> = line.split_ascii_whitespace().collect();
        let Some((&name, rest)) = words.split_first() else {
            return Ok(Command::Nothing);
        };
        let (command, form) = match name {
            "new" => (Command::read_bare(rest, Command::New), "new"),
            "clear" => (Command::read_bare(rest, Command::Clear), "clear"),
            "show" => (Command::read_bare(rest, Command::Show), "show"),
            "onu" => (Command::read_onu(rest), "onu PORT SERIAL TRIP"),
            "fibre" => (Command::read_fibre(rest), "fibre PORT BITS"),
            "loss" => (Command::read_loss(rest), "loss PORT PATTERN"),
            "feeder" => (Command::read_feeder(rest), "feeder BITS"),
            "feederloss" => (Command::read_feeder_loss(rest), "feederloss PATTERN"),
            "room" => (Command::read_room(rest), "room N"),
            "cell" => (Command::read_cell(rest), "cell SLOT HEX"),
            "repeat" => (Command::read_repeat(rest), "repeat COUNT SLOT HEX"),
            "signal" => (Command::read_signal(rest), "signal PORT lost or back"),
            "power" => (Command::read_power(rest), "power PORT lost"),
            "trip" => (Command::read_trip(rest), "trip PORT BITS"),
            "report" => (Command::read_report(rest), "report FRAME MARKS"),
            _ => (None, "a command"),
        };
        command.ok_or(form)
    }

    fn read_bare(rest: &[&str], command: Command) -> Option<Command> {
        rest.is_empty().then_some(command)
    }

    fn read_onu(rest: &[&str]) -> Option<Command> {
        let &[at, serial, trip] = rest else {
            return None;
        };
        Some(Command::Onu {
            port: port(at)?,
            serial: sixteen(serial)?,
            trip: bits(trip)?,
        })
    }

    fn read_fibre(rest: &[&str]) -> Option<Command> {
        let &[at, length] = rest else { return None };
        Some(Command::Fibre {
            port: port(at)?,
            bits: bits(length)?,
        })
    }

    fn read_loss(rest: &[&str]) -> Option<Command> {
        let &[at, pattern] = rest else { return None };
        Some(Command::Loss {
            port: port(at)?,
            pattern: sixteen(pattern)?,
        })
    }

    fn read_feeder(rest: &[&str]) -> Option<Command> {
        let &[length] = rest else { return None };
        Some(Command::Feeder {
            bits: bits(length)?,
        })
    }

    fn read_feeder_loss(rest: &[&str]) -> Option<Command> {
        let &[pattern] = rest else { return None };
        Some(Command::FeederLoss {
            pattern: sixteen(pattern)?,
        })
    }

    fn read_room(rest: &[&str]) -> Option<Command> {
        let &[entries] = rest else { return None };
        Some(Command::Room {
            entries: number(entries, LAST_ROOM as u64)? as usize,
        })
    }

    fn read_cell(rest: &[&str]) -> Option<Command> {
        let &[slot, payload] = rest else { return None };
        Some(Command::Hear {
            count: 1,
            slot: number(slot, u64::MAX)?,
            bytes: bytes(payload)?,
        })
    }

    fn read_repeat(rest: &[&str]) -> Option<Command> {
        let &[count, slot, payload] = rest else {
            return None;
        };
        Some(Command::Hear {
            count: number(count, LAST_COUNT).filter(|&count| count > 0)?,
            slot: number(slot, u64::MAX)?,
            bytes: bytes(payload)?,
        })
    }

    fn read_signal(rest: &[&str]) -> Option<Command> {
        let &[at, what] = rest else { return None };
        let event = match what {
            "lost" => Event::SignalLost,
            "back" => Event::SignalBack,
            _ => return None,
        };
        Some(Command::Host {
            port: port(at)?,
            event,
        })
    }

    fn read_power(rest: &[&str]) -> Option<Command> {
        let &[at, "lost"] = rest else { return None };
        Some(Command::Host {
            port: port(at)?,
            event: Event::PowerLost,
        })
    }

    fn read_trip(rest: &[&str]) -> Option<Command> {
        let &[at, length] = rest else { return None };
        Some(Command::Trip {
            port: port(at)?,
            bits: bits(length)?,
        })
    }

    fn read_report(rest: &[&str]) -> Option<Command> {
        let &[frame, marks] = rest else { return None };
        Some(Command::Report {
            frame: number(frame, u64::MAX)?,
            marks: bytes(marks)?,
        })
    }
}
