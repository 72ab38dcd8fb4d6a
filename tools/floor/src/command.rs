//! The lines of a scenario.

use codec::hex;
use head::call::Order;
use plants::PORTS;
use std::str::SplitWhitespace;

/// The most frames of one line.
pub const LAST_FRAMES: u64 = 1_000_000;
/// The latest that a frame of a run may be settled.
pub const LATEST: u64 = 3;

/// One line that is a command.
#[derive(Clone, PartialEq, Eq, Debug)]
pub enum Command {
    /// An empty line or a remark.
    Nothing,
    Scenario(String),
    /// The line and what is on it.
    Plant(Work),
    Show,
    Progress(bool),
    /// The head and the receiver: a run has begun.
    Call(Call),
}

/// Work on the line and its ONUs.
#[derive(Clone, PartialEq, Eq, Debug)]
pub enum Work {
    Onu { port: usize, serial: u64, trip: u32 },
    Feeder(u32),
    Fibre { port: usize, bits: u32 },
    FeederLoss(u64),
    Loss { port: usize, pattern: u64 },
    Trip { port: usize, bits: u32 },
    Power { port: usize, back: bool },
    Signal { port: usize, back: bool },
    Cut(usize),
    Mend(usize),
}

/// What is asked of the head, the receiver, or of what was heard.
#[derive(Clone, PartialEq, Eq, Debug)]
pub enum Call {
    Order(Order),
    Run { frames: u64, late: usize },
    Send,
    Settle,
    SettleNewest,
    Miss { slot: usize, frames: u64 },
    Picture(u64),
}

type Read<T> = Result<T, &'static str>;

/// The words of a line, one after the other.
struct Words<'a>(SplitWhitespace<'a>);

impl Words<'_> {
    fn word(&mut self) -> &str {
        self.0.next().unwrap_or_default()
    }

    fn end(&mut self) -> Read<()> {
        match self.0.next() {
            None => Ok(()),
            Some(_) => Err("the end of the line"),
        }
    }

    /// A number of digits alone from `least` to `last`.
    fn number(&mut self, least: u64, last: u64, what: &'static str) -> Read<u64> {
        let word = self.word();
        if !word.bytes().all(|byte| byte.is_ascii_digit()) {
            return Err(what); // a sign, say
        }
        let number: u64 = word.parse().map_err(|_| what)?;
        if (least..=last).contains(&number) {
            Ok(number)
        } else {
            Err(what)
        }
    }

    fn port(&mut self) -> Read<usize> {
        let port = self.number(0, PORTS as u64 - 1, "a port, 0 to 64")?;
        Ok(port as usize)
    }

    fn bits(&mut self) -> Read<u32> {
        let bits = self.number(0, u64::from(u32::MAX), "a number below 4294967296")?;
        Ok(bits as u32)
    }

    fn any(&mut self) -> Read<u64> {
        self.number(0, u64::MAX, "a number of 64 bits")
    }

    fn frames(&mut self) -> Read<u64> {
        self.number(0, LAST_FRAMES, "a number of frames up to 1000000")
    }

    fn bytes(&mut self) -> Read<Vec<u8>> {
        let what = "bytes in hex, or - for none";
        match self.word() {
            "" => Err(what),
            "-" => Ok(Vec::new()),
            word => hex::parse(word).ok_or(what),
        }
    }

    /// 16 hex digits.
    fn sixteen(&mut self) -> Read<u64> {
        let bytes: [u8; 8] = self.bytes()?.try_into().map_err(|_| "16 hex digits")?;
        Ok(u64::from_be_bytes(bytes))
    }

    fn back(&mut self) -> Read<bool> {
        match self.word() {
            "lost" => Ok(false),
            "back" => Ok(true),
            _ => Err("lost or back"),
        }
    }

    fn on(&mut self) -> Read<bool> {
        match self.word() {
            "on" => Ok(true),
            "off" => Ok(false),
            _ => Err("on or off"),
        }
    }

    /// How late frames are settled, if that is said.
    fn late(&mut self) -> Read<usize> {
        let what = "late and 0 to 3, or the end of the line";
        match self.word() {
            "" => Ok(0),
            "late" => Ok(self.number(0, LATEST, what)? as usize),
            _ => Err(what),
        }
    }

    fn calendar(&mut self) -> Read<Vec<u8>> {
        let mut ahead = Words(self.0.clone());
        let calendar = match ahead.word() {
            "nobody" => vec![head::head::NOBODY; head::head::CALENDAR],
            "places" => {
                let what = "a number of places, 1 to 64";
                let count = ahead.number(1, head::PLACES as u64, what)? as usize;
                (0..head::head::CALENDAR)
                    .map(|x| (x % count) as u8)
                    .collect()
            }
            "" => return Err("nobody, places N, or a calendar in hex"),
            _ => return self.bytes(),
        };
        self.0 = ahead.0;
        Ok(calendar)
    }

    fn command(&mut self) -> Read<Command> {
        let order = |order: Order| Command::Call(Call::Order(order));
        let name = self.0.next();
        Ok(match name.unwrap_or_default() {
            "scenario" => match self.word() {
                "" => return Err("a name"),
                name => Command::Scenario(name.to_string()),
            },
            "onu" => Command::Plant(Work::Onu {
                port: self.port()?,
                serial: self.sixteen()?,
                trip: self.bits()?,
            }),
            "feeder" => Command::Plant(Work::Feeder(self.bits()?)),
            "fibre" => Command::Plant(Work::Fibre {
                port: self.port()?,
                bits: self.bits()?,
            }),
            "feederloss" => Command::Plant(Work::FeederLoss(self.sixteen()?)),
            "loss" => Command::Plant(Work::Loss {
                port: self.port()?,
                pattern: self.sixteen()?,
            }),
            "trip" => Command::Plant(Work::Trip {
                port: self.port()?,
                bits: self.bits()?,
            }),
            "power" => Command::Plant(Work::Power {
                port: self.port()?,
                back: self.back()?,
            }),
            "signal" => Command::Plant(Work::Signal {
                port: self.port()?,
                back: self.back()?,
            }),
            "cut" => Command::Plant(Work::Cut(self.port()?)),
            "mend" => Command::Plant(Work::Mend(self.port()?)),
            "show" => Command::Show,
            "progress" => Command::Progress(self.on()?),
            "setup" => order(Order::SetUp {
                guard: self.any()?,
                pattern: self.bytes()?.try_into().map_err(|_| "3 bytes in hex")?,
                first: self.any()?,
                calendar: self.calendar()?,
            }),
            "enter" => order(Order::Enter {
                place: self.any()?,
                serial: self.sixteen()?,
            }),
            "hold" => order(Order::Hold(self.any()?)),
            "release" => order(Order::Release(self.any()?)),
            "look" => order(Order::Look(self.any()?)),
            "run" => Command::Call(Call::Run {
                frames: self.frames()?,
                late: self.late()?,
            }),
            "send" => Command::Call(Call::Send),
            "settle" => match self.word() {
                "" => Command::Call(Call::Settle),
                "newest" => Command::Call(Call::SettleNewest),
                _ => return Err("newest, or the end of the line"),
            },
            "miss" => Command::Call(Call::Miss {
                slot: self.number(1, 53, "a slot, 1 to 53")? as usize,
                frames: self.frames()?,
            }),
            "picture" => Command::Call(Call::Picture(self.any()?)),
            _ => return Err("a command"),
        })
    }
}

impl Command {
    /// Reads a line, or says what was expected instead.
    pub fn read(line: &str) -> Read<Command> {
        let words = line.trim();
        if words.is_empty() || words.starts_with('#') {
            return Ok(Command::Nothing);
        }
        let mut words = Words(words.split_whitespace());
        let command = words.command()?;
        words.end()?;
        Ok(command)
    }
}
