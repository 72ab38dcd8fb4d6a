//! The calls of a script, as they are read and written.

use codec::hex::{self, Hex};
use codec::FRAME;
use plants::REPORT;
use std::fmt;

/// What an operator asks of a head.
#[derive(Clone, PartialEq, Eq, Debug)]
pub enum Order {
    SetUp {
        guard: u64,
        pattern: [u8; 3],
        first: u64,
        calendar: Vec<u8>,
    },
    Enter {
        place: u64,
        serial: u64,
    },
    Hold(u64),
    Release(u64),
    Look(u64),
}

/// A line of a script.
#[derive(Clone, PartialEq, Eq, Debug)]
pub enum Call {
    /// A blank line or a remark.
    Nothing,
    Order(Order),
    /// With a buffer of so many bytes.
    Send(u64),
    /// With this report, for the oldest docket held.
    Settle(Vec<u8>),
    Dump,
}

impl From<Order> for Call {
    fn from(order: Order) -> Call {
        Call::Order(order)
    }
}

/// A number of digits alone that fits 64 bits.
fn number(word: &str) -> Option<u64> {
    if word.bytes().all(|byte| byte.is_ascii_digit()) {
        word.parse().ok()
    } else {
        None // a sign, say
    }
}

fn array<const N: usize>(word: &str) -> Option<[u8; N]> {
    hex::parse(word)?.try_into().ok()
}

fn bytes(word: &str) -> Option<Vec<u8>> {
    if word == "-" {
        Some(Vec::new())
    } else {
        hex::parse(word)
    }
}

impl Order {
    fn read_set_up(rest: &[&str]) -> Option<Order> {
        let &[guard, pattern, first, calendar] = rest else {
            return None;
        };
        Some(Order::SetUp {
            guard: number(guard)?,
            pattern: array(pattern)?,
            first: number(first)?,
            calendar: bytes(calendar)?,
        })
    }

    fn read_enter(rest: &[&str]) -> Option<Order> {
        let &[place, serial] = rest else { return None };
        Some(Order::Enter {
            place: number(place)?,
            serial: u64::from_be_bytes(array(serial)?),
        })
    }

    fn read_place(rest: &[&str]) -> Option<u64> {
        let &[place] = rest else { return None };
        number(place)
    }
}

impl Call {
    /// Reads a line, or says what was expected instead.
    pub fn read(line: &str) -> Result<Call, &'static str> {
        if line.starts_with('#') {
            return Ok(Call::Nothing);
        }
        let words: Vec<&str> = line.split_ascii_whitespace().collect();
        let Some((&name, rest)) = words.split_first() else {
            return Ok(Call::Nothing);
        };
        let order = |order: Option<Order>| order.map(Call::Order);
        let place = Order::read_place(rest);
        match name {
            "setup" => order(Order::read_set_up(rest)).ok_or("setup GUARD PATTERN FRAME CALENDAR"),
            "enter" => order(Order::read_enter(rest)).ok_or("enter PLACE SERIAL"),
            "hold" => order(place.map(Order::Hold)).ok_or("hold PLACE"),
            "release" => order(place.map(Order::Release)).ok_or("release PLACE"),
            "look" => order(place.map(Order::Look)).ok_or("look PLACE"),
            "send" => Call::read_send(rest).ok_or("send or send LENGTH"),
            "settle" => Call::read_settle(rest).ok_or("settle REPORT or settle dark"),
            "dump" => rest.is_empty().then_some(Call::Dump).ok_or("dump"),
            _ => Err("a call"),
        }
    }

    fn read_send(rest: &[&str]) -> Option<Call> {
        match *rest {
            [] => Some(Call::Send(FRAME as u64)),
            [length] => Some(Call::Send(number(length)?)),
            _ => None,
        }
    }

    fn read_settle(rest: &[&str]) -> Option<Call> {
        let &[report] = rest else { return None };
        if report == "dark" {
            return Some(Call::Settle(vec![0; REPORT]));
        }
        bytes(report).map(Call::Settle)
    }
}

/// Bytes as a word.
struct Word<'a>(&'a [u8]);

impl fmt::Display for Word<'_> {
    fn fmt(&self, f: &mut fmt::Formatter<'_>) -> fmt::Result {
        if self.0.is_empty() {
            f.write_str("-")
        } else {
            Hex(self.0).fmt(f)
        }
    }
}

impl fmt::Display for Order {
    fn fmt(&self, f: &mut fmt::Formatter<'_>) -> fmt::Result {
        match self {
            Order::SetUp {
                guard,
                pattern,
                first,
                calendar,
            } => {
                let (pattern, calendar) = (Hex(pattern), Word(calendar));
                write!(f, "setup {guard} {pattern} {first} {calendar}")
            }
            Order::Enter { place, serial } => write!(f, "enter {place} {serial:016x}"),
            Order::Hold(place) => write!(f, "hold {place}"),
            Order::Release(place) => write!(f, "release {place}"),
            Order::Look(place) => write!(f, "look {place}"),
        }
    }
}

impl fmt::Display for Call {
    fn fmt(&self, f: &mut fmt::Formatter<'_>) -> fmt::Result {
        match self {
            Call::Nothing => Ok(()),
            Call::Order(order) => order.fmt(f),
            Call::Send(length) if *length == FRAME as u64 => f.write_str("send"),
            Call::Send(length) => write!(f, "send {length}"),
            Call::Settle(report) if report[..] == [0; REPORT] => f.write_str("settle dark"),
            Call::Settle(report) => write!(f, "settle {}", Word(report)),
            Call::Dump => f.write_str("dump"),
        }
    }
}

#[cfg(test)]
mod tests {
    use super::*;

    #[test]
    fn calls_are_written_as_they_are_read() {
        let calendar = "ff".repeat(52);
        for line in [
            format!("setup 8 aa55aa 1024 {calendar}"),
            "setup 18446744073709551615 000000 18446744073709551615 -".to_string(),
            "enter 3 4d554c4b00000001".to_string(),
            "hold 63".to_string(),
            "release 64".to_string(),
            "look 0".to_string(),
            "send".to_string(),
            "send 95".to_string(),
            "settle dark".to_string(),
            "settle -".to_string(),
            "settle 0102".to_string(),
            "dump".to_string(),
        ] {
            assert_eq!(Call::read(&line).unwrap().to_string(), line);
        }
    }

    #[test]
    fn no_calls() {
        for line in [
            "x",
            "setup 8 aa55aa 0",
            "setup 8 aa55 0 -",
            "setup 8 aa55aa 18446744073709551616 -",
            "setup -8 aa55aa 0 -",
            "enter 3 4d554c4b0000001",
            "enter 3",
            "hold",
            "hold 3 4",
            "look +3",
            "send x",
            "settle",
            "settle 0",
            "settle 0g",
            "settle dark dark",
            "dump 1",
        ] {
            assert!(Call::read(line).is_err(), "{line}");
        }
        assert_eq!(Call::read(""), Ok(Call::Nothing));
        assert_eq!(Call::read("# send"), Ok(Call::Nothing));
    }
}
