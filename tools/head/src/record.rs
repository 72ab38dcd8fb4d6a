//! The records of a report.

use codec::MESSAGE;
use plants::receiver::RECORD;

/// What the receiver says of one slot, as it counts.
#[derive(Clone, Copy, PartialEq, Eq, Debug)]
pub struct Record {
    pub light: Light,
    pub offset: i64,
    pub message: [u8; MESSAGE],
}

#[derive(Clone, Copy, PartialEq, Eq, Debug)]
pub enum Light {
    Dark,
    Broken,
    Ploam,
    Data,
}

impl Record {
    pub fn read(bytes: &[u8; RECORD]) -> Record {
        let parity = bytes[1];
        let light = match bytes[0] {
            _ if parity > 8 => Light::Broken,
            0 => Light::Dark,
            2 => Light::Ploam,
            3 => Light::Data,
            _ => Light::Broken,
        };
        let offset = i32::from_be_bytes([bytes[2], bytes[3], bytes[4], bytes[5]]);
        let mut message = [0; MESSAGE];
        message.copy_from_slice(&bytes[6..]);
        Record {
            light,
            offset: i64::from(offset),
            message,
        }
    }
}
