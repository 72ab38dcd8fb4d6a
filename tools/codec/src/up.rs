//! Messages from an ONU to the OLT: byte 0 is the source, byte 1 the
//! identifier, bytes 2 to 11 the fields.

use crate::down::{take, LAST_PON_ID};
use crate::fault::{Field, UpCause};
use crate::hex::Hex;
use crate::MESSAGE;
use std::fmt;

/// The source of an ONU that has no number yet.
pub const NO_PON_ID: u8 = 0x40;

/// Identifiers.
pub mod id {
    pub const NO_MESSAGE: u8 = 0x00;
    pub const NEW_CHURNING_KEY: u8 = 0x01;
    pub const ACKNOWLEDGE: u8 = 0x02;
    pub const SERIAL_NUMBER_ONU: u8 = 0x03;
    pub const PASSWORD: u8 = 0x04;
    pub const PHYSICAL_EQUIPMENT_ERROR: u8 = 0x05;
    pub const BIG_KEY: u8 = 0x06;
    pub const VENDOR_SPECIFIC: u8 = 0x78;
    pub const LAST_VENDOR_SPECIFIC: u8 = 0x7F;
    pub const REI: u8 = 0x80;
    pub const R_INH: u8 = 0x81;
    pub const PST: u8 = 0x82;
    pub const MESSAGE_ERROR: u8 = 0x83;
}

/// What an ONU says.
#[derive(Clone, Copy, PartialEq, Eq, Debug)]
pub enum UpBody {
    NoMessage,
    NewChurningKey {
        key: [u8; 3],
    },
    Acknowledge {
        message: u8,
        bytes: [u8; 9],
    },
    SerialNumberOnu {
        serial: [u8; 8],
    },
    Password {
        password: [u8; 10],
    },
    PhysicalEquipmentError,
    BigKey {
        key_index: u8,
        fragment: u8,
        bytes: [u8; 8],
    },
    VendorSpecific {
        kind: u8,
        bytes: [u8; 10],
    },
    Rei {
        errors: u32,
        sequence: u8,
    },
    RInh,
    Pst {
        line: u8,
        k1: u8,
        k2: u8,
    },
    MessageError {
        message: u8,
    },
}

/// A message and the ONU it comes from: 0 to 63, or 64 in a serial number
/// message of an ONU without a number. The fields of one that is to be written
/// must be in their ranges.
#[derive(Clone, Copy, PartialEq, Eq, Debug)]
pub struct Up {
    pub source: u8,
    pub body: UpBody,
}

fn last_source(identifier: u8) -> u8 {
    if identifier == id::SERIAL_NUMBER_ONU {
        NO_PON_ID
    } else {
        LAST_PON_ID
    }
}

fn is_known(identifier: u8) -> bool {
    matches!(
        identifier,
        id::NO_MESSAGE..=id::BIG_KEY
            | id::VENDOR_SPECIFIC..=id::LAST_VENDOR_SPECIFIC
            | id::REI..=id::MESSAGE_ERROR
    )
}

impl Up {
    /// Reads a message, or says what is wrong first: the identifier, then the
    /// source, then the fields.
    pub fn read(message: &[u8; MESSAGE]) -> Result<Up, UpCause> {
        let source = message[0];
        let identifier = message[1];
        if !is_known(identifier) {
            return Err(UpCause::Identifier(identifier));
        }
        if source > last_source(identifier) {
            return Err(UpCause::Source(source));
        }
        let f = |place: usize| message[place + 1]; // fields count from 1
        let body = match identifier {
            id::NO_MESSAGE => UpBody::NoMessage,
            id::NEW_CHURNING_KEY => UpBody::NewChurningKey {
                key: take(message, 2),
            },
            id::ACKNOWLEDGE => UpBody::Acknowledge {
                message: f(1),
                bytes: take(message, 3),
            },
            id::SERIAL_NUMBER_ONU => {
                if f(1) != 0 {
                    return Err(UpCause::Field(Field::Zero));
                }
                UpBody::SerialNumberOnu {
                    serial: take(message, 3),
                }
            }
            id::PASSWORD => UpBody::Password {
                password: take(message, 2),
            },
            id::PHYSICAL_EQUIPMENT_ERROR => UpBody::PhysicalEquipmentError,
            id::BIG_KEY => UpBody::BigKey {
                key_index: f(1),
                fragment: f(2),
                bytes: take(message, 4),
            },
            id::VENDOR_SPECIFIC..=id::LAST_VENDOR_SPECIFIC => UpBody::VendorSpecific {
                kind: identifier - id::VENDOR_SPECIFIC,
                bytes: take(message, 2),
            },
            id::REI => {
                if f(5) > 15 {
                    return Err(UpCause::Field(Field::Sequence));
                }
                UpBody::Rei {
                    errors: u32::from_be_bytes(take(message, 2)),
                    sequence: f(5),
                }
            }
            id::R_INH => UpBody::RInh,
            id::PST => {
                if f(1) > 1 {
                    return Err(UpCause::Field(Field::Line));
                }
                UpBody::Pst {
                    line: f(1),
                    k1: f(2),
                    k2: f(3),
                }
            }
            id::MESSAGE_ERROR => UpBody::MessageError { message: f(1) },
            _ => return Err(UpCause::Identifier(identifier)),
        };
        Ok(Up { source, body })
    }

    pub fn identifier(&self) -> u8 {
        match self.body {
            UpBody::NoMessage => id::NO_MESSAGE,
            UpBody::NewChurningKey { .. } => id::NEW_CHURNING_KEY,
            UpBody::Acknowledge { .. } => id::ACKNOWLEDGE,
            UpBody::SerialNumberOnu { .. } => id::SERIAL_NUMBER_ONU,
            UpBody::Password { .. } => id::PASSWORD,
            UpBody::PhysicalEquipmentError => id::PHYSICAL_EQUIPMENT_ERROR,
            UpBody::BigKey { .. } => id::BIG_KEY,
            UpBody::VendorSpecific { kind, .. } => id::VENDOR_SPECIFIC + kind,
            UpBody::Rei { .. } => id::REI,
            UpBody::RInh => id::R_INH,
            UpBody::Pst { .. } => id::PST,
            UpBody::MessageError { .. } => id::MESSAGE_ERROR,
        }
    }

    /// Whether every field is in its range, so that the message can be written.
    pub fn is_sound(&self) -> bool {
        let fields = match self.body {
            UpBody::VendorSpecific { kind, .. } => kind <= 7,
            UpBody::Rei { sequence, .. } => sequence <= 15,
            UpBody::Pst { line, .. } => line <= 1,
            _ => true,
        };
        fields && self.source <= last_source(self.identifier())
    }

    /// The bytes of a sound message. Bytes without a meaning are zero.
    pub fn write(&self) -> [u8; MESSAGE] {
        debug_assert!(self.is_sound());
        let mut out = [0; MESSAGE];
        out[0] = self.source;
        out[1] = self.identifier();
        match self.body {
            UpBody::NoMessage | UpBody::PhysicalEquipmentError | UpBody::RInh => {}
            UpBody::NewChurningKey { key } => out[2..5].copy_from_slice(&key),
            UpBody::Acknowledge { message, bytes } => {
                out[2] = message;
                out[3..12].copy_from_slice(&bytes);
            }
            UpBody::SerialNumberOnu { serial } => out[3..11].copy_from_slice(&serial),
            UpBody::Password { password } => out[2..12].copy_from_slice(&password),
            UpBody::BigKey {
                key_index,
                fragment,
                bytes,
            } => {
                out[2] = key_index;
                out[3] = fragment;
                out[4..12].copy_from_slice(&bytes);
            }
            UpBody::VendorSpecific { bytes, .. } => out[2..12].copy_from_slice(&bytes),
            UpBody::Rei { errors, sequence } => {
                out[2..6].copy_from_slice(&errors.to_be_bytes());
                out[6] = sequence;
            }
            UpBody::Pst { line, k1, k2 } => {
                out[2] = line;
                out[3] = k1;
                out[4] = k2;
            }
            UpBody::MessageError { message } => out[2] = message,
        }
        out
    }

    pub fn name(&self) -> &'static str {
        match self.body {
            UpBody::NoMessage => "No_message",
            UpBody::NewChurningKey { .. } => "New_churning_key",
            UpBody::Acknowledge { .. } => "Acknowledge",
            UpBody::SerialNumberOnu { .. } => "Serial_number_ONU",
            UpBody::Password { .. } => "Password",
            UpBody::PhysicalEquipmentError => "Physical_equipment_error",
            UpBody::BigKey { .. } => "Big_key",
            UpBody::VendorSpecific { .. } => "Vendor_specific",
            UpBody::Rei { .. } => "REI",
            UpBody::RInh => "R_INH",
            UpBody::Pst { .. } => "PST",
            UpBody::MessageError { .. } => "Message_error",
        }
    }
}

impl fmt::Display for Up {
    fn fmt(&self, f: &mut fmt::Formatter<'_>) -> fmt::Result {
        write!(f, "message={} source={}", self.name(), self.source)?;
        match self.body {
            UpBody::NoMessage | UpBody::PhysicalEquipmentError | UpBody::RInh => Ok(()),
            UpBody::NewChurningKey { key } => write!(f, " key={}", Hex(&key)),
            UpBody::Acknowledge { message, bytes } => {
                write!(f, " message={message} bytes={}", Hex(&bytes))
            }
            UpBody::SerialNumberOnu { serial } => write!(f, " serial={}", Hex(&serial)),
            UpBody::Password { password } => write!(f, " password={}", Hex(&password)),
            UpBody::BigKey {
                key_index,
                fragment,
                bytes,
            } => {
                write!(
                    f,
                    " key_index={key_index} fragment={fragment} bytes={}",
                    Hex(&bytes)
                )
            }
            UpBody::VendorSpecific { kind, bytes } => {
                write!(f, " kind={kind} bytes={}", Hex(&bytes))
            }
            UpBody::Rei { errors, sequence } => write!(f, " errors={errors} sequence={sequence}"),
            UpBody::Pst { line, k1, k2 } => write!(f, " line={line} k1={k1:02x} k2={k2:02x}"),
            UpBody::MessageError { message } => write!(f, " message={message}"),
        }
    }
}

#[cfg(test)]
mod tests {
    use super::*;
    use crate::random::messages::{random_up, UP_KINDS};
    use crate::random::noise::noisy_up;
    use crate::random::Random;

    #[test]
    fn written_is_read_again() {
        let mut random = Random::new(4);
        for i in 0..24_000 {
            let message = random_up(&mut random, i % UP_KINDS);
            assert!(message.is_sound());
            assert_eq!(Up::read(&message.write()), Ok(message));
            assert_eq!(Up::read(&noisy_up(&mut random, &message)), Ok(message));
        }
    }

    #[test]
    fn by_hand() {
        let read = |bytes: [u8; 12]| match Up::read(&bytes) {
            Ok(message) => message.to_string(),
            Err(cause) => cause.to_string(),
        };
        assert_eq!(
            read([64, 3, 0, 0x41, 0x42, 0x43, 0x44, 1, 2, 3, 4, 9]),
            "message=Serial_number_ONU source=64 serial=4142434401020304"
        );
        assert_eq!(
            read([65, 3, 1, 0, 0, 0, 0, 0, 0, 0, 0, 0]),
            "fault 17 source=65"
        );
        assert_eq!(
            read([64, 3, 1, 0, 0, 0, 0, 0, 0, 0, 0, 0]),
            "fault 17 field=zero"
        );
        assert_eq!(
            read([64, 4, 1, 0, 0, 0, 0, 0, 0, 0, 0, 0]),
            "fault 17 source=64"
        );
        assert_eq!(
            read([64, 7, 1, 0, 0, 0, 0, 0, 0, 0, 0, 0]),
            "fault 17 identifier=7"
        );
        assert_eq!(
            read([1, 0x80, 0, 0, 1, 0, 15, 7, 7, 7, 7, 7]),
            "message=REI source=1 errors=256 sequence=15"
        );
        assert_eq!(
            read([1, 0x80, 0, 0, 1, 0, 16, 7, 7, 7, 7, 7]),
            "fault 17 field=sequence"
        );
        assert_eq!(
            read([1, 0x82, 2, 0, 1, 0, 16, 7, 7, 7, 7, 7]),
            "fault 17 field=line"
        );
        assert_eq!(
            read([1, 2, 0x0C, 1, 2, 3, 4, 5, 6, 7, 8, 9]),
            "message=Acknowledge source=1 message=12 bytes=010203040506070809"
        );
    }
}
