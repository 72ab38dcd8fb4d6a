//! Reading a message, and what is wrong with one that cannot be read.

use super::{
    id, take, Access, Down, RxControl, Target, ALLOW, ALLOW_ALL, BROADCAST, DENY, LAST_BITS,
    LAST_DELAY, LAST_GUARD, LAST_PON_ID, LEAST_GUARD, SLOT,
};
use crate::fault::{Cause, Field};
use crate::grant::Grant;
use crate::MESSAGE;

#[inline]
fn broadcast(address: u8) -> Result<(), Cause> {
    if address == BROADCAST {
        Ok(())
    } else {
        Err(Cause::Address(address))
    }
}

#[inline]
fn directed(address: u8) -> Result<u8, Cause> {
    if address <= LAST_PON_ID {
        Ok(address)
    } else {
        Err(Cause::Address(address))
    }
}

#[inline]
fn target(address: u8) -> Result<Target, Cause> {
    match address {
        0..=LAST_PON_ID => Ok(Target::One(address)),
        BROADCAST => Ok(Target::All),
        _ => Err(Cause::Address(address)),
    }
}

#[inline]
fn ensure(holds: bool, field: Field) -> Result<(), Cause> {
    if holds {
        Ok(())
    } else {
        Err(Cause::Field(field))
    }
}

/// A byte that must be 0 or 1.
#[inline]
fn flag(byte: u8, field: Field) -> Result<bool, Cause> {
    match byte {
        0 => Ok(false),
        1 => Ok(true),
        _ => Err(Cause::Field(field)),
    }
}

/// A grant that is none of the three special ones.
#[inline]
fn code(byte: u8, field: Field) -> Result<u8, Cause> {
    ensure(byte <= Grant::LAST_CODE, field)?;
    Ok(byte)
}

#[inline]
fn delay(bytes: [u8; 3]) -> Result<u32, Cause> {
    let delay = u32::from_be_bytes([0, bytes[0], bytes[1], bytes[2]]);
    ensure(delay <= LAST_DELAY, Field::Delay)?;
    Ok(delay)
}

impl Down {
    /// Reads a message, or says what is wrong first: the identifier, then the
    /// address, then the fields.
    pub fn read(message: &[u8; MESSAGE]) -> Result<Down, Cause> {
        let address = message[0];
        let identifier = message[1];
        let f = |place: usize| message[place + 1]; // fields count from 1
        match identifier {
            id::NO_MESSAGE => {
                broadcast(address)?;
                Ok(Down::NoMessage)
            }
            id::UPSTREAM_RX_CONTROL => {
                broadcast(address)?;
                match f(1) {
                    0 => Ok(Down::UpstreamRxControl(RxControl::First(take(message, 3)))),
                    1 => Ok(Down::UpstreamRxControl(RxControl::Second(take(message, 3)))),
                    _ => Err(Cause::Field(Field::Part)),
                }
            }
            id::UPSTREAM_OVERHEAD => {
                broadcast(address)?;
                let guard = f(1);
                ensure((LEAST_GUARD..=LAST_GUARD).contains(&guard), Field::Guard)?;
                let delay = if f(7) & 1 == 1 {
                    delay(take(message, 9))?
                } else {
                    0
                };
                Ok(Down::UpstreamOverhead {
                    guard,
                    overhead: take(message, 3),
                    delay,
                })
            }
            id::RANGING_TIME => {
                let pon_id = directed(address)?;
                Ok(Down::RangingTime {
                    pon_id,
                    delay: delay(take(message, 2))?,
                })
            }
            id::SERIAL_NUMBER_MASK => {
                broadcast(address)?;
                let bits = f(1);
                ensure(bits <= LAST_BITS, Field::Bits)?;
                Ok(Down::SerialNumberMask {
                    bits,
                    serial: take(message, 3),
                })
            }
            id::ASSIGN_PON_ID => {
                broadcast(address)?;
                let pon_id = f(1);
                ensure(pon_id <= LAST_PON_ID, Field::PonId)?;
                Ok(Down::AssignPonId {
                    pon_id,
                    serial: take(message, 3),
                })
            }
            id::DEACTIVATE_PON_ID => Ok(Down::DeactivatePonId {
                to: target(address)?,
            }),
            id::DISABLE_SERIAL_NUMBER => {
                broadcast(address)?;
                let access = match f(1) {
                    DENY => Access::Deny(take(message, 3)),
                    ALLOW_ALL => Access::AllowAll,
                    ALLOW => Access::Allow(take(message, 3)),
                    _ => return Err(Cause::Field(Field::Access)),
                };
                Ok(Down::DisableSerialNumber(access))
            }
            id::NEW_CHURNING_KEY_REQUEST => Ok(Down::NewChurningKeyRequest {
                pon_id: directed(address)?,
            }),
            id::CHURNING_KEY_UPDATE => {
                let pon_id = directed(address)?;
                let count = f(1);
                ensure((1..=3).contains(&count), Field::Count)?;
                Ok(Down::ChurningKeyUpdate { pon_id, count })
            }
            id::GRANT_ALLOCATION => Ok(Down::GrantAllocation {
                pon_id: directed(address)?,
                data: code(f(1), Field::Data)?,
                data_active: flag(f(2), Field::DataActive)?,
                ploam: code(f(3), Field::Ploam)?,
                ploam_active: flag(f(4), Field::PloamActive)?,
            }),
            id::DIVIDED_SLOT_GRANT_CONFIGURATION => {
                let pon_id = directed(address)?;
                let active = flag(f(1), Field::Active)?;
                let code = code(f(2), Field::Code)?;
                let length = f(3);
                let offset = f(4);
                ensure(offset < SLOT, Field::Offset)?;
                ensure(1 <= length && length <= SLOT - offset, Field::Length)?;
                Ok(Down::DividedSlotGrantConfiguration {
                    pon_id,
                    active,
                    code,
                    offset,
                    length,
                    service: f(5),
                })
            }
            id::CONFIGURE_VP_VC => Ok(Down::ConfigureVpVc {
                pon_id: directed(address)?,
                active: flag(f(1), Field::Active)?,
                header: take(message, 3),
                mask: take(message, 7),
            }),
            id::PHYSICAL_EQUIPMENT_ERROR => {
                broadcast(address)?;
                Ok(Down::PhysicalEquipmentError)
            }
            id::REQUEST_PASSWORD => Ok(Down::RequestPassword {
                pon_id: directed(address)?,
            }),
            id::CHURNED_VP => {
                let pon_id = directed(address)?;
                let churned = f(1) & 1 == 1;
                ensure(f(3) & 0x0F == 0, Field::Vpi)?;
                let vpi = u16::from_be_bytes([f(2), f(3)]) >> 4;
                Ok(Down::ChurnedVp {
                    pon_id,
                    churned,
                    vpi,
                })
            }
            id::POPUP => {
                broadcast(address)?;
                Ok(Down::Popup)
            }
            id::VENDOR_SPECIFIC..=id::LAST_VENDOR_SPECIFIC => Ok(Down::VendorSpecific {
                to: target(address)?,
                kind: identifier - id::VENDOR_SPECIFIC,
                bytes: take(message, 2),
            }),
            id::PST => {
                broadcast(address)?;
                let line = f(1);
                ensure(line <= 1, Field::Line)?;
                Ok(Down::Pst {
                    line,
                    k1: f(2),
                    k2: f(3),
                })
            }
            id::BER_INTERVAL => Ok(Down::BerInterval {
                pon_id: directed(address)?,
                frames: u32::from_be_bytes(take(message, 2)),
            }),
            _ => Err(Cause::Identifier(identifier)),
        }
    }
}
