//! Messages from the OLT to the ONUs: byte 0 is the address, byte 1 the
//! identifier, bytes 2 to 11 the fields.

mod read;
#[cfg(test)]
mod tests;
mod text;
mod write;

use crate::grant::Grant;
use crate::MESSAGE;

/// The address of all ONUs.
pub const BROADCAST: u8 = 0x40;
/// The greatest number of an ONU.
pub const LAST_PON_ID: u8 = 63;
/// The greatest equalization delay, in bits.
pub const LAST_DELAY: u32 = 32_000;
/// Bytes of an upstream slot, which a minislot must not pass.
pub const SLOT: u8 = 53;

pub const LEAST_GUARD: u8 = 4;
pub const LAST_GUARD: u8 = 24;
pub const LAST_BITS: u8 = 64;

/// Identifiers.
pub mod id {
    pub const NO_MESSAGE: u8 = 0x00;
    pub const UPSTREAM_RX_CONTROL: u8 = 0x01;
    pub const UPSTREAM_OVERHEAD: u8 = 0x02;
    pub const RANGING_TIME: u8 = 0x03;
    pub const SERIAL_NUMBER_MASK: u8 = 0x04;
    pub const ASSIGN_PON_ID: u8 = 0x05;
    pub const DEACTIVATE_PON_ID: u8 = 0x06;
    pub const DISABLE_SERIAL_NUMBER: u8 = 0x07;
    pub const NEW_CHURNING_KEY_REQUEST: u8 = 0x08;
    pub const CHURNING_KEY_UPDATE: u8 = 0x09;
    pub const GRANT_ALLOCATION: u8 = 0x0A;
    pub const DIVIDED_SLOT_GRANT_CONFIGURATION: u8 = 0x0B;
    pub const CONFIGURE_VP_VC: u8 = 0x0C;
    pub const PHYSICAL_EQUIPMENT_ERROR: u8 = 0x0D;
    pub const REQUEST_PASSWORD: u8 = 0x0E;
    pub const CHURNED_VP: u8 = 0x0F;
    pub const POPUP: u8 = 0x10;
    pub const VENDOR_SPECIFIC: u8 = 0x78;
    pub const LAST_VENDOR_SPECIFIC: u8 = 0x7F;
    pub const PST: u8 = 0x80;
    pub const BER_INTERVAL: u8 = 0x81;
}

/// Whom a message reaches that can go to one ONU or to all.
#[derive(Clone, Copy, PartialEq, Eq, Debug)]
pub enum Target {
    One(u8),
    All,
}

/// The two parts of the receiver control pattern.
#[derive(Clone, Copy, PartialEq, Eq, Debug)]
pub enum RxControl {
    /// Part 0: bytes 1 to 9 of the pattern.
    First([u8; 9]),
    /// Part 1: bytes 10 to 16 of the pattern.
    Second([u8; 7]),
}

/// Upstream access, and the serial number it is for.
#[derive(Clone, Copy, PartialEq, Eq, Debug)]
pub enum Access {
    Deny([u8; 8]),
    AllowAll,
    Allow([u8; 8]),
}

const DENY: u8 = 0xFF;
const ALLOW_ALL: u8 = 0x0F;
const ALLOW: u8 = 0x00;

/// A message. The fields of one that is to be written must be in their ranges.
#[derive(Clone, Copy, PartialEq, Eq, Debug)]
pub enum Down {
    NoMessage,
    UpstreamRxControl(RxControl),
    UpstreamOverhead {
        guard: u8,
        overhead: [u8; 3],
        delay: u32,
    },
    RangingTime {
        pon_id: u8,
        delay: u32,
    },
    SerialNumberMask {
        bits: u8,
        serial: [u8; 8],
    },
    AssignPonId {
        pon_id: u8,
        serial: [u8; 8],
    },
    DeactivatePonId {
        to: Target,
    },
    DisableSerialNumber(Access),
    NewChurningKeyRequest {
        pon_id: u8,
    },
    ChurningKeyUpdate {
        pon_id: u8,
        count: u8,
    },
    GrantAllocation {
        pon_id: u8,
        data: u8,
        data_active: bool,
        ploam: u8,
        ploam_active: bool,
    },
    DividedSlotGrantConfiguration {
        pon_id: u8,
        active: bool,
        code: u8,
        offset: u8,
        length: u8,
        service: u8,
    },
    ConfigureVpVc {
        pon_id: u8,
        active: bool,
        header: [u8; 4],
        mask: [u8; 4],
    },
    PhysicalEquipmentError,
    RequestPassword {
        pon_id: u8,
    },
    ChurnedVp {
        pon_id: u8,
        churned: bool,
        vpi: u16,
    },
    Popup,
    VendorSpecific {
        to: Target,
        kind: u8,
        bytes: [u8; 10],
    },
    Pst {
        line: u8,
        k1: u8,
        k2: u8,
    },
    BerInterval {
        pon_id: u8,
        frames: u32,
    },
}

/// The bytes of `message` from place `at` on. `at + N` must be at most 12.
#[inline]
pub(crate) fn take<const N: usize>(message: &[u8; MESSAGE], at: usize) -> [u8; N] {
    let mut bytes = [0; N];
    bytes.copy_from_slice(&message[at..at + N]);
    bytes
}

impl Down {
    /// Whether every field is in its range, so that the message can be written.
    pub fn is_sound(&self) -> bool {
        let one = |pon_id: u8| pon_id <= LAST_PON_ID;
        let reachable = |to: Target| match to {
            Target::One(pon_id) => one(pon_id),
            Target::All => true,
        };
        match *self {
            Down::NoMessage
            | Down::UpstreamRxControl(_)
            | Down::DisableSerialNumber(_)
            | Down::PhysicalEquipmentError
            | Down::Popup => true,
            Down::UpstreamOverhead { guard, delay, .. } => {
                (LEAST_GUARD..=LAST_GUARD).contains(&guard) && delay <= LAST_DELAY
            }
            Down::RangingTime { pon_id, delay } => one(pon_id) && delay <= LAST_DELAY,
            Down::SerialNumberMask { bits, .. } => bits <= LAST_BITS,
            Down::AssignPonId { pon_id, .. } => one(pon_id),
            Down::DeactivatePonId { to } => reachable(to),
            Down::NewChurningKeyRequest { pon_id } => one(pon_id),
            Down::ChurningKeyUpdate { pon_id, count } => one(pon_id) && (1..=3).contains(&count),
            Down::GrantAllocation {
                pon_id,
                data,
                ploam,
                ..
            } => one(pon_id) && data <= Grant::LAST_CODE && ploam <= Grant::LAST_CODE,
            Down::DividedSlotGrantConfiguration {
                pon_id,
                code,
                offset,
                length,
                ..
            } => {
                one(pon_id)
                    && code <= Grant::LAST_CODE
                    && offset < SLOT
                    && (1..=SLOT - offset).contains(&length)
            }
            Down::ConfigureVpVc { pon_id, .. } => one(pon_id),
            Down::RequestPassword { pon_id } => one(pon_id),
            Down::ChurnedVp { pon_id, vpi, .. } => one(pon_id) && vpi < 1 << 12,
            Down::VendorSpecific { to, kind, .. } => reachable(to) && kind <= 7,
            Down::Pst { line, .. } => line <= 1,
            Down::BerInterval { pon_id, .. } => one(pon_id),
        }
    }
}
