//! Sound messages of every kind.

use super::Random;
use crate::down::{
    Access, Down, RxControl, Target, LAST_BITS, LAST_DELAY, LAST_GUARD, LEAST_GUARD, SLOT,
};
use crate::grant::Grant;
use crate::up::{Up, UpBody, NO_PON_ID};

/// Kinds of downstream messages.
pub const DOWN_KINDS: usize = 20;
/// Kinds of upstream messages.
pub const UP_KINDS: usize = 12;

fn pon_id(random: &mut Random) -> u8 {
    random.up_to(63)
}

fn target(random: &mut Random) -> Target {
    if random.once_in(4) {
        Target::All
    } else {
        Target::One(pon_id(random))
    }
}

fn delay(random: &mut Random) -> u32 {
    match random.below(8) {
        0 => 0,
        1 => LAST_DELAY,
        _ => random.below(u64::from(LAST_DELAY) + 1) as u32,
    }
}

/// A sound downstream message of the given kind, 0 to 19.
pub fn random_down(random: &mut Random, kind: usize) -> Down {
    let r = random;
    match kind {
        0 => Down::NoMessage,
        1 if r.flag() => Down::UpstreamRxControl(RxControl::First(r.array())),
        1 => Down::UpstreamRxControl(RxControl::Second(r.array())),
        2 => Down::UpstreamOverhead {
            guard: r.between(usize::from(LEAST_GUARD), usize::from(LAST_GUARD)) as u8,
            overhead: r.array(),
            delay: delay(r),
        },
        3 => Down::RangingTime {
            pon_id: pon_id(r),
            delay: delay(r),
        },
        4 => Down::SerialNumberMask {
            bits: r.up_to(LAST_BITS),
            serial: r.array(),
        },
        5 => Down::AssignPonId {
            pon_id: pon_id(r),
            serial: r.array(),
        },
        6 => Down::DeactivatePonId { to: target(r) },
        7 => Down::DisableSerialNumber(match r.below(3) {
            0 => Access::Deny(r.array()),
            1 => Access::AllowAll,
            _ => Access::Allow(r.array()),
        }),
        8 => Down::NewChurningKeyRequest { pon_id: pon_id(r) },
        9 => Down::ChurningKeyUpdate {
            pon_id: pon_id(r),
            count: r.between(1, 3) as u8,
        },
        10 => Down::GrantAllocation {
            pon_id: pon_id(r),
            data: r.up_to(Grant::LAST_CODE),
            data_active: r.flag(),
            ploam: r.up_to(Grant::LAST_CODE),
            ploam_active: r.flag(),
        },
        11 => {
            let offset = r.up_to(SLOT - 1);
            Down::DividedSlotGrantConfiguration {
                pon_id: pon_id(r),
                active: r.flag(),
                code: r.up_to(Grant::LAST_CODE),
                offset,
                length: r.between(1, usize::from(SLOT - offset)) as u8,
                service: r.byte(),
            }
        }
        12 => Down::ConfigureVpVc {
            pon_id: pon_id(r),
            active: r.flag(),
            header: r.array(),
            mask: r.array(),
        },
        13 => Down::PhysicalEquipmentError,
        14 => Down::RequestPassword { pon_id: pon_id(r) },
        15 => Down::ChurnedVp {
            pon_id: pon_id(r),
            churned: r.flag(),
            vpi: r.below(1 << 12) as u16,
        },
        16 => Down::Popup,
        17 => Down::VendorSpecific {
            to: target(r),
            kind: r.up_to(7),
            bytes: r.array(),
        },
        18 => Down::Pst {
            line: r.up_to(1),
            k1: r.byte(),
            k2: r.byte(),
        },
        19 => Down::BerInterval {
            pon_id: pon_id(r),
            frames: r.next_u64() as u32,
        },
        _ => panic!("no kind {kind}"),
    }
}

/// A sound upstream message of the given kind, 0 to 11.
pub fn random_up(random: &mut Random, kind: usize) -> Up {
    let r = random;
    let mut source = pon_id(r);
    let body = match kind {
        0 => UpBody::NoMessage,
        1 => UpBody::NewChurningKey { key: r.array() },
        2 => UpBody::Acknowledge {
            message: r.byte(),
            bytes: r.array(),
        },
        3 => {
            if r.flag() {
                source = NO_PON_ID;
            }
            UpBody::SerialNumberOnu { serial: r.array() }
        }
        4 => UpBody::Password {
            password: r.array(),
        },
        5 => UpBody::PhysicalEquipmentError,
        6 => UpBody::BigKey {
            key_index: r.byte(),
            fragment: r.byte(),
            bytes: r.array(),
        },
        7 => UpBody::VendorSpecific {
            kind: r.up_to(7),
            bytes: r.array(),
        },
        8 => UpBody::Rei {
            errors: r.next_u64() as u32,
            sequence: r.up_to(15),
        },
        9 => UpBody::RInh,
        10 => UpBody::Pst {
            line: r.up_to(1),
            k1: r.byte(),
            k2: r.byte(),
        },
        11 => UpBody::MessageError { message: r.byte() },
        _ => panic!("no kind {kind}"),
    };
    Up { source, body }
}

#[cfg(test)]
mod tests {
    use super::*;

    #[test]
    fn every_kind_is_made() {
        let mut random = Random::new(0);
        for kind in 0..DOWN_KINDS {
            let name = random_down(&mut random, kind).name();
            assert!((0..kind).all(|other| random_down(&mut random, other).name() != name));
        }
        for kind in 0..UP_KINDS {
            let name = random_up(&mut random, kind).name();
            assert!((0..kind).all(|other| random_up(&mut random, other).name() != name));
        }
    }
}
