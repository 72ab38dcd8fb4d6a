//! How ONUs are found, ranged and put to work: every downstream message.

use crate::{Capture, FULL, ONE, QUIET, RANGING, TWO};
use codec::{Access, Down, RxControl, Target};

const ABCD: [u8; 8] = *b"ABCD\x00\x00\x12\x34";
const WXYZ: [u8; 8] = *b"WXYZ\x07\xb2\x00\x19";

/// Prints it all.
pub fn show(c: &mut Capture) {
    c.say("An ONU is found, ranged and put to work; then what can go wrong.");
    c.say("Nothing to say yet.");
    c.show_cell(true, QUIET, Down::NoMessage);
    c.show_cell(false, QUIET, Down::NoMessage);

    c.say("The receiver control pattern, in two parts.");
    c.show_cell(
        true,
        QUIET,
        Down::UpstreamRxControl(RxControl::First([0xAA; 9])),
    );
    c.show_cell(
        false,
        QUIET,
        Down::UpstreamRxControl(RxControl::Second([
            0xAA, 0xAA, 0xAA, 0xAA, 0xAA, 0x33, 0xCC,
        ])),
    );

    c.say("The upstream overhead: without a delay, then with one.");
    c.show_cell(
        true,
        QUIET,
        Down::UpstreamOverhead {
            guard: 4,
            overhead: [0xAA, 0x55, 0xAA],
            delay: 0,
        },
    );
    c.show_cell(
        true,
        QUIET,
        Down::UpstreamOverhead {
            guard: 24,
            overhead: [0, 0, 0x59],
            delay: 4096,
        },
    );

    c.say("A search by serial number, with ranging grants.");
    c.show_cell(
        true,
        RANGING,
        Down::SerialNumberMask {
            bits: 0,
            serial: [0; 8],
        },
    );
    c.show_cell(
        true,
        RANGING,
        Down::SerialNumberMask {
            bits: 64,
            serial: ABCD,
        },
    );

    c.say("ABCD00001234 becomes number 5.");
    c.show_cell(
        true,
        QUIET,
        Down::AssignPonId {
            pon_id: 5,
            serial: ABCD,
        },
    );

    c.say("Its grants, and its equalization delay.");
    c.show_cell(
        true,
        QUIET,
        Down::GrantAllocation {
            pon_id: 5,
            data: 5,
            data_active: true,
            ploam: 69,
            ploam_active: true,
        },
    );
    c.show_cell(
        true,
        ONE,
        Down::RangingTime {
            pon_id: 5,
            delay: 12345,
        },
    );

    c.say("A second ONU in the same way, in whole frames.");
    c.show_frame(
        RANGING,
        [
            Down::SerialNumberMask {
                bits: 16,
                serial: WXYZ,
            },
            Down::AssignPonId {
                pon_id: 63,
                serial: WXYZ,
            },
        ],
    );
    c.show_frame(
        FULL,
        [
            Down::GrantAllocation {
                pon_id: 63,
                data: 6,
                data_active: true,
                ploam: 70,
                ploam_active: false,
            },
            Down::RangingTime {
                pon_id: 63,
                delay: 32000,
            },
        ],
    );

    c.say("The password and a new key.");
    c.show_cell(true, ONE, Down::RequestPassword { pon_id: 5 });
    c.show_cell(false, ONE, Down::NewChurningKeyRequest { pon_id: 5 });
    c.say("The key becomes valid: three times, counted.");
    for count in 1..=3 {
        c.show_cell(true, ONE, Down::ChurningKeyUpdate { pon_id: 5, count });
    }

    c.say("Paths: one configured, one churned, one not.");
    c.show_cell(
        true,
        ONE,
        Down::ConfigureVpVc {
            pon_id: 5,
            active: true,
            header: [0x00, 0x10, 0x02, 0x00],
            mask: [0xFF, 0xFF, 0xFF, 0xF0],
        },
    );
    c.show_cell(
        false,
        ONE,
        Down::ChurnedVp {
            pon_id: 5,
            churned: true,
            vpi: 0x123,
        },
    );
    c.show_cell(
        false,
        ONE,
        Down::ChurnedVp {
            pon_id: 5,
            churned: false,
            vpi: 0xFFF,
        },
    );

    c.say("Minislots that two ONUs share.");
    c.show_frame(
        FULL,
        [
            Down::DividedSlotGrantConfiguration {
                pon_id: 5,
                active: true,
                code: 100,
                offset: 0,
                length: 26,
                service: 0,
            },
            Down::DividedSlotGrantConfiguration {
                pon_id: 63,
                active: true,
                code: 100,
                offset: 26,
                length: 27,
                service: 0,
            },
        ],
    );

    c.say("The error interval, and the protection switching of line 1.");
    c.show_cell(
        true,
        TWO,
        Down::BerInterval {
            pon_id: 5,
            frames: 600_000,
        },
    );
    c.show_cell(
        false,
        TWO,
        Down::Pst {
            line: 1,
            k1: 0x12,
            k2: 0x0A,
        },
    );

    c.say("Messages of a vendor: for one ONU, and for all.");
    c.show_cell(
        true,
        TWO,
        Down::VendorSpecific {
            to: Target::One(5),
            kind: 0,
            bytes: *b"hello, onu",
        },
    );
    c.show_cell(
        true,
        TWO,
        Down::VendorSpecific {
            to: Target::All,
            kind: 7,
            bytes: [0x5A; 10],
        },
    );

    c.say("Trouble at the OLT, and the way back from it.");
    c.show_cell(true, QUIET, Down::PhysicalEquipmentError);
    c.show_cell(true, QUIET, Down::Popup);

    c.say("A serial number shut out, let in again, and all let in.");
    c.show_cell(true, QUIET, Down::DisableSerialNumber(Access::Deny(WXYZ)));
    c.show_cell(true, QUIET, Down::DisableSerialNumber(Access::Allow(WXYZ)));
    c.show_cell(true, QUIET, Down::DisableSerialNumber(Access::AllowAll));

    c.say("One ONU deactivated, then all of them.");
    c.show_frame(
        QUIET,
        [
            Down::DeactivatePonId {
                to: Target::One(63),
            },
            Down::DeactivatePonId { to: Target::All },
        ],
    );
}
