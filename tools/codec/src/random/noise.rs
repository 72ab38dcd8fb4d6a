//! What is sound, written with random bits where they have no meaning.

use super::Random;
use crate::cell::{set_checks, write_cell, Cell, CELL, MESSAGE_AT, MESSAGE_CHECK};
use crate::down::{Access, Down, RxControl};
use crate::frame::{write_frame, Frame, FRAME};
use crate::up::{Up, UpBody};
use crate::MESSAGE;

/// The bits of a downstream message that have no meaning.
fn loose_down(message: &Down) -> [u8; MESSAGE] {
    let mut loose = [0; MESSAGE];
    let from = match message {
        Down::NoMessage
        | Down::DeactivatePonId { .. }
        | Down::NewChurningKeyRequest { .. }
        | Down::PhysicalEquipmentError
        | Down::RequestPassword { .. }
        | Down::Popup => 2,
        Down::UpstreamRxControl(RxControl::First(_)) => 12,
        Down::UpstreamRxControl(RxControl::Second(_)) => 10,
        Down::UpstreamOverhead { delay, .. } => {
            loose[6] = 0xFF;
            loose[7] = 0xFF;
            loose[8] = 0xFE;
            if *delay == 0 {
                9
            } else {
                12
            }
        }
        Down::RangingTime { .. } => 5,
        Down::SerialNumberMask { .. } | Down::AssignPonId { .. } => 11,
        Down::DisableSerialNumber(Access::AllowAll) => 3,
        Down::DisableSerialNumber(_) => 11,
        Down::ChurningKeyUpdate { .. } => 3,
        Down::GrantAllocation { .. } => 6,
        Down::DividedSlotGrantConfiguration { .. } => 7,
        Down::ConfigureVpVc { .. } => 11,
        Down::ChurnedVp { .. } => {
            loose[2] = 0xFE;
            5
        }
        Down::VendorSpecific { .. } => 12,
        Down::Pst { .. } => 5,
        Down::BerInterval { .. } => 6,
    };
    loose[from..].fill(0xFF);
    loose
}

/// The bits of an upstream message that have no meaning.
fn loose_up(message: &Up) -> [u8; MESSAGE] {
    let from = match message.body {
        UpBody::NoMessage | UpBody::PhysicalEquipmentError | UpBody::RInh => 2,
        UpBody::NewChurningKey { .. } => 5,
        UpBody::SerialNumberOnu { .. } => 11,
        UpBody::Rei { .. } => 7,
        UpBody::Pst { .. } => 5,
        UpBody::MessageError { .. } => 3,
        UpBody::Acknowledge { .. }
        | UpBody::Password { .. }
        | UpBody::BigKey { .. }
        | UpBody::VendorSpecific { .. } => 12,
    };
    let mut loose = [0; MESSAGE];
    loose[from..].fill(0xFF);
    loose
}

fn add_noise(random: &mut Random, bytes: &mut [u8; MESSAGE], loose: &[u8; MESSAGE]) {
    for (byte, mask) in bytes.iter_mut().zip(loose) {
        *byte |= random.byte() & mask;
    }
}

/// A message written with random bits where they have no meaning.
pub fn noisy_down(random: &mut Random, message: &Down) -> [u8; MESSAGE] {
    let mut bytes = message.write();
    // The other way to say that there is no delay.
    if matches!(message, Down::UpstreamOverhead { delay: 0, .. }) && random.flag() {
        bytes[6] = random.byte();
        bytes[7] = random.byte();
        bytes[8] = random.byte() | 1;
        return bytes;
    }
    add_noise(random, &mut bytes, &loose_down(message));
    bytes
}

/// A message written with random bits where they have no meaning.
pub fn noisy_up(random: &mut Random, message: &Up) -> [u8; MESSAGE] {
    let mut bytes = message.write();
    add_noise(random, &mut bytes, &loose_up(message));
    bytes
}

/// A cell written with random bits wherever they have no meaning.
pub fn noisy_cell(random: &mut Random, cell: &Cell) -> [u8; CELL] {
    let mut bytes = write_cell(cell);
    bytes[0] |= random.byte() & 0xFE;
    bytes[1] = random.byte();
    bytes[2] = random.byte();
    bytes[47] = random.byte();
    bytes[MESSAGE_AT..MESSAGE_CHECK].copy_from_slice(&noisy_down(random, &cell.message));
    set_checks(&mut bytes);
    bytes
}

/// A frame written with random bits wherever they have no meaning.
pub fn noisy_frame(random: &mut Random, frame: &Frame) -> [u8; FRAME] {
    let mut bytes = write_frame(frame);
    for (cell, message) in bytes.chunks_mut(CELL).zip(&frame.messages) {
        let cell: &mut [u8; CELL] = cell.try_into().unwrap();
        cell[0] = random.byte();
        cell[1] = random.byte();
        cell[2] = random.byte();
        cell[47] = random.byte();
        cell[MESSAGE_AT..MESSAGE_CHECK].copy_from_slice(&noisy_down(random, message));
    }
    bytes[CELL + 32] = random.byte(); // the place after the last grant
    for cell in bytes.chunks_mut(CELL) {
        set_checks(cell.try_into().unwrap());
    }
    bytes
}
