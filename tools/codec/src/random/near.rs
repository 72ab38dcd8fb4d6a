//! Messages that are sound, or nearly.

use super::messages::{random_down, random_up, DOWN_KINDS, UP_KINDS};
use super::noise::{noisy_down, noisy_up};
use super::Random;
use crate::cell::{set_checks, CELL, MESSAGE_AT, MESSAGE_CHECK};
use crate::down::id;
use crate::up::id as up_id;
use crate::MESSAGE;

/// A byte that is often at or near a limit of some field.
fn near_byte(random: &mut Random) -> u8 {
    const NEAR: [u8; 22] = [
        0, 0, 1, 1, 2, 3, 4, 5, 24, 25, 52, 53, 54, 63, 64, 65, 125, 252, 253, 254, 255, 15,
    ];
    if random.flag() {
        random.one_of(&NEAR)
    } else {
        random.byte()
    }
}

fn near_fields(random: &mut Random, bytes: &mut [u8; MESSAGE]) {
    for byte in &mut bytes[2..] {
        *byte = near_byte(random);
    }
}

/// Changes one thing in a message, or all of it.
fn change(random: &mut Random, bytes: &mut [u8; MESSAGE], identifiers: &[u8]) {
    match random.below(6) {
        0 => *bytes = random.array(),
        1 => bytes[0] = random.one_of(&[0, 63, 64, 65, 255]),
        2 => bytes[1] = random.one_of(identifiers),
        3 => near_fields(random, bytes),
        4 => {
            let place = random.between(2, MESSAGE - 1);
            bytes[place] = near_byte(random);
        }
        _ => random.flip(bytes, 1),
    }
}

/// Bytes that are a sound downstream message, or nearly one.
pub fn near_down(random: &mut Random) -> [u8; MESSAGE] {
    let kind = random.between(0, DOWN_KINDS - 1);
    let message = random_down(random, kind);
    let mut bytes = noisy_down(random, &message);
    let identifiers = [0x11, 0x77, 0x80, 0x82, 0x7F, 0x78, id::BER_INTERVAL + 2];
    change(random, &mut bytes, &identifiers);
    bytes
}

/// Bytes that are a sound upstream message, or nearly one.
pub fn near_up(random: &mut Random) -> [u8; MESSAGE] {
    let kind = random.between(0, UP_KINDS - 1);
    let message = random_up(random, kind);
    let mut bytes = noisy_up(random, &message);
    let identifiers = [0x07, 0x77, 0x80, 0x84, 0x7F, 0x78, up_id::SERIAL_NUMBER_ONU];
    change(random, &mut bytes, &identifiers);
    bytes
}

/// A cell of random bytes with the right check bytes, so that its message is
/// looked at.
pub fn checked_cell(random: &mut Random) -> [u8; CELL] {
    let mut bytes: [u8; CELL] = random.array();
    bytes[MESSAGE_AT..MESSAGE_CHECK].copy_from_slice(&near_down(random));
    set_checks(&mut bytes);
    bytes
}
