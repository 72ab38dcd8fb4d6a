//! Messages that are refused.

use codec::MESSAGE;

/// A message with one thing wrong, and what it is.
pub const REFUSED: &[(&str, [u8; MESSAGE])] = &[
    ("identifier 17", [64, 0x11, 0, 0, 0, 0, 0, 0, 0, 0, 0, 0]),
    ("identifier 119", [64, 0x77, 0, 0, 0, 0, 0, 0, 0, 0, 0, 0]),
    (
        "identifier 130, and an address that nobody has",
        [200, 0x82, 0, 0, 0, 0, 0, 0, 0, 0, 0, 0],
    ),
    ("POPUP for one ONU", [9, 0x10, 0, 0, 0, 0, 0, 0, 0, 0, 0, 0]),
    (
        "ranging time for all ONUs",
        [64, 0x03, 0, 0x10, 0, 0, 0, 0, 0, 0, 0, 0],
    ),
    (
        "deactivation of ONU 65",
        [65, 0x06, 0, 0, 0, 0, 0, 0, 0, 0, 0, 0],
    ),
    (
        "receiver control, part 2",
        [
            64, 0x01, 2, 0xAA, 0xAA, 0xAA, 0xAA, 0xAA, 0xAA, 0xAA, 0xAA, 0xAA,
        ],
    ),
    (
        "overhead with 3 guard bits",
        [64, 0x02, 3, 0xAA, 0x55, 0xAA, 0, 0, 0, 0, 0, 0],
    ),
    (
        "overhead with 25 guard bits",
        [64, 0x02, 25, 0xAA, 0x55, 0xAA, 0, 0, 0, 0, 0, 0],
    ),
    (
        "overhead with a delay of 32001",
        [64, 0x02, 8, 0xAA, 0x55, 0xAA, 0, 0, 1, 0x00, 0x7D, 0x01],
    ),
    (
        "ranging time with a delay of 32001",
        [5, 0x03, 0x00, 0x7D, 0x01, 0, 0, 0, 0, 0, 0, 0],
    ),
    (
        "serial number mask of 65 bits",
        [64, 0x04, 65, 0x41, 0x42, 0x43, 0x44, 0, 0, 0x12, 0x34, 0],
    ),
    (
        "number 64 assigned",
        [64, 0x05, 64, 0x41, 0x42, 0x43, 0x44, 0, 0, 0x12, 0x34, 0],
    ),
    (
        "access byte 16",
        [64, 0x07, 0x10, 0x41, 0x42, 0x43, 0x44, 0, 0, 0x12, 0x34, 0],
    ),
    (
        "key update with count 0",
        [5, 0x09, 0, 0, 0, 0, 0, 0, 0, 0, 0, 0],
    ),
    (
        "key update with count 4",
        [5, 0x09, 4, 0, 0, 0, 0, 0, 0, 0, 0, 0],
    ),
    (
        "grant allocation, the data grant is the ranging grant",
        [5, 0x0A, 0xFD, 1, 69, 1, 0, 0, 0, 0, 0, 0],
    ),
    (
        "grant allocation, first flag 2",
        [5, 0x0A, 5, 2, 69, 1, 0, 0, 0, 0, 0, 0],
    ),
    (
        "grant allocation, the PLOAM grant is the idle grant",
        [5, 0x0A, 5, 1, 0xFF, 1, 0, 0, 0, 0, 0, 0],
    ),
    (
        "grant allocation, second flag 129",
        [5, 0x0A, 5, 1, 69, 0x81, 0, 0, 0, 0, 0, 0],
    ),
    (
        "minislot, flag 3",
        [5, 0x0B, 3, 100, 10, 0, 0, 0, 0, 0, 0, 0],
    ),
    (
        "minislot, the unassigned grant",
        [5, 0x0B, 1, 0xFE, 10, 0, 0, 0, 0, 0, 0, 0],
    ),
    (
        "minislot, offset 53",
        [5, 0x0B, 1, 100, 1, 53, 0, 0, 0, 0, 0, 0],
    ),
    (
        "minislot of no bytes",
        [5, 0x0B, 1, 100, 0, 0, 0, 0, 0, 0, 0, 0],
    ),
    (
        "minislot that passes the end of its slot by one byte",
        [5, 0x0B, 1, 100, 14, 40, 0, 0, 0, 0, 0, 0],
    ),
    (
        "path configuration, flag 2",
        [5, 0x0C, 2, 0, 0x10, 0x02, 0x00, 0xFF, 0xFF, 0xFF, 0xF0, 0],
    ),
    (
        "churned path with a low bit set",
        [5, 0x0F, 1, 0x12, 0x31, 0, 0, 0, 0, 0, 0, 0],
    ),
    (
        "protection switching, line 2",
        [64, 0x80, 2, 0x10, 0x20, 0, 0, 0, 0, 0, 0, 0],
    ),
];
