//! `compare COUNT [START]` holds the proved library against the plain codec on
//! COUNT random inputs, and on every pair of identifier and address.

use codec::cell::{set_checks, write_cell, CELL, MESSAGE_AT};
use codec::hex::Hex;
use codec::random::cells::random_cell;
use codec::random::near::checked_cell;
use codec::random::noise::noisy_cell;
use codec::random::Random;
use codec::{read_cell, rewrite_cell};
use std::process::ExitCode;

extern "C" {
    fn payload_check(bytes: *const u8, length: usize) -> u32;
    fn payload_rewrite(input: *const u8, in_length: usize, out: *mut u8, out_length: usize) -> u32;
}

/// What the bytes around and in an output hold before the call.
const UNTOUCHED: u8 = 0xA5;
/// Bytes on each side of an output, which must stay as they are.
const MARGIN: usize = 16;
/// The number of a wrong length.
const LENGTH: u32 = 15;

fn check(bytes: &[u8]) -> u32 {
    // The pointer and the length are those of a slice.
    unsafe { payload_check(bytes.as_ptr(), bytes.len()) }
}

/// Lets the library write to `length` bytes between two margins, and gives its
/// answer, the bytes, and whether the margins are as they were.
fn rewrite(bytes: &[u8], length: usize) -> (u32, Vec<u8>, bool) {
    let mut room = vec![UNTOUCHED; length + 2 * MARGIN];
    let out = &mut room[MARGIN..MARGIN + length];
    // Both pointers and lengths are those of slices that do not meet.
    let number =
        unsafe { payload_rewrite(bytes.as_ptr(), bytes.len(), out.as_mut_ptr(), out.len()) };
    let written = out.to_vec();
    let kept = room[..MARGIN]
        .iter()
        .chain(&room[MARGIN + length..])
        .all(|&byte| byte == UNTOUCHED);
    (number, written, kept)
}

/// Where the library and the codec differ on these bytes, if they do.
fn difference(bytes: &[u8], out_length: usize) -> Option<String> {
    let wanted = match read_cell(bytes) {
        Ok(_) => 0,
        Err(fault) => fault.number(),
    };
    let number = check(bytes);
    if number != wanted {
        return Some(format!(
            "check differs: {} gives {number}, not {wanted}",
            Hex(bytes)
        ));
    }
    let (number, written, kept) = rewrite(bytes, out_length);
    // The reading is asked before the length of the output.
    let right_number = if wanted == 0 && out_length != CELL {
        number == LENGTH
    } else {
        number == wanted
    };
    let right_bytes = match rewrite_cell(bytes) {
        Ok(again) if out_length == CELL => written == again,
        _ => written.iter().all(|&byte| byte == UNTOUCHED),
    };
    if !(right_number && right_bytes && kept) {
        return Some(format!(
            "rewrite differs: {} to {out_length} bytes gives {number} and {}, margins kept: {kept}",
            Hex(bytes),
            Hex(&written)
        ));
    }
    None
}

/// Counts of what was compared.
#[derive(Default)]
struct Tally {
    compared: u64,
    differ: u64,
    /// By answer: read, length, check byte, message.
    answers: [u64; 4],
}

impl Tally {
    fn compare(&mut self, bytes: &[u8], out_length: usize) {
        self.compared += 1;
        let answer = match read_cell(bytes) {
            Ok(_) => 0,
            Err(fault) => fault.number() as usize - 14,
        };
        self.answers[answer] += 1;
        if let Some(text) = difference(bytes, out_length) {
            self.differ += 1;
            // The first ones are enough to look at.
            if self.differ <= 20 {
                println!("{text}");
            }
        }
    }
}

const KINDS: [&str; 8] = [
    "sound, as written",
    "sound, with loose bits set",
    "right check bytes, near message",
    "right check bytes, random message",
    "damaged by 1 to 3 bits",
    "random",
    "other length",
    "output of another length",
];

fn make(random: &mut Random, kind: usize) -> (Vec<u8>, usize) {
    let cell = random_cell(random);
    let mut out_length = CELL;
    let bytes = match kind {
        0 => write_cell(&cell).to_vec(),
        1 => noisy_cell(random, &cell).to_vec(),
        2 => checked_cell(random).to_vec(),
        3 => {
            let mut bytes: [u8; CELL] = random.array();
            set_checks(&mut bytes);
            bytes.to_vec()
        }
        4 => {
            let mut bytes = noisy_cell(random, &cell);
            let count = random.between(1, 3);
            random.flip(&mut bytes, count);
            bytes.to_vec()
        }
        5 => random.bytes(CELL),
        6 => {
            let length = if random.flag() {
                random.one_of(&[0, 1, 46, 47, 49, 50, 95, 96, 97])
            } else {
                random.between(0, 200)
            };
            let mut bytes = noisy_cell(random, &cell).repeat(5);
            bytes.truncate(length);
            bytes
        }
        _ => {
            out_length = random.one_of(&[0, 1, 47, 49, 96]);
            if random.flag() {
                noisy_cell(random, &cell).to_vec()
            } else {
                checked_cell(random).to_vec()
            }
        }
    };
    (bytes, out_length)
}

fn main() -> ExitCode {
    let words: Vec<u64> = std::env::args()
        .skip(1)
        .map_while(|word| word.parse().ok())
        .collect();
    let count = words.first().copied().unwrap_or(1_000_000);
    let start = words.get(1).copied().unwrap_or(1);
    let mut random = Random::new(start);
    let mut tally = Tally::default();

    let mut by_kind = [0u64; KINDS.len()];
    for _ in 0..count {
        let kind = random.between(0, KINDS.len() - 1);
        let (bytes, out_length) = make(&mut random, kind);
        by_kind[kind] += 1;
        tally.compare(&bytes, out_length);
    }
    for identifier in 0..=255 {
        for address in 0..=255 {
            let mut bytes: [u8; CELL] = random.array();
            bytes[MESSAGE_AT] = address;
            bytes[MESSAGE_AT + 1] = identifier;
            set_checks(&mut bytes);
            tally.compare(&bytes, CELL);
        }
    }

    for (name, count) in KINDS.iter().zip(by_kind) {
        println!("{count:>10} {name}");
    }
    println!("{:>10} every identifier and address", 256 * 256);
    let [read, length, check, message] = tally.answers;
    println!("answers: {read} read, {length} of length, {check} of a check byte, {message} of the message");
    println!("{} compared, {} differ", tally.compared, tally.differ);
    if tally.differ > 0 {
        ExitCode::FAILURE
    } else {
        ExitCode::SUCCESS
    }
}
