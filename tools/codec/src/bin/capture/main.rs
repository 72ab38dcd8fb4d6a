//! Prints a sample capture: lines of hex, one cell (48 bytes) or one frame (96
//! bytes) a line, and lines of comment that begin with `#`. Every downstream
//! message occurs in it, and every fault.

mod refused;
mod sound;
mod wrong;

use codec::cell::{set_checks, CELL, GRANTS, MESSAGE_AT, MESSAGE_CHECK};
use codec::hex::Hex;
use codec::{write_cell, write_frame, Cell, Down, Frame, Grant, FRAME, FRAME_GRANTS, MESSAGE};

/// Grants of a cell or a frame, in runs.
const QUIET: &[(u8, usize)] = &[(0xFE, 26), (0xFF, 1)];
const RANGING: &[(u8, usize)] = &[(0xFE, 8), (0xFD, 1), (0xFE, 17)];
const ONE: &[(u8, usize)] = &[(5, 3), (69, 1), (0xFE, 20), (0xFD, 1)];
const TWO: &[(u8, usize)] = &[(5, 6), (69, 1), (6, 6), (70, 1), (100, 2), (0xFE, 11)];
const FULL: &[(u8, usize)] = &[
    (5, 20),
    (69, 1),
    (6, 20),
    (70, 1),
    (100, 4),
    (0xFE, 6),
    (0xFD, 1),
];

/// Grants as runs of a byte and a count, cut or filled up with idle ones.
fn grants<const N: usize>(runs: &[(u8, usize)]) -> [Grant; N] {
    let mut grants = [Grant::IDLE; N];
    let bytes = runs
        .iter()
        .flat_map(|&(byte, count)| std::iter::repeat_n(byte, count));
    for (grant, byte) in grants.iter_mut().zip(bytes) {
        *grant = Grant(byte);
    }
    grants
}

struct Capture {
    /// Cells so far: the counter that goes into the synchronization bytes.
    count: u16,
    /// Lines of hex so far.
    lines: usize,
}

impl Capture {
    fn say(&self, text: &str) {
        println!("# {text}");
    }

    /// Puts into a cell what the line adds to it: the counter in bytes 2 and 3,
    /// some parity in byte 48. Neither is checked.
    fn stamp(&mut self, cell: &mut [u8]) {
        self.count = self.count.wrapping_add(1484) & 0x7FFF;
        cell[1..3].copy_from_slice(&self.count.to_be_bytes());
        cell[47] = cell[..47].iter().fold(0, |sum, byte| sum ^ byte);
    }

    fn cell(&mut self, first: bool, runs: &[(u8, usize)], message: Down) -> [u8; CELL] {
        let mut bytes = write_cell(&Cell {
            first,
            grants: grants::<GRANTS>(runs),
            message,
        });
        self.stamp(&mut bytes);
        bytes
    }

    fn frame(&mut self, runs: &[(u8, usize)], messages: [Down; 2]) -> [u8; FRAME] {
        let mut bytes = write_frame(&Frame {
            grants: grants::<FRAME_GRANTS>(runs),
            messages,
        });
        for cell in bytes.chunks_mut(CELL) {
            self.stamp(cell);
        }
        bytes
    }

    /// A cell with these message bytes and right check bytes.
    fn raw(&mut self, message: [u8; MESSAGE]) -> [u8; CELL] {
        let mut bytes = self.cell(false, &[(4, 3), (5, 3), (0xFE, 20)], Down::NoMessage);
        set_message(&mut bytes, &message);
        bytes
    }

    /// Prints bytes, on every third line with blanks between them.
    fn show(&mut self, bytes: &[u8]) {
        self.lines += 1;
        if self.lines % 3 == 0 {
            let words: Vec<String> = bytes.iter().map(|byte| format!("{byte:02x}")).collect();
            println!("{}", words.join(" "));
        } else {
            println!("{}", Hex(bytes));
        }
    }

    fn show_cell(&mut self, first: bool, runs: &[(u8, usize)], message: Down) {
        let bytes = self.cell(first, runs, message);
        self.show(&bytes);
    }

    fn show_frame(&mut self, runs: &[(u8, usize)], messages: [Down; 2]) {
        let bytes = self.frame(runs, messages);
        self.show(&bytes);
    }
}

fn set_message(cell: &mut [u8], message: &[u8; MESSAGE]) {
    cell[MESSAGE_AT..MESSAGE_CHECK].copy_from_slice(message);
    set_checks(cell.try_into().unwrap());
}

fn main() {
    let mut c = Capture { count: 0, lines: 0 };
    sound::show(&mut c);
    wrong::show(&mut c);
}
