//! `vectors START COUNT` prints test vectors: a fixed block of edge cases, then
//! COUNT random ones from the start value START. One vector a line, the fields
//! separated by tabs:
//!
//! ```text
//! crc    HEX  the check byte
//! cell   HEX  the line  the cell written again, or -
//! frame  HEX  the line  the frame written again, or -
//! up     HEX  the line  the message written again, or -
//! ```

mod any;
mod cells;
mod fields;
mod frames;
mod messages;

use codec::cell::{cell_line, set_checks, CELL, MESSAGE_AT, MESSAGE_CHECK};
use codec::crc::{crc8, crc8_bitwise};
use codec::frame::frame_line;
use codec::hex::Hex;
use codec::random::Random;
use codec::{rewrite_cell, rewrite_frame, Up, MESSAGE};
use std::io::{self, BufWriter, Write};
use std::process::ExitCode;

struct Vectors<W: Write> {
    out: W,
    random: Random,
}

impl<W: Write> Vectors<W> {
    fn crc(&mut self, bytes: &[u8]) -> io::Result<()> {
        let check = crc8_bitwise(bytes);
        assert_eq!(check, crc8(bytes));
        writeln!(self.out, "crc\t{}\t{check:02x}", Hex(bytes))
    }

    fn cell(&mut self, bytes: &[u8]) -> io::Result<()> {
        write!(self.out, "cell\t{}\t{}\t", Hex(bytes), cell_line(bytes))?;
        match rewrite_cell(bytes) {
            Ok(again) => writeln!(self.out, "{}", Hex(&again)),
            Err(_) => writeln!(self.out, "-"),
        }
    }

    fn frame(&mut self, bytes: &[u8]) -> io::Result<()> {
        write!(self.out, "frame\t{}\t{}\t", Hex(bytes), frame_line(bytes))?;
        match rewrite_frame(bytes) {
            Ok(again) => writeln!(self.out, "{}", Hex(&again)),
            Err(_) => writeln!(self.out, "-"),
        }
    }

    fn up(&mut self, bytes: &[u8; MESSAGE]) -> io::Result<()> {
        write!(self.out, "up\t{}\t", Hex(bytes))?;
        match Up::read(bytes) {
            Ok(message) => writeln!(self.out, "{message}\t{}", Hex(&message.write())),
            Err(cause) => writeln!(self.out, "{cause}\t-"),
        }
    }

    /// A cell with these message bytes, short grants and right check bytes.
    fn down(&mut self, message: &[u8; MESSAGE]) -> io::Result<()> {
        let bytes = self.around(message);
        self.cell(&bytes)
    }

    fn around(&mut self, message: &[u8; MESSAGE]) -> [u8; CELL] {
        let mut bytes = [0; CELL];
        let grant = self.random.one_of(&[0xFF, 0xFE, 0xFD, 0, 252]);
        bytes[3..33].fill(grant);
        bytes[0] = self.random.byte();
        bytes[1] = self.random.byte();
        bytes[2] = self.random.byte();
        bytes[47] = self.random.byte();
        bytes[MESSAGE_AT..MESSAGE_CHECK].copy_from_slice(message);
        set_checks(&mut bytes);
        bytes
    }

    fn crc_edges(&mut self) -> io::Result<()> {
        self.crc(&[])?;
        self.crc(b"123456789")?;
        self.crc(&[0, 0, 0, 0, 0, 0, 0x0D])?;
        for byte in 0..=255 {
            self.crc(&[byte])?;
        }
        for length in 2..=16 {
            self.crc(&vec![0; length])?;
            self.crc(&vec![0xFF; length])?;
        }
        for bit in 0..56 {
            let mut bytes = [0; 7];
            bytes[bit / 8] = 0x80 >> (bit % 8);
            self.crc(&bytes)?;
        }
        for length in [2, 6, 7, 12, 12, 13, 48, 64] {
            let bytes = self.random.bytes(length);
            self.crc(&bytes)?;
        }
        Ok(())
    }
}

fn run(start: u64, count: u64) -> io::Result<()> {
    let out = BufWriter::new(io::stdout().lock());
    let mut vectors = Vectors {
        out,
        random: Random::new(0x0050_4C4F_414D),
    };
    vectors.crc_edges()?;
    vectors.cell_edges()?;
    vectors.down_edges()?;
    vectors.frame_edges()?;
    vectors.up_edges()?;
    vectors.random = Random::new(start);
    for _ in 0..count {
        vectors.one()?;
    }
    vectors.out.flush()
}

fn main() -> ExitCode {
    let numbers: Vec<u64> = std::env::args()
        .skip(1)
        .map_while(|word| word.parse().ok())
        .collect();
    let [start, count] = numbers[..] else {
        eprintln!("usage: vectors START COUNT");
        return ExitCode::from(2);
    };
    match run(start, count) {
        Ok(()) => ExitCode::SUCCESS,
        Err(error) => {
            eprintln!("vectors: {error}");
            ExitCode::FAILURE
        }
    }
}
