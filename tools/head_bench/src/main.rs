//! Measures the proved head against the plain one on the same frames of a full
//! line, in one run, by turns: `head_bench PROGRAM [ROUNDS [FRAMES]]`, where
//! PROGRAM is the one built from crates/head_bench.

use head::Head;
use std::process::{Command, ExitCode};
use std::time::Instant;

/// Frames that a line of 155.52 Mbit/s sends in a second, 56 cells of 53 bytes each, rounded up.
const LINE: f64 = 6551.0;
/// Frames in which all 64 ONUs come into service.
const START: u64 = 3072;
/// Frames that are sent before the clock starts.
const BEFORE: u64 = 4096;

const RECORD: usize = 18;
const REPORT: usize = 53 * RECORD;

fn serial(place: u64) -> u64 {
    0x4D55_4C4B_0000_0000 + place % 64
}

/// A PLOAM cell first, data after it, nothing in a window.
fn report(step: usize) -> [u8; REPORT] {
    let mut report = [0; REPORT];
    for (k, record) in report.chunks_exact_mut(RECORD).enumerate() {
        record[0] = match k {
            _ if step == 15 || (step == 14 && k >= 33) => 0,
            0 => 2,
            _ => 3,
        };
    }
    report
}

/// The place answers with its number at the end of a window.
fn answer(place: u64) -> [u8; REPORT] {
    let mut report = [0; REPORT];
    let record = &mut report[REPORT - RECORD..];
    record[0] = 2;
    record[6] = (place % 64) as u8;
    record[7] = 3;
    record[9..17].copy_from_slice(&serial(place).to_be_bytes());
    report
}

/// A line whose 64 places and whole calendar are in use.
struct Full {
    head: Head,
    frame: u64,
    buffer: [u8; 96],
    sum: u64,
}

impl Full {
    fn new() -> Full {
        let mut head = Head::new();
        let calendar: Vec<u8> = (0..52).collect();
        head.set_up(8, [0xAA, 0x55, 0xAA], 0, &calendar)
            .expect("sound");
        for place in 0..64 {
            head.enter(place, serial(place)).expect("sound");
        }
        let mut full = Full {
            head,
            frame: 0,
            buffer: [0; 96],
            sum: 0,
        };
        for frame in 0..START {
            if frame % 16 == 15 {
                full.frame(&answer(frame / 16));
            } else {
                full.frame(&report((frame % 16) as usize));
            }
        }
        full
    }

    fn frame(&mut self, report: &[u8; REPORT]) {
        let docket = self.head.send(&mut self.buffer).expect("sent");
        self.head.settle(docket, report).expect("settled");
        for word in self.buffer.chunks_exact(8) {
            let word = u64::from_be_bytes(word.try_into().expect("eight"));
            self.sum = self.sum.rotate_left(5) ^ word;
        }
        self.frame += 1;
    }

    fn frames(&mut self, count: u64) {
        let reports: [[u8; REPORT]; 16] = std::array::from_fn(report);
        for _ in 0..count {
            self.frame(&reports[(self.frame % 16) as usize]);
        }
    }
}

/// Seconds for so many frames, and the sum of what was sent.
fn theirs(frames: u64) -> (f64, u64) {
    let mut full = Full::new();
    let serving = (0..64).filter(|&place| full.head.row(place).is_some_and(|row| row.in_service()));
    assert_eq!(serving.count(), 64);
    full.frames(BEFORE);
    let begin = Instant::now();
    full.frames(frames);
    (begin.elapsed().as_secs_f64(), full.sum)
}

/// The same as the proved program measures it.
fn ours(program: &str, frames: u64) -> Option<(f64, u64)> {
    let said = Command::new(program)
        .arg(frames.to_string())
        .output()
        .ok()?;
    let said = String::from_utf8(said.stdout).ok()?;
    let mut words = said.split_whitespace();
    if words.next()?.parse() != Ok(frames) {
        return None;
    }
    let nanoseconds: f64 = words.next()?.parse().ok()?;
    let sum = u64::from_str_radix(words.next()?, 16).ok()?;
    Some((nanoseconds / 1e9, sum))
}

fn tell(who: &str, frames: u64, seconds: f64) {
    let rate = frames as f64 / seconds;
    println!(
        "  {who:<7} {rate:>12.0} frames per second, {:.0} times the line's {LINE:.0}",
        rate / LINE
    );
}

fn main() -> ExitCode {
    let words: Vec<String> = std::env::args().skip(1).collect();
    let Some(program) = words.first() else {
        eprintln!("usage: head_bench PROGRAM [ROUNDS [FRAMES]]");
        return ExitCode::from(2);
    };
    let number = |i: usize| words.get(i).and_then(|word| word.parse().ok());
    let rounds: u64 = number(1).unwrap_or(15).max(1);
    let frames: u64 = number(2).unwrap_or(200_000).max(1);
    let mut best = [f64::INFINITY; 2];
    for _ in 0..rounds {
        let Some((seconds, sum)) = ours(program, frames) else {
            eprintln!("head_bench: {program} does not answer");
            return ExitCode::from(2);
        };
        let (plain, plain_sum) = theirs(frames);
        assert_eq!(sum, plain_sum, "the two heads send different frames");
        best = [seconds.min(best[0]), plain.min(best[1])];
    }
    println!("send and settle with 64 ONUs in service and a full calendar");
    println!("{frames} frames, best of {rounds} rounds by turns (ours: the proved head; theirs: the plain one)");
    tell("ours", frames, best[0]);
    tell("theirs", frames, best[1]);
    println!("  ratio ours/theirs {:.3}", best[1] / best[0]);
    ExitCode::SUCCESS
}
