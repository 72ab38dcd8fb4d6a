//! Measures the proved library against the plain codec on the same cells, in
//! one run, by turns. `bench [ROUNDS [CELLS]]`.

use codec::cell::CELL;
use codec::random::cells::random_cell;
use codec::random::messages::{random_down, DOWN_KINDS};
use codec::random::noise::noisy_cell;
use codec::random::Random;
use codec::{read_cell, rewrite_cell};
use std::hint::black_box;
use std::time::Instant;

extern "C" {
    fn payload_check(bytes: *const u8, length: usize) -> u32;
    fn payload_rewrite(input: *const u8, in_length: usize, out: *mut u8, out_length: usize) -> u32;
}

#[inline(always)]
fn ours_check(bytes: &[u8]) -> u32 {
    // The pointer and the length are those of a slice.
    unsafe { payload_check(bytes.as_ptr(), bytes.len()) }
}

#[inline(always)]
fn ours_rewrite(bytes: &[u8], out: &mut [u8]) -> u32 {
    // Both pointers and lengths are those of slices that do not meet.
    unsafe { payload_rewrite(bytes.as_ptr(), bytes.len(), out.as_mut_ptr(), out.len()) }
}

// The library's functions cannot be inlined, and so the codec's are not either:
// both sides pay for one call.

/// The contents are made, and may be looked at.
#[inline(never)]
fn theirs_contents(bytes: &[u8]) -> u32 {
    match read_cell(bytes) {
        Ok(cell) => {
            black_box(&cell);
            0
        }
        Err(fault) => fault.number(),
    }
}

/// Only the number is asked for: the compiler may drop the contents.
#[inline(never)]
fn theirs_number(bytes: &[u8]) -> u32 {
    match read_cell(bytes) {
        Ok(_) => 0,
        Err(fault) => fault.number(),
    }
}

#[inline(never)]
fn theirs_rewrite(bytes: &[u8], out: &mut [u8]) -> u32 {
    match rewrite_cell(bytes) {
        Ok(again) => {
            out.copy_from_slice(&again);
            0
        }
        Err(fault) => fault.number(),
    }
}

/// Seconds for reading all cells.
fn reading(cells: &[u8], read: impl Fn(&[u8]) -> u32) -> f64 {
    let begin = Instant::now();
    let mut sum = 0;
    for cell in cells.chunks_exact(CELL) {
        sum |= read(black_box(cell));
    }
    let seconds = begin.elapsed().as_secs_f64();
    assert_eq!(sum, 0, "a sound cell is refused");
    seconds
}

/// Seconds for reading all cells and writing them again.
fn rewriting(cells: &[u8], out: &mut [u8], rewrite: impl Fn(&[u8], &mut [u8]) -> u32) -> f64 {
    let begin = Instant::now();
    let mut sum = 0;
    for (cell, room) in cells.chunks_exact(CELL).zip(out.chunks_exact_mut(CELL)) {
        sum |= rewrite(black_box(cell), room);
    }
    let seconds = begin.elapsed().as_secs_f64();
    assert_eq!(sum, 0, "a sound cell is refused");
    seconds
}

fn tell(what: &str, count: usize, ours: f64, theirs: f64) {
    let rate = |seconds: f64| count as f64 / seconds;
    println!("{what}");
    println!("  ours    {:>12.0} cells per second", rate(ours));
    println!("  theirs  {:>12.0} cells per second", rate(theirs));
    println!("  ratio ours/theirs {:.3}", rate(ours) / rate(theirs));
}

fn main() {
    let words: Vec<usize> = std::env::args()
        .skip(1)
        .map_while(|word| word.parse().ok())
        .collect();
    let rounds = words.first().copied().unwrap_or(25).max(1);
    let count = words.get(1).copied().unwrap_or(100_000).max(DOWN_KINDS);

    // Sound cells: each kind of message as often as the others, in random order.
    let mut random = Random::new(1);
    let mut kinds: Vec<usize> = (0..count).map(|i| i % DOWN_KINDS).collect();
    for i in (1..count).rev() {
        kinds.swap(i, random.between(0, i));
    }
    let mut cells = Vec::with_capacity(count * CELL);
    for kind in kinds {
        let mut cell = random_cell(&mut random);
        cell.message = random_down(&mut random, kind);
        cells.extend_from_slice(&noisy_cell(&mut random, &cell));
    }

    let mut out_ours = vec![0; count * CELL];
    let mut out_theirs = vec![0; count * CELL];
    let mut best = [f64::INFINITY; 5];
    for round in 0..rounds {
        // One side first, then the other, changing over each round.
        let order = if round % 2 == 0 {
            [0, 1, 2, 3, 4]
        } else {
            [2, 1, 0, 4, 3]
        };
        for which in order {
            let seconds = match which {
                0 => reading(&cells, ours_check),
                1 => reading(&cells, theirs_contents),
                2 => reading(&cells, theirs_number),
                3 => rewriting(&cells, &mut out_ours, ours_rewrite),
                _ => rewriting(&cells, &mut out_theirs, theirs_rewrite),
            };
            best[which] = seconds.min(best[which]);
        }
    }
    assert!(
        out_ours == out_theirs,
        "the two sides write different cells"
    );

    println!("{count} cells, best of {rounds} rounds by turns (ours: the proved library; theirs: the plain codec)");
    tell(
        "strict reading (theirs gives the contents)",
        count,
        best[0],
        best[1],
    );
    tell(
        "strict reading (theirs gives the number only)",
        count,
        best[0],
        best[2],
    );
    tell("reading and writing again", count, best[3], best[4]);
}
