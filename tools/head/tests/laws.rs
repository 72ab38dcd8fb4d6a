//! What holds over whole runs.

use codec::cell::{GRANTS, GROUPS, MESSAGE_AT, MESSAGE_CHECK};
use codec::random::Random;
use codec::{CELL, FRAME};
use head::call::{Call, Order};
use head::head::{Head, Slot};
use head::random::Maker;
use head::replay::Session;
use head::text::row_line;
use head::whole;
use head::{FRAME_SLOTS, PLACES};
use plants::receiver::RECORD;
use plants::REPORT;

fn random_script(start: u64) -> String {
    let mut out = Vec::new();
    Maker::new(start, &mut out).script().unwrap();
    String::from_utf8(out).unwrap()
}

/// A script of a whole line; bursts that overlap are an error.
fn line_script(draw: u64) -> String {
    let mut out = Vec::new();
    whole::script(draw, Some(3_300), &mut out).unwrap();
    String::from_utf8(out).unwrap()
}

/// The place that a slot belongs to, if any.
fn owner(head: &Head, frame: u64, x: usize) -> Option<usize> {
    match head.slot(frame, x) {
        Slot::Window { place, .. } | Slot::Turn(place) | Slot::Calendar(place) => Some(place),
        Slot::Nobody => None,
    }
}

/// A frame as it is compared: without the grants of all slots of a place, its
/// messages and all check bytes.
fn without(head: &Head, place: usize, frame: u64, bytes: &[u8]) -> Vec<u8> {
    let mut bytes = bytes.to_vec();
    for (j, cell) in bytes.chunks_exact_mut(CELL).enumerate() {
        let mut at = 0;
        for (first, count) in GROUPS {
            for grant in &mut cell[first..first + count] {
                let x = j * GRANTS + at + 1;
                if x <= FRAME_SLOTS && owner(head, frame, x) == Some(place) {
                    *grant = 0;
                }
                at += 1;
            }
            cell[first + count] = 0;
        }
        if (2 * frame + j as u64) % 64 == place as u64 {
            cell[MESSAGE_AT..MESSAGE_CHECK].fill(0);
        }
        cell[MESSAGE_CHECK] = 0;
    }
    bytes
}

/// Runs a script twice, the second time with other light in the slots of one
/// place, and asks that all else stays the same.
fn independent(script: &str, place: usize, random: &mut Random) {
    let mut one = Session::new();
    let mut two = Session::new();
    let style = random.below(3);
    for line in script.lines() {
        let Ok(call) = Call::read(line) else { continue };
        match &call {
            Call::Send(96) => {
                let (mut first, mut second) = ([0; FRAME], [0; FRAME]);
                let sent = one.send(&mut first);
                assert_eq!(sent, two.send(&mut second));
                if let Ok(frame) = sent {
                    assert_eq!(
                        without(one.head(), place, frame, &first),
                        without(two.head(), place, frame, &second)
                    );
                }
            }
            Call::Settle(report) if report.len() == REPORT => {
                let mut other = report.clone();
                if let Some(frame) = one.oldest() {
                    for (i, record) in other.chunks_exact_mut(RECORD).enumerate() {
                        if owner(one.head(), frame, i + 1) == Some(place) {
                            match style {
                                0 => record.fill(0),
                                1 => random.fill(record),
                                _ => record[0] = random.up_to(3),
                            }
                        }
                    }
                }
                assert_eq!(one.settle(report), two.settle(&other));
            }
            Call::Order(Order::Look(at)) if *at == place as u64 => {}
            Call::Dump => {
                for other in (0..PLACES).filter(|&other| other != place) {
                    assert_eq!(
                        row_line(other, one.head().row(other)),
                        row_line(other, two.head().row(other))
                    );
                }
            }
            _ => {
                let (mut first, mut second) = (Vec::new(), Vec::new());
                one.run(&call, &mut first).unwrap();
                two.run(&call, &mut second).unwrap();
                assert_eq!(first, second);
            }
        }
    }
}

#[test]
fn places_are_independent() {
    let mut random = Random::new(3);
    for draw in 0..40 {
        let script = if draw % 5 == 0 {
            line_script(draw)
        } else {
            random_script(random.next_u64())
        };
        // Places that the script uses, and any other one.
        let used: Vec<usize> = script
            .lines()
            .filter_map(|line| match Call::read(line) {
                Ok(Call::Order(Order::Enter { place, .. })) if place < PLACES as u64 => {
                    Some(place as usize)
                }
                _ => None,
            })
            .collect();
        let any = random.between(0, PLACES - 1);
        let place = if used.is_empty() || random.once_in(8) {
            any
        } else {
            random.one_of(&used)
        };
        independent(&script, place, &mut random);
    }
}

/// The same script for the same start, and answers to every line of it.
#[test]
fn scripts_repeat() {
    for draw in 0..30 {
        let script = random_script(draw);
        assert_eq!(script, random_script(draw));
        let mut session = Session::new();
        for line in script.lines() {
            let mut out = Vec::new();
            session.read(line, &mut out).unwrap();
            let passed = line.is_empty() || line.starts_with('#');
            let count = match line {
                "dump" => PLACES,
                _ => usize::from(!passed),
            };
            assert_eq!(out.iter().filter(|&&byte| byte == b'\n').count(), count);
        }
        assert_eq!(session.oldest(), None);
    }
}

#[test]
fn bursts_do_not_overlap() {
    for draw in 100..130 {
        line_script(draw);
    }
}
