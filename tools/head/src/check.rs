//! The self-test: figures that are known.

use crate::call::{Call, Order};
use crate::head::{Head, Slot};
use crate::replay::Session;
use crate::FRAME_SLOTS;
use codec::{CELL, FRAME};
use plants::receiver::offset;
use plants::{report, BenchOnu, BurstList, Line, FRAME_SLOTS as SLOTS, REPORT};
use std::io::{self, Write};
use std::process::ExitCode;

/// The offset of the ONU's burst in frame 1,039, and the frame whose settling
/// brought it into service, if any of 2,200 did.
fn one_onu() -> (Option<i128>, Option<u64>) {
    let mut session = Session::new();
    let mut line = Line::new();
    line.put(0, BenchOnu::new(1, 20_000));
    let enter = Call::Order(Order::Enter {
        place: 0,
        serial: 1,
    });
    session.run(&enter, &mut io::sink()).expect("no output");
    let mut measured = None;
    for _ in 0..2_200 {
        let mut buffer = [0; FRAME];
        let frame = session.send(&mut buffer).expect("sent");
        let mut list = BurstList::new(10_000);
        for (i, cell) in buffer.chunks_exact(CELL).enumerate() {
            line.hear(cell, SLOTS * frame + 27 * i as u64, &mut list)
                .expect("heard");
        }
        if frame == 1_039 {
            measured = list.bursts().first().map(offset);
        }
        let report: [u8; REPORT] =
            report(frame, list.bursts(), &[0; FRAME_SLOTS]).expect("53 marks");
        session.settle(&report).expect("settled");
        if session.head().row(0).is_some_and(|row| row.in_service()) {
            return (measured, Some(frame));
        }
    }
    (measured, None)
}

/// Prints each figure and whether it holds.
pub fn check(mut out: impl Write) -> ExitCode {
    let head = Head::new();
    let judged = |frame: u64| match head.slot(frame, FRAME_SLOTS) {
        Slot::Window {
            place,
            judged: true,
        } => Some(place),
        _ => None,
    };
    let turn = |frame: u64| match head.slot(frame, 1) {
        Slot::Turn(place) => Some(place),
        _ => None,
    };
    let (measured, served) = one_onu();
    let figures = [
        (
            "windows",
            [15, 31, 1_023, 1_039].map(judged) == [Some(0), Some(1), Some(63), Some(0)],
        ),
        (
            "turns",
            [14, 16, 68].map(turn) == [Some(14), Some(15), Some(0)],
        ),
        ("offset -15392 in frame 1039", measured == Some(-15_392)),
        ("in service on settling 2063", served == Some(2_063)),
    ];
    let mut wrong = 0;
    for (name, holds) in figures {
        let said = if holds { "ok" } else { "wrong" };
        wrong += u32::from(!holds);
        if writeln!(out, "{name}: {said}").is_err() {
            return ExitCode::FAILURE;
        }
    }
    if wrong == 0 && out.flush().is_ok() {
        ExitCode::SUCCESS
    } else {
        ExitCode::FAILURE
    }
}
