//! Dockets, and what counts when frames are settled late.

use crate::bench::{number, Bench, SERIAL};
use codec::FRAME;
use head::head::{Docket, NOBODY};
use head::row::{Alarm, Job};
use head::{Head, Refusal};
use plants::REPORT;

/// Records before service, and of frames that were sent before it, do not count.
#[test]
fn late_settling() {
    let mut bench = Bench::new(8, &[0; 52]);
    bench.head.enter(0, SERIAL).unwrap();
    bench.dark_until(1039);
    bench.one(&[(53, (2, 0, 0, number(0, SERIAL)))]);
    bench.dark_until(2063);
    for _ in 0..4 {
        bench.send();
    }
    assert_eq!(bench.head.send(&mut [0; FRAME]), Err(Refusal::Dockets));
    bench.settle(&[(53, (2, 0, 0, [0; 12]))]);
    assert_eq!(bench.row(0).since, 2067);
    for _ in 0..3 {
        bench.settle(&[]);
        assert_eq!((bench.row(0).dark, bench.row(0).in_service()), (0, true));
    }
    bench.one(&[]);
    assert_eq!(bench.row(0).cause, Some(Alarm::Los));
}

/// A hold between sending and settling leaves nothing to judge.
#[test]
fn hold_before_the_judgement() {
    let mut bench = Bench::new(8, &[]);
    bench.head.enter(0, SERIAL).unwrap();
    bench.dark_until(1039);
    bench.send();
    bench.head.hold(0).unwrap();
    bench.settle(&[(53, (2, 0, 0, number(0, SERIAL)))]);
    let row = bench.row(0);
    assert_eq!(
        (row.next, row.delay, row.failures),
        (Some(Job::Hold), None, 0)
    );
    bench.head.release(0).unwrap();
    assert_eq!(bench.row(0).next, Some(Job::Free));
    assert_eq!(bench.head.release(0), Err(Refusal::NotHeld));
}

#[test]
fn the_last_frame() {
    let mut head = Head::new();
    let calendar = [NOBODY; 52];
    let last = (1 << 48) - 1024;
    assert_eq!(
        head.set_up(4, [0; 3], 1 << 48, &calendar),
        Err(Refusal::FirstFrame)
    );
    head.set_up(4, [0; 3], last, &calendar).unwrap();
    for frame in last..1 << 48 {
        let docket = head.send(&mut [0; FRAME]).unwrap();
        assert_eq!(docket.frame, frame);
        assert_eq!(head.set_up(4, [0; 3], 0, &calendar), Err(Refusal::Begun));
        head.settle(docket, &[0; REPORT]).unwrap();
    }
    assert_eq!(head.send(&mut [0; FRAME]), Err(Refusal::FrameLimit));
    assert_eq!(head.send(&mut [0; 95]), Err(Refusal::Buffer));
}

/// A docket that is not the oldest comes back.
#[test]
fn dockets() {
    let mut head = Head::new();
    let first = head.send(&mut [0; FRAME]).unwrap();
    let second = head.send(&mut [0; FRAME]).unwrap();
    let (refusal, second) = head.settle(second, &[0; REPORT]).unwrap_err();
    assert_eq!((refusal, second.frame), (Refusal::NotOldest, 1));
    let (refusal, first) = head.settle(first, &[0; REPORT - 1]).unwrap_err();
    assert_eq!((refusal, first.frame), (Refusal::Report, 0));
    head.settle(first, &[0; REPORT]).unwrap();
    let other = Docket { frame: 7 };
    assert_eq!(head.settle(other, &[]).unwrap_err().0, Refusal::NotOldest);
    head.settle(second, &[0; REPORT]).unwrap();
}
