//! The schedule of slots, and the rounds of a place.

use crate::bench::{number, Bench, Light, SERIAL};
use codec::{read_frame, Access, Down, Grant, Target};
use head::head::Slot;
use head::row::{Alarm, Job};
use head::Head;

fn place_of_message(frame: u64, cell: u64) -> u64 {
    (2 * frame + cell) % 64
}

#[test]
fn figures() {
    let head = Head::new();
    for (frame, place) in [(15, 0), (31, 1), (1_023, 63), (1_039, 0)] {
        let judged = true;
        assert_eq!(head.slot(frame, 53), Slot::Window { place, judged });
        let judged = false;
        assert_eq!(head.slot(frame, 1), Slot::Window { place, judged });
        assert_eq!(head.slot(frame - 1, 34), Slot::Window { place, judged });
        assert_eq!(head.slot(frame - 1, 53), Slot::Window { place, judged });
        assert_eq!(head.slot(frame - 1, 33), Slot::Nobody);
    }
    for (frame, place) in [(14, 14), (16, 15), (68, 0), (0, 0)] {
        assert_eq!(head.slot(frame, 1), Slot::Turn(place));
    }
    assert_eq!([0, 1].map(|cell| place_of_message(31, cell)), [62, 63]);
}

#[test]
fn messages_of_every_job() {
    for place in [0usize, 15, 46, 62, 63] {
        let start = (16 * place as u64 + 23) % 1024;
        let mut bench = Bench::new(12, &[]);
        bench.head.enter(place as u64, SERIAL).unwrap();
        let serial = SERIAL.to_be_bytes();
        let pon_id = place as u8;
        let judged = (1024 + start - 8) % 1024;
        let bring_up = vec![
            Down::UpstreamOverhead {
                guard: 12,
                overhead: [1, 2, 3],
                delay: 0,
            },
            Down::AssignPonId { pon_id, serial },
            Down::GrantAllocation {
                pon_id,
                data: pon_id,
                data_active: true,
                ploam: 64 + pon_id,
                ploam_active: true,
            },
        ];
        let tell = vec![Down::RangingTime { pon_id, delay: 700 }];
        let stop = vec![Down::DeactivatePonId {
            to: Target::One(pon_id),
        }];
        let deny = vec![Down::DisableSerialNumber(Access::Deny(serial))];
        let allow = vec![Down::DisableSerialNumber(Access::Allow(serial))];
        let rounds = [
            (Some(Job::BringUp), bring_up.clone()),
            (Some(Job::Tell), tell),
            (Some(Job::Stop), stop),
            (Some(Job::BringUp), bring_up.clone()),
            (Some(Job::Hold), deny),
            (None, vec![]),
            (Some(Job::Free), allow),
            (Some(Job::BringUp), bring_up),
        ];
        while bench.head.frame() < start {
            bench.one(&[]);
        }
        for (i, (job, said)) in rounds.into_iter().enumerate() {
            let mut turns = 0;
            for _ in 0..1024 {
                let frame = bench.head.frame();
                let contents = read_frame(&bench.send()).unwrap();
                for (cell, message) in (0..).zip(contents.messages) {
                    if place_of_message(frame, cell) != place as u64 {
                        assert_eq!(message, Down::NoMessage);
                        continue;
                    }
                    let expected = said.get(turns / 3).copied().unwrap_or(Down::NoMessage);
                    assert_eq!(message, expected, "place {place}, round {i}, turn {turns}");
                    turns += 1;
                }
                assert_eq!(bench.row(place).running.is_some(), {
                    let passed = (frame - start) % 1024;
                    job.is_some() && passed <= 1016
                });
                let wanted = matches!(job, Some(Job::BringUp | Job::Tell));
                let window = frame % 1024 == judged;
                for (x, grant) in (1..).zip(contents.grants) {
                    if window && wanted && x == 53 {
                        assert_eq!(grant, Grant(64 + pon_id));
                    } else {
                        assert_eq!(grant, Grant::UNASSIGNED);
                    }
                }
                // The first bring-up goes well; all else fails or is not asked.
                if window && i == 0 {
                    bench.settle(&[(53, (2, 8, -700, number(pon_id, SERIAL)))]);
                } else {
                    bench.settle(&[]);
                }
                // In the last frames of a round the next one is chosen.
                if frame % 1024 == (start + 1020) % 1024 {
                    match i {
                        3 => bench.head.hold(place as u64).unwrap(),
                        5 => bench.head.release(place as u64).unwrap(),
                        _ => {}
                    }
                }
            }
            assert_eq!(turns, 32);
        }
    }
}

/// Whether a bring-up with this record succeeds.
fn brought_up(light: Light) -> Result<u32, u64> {
    let mut bench = Bench::new(8, &[]);
    bench.head.enter(0, SERIAL).unwrap();
    bench.dark_until(1039);
    bench.one(&[(53, light)]);
    let row = bench.row(0);
    assert_eq!(row.running, None);
    match row.next {
        Some(Job::Tell) => Ok(row.delay.unwrap()),
        Some(Job::Stop) => {
            assert_eq!(row.delay, None);
            Err(row.failures)
        }
        other => panic!("{other:?}"),
    }
}

#[test]
fn bring_ups() {
    let own = number(64, SERIAL);
    assert_eq!(brought_up((2, 0, -32_000, own)), Ok(32_000));
    assert_eq!(brought_up((2, 8, 0, own)), Ok(0));
    assert_eq!(brought_up((2, 0, -5, number(17, SERIAL))), Ok(5));
    assert_eq!(brought_up((2, 0, -32_001, own)), Err(1));
    assert_eq!(brought_up((2, 0, 1, own)), Err(1));
    assert_eq!(brought_up((2, 0, i32::MIN, own)), Err(1));
    assert_eq!(brought_up((2, 9, 0, own)), Err(1));
    assert_eq!(brought_up((3, 0, 0, own)), Err(1));
    assert_eq!(brought_up((1, 0, 0, own)), Err(1));
    assert_eq!(brought_up((4, 0, 0, own)), Err(1));
    assert_eq!(brought_up((0, 0, 0, own)), Err(0));
    assert_eq!(brought_up((0, 8, 0, own)), Err(0));
    assert_eq!(brought_up((0, 9, 0, own)), Err(1));
    assert_eq!(brought_up((2, 0, 0, number(64, SERIAL + 1))), Err(1));
    let changed = |place: usize, byte: u8| {
        let mut message = own;
        message[place] = byte;
        (2, 0, 0, message)
    };
    assert_eq!(brought_up(changed(0, 65)), Err(1));
    assert_eq!(brought_up(changed(1, 2)), Err(1));
    assert_eq!(brought_up(changed(2, 1)), Err(1));
    assert_eq!(brought_up(changed(11, 255)), Ok(0));
}

#[test]
fn tells() {
    for (guard, close) in [(4, 1), (8, 2), (12, 3), (16, 4)] {
        for (light, served) in [
            ((2, 0, close, [9; 12]), true),
            ((2, 8, -close, [0; 12]), true),
            ((2, 0, close + 1, [9; 12]), false),
            ((2, 0, -close - 1, [9; 12]), false),
            ((2, 0, i32::MIN, [9; 12]), false),
            ((2, 9, 0, [9; 12]), false),
            ((3, 0, 0, [9; 12]), false),
        ] {
            let mut bench = Bench::new(guard, &[]);
            bench.head.enter(0, SERIAL).unwrap();
            bench.dark_until(1039);
            bench.one(&[(53, (2, 0, -9, number(64, SERIAL)))]);
            bench.dark_until(2063);
            bench.one(&[(53, light)]);
            let row = bench.row(0);
            assert_eq!(row.in_service(), served);
            assert_eq!(row.next, (!served).then_some(Job::Stop));
            assert_eq!(row.failures, u64::from(!served));
            assert_eq!(row.delay, Some(9));
        }
    }
}

/// Two failures with light raise SUF, whatever comes between; service clears it.
#[test]
fn start_up_failures() {
    let mut bench = Bench::new(8, &[]);
    bench.head.enter(0, SERIAL).unwrap();
    let mut round = |frame: u64, light: Light| {
        bench.dark_until(frame);
        bench.one(&[(53, light)]);
        bench.row(0)
    };
    let own = number(64, SERIAL);
    let bad = (1, 0, 0, [0; 12]);
    let good = (2, 0, 0, own);
    let windows = |n: u64| 15 + 1024 * n;
    assert_eq!(round(windows(1), bad).failures, 1);
    assert_eq!(round(windows(2), bad).next, Some(Job::BringUp));
    let row = round(windows(3), (0, 0, 0, own));
    assert_eq!(row.failures, 1);
    assert_eq!(round(windows(4), bad).next, Some(Job::BringUp));
    assert_eq!(round(windows(5), good).next, Some(Job::Tell));
    let row = round(windows(6), bad);
    assert_eq!(row.failures, 2);
    assert!(row.alarms.has(Alarm::Suf));
    assert_eq!(row.cause, None);
    round(windows(7), bad);
    let row = round(windows(8), bad);
    assert_eq!(row.failures, 3);
    assert!(row.alarms.has(Alarm::Suf));
    round(windows(9), bad);
    round(windows(10), good);
    let row = round(windows(11), good);
    assert!(row.in_service());
    assert!(!row.alarms.any());
    assert_eq!(row.failures, 0);
}
