//! Alarms of an ONU in service.

use crate::bench::{Bench, Light};
use head::head::Slot;
use head::row::{Alarm, Job, Phase, Row};

const GOOD_DATA: Light = (3, 0, 0, [0; 12]);
const DARK: Light = (0, 0, 0, [0; 12]);
const BROKEN: Light = (1, 0, 0, [0; 12]);

/// Reports of frame after frame for X 2 alone, which is place 0's.
fn served(guard: u64, lights: &[Light]) -> Row {
    let mut bench = Bench::new(guard, &[0]);
    bench.serve();
    for &light in lights {
        // PLOAM turns and windows are passed over with good ones.
        loop {
            let frame = bench.head.frame();
            match (bench.head.slot(frame, 1), bench.head.slot(frame, 2)) {
                (Slot::Turn(0), _) => panic!("not yet"),
                (_, Slot::Calendar(0)) => break,
                _ => bench.one(&[]),
            }
        }
        bench.one(&[(2, light)]);
        if !bench.row(0).in_service() {
            break;
        }
    }
    bench.row(0)
}

#[test]
fn alarms() {
    let row = served(8, &[DARK; 7]);
    assert!(row.in_service());
    assert_eq!(row.dark, 7);
    let row = served(8, &[DARK; 8]);
    assert_eq!((row.phase, row.cause), (Phase::Waiting, Some(Alarm::Los)));
    assert_eq!((row.next, row.dark), (Some(Job::Stop), 8));
    let mut broken = [DARK; 12];
    broken[3] = GOOD_DATA;
    let row = served(8, &broken);
    assert_eq!(row.cause, Some(Alarm::Los));
    assert!(served(8, &broken[..11]).in_service());
    let row = served(8, &[BROKEN; 8]);
    assert_eq!(row.cause, Some(Alarm::Lcd));
    let mut odd = [BROKEN; 8];
    odd[2] = (7, 0, 0, [0; 12]);
    odd[5] = (0, 9, 0, [0; 12]);
    odd[6] = (3, 255, 0, [0; 12]);
    assert_eq!(served(8, &odd).cause, Some(Alarm::Lcd));
    odd[6] = DARK;
    let row = served(8, &odd);
    assert_eq!((row.in_service(), row.dark, row.broken), (true, 0, 1));
    for (guard, far) in [(4, 2), (8, 4), (12, 6), (16, 8)] {
        for kind in [2, 3] {
            for sign in [1, -1] {
                let at = |offset: i32| [(kind, 8, sign * offset, [0; 12])];
                assert!(served(guard, &at(far)).in_service());
                let row = served(guard, &at(far + 1));
                assert_eq!(row.cause, Some(Alarm::Cpe));
                assert_eq!(row.delay, Some(15_392));
            }
        }
        assert_eq!(
            served(guard, &[(3, 0, i32::MIN, [0; 12])]).cause,
            Some(Alarm::Cpe)
        );
        assert!(served(guard, &[(0, 0, i32::MIN, [0; 12])]).in_service());
        assert!(served(guard, &[(1, 0, i32::MAX, [0; 12])]).in_service());
    }
}

/// Three PLOAM grants in succession, and alarms that come together.
#[test]
fn ploam_losses() {
    let turns = |lights: [Light; 3], calendar: &[u8], dark_before_last: usize| {
        let mut bench = Bench::new(8, calendar);
        bench.serve();
        let mut seen = 0;
        while seen < 3 && bench.row(0).in_service() {
            let frame = bench.head.frame();
            let turn = bench.head.slot(frame, 1) == Slot::Turn(0);
            let mut all = Vec::new();
            if turn {
                all.push((1, lights[seen]));
                seen += 1;
            }
            for x in 2..=53 {
                if bench.head.slot(frame, x) == Slot::Calendar(0) {
                    all.push((x, GOOD_DATA));
                }
            }
            // The frame before the last turn.
            let next = bench.head.slot(frame + 1, 1) == Slot::Turn(0);
            if seen == 2 && next {
                for light in all.iter_mut().rev().take(dark_before_last) {
                    light.1 = DARK;
                }
            }
            bench.one(&all);
        }
        bench.row(0)
    };
    let ploam = (2, 0, 0, [0; 12]);
    assert!(turns([DARK, DARK, ploam], &[], 0).in_service());
    assert!(turns([DARK, ploam, DARK], &[], 0).in_service());
    for lights in [[DARK; 3], [BROKEN; 3], [GOOD_DATA; 3]] {
        let row = turns(lights, &[], 0);
        assert_eq!((row.cause, row.missed), (Some(Alarm::Oaml), 3));
    }
    // A data cell of the same ONU in between does not help.
    let row = turns([GOOD_DATA, DARK, BROKEN], &[0; 5], 0);
    assert_eq!(row.cause, Some(Alarm::Oaml));
    assert_eq!(row.alarms.to_string(), "OAML");
    let row = turns([DARK; 3], &[0; 20], 7);
    assert_eq!(row.alarms.to_string(), "LOS,OAML");
    assert_eq!(row.cause, Some(Alarm::Los));
    let row = turns([DARK, DARK, (3, 0, 5, [0; 12])], &[], 0);
    assert_eq!(row.alarms.to_string(), "OAML,CPE");
    assert_eq!(row.cause, Some(Alarm::Oaml));
}
