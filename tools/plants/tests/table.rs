//! The state table, line by line, with what each step keeps and forgets.

use codec::random::messages::{random_down, DOWN_KINDS};
use codec::random::Random;
use codec::{Access, Down, Target};
use plants::{Answer, Event, Onu, State};
use State::*;

const SERIAL: u64 = 0x4142_4344_0102_0304;
const OTHER: u64 = 0x4142_4344_0102_0305;
const PON_ID: u8 = 17;

/// An ONU as it can be in a state: 500 bits pre-assigned, 12,345 bits told.
fn onu(state: State) -> Onu {
    let mut onu = Onu::new(SERIAL);
    onu.state = state;
    if matches!(state, O5 | O6 | O7 | O8 | O10) {
        onu.pon_id = Some(PON_ID);
    }
    if matches!(state, O7 | O8 | O10) {
        onu.data = Some(17);
        onu.ploam = Some(81);
    }
    if !matches!(state, O1 | O2) {
        onu.pre = 500;
    }
    onu.register = match state {
        O3 | O4 | O5 | O6 | O7 => 500,
        _ => 12_345,
    };
    onu
}

/// What is left of an ONU that goes to a state.
fn gone(from: &Onu, state: State) -> Onu {
    let mut onu = *from;
    onu.state = state;
    if matches!(state, O1 | O2 | O3 | O9) {
        (onu.pon_id, onu.data, onu.ploam) = (None, None, None);
    }
    if matches!(state, O1 | O2) {
        onu.pre = 0;
    }
    if matches!(state, O3 | O4 | O5 | O6 | O7) {
        onu.register = onu.pre;
    }
    onu
}

/// Checks one line: in each state the number of the next one, or a dot where
/// nothing at all may happen. `also` says what else changes where there is a
/// number.
fn line(event: Event, next: &str, also: impl Fn(&mut Onu)) {
    let next: Vec<&str> = next.split_whitespace().collect();
    assert_eq!(next.len(), 10);
    for (state, next) in State::ALL.into_iter().zip(next) {
        let before = onu(state);
        let mut after = before;
        after.step(&event);
        let expected = match next {
            "." => before,
            number => {
                let number: usize = number.parse().unwrap();
                let to = State::ALL[number - 1];
                let mut expected = if to == state {
                    before
                } else {
                    gone(&before, to)
                };
                also(&mut expected);
                expected
            }
        };
        assert_eq!(after, expected, "{event:?} in {state}");
    }
}

fn nothing(event: Event) {
    line(event, ". . . . . . . . . .", |_| {});
}

fn message(message: Down) -> Event {
    Event::Message(message)
}

fn mask(bits: u8, serial: u64) -> Event {
    message(Down::SerialNumberMask {
        bits,
        serial: serial.to_be_bytes(),
    })
}

#[test]
fn upstream_overhead() {
    for delay in [0, 1, 32_000] {
        let event = message(Down::UpstreamOverhead {
            guard: 4,
            overhead: [1, 2, 3],
            delay,
        });
        line(event, ". 3 . . . . . . . .", |onu| {
            onu.pre = delay;
            onu.register = delay;
        });
    }
}

#[test]
fn power_set_up() {
    line(Event::PowerSetUp, ". . 5 5 . . . . . .", |_| {});
}

#[test]
fn serial_number_mask() {
    for (bits, serial) in [
        (0, OTHER),
        (0, !SERIAL),
        (1, SERIAL ^ 2),
        (8, SERIAL ^ 0x100),
        (63, SERIAL ^ 1 << 63),
        (64, SERIAL),
    ] {
        line(mask(bits, serial), ". . 4 . 6 . . . . .", |_| {});
    }
    for (bits, serial) in [
        (1, OTHER),
        (2, SERIAL ^ 2),
        (64, OTHER),
        (64, SERIAL ^ 1 << 63),
        (63, SERIAL ^ 1 << 62),
    ] {
        line(mask(bits, serial), ". . . 3 . 5 . . . .", |_| {});
    }
}

#[test]
fn assign_pon_id() {
    let assign = |pon_id: u8, serial: u64| {
        message(Down::AssignPonId {
            pon_id,
            serial: serial.to_be_bytes(),
        })
    };
    for pon_id in [0, PON_ID, 63] {
        line(assign(pon_id, SERIAL), ". . . . 5 6 . . . .", |onu| {
            onu.pon_id = Some(pon_id)
        });
        nothing(assign(pon_id, OTHER));
    }
}

#[test]
fn grant_allocation() {
    for (data_active, ploam_active) in [(false, false), (false, true), (true, false), (true, true)]
    {
        for (data, ploam) in [(3, 99), (7, 7), (252, 0)] {
            let allocate = |pon_id: u8| {
                message(Down::GrantAllocation {
                    pon_id,
                    data,
                    data_active,
                    ploam,
                    ploam_active,
                })
            };
            line(allocate(PON_ID), ". . . . 7 7 . . . .", |onu| {
                onu.data = data_active.then_some(data);
                onu.ploam = ploam_active.then_some(ploam);
            });
            nothing(allocate(PON_ID + 1));
        }
    }
}

#[test]
fn popup() {
    line(message(Down::Popup), ". . . . . . . . . 7", |onu| {
        assert_eq!(
            (onu.pon_id, onu.data, onu.ploam),
            (Some(PON_ID), Some(17), Some(81))
        );
        assert_eq!((onu.pre, onu.register), (500, 500));
    });
}

#[test]
fn timers() {
    line(Event::SecondTimer, ". . . . . . . . . 1", |_| {});
    line(Event::FirstTimer, ". . . . 3 3 3 . . .", |onu| {
        assert_eq!((onu.pre, onu.register), (500, 500));
    });
}

#[test]
fn ranging_time() {
    for delay in [0, 500, 32_000] {
        let told = |pon_id: u8| message(Down::RangingTime { pon_id, delay });
        line(told(PON_ID), ". . . . . . 8 8 . .", |onu| {
            onu.register = delay
        });
        nothing(told(PON_ID ^ 1));
    }
}

#[test]
fn deactivate() {
    let deactivate = |to: Target| message(Down::DeactivatePonId { to });
    line(deactivate(Target::All), ". . 2 2 2 2 2 2 . .", |_| {});
    // O3 and O4 have no PON_ID.
    line(
        deactivate(Target::One(PON_ID)),
        ". . . . 2 2 2 2 . .",
        |_| {},
    );
    nothing(deactivate(Target::One(0)));
    nothing(deactivate(Target::One(63)));
}

#[test]
fn disable() {
    let disable = |access: Access| message(Down::DisableSerialNumber(access));
    let own = SERIAL.to_be_bytes();
    let other = OTHER.to_be_bytes();
    line(disable(Access::Deny(own)), ". 9 9 9 9 9 9 9 . .", |_| {});
    nothing(disable(Access::Deny(other)));
    line(disable(Access::Allow(own)), ". . . . . . . . 1 .", |_| {});
    nothing(disable(Access::Allow(other)));
    line(disable(Access::AllowAll), ". . . . . . . . 1 .", |_| {});
}

#[test]
fn signal() {
    line(Event::SignalLost, ". 1 1 1 1 1 1 10 . 10", |_| {});
    line(Event::SignalBack, "2 . . . . . . . . .", |_| {});
}

#[test]
fn power_loss() {
    line(Event::PowerLost, "1 1 1 1 1 1 1 1 . 1", |onu| {
        *onu = Onu::new(SERIAL)
    });
}

#[test]
fn other_messages_change_nothing() {
    let mut random = Random::new(3);
    for kind in [0, 1, 8, 9, 11, 12, 13, 14, 15, 17, 18, 19] {
        assert!(kind < DOWN_KINDS);
        for _ in 0..50 {
            nothing(message(random_down(&mut random, kind)));
        }
    }
}

/// In each state every grant byte: what is answered, and to nothing else.
#[test]
fn grants() {
    let serial = |source: u8| [source, 3, 0, 0x41, 0x42, 0x43, 0x44, 1, 2, 3, 4, 0];
    let mut nobody = [0; 12];
    let mut own = [0; 12];
    own[0] = PON_ID;
    nobody[0] = 0x40;
    for state in State::ALL {
        for code in 0..=255u8 {
            let expected = match (state, code) {
                (O4, 0xFD) => Some(Answer::Ploam(nobody)),
                (O6, 0xFD) => Some(Answer::Ploam(serial(0x40))),
                (O7, 81) => Some(Answer::Ploam(serial(PON_ID))),
                (O8, 17) => Some(Answer::Data(own)),
                (O8, 81) => Some(Answer::Ploam(own)),
                _ => None,
            };
            assert_eq!(onu(state).answer(code), expected, "{code} in {state}");
        }
    }
}

/// Equal codes make a PLOAM grant in O7 and a data grant in O8.
#[test]
fn equal_codes() {
    let mut onu = onu(O7);
    onu.data = Some(5);
    onu.ploam = Some(5);
    assert!(matches!(onu.answer(5), Some(Answer::Ploam(_))));
    onu.state = O8;
    assert!(matches!(onu.answer(5), Some(Answer::Data(_))));
    onu.data = None;
    assert!(matches!(onu.answer(5), Some(Answer::Ploam(_))));
    onu.ploam = None;
    assert_eq!(onu.answer(5), None);
}
