//! The bench ONU and the parts before it.

use codec::cell::{write_cell, Cell, CELL, GRANTS};
use codec::{Access, Down, Grant};
use plants::{
    BenchOnu, Burst, BurstList, Event, Plant, Refusal, State, Timer, FIRST_TIMER, SECOND_TIMER,
    SLOT_LIMIT,
};
use State::*;

const SERIAL: u64 = 77;

fn cell(grants: &[u8], message: Down) -> [u8; CELL] {
    let mut all = [Grant::IDLE; GRANTS];
    for (grant, &code) in all.iter_mut().zip(grants) {
        *grant = Grant(code);
    }
    write_cell(&Cell {
        first: true,
        grants: all,
        message,
    })
}

fn idle() -> [u8; CELL] {
    cell(&[], Down::NoMessage)
}

fn overhead(delay: u32) -> Down {
    Down::UpstreamOverhead {
        guard: 4,
        overhead: [0; 3],
        delay,
    }
}

fn assign(pon_id: u8, serial: u64) -> Down {
    Down::AssignPonId {
        pon_id,
        serial: serial.to_be_bytes(),
    }
}

fn allocate(pon_id: u8) -> Down {
    Down::GrantAllocation {
        pon_id,
        data: pon_id,
        data_active: true,
        ploam: 64 + pon_id,
        ploam_active: true,
    }
}

const EVERYONE: Down = Down::SerialNumberMask {
    bits: 0,
    serial: [0; 8],
};

fn bench(plant: &Plant) -> &BenchOnu {
    match plant {
        Plant::Onu(onu) => onu,
        Plant::Fibre(_, behind) | Plant::Drop(_, behind) => bench(behind),
        Plant::Splitter(sides) => bench(&sides[0]),
        Plant::Nothing => panic!("no ONU"),
    }
}

fn take(plant: &mut Plant, event: Event) {
    match plant {
        Plant::Onu(onu) => onu.take(&event),
        _ => panic!("no ONU"),
    }
}

fn state(plant: &Plant) -> State {
    bench(plant).onu().state
}

fn hear(plant: &mut Plant, bytes: &[u8]) -> Vec<Burst> {
    let mut list = BurstList::new(27 * 64);
    plant.hear(bytes, 530, &mut list).unwrap();
    list.bursts().to_vec()
}

fn single(trip: u32) -> Plant {
    Plant::Onu(BenchOnu::new(SERIAL, trip))
}

/// Brings ONUs that have heard nothing yet to O7, the first one by name.
fn bring_up(plant: &mut Plant) {
    for message in [overhead(100), assign(5, SERIAL), allocate(5)] {
        hear(plant, &cell(&[], message));
    }
}

#[test]
fn from_dark_to_operating() {
    let mut plant = single(20_000);
    assert_eq!(state(&plant), O1);
    hear(&mut plant, &cell(&[], overhead(100)));
    assert_eq!(state(&plant), O3);
    // Set up before the next cell, so that this cell finds O5.
    hear(&mut plant, &cell(&[0xFD], EVERYONE));
    assert_eq!(state(&plant), O6);
    let bursts = hear(&mut plant, &cell(&[0xFE, 0xFD, 5], assign(5, SERIAL)));
    assert_eq!(bursts.len(), 1);
    assert_eq!((bursts[0].slot, bursts[0].kind), (531, 2));
    assert_eq!(bursts[0].start, 448 * 531 + 20_000 + 100);
    assert_eq!(bursts[0].message[..2], [0x40, 3]);
    hear(&mut plant, &cell(&[5, 69], allocate(5)));
    assert_eq!(state(&plant), O7);
    let told = Down::RangingTime {
        pon_id: 5,
        delay: 15_392,
    };
    let bursts = hear(&mut plant, &cell(&[5, 69, 0xFD], told));
    assert_eq!(bursts.len(), 1);
    assert_eq!((bursts[0].slot, bursts[0].message[0]), (531, 5));
    assert_eq!(state(&plant), O8);
    let bursts = hear(&mut plant, &cell(&[5, 69, 0xFD], Down::NoMessage));
    let kinds: Vec<_> = bursts
        .iter()
        .map(|burst| (burst.slot, burst.kind))
        .collect();
    assert_eq!(kinds, [(530, 3), (531, 2)]);
    assert_eq!(bursts[0].start, 448 * 530 + 35_392);
    assert_eq!(bursts[1].message, [5, 0, 0, 0, 0, 0, 0, 0, 0, 0, 0, 0]);
}

/// Signal comes by itself once, even to a cell that is lost.
#[test]
fn first_cell() {
    let mut plant = single(0);
    take(&mut plant, Event::PowerLost);
    let mut spoiled = idle();
    for place in [10, 18, 26, 33, 46] {
        spoiled[place] ^= 1;
    }
    hear(&mut plant, &spoiled);
    assert_eq!(state(&plant), O2);
    take(&mut plant, Event::SignalLost);
    hear(&mut plant, &idle());
    assert_eq!(state(&plant), O1);
    take(&mut plant, Event::SignalBack);
    assert_eq!(state(&plant), O2);
    let deny = Down::DisableSerialNumber(Access::Deny(SERIAL.to_be_bytes()));
    hear(&mut plant, &cell(&[], deny));
    take(&mut plant, Event::PowerLost);
    assert_eq!(state(&plant), O9);
    hear(
        &mut plant,
        &cell(&[], Down::DisableSerialNumber(Access::AllowAll)),
    );
    hear(&mut plant, &idle());
    assert_eq!(state(&plant), O1);
}

#[test]
fn first_timer() {
    let mut plant = single(0);
    hear(&mut plant, &cell(&[], overhead(9)));
    assert_eq!(bench(&plant).timer(), None);
    // The timer starts before this cell.
    hear(&mut plant, &cell(&[], assign(5, SERIAL)));
    assert_eq!(bench(&plant).timer(), Some((Timer::First, FIRST_TIMER - 1)));
    hear(&mut plant, &cell(&[], allocate(5)));
    for _ in 2..FIRST_TIMER {
        hear(&mut plant, &idle());
    }
    assert_eq!(state(&plant), O7);
    assert_eq!(bench(&plant).timer(), Some((Timer::First, 0)));
    // Before this cell it is up.
    let bursts = hear(&mut plant, &cell(&[69, 0xFD], Down::NoMessage));
    assert!(bursts.is_empty());
    let onu = bench(&plant).onu();
    assert_eq!((onu.state, onu.pon_id, onu.ploam), (O3, None, None));
    assert_eq!((onu.pre, onu.register), (9, 9));
    assert_eq!(bench(&plant).timer(), None);
    // The set-up comes at the next.
    hear(&mut plant, &idle());
    assert_eq!(state(&plant), O5);
    assert_eq!(bench(&plant).timer(), Some((Timer::First, FIRST_TIMER - 1)));
}

#[test]
fn second_timer_and_popup() {
    let mut plant = single(0);
    bring_up(&mut plant);
    let told = Down::RangingTime {
        pon_id: 5,
        delay: 3_000,
    };
    hear(&mut plant, &cell(&[], told));
    take(&mut plant, Event::SignalLost);
    assert_eq!(state(&plant), O10);
    for _ in 0..SECOND_TIMER - 1 {
        hear(&mut plant, &cell(&[5, 69], Down::NoMessage));
        take(&mut plant, Event::SignalLost);
    }
    let mut late = plant.clone();
    // The last cell that can bring it back.
    hear(&mut plant, &cell(&[], Down::Popup));
    let onu = bench(&plant).onu();
    assert_eq!((onu.state, onu.pon_id, onu.data), (O7, Some(5), Some(5)));
    assert_eq!((onu.pre, onu.register), (100, 100));
    assert_eq!(bench(&plant).timer(), Some((Timer::First, FIRST_TIMER - 1)));

    hear(&mut late, &idle());
    assert_eq!(state(&late), O10);
    hear(&mut late, &cell(&[], Down::Popup));
    let onu = bench(&late).onu();
    assert_eq!((onu.state, onu.pon_id, onu.pre), (O1, None, 0));
    assert_eq!(onu.register, 3_000);
}

#[test]
fn refused_calls_change_nothing() {
    let mut plant = Plant::drop(0b01, single(0));
    let mut list = BurstList::new(26);
    let good = cell(&[], overhead(0));
    assert_eq!(
        plant.hear(&good[1..], u64::MAX, &mut list),
        Err(Refusal::Length)
    );
    assert_eq!(plant.hear(&good, u64::MAX, &mut list), Err(Refusal::Room));
    list = BurstList::new(27);
    assert_eq!(plant.hear(&good, SLOT_LIMIT, &mut list), Err(Refusal::Slot));
    assert_eq!(state(&plant), O1);
    // The pattern is still at its first bit: this cell is lost, the next is not.
    assert_eq!(plant.hear(&good, SLOT_LIMIT - 1, &mut list), Ok(()));
    assert_eq!(state(&plant), O2);
    assert_eq!(plant.hear(&good, SLOT_LIMIT - 1, &mut list), Ok(()));
    assert_eq!(state(&plant), O3);
}

/// Sums of fibre stop at each piece; the burst moves with its round trip.
#[test]
fn fibre() {
    for (trip, inner, outer, seen) in [
        (0, 0, 0, 0),
        (20_000, 5, 7, 20_012),
        (20_000, 32_001, u32::MAX, 84_000),
        (999_999, 1, 0, 1_000_000),
        (999_999, 2, 3, 1_000_000),
        (u32::MAX, 0, 32_000, 1_000_000),
    ] {
        let mut plant = Plant::fibre(outer, Plant::fibre(inner, single(trip)));
        bring_up(&mut plant);
        let bursts = hear(&mut plant, &cell(&[69], Down::NoMessage));
        assert_eq!(bursts[0].trip, seen);
        assert_eq!(bursts[0].start, 448 * 530 + u64::from(seen) + 100);
        assert_eq!(bench(&plant).trip(), trip.min(1_000_000));
    }
}

/// Two drops in a row spoil what either of them spoils.
#[test]
fn drops() {
    let mut plant = Plant::drop(0b011, Plant::drop(0b101, single(0)));
    for expected in [O2, O2, O2, O3] {
        hear(&mut plant, &cell(&[], overhead(0)));
        assert_eq!(state(&plant), expected);
    }
}

#[test]
fn splitters() {
    let fan = |count: u64, from: u64| {
        (from..from + count).fold(Plant::Nothing, |plant, serial| {
            Plant::splitter(plant, Plant::Onu(BenchOnu::new(serial, 0)))
        })
    };
    let mut lit = Plant::splitter(fan(3, 100), fan(61, 200));
    assert_eq!(lit.count(), 64);
    let mut dark = Plant::splitter(fan(4, 100), fan(61, 200));
    assert_eq!(dark.count(), 4);
    for plant in [&mut lit, &mut dark] {
        hear(plant, &cell(&[], overhead(0)));
        hear(plant, &cell(&[], EVERYONE));
    }
    let serials =
        |bursts: Vec<Burst>| -> Vec<u64> { bursts.iter().map(|burst| burst.serial).collect() };
    let ranging = cell(&[0xFD], Down::NoMessage);
    let expected: Vec<u64> = (100..103).chain(200..261).collect();
    assert_eq!(serials(hear(&mut lit, &ranging)), expected);
    assert_eq!(serials(hear(&mut dark, &ranging)), [100, 101, 102, 103]);
}
