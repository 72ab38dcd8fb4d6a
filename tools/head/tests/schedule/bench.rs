//! A head under test, and reports for it.

use codec::{Up, UpBody, FRAME};
use head::head::{Docket, NOBODY};
use head::row::{Phase, Row};
use head::Head;
use plants::receiver::RECORD;
use plants::REPORT;

pub const SERIAL: u64 = 0x4D55_4C4B_0000_0001;

/// A head and the dockets that are out.
pub struct Bench {
    pub head: Head,
    out: Vec<Docket>,
}

/// Kind, parity, offset and message of one slot.
pub type Light = (u8, u8, i32, [u8; 12]);

fn report(lights: &[(usize, Light)]) -> [u8; REPORT] {
    let mut report = [0; REPORT];
    for &(x, (kind, parity, offset, message)) in lights {
        let record = &mut report[(x - 1) * RECORD..x * RECORD];
        record[0] = kind;
        record[1] = parity;
        record[2..6].copy_from_slice(&offset.to_be_bytes());
        record[6..].copy_from_slice(&message);
    }
    report
}

pub fn number(source: u8, serial: u64) -> [u8; 12] {
    let serial = serial.to_be_bytes();
    let body = UpBody::SerialNumberOnu { serial };
    Up { source, body }.write()
}

impl Bench {
    pub fn new(guard: u64, calendar: &[u8]) -> Bench {
        let mut head = Head::new();
        let mut all = [NOBODY; 52];
        all[..calendar.len()].copy_from_slice(calendar);
        head.set_up(guard, [1, 2, 3], 0, &all).unwrap();
        Bench {
            head,
            out: Vec::new(),
        }
    }

    pub fn send(&mut self) -> [u8; FRAME] {
        let mut buffer = [0; FRAME];
        let docket = self.head.send(&mut buffer).unwrap();
        self.out.push(docket);
        buffer
    }

    pub fn settle(&mut self, lights: &[(usize, Light)]) {
        let docket = self.out.remove(0);
        self.head.settle(docket, &report(lights)).unwrap();
    }

    /// Sends and settles dark frames, up to this one.
    pub fn dark_until(&mut self, frame: u64) {
        while self.head.frame() < frame {
            self.send();
            self.settle(&[]);
        }
    }

    pub fn one(&mut self, lights: &[(usize, Light)]) {
        self.send();
        self.settle(lights);
    }

    pub fn row(&self, place: usize) -> Row {
        *self.head.row(place).unwrap()
    }

    /// Brings the ONU of place 0 into service, in frame 2063.
    pub fn serve(&mut self) {
        self.head.enter(0, SERIAL).unwrap();
        self.dark_until(1039);
        self.one(&[(53, (2, 0, -15_392, number(64, SERIAL)))]);
        self.dark_until(2063);
        self.one(&[(53, (2, 0, 0, [0; 12]))]);
        assert_eq!(self.row(0).phase, Phase::InService);
        assert_eq!(self.row(0).since, 2064);
    }
}
