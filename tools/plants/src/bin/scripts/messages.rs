//! Messages that lead ONUs on or back.

use crate::{Maker, Theme};
use codec::random::messages::{random_down, DOWN_KINDS};
use codec::{Access, Down, Grant, Target};
use plants::{Onu, State};

impl Maker {
    fn delay(&mut self) -> u32 {
        match self.random.below(5) {
            0 => 0,
            1 => self.random.one_of(&[1, 31_999, 32_000]),
            _ => self.random.below(32_001) as u32,
        }
    }

    fn code(&mut self) -> u8 {
        if self.random.once_in(3) {
            self.random.one_of(&self.codes)
        } else {
            self.random.up_to(Grant::LAST_CODE)
        }
    }

    fn overhead(&mut self) -> Down {
        Down::UpstreamOverhead {
            guard: self.random.between(4, 24) as u8,
            overhead: self.random.array(),
            delay: self.delay(),
        }
    }

    /// A mask that an ONU fits, or nearly.
    fn mask(&mut self, serial: u64, fitting: bool) -> Down {
        let bits = match self.random.below(4) {
            0 => self.random.one_of(&[0, 1, 63, 64]),
            1 => self.random.up_to(64),
            _ => self.random.up_to(8),
        };
        let beyond = if bits == 64 { 0 } else { u64::MAX << bits };
        let mut shown = serial ^ (self.random.next_u64() & beyond);
        if !fitting && bits > 0 {
            shown ^= 1 << (bits - 1);
        }
        Down::SerialNumberMask {
            bits,
            serial: shown.to_be_bytes(),
        }
    }

    fn assign(&mut self, serial: u64) -> Down {
        let pon_id = if self.random.once_in(3) {
            self.random.up_to(63)
        } else {
            self.random.one_of(&self.pon_ids)
        };
        Down::AssignPonId {
            pon_id,
            serial: serial.to_be_bytes(),
        }
    }

    fn allocate(&mut self, pon_id: u8) -> Down {
        let data = self.code();
        let ploam = if self.random.once_in(6) {
            data
        } else {
            self.code()
        };
        Down::GrantAllocation {
            pon_id,
            data,
            data_active: !self.random.once_in(7),
            ploam,
            ploam_active: !self.random.once_in(7),
        }
    }

    /// The PON_ID of an ONU, or another one.
    fn pon_id_of(&mut self, onu: &Onu) -> u8 {
        match onu.pon_id {
            Some(pon_id) if !self.random.once_in(12) => pon_id,
            _ => self.random.one_of(&self.pon_ids),
        }
    }

    /// A message that leads an ONU on.
    fn onward(&mut self, onu: &Onu) -> Down {
        let serial = onu.serial;
        match onu.state {
            State::O1 => self.overhead(),
            State::O2 => self.overhead(),
            State::O3 | State::O4 => match self.random.below(4) {
                0 => self.mask(serial, true),
                1 => self.mask(serial, false),
                // It will be in O5 by then.
                _ => self.assign(serial),
            },
            State::O5 | State::O6 => match (onu.pon_id, self.random.below(8)) {
                (_, 0) => self.mask(serial, onu.state == State::O5),
                (None, 1) => self.mask(serial, true),
                (None, _) | (_, 2) => self.assign(serial),
                (Some(pon_id), _) => self.allocate(pon_id),
            },
            // Most rangings that are to take too long are not ended.
            State::O7 if self.theme == Theme::Late && !self.random.once_in(6) => Down::NoMessage,
            State::O7 | State::O8 => {
                let pon_id = self.pon_id_of(onu);
                let delay = self.delay();
                Down::RangingTime { pon_id, delay }
            }
            State::O9 if self.random.once_in(3) => Down::DisableSerialNumber(Access::AllowAll),
            State::O9 => Down::DisableSerialNumber(Access::Allow(serial.to_be_bytes())),
            State::O10 if self.theme == Theme::Popup && self.random.flag() => Down::NoMessage,
            State::O10 => Down::Popup,
        }
    }

    /// A message that leads an ONU back.
    fn backward(&mut self, onu: &Onu) -> Down {
        let serial = onu.serial.to_be_bytes();
        match self.random.below(8) {
            0 => Down::DeactivatePonId { to: Target::All },
            1..=3 => Down::DeactivatePonId {
                to: Target::One(self.pon_id_of(onu)),
            },
            4 => Down::DisableSerialNumber(Access::Allow(serial)),
            5 => Down::DisableSerialNumber(Access::AllowAll),
            _ => Down::DisableSerialNumber(Access::Deny(serial)),
        }
    }

    /// Any message, with an address that may be in force.
    fn any(&mut self) -> Down {
        let kind = self.random.between(0, DOWN_KINDS - 1);
        random_down(&mut self.random, kind)
    }

    pub(super) fn message(&mut self) -> Down {
        if self.focus.1 == 0 {
            self.focus = (self.some_onu().0, self.random.between(2, 9));
        }
        self.focus.1 -= 1;
        let onu = match self.runner.line().onu(self.focus.0) {
            Some(bench) => *bench.onu(),
            None => self.some_onu().1,
        };
        match self.random.below(40) {
            0..=1 => self.backward(&onu),
            2 => {
                let other = self.some_onu().1;
                self.backward(&other)
            }
            3 => self.any(),
            4 => Down::NoMessage,
            5 if self.theme != Theme::Popup => Down::Popup,
            6..=7 => self.overhead(),
            8 => Down::SerialNumberMask {
                bits: 0,
                serial: self.random.array(),
            },
            _ => self.onward(&onu),
        }
    }
}
