//! Writing a message: its address, its identifier and all its bytes.

use super::{id, Access, Down, RxControl, Target, ALLOW, ALLOW_ALL, BROADCAST, DENY};
use crate::MESSAGE;

impl Down {
    fn address(&self) -> u8 {
        match *self {
            Down::NoMessage
            | Down::UpstreamRxControl(_)
            | Down::UpstreamOverhead { .. }
            | Down::SerialNumberMask { .. }
            | Down::AssignPonId { .. }
            | Down::DisableSerialNumber(_)
            | Down::PhysicalEquipmentError
            | Down::Popup
            | Down::Pst { .. } => BROADCAST,
            Down::RangingTime { pon_id, .. }
            | Down::NewChurningKeyRequest { pon_id }
            | Down::ChurningKeyUpdate { pon_id, .. }
            | Down::GrantAllocation { pon_id, .. }
            | Down::DividedSlotGrantConfiguration { pon_id, .. }
            | Down::ConfigureVpVc { pon_id, .. }
            | Down::RequestPassword { pon_id }
            | Down::ChurnedVp { pon_id, .. }
            | Down::BerInterval { pon_id, .. } => pon_id,
            Down::DeactivatePonId { to } | Down::VendorSpecific { to, .. } => match to {
                Target::One(pon_id) => pon_id,
                Target::All => BROADCAST,
            },
        }
    }

    pub fn identifier(&self) -> u8 {
        match *self {
            Down::NoMessage => id::NO_MESSAGE,
            Down::UpstreamRxControl(_) => id::UPSTREAM_RX_CONTROL,
            Down::UpstreamOverhead { .. } => id::UPSTREAM_OVERHEAD,
            Down::RangingTime { .. } => id::RANGING_TIME,
            Down::SerialNumberMask { .. } => id::SERIAL_NUMBER_MASK,
            Down::AssignPonId { .. } => id::ASSIGN_PON_ID,
            Down::DeactivatePonId { .. } => id::DEACTIVATE_PON_ID,
            Down::DisableSerialNumber(_) => id::DISABLE_SERIAL_NUMBER,
            Down::NewChurningKeyRequest { .. } => id::NEW_CHURNING_KEY_REQUEST,
            Down::ChurningKeyUpdate { .. } => id::CHURNING_KEY_UPDATE,
            Down::GrantAllocation { .. } => id::GRANT_ALLOCATION,
            Down::DividedSlotGrantConfiguration { .. } => id::DIVIDED_SLOT_GRANT_CONFIGURATION,
            Down::ConfigureVpVc { .. } => id::CONFIGURE_VP_VC,
            Down::PhysicalEquipmentError => id::PHYSICAL_EQUIPMENT_ERROR,
            Down::RequestPassword { .. } => id::REQUEST_PASSWORD,
            Down::ChurnedVp { .. } => id::CHURNED_VP,
            Down::Popup => id::POPUP,
            Down::VendorSpecific { kind, .. } => id::VENDOR_SPECIFIC + kind,
            Down::Pst { .. } => id::PST,
            Down::BerInterval { .. } => id::BER_INTERVAL,
        }
    }

    /// The bytes of a sound message. Bytes without a meaning are zero.
    pub fn write(&self) -> [u8; MESSAGE] {
        debug_assert!(self.is_sound());
        let mut out = [0; MESSAGE];
        out[0] = self.address();
        out[1] = self.identifier();
        match *self {
            Down::NoMessage
            | Down::DeactivatePonId { .. }
            | Down::NewChurningKeyRequest { .. }
            | Down::PhysicalEquipmentError
            | Down::RequestPassword { .. }
            | Down::Popup => {}
            Down::UpstreamRxControl(RxControl::First(bytes)) => out[3..12].copy_from_slice(&bytes),
            Down::UpstreamRxControl(RxControl::Second(bytes)) => {
                out[2] = 1;
                out[3..10].copy_from_slice(&bytes);
            }
            Down::UpstreamOverhead {
                guard,
                overhead,
                delay,
            } => {
                out[2] = guard;
                out[3..6].copy_from_slice(&overhead);
                out[8] = u8::from(delay != 0);
                out[9..12].copy_from_slice(&delay.to_be_bytes()[1..]);
            }
            Down::RangingTime { delay, .. } => out[2..5].copy_from_slice(&delay.to_be_bytes()[1..]),
            Down::SerialNumberMask { bits, serial } => {
                out[2] = bits;
                out[3..11].copy_from_slice(&serial);
            }
            Down::AssignPonId { pon_id, serial } => {
                out[2] = pon_id;
                out[3..11].copy_from_slice(&serial);
            }
            Down::DisableSerialNumber(Access::Deny(serial)) => {
                out[2] = DENY;
                out[3..11].copy_from_slice(&serial);
            }
            Down::DisableSerialNumber(Access::AllowAll) => out[2] = ALLOW_ALL,
            Down::DisableSerialNumber(Access::Allow(serial)) => {
                out[2] = ALLOW;
                out[3..11].copy_from_slice(&serial);
            }
            Down::ChurningKeyUpdate { count, .. } => out[2] = count,
            Down::GrantAllocation {
                data,
                data_active,
                ploam,
                ploam_active,
                ..
            } => {
                out[2] = data;
                out[3] = u8::from(data_active);
                out[4] = ploam;
                out[5] = u8::from(ploam_active);
            }
            Down::DividedSlotGrantConfiguration {
                active,
                code,
                offset,
                length,
                service,
                ..
            } => {
                out[2] = u8::from(active);
                out[3] = code;
                out[4] = length;
                out[5] = offset;
                out[6] = service;
            }
            Down::ConfigureVpVc {
                active,
                header,
                mask,
                ..
            } => {
                out[2] = u8::from(active);
                out[3..7].copy_from_slice(&header);
                out[7..11].copy_from_slice(&mask);
            }
            Down::ChurnedVp { churned, vpi, .. } => {
                out[2] = u8::from(churned);
                out[3..5].copy_from_slice(&(vpi << 4).to_be_bytes());
            }
            Down::VendorSpecific { bytes, .. } => out[2..12].copy_from_slice(&bytes),
            Down::Pst { line, k1, k2 } => {
                out[2] = line;
                out[3] = k1;
                out[4] = k2;
            }
            Down::BerInterval { frames, .. } => out[2..6].copy_from_slice(&frames.to_be_bytes()),
        }
        out
    }
}
