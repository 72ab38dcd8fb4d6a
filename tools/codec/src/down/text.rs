//! A message as text.

use super::{Access, Down, RxControl, Target};
use crate::hex::Hex;
use std::fmt;

impl Down {
    pub fn name(&self) -> &'static str {
        match self {
            Down::NoMessage => "No_message",
            Down::UpstreamRxControl(_) => "Upstream_RX_control",
            Down::UpstreamOverhead { .. } => "Upstream_overhead",
            Down::RangingTime { .. } => "Ranging_time",
            Down::SerialNumberMask { .. } => "Serial_number_mask",
            Down::AssignPonId { .. } => "Assign_PON_ID",
            Down::DeactivatePonId { .. } => "Deactivate_PON_ID",
            Down::DisableSerialNumber(_) => "Disable_serial_number",
            Down::NewChurningKeyRequest { .. } => "New_churning_key_request",
            Down::ChurningKeyUpdate { .. } => "Churning_key_update",
            Down::GrantAllocation { .. } => "Grant_allocation",
            Down::DividedSlotGrantConfiguration { .. } => "Divided_slot_grant_configuration",
            Down::ConfigureVpVc { .. } => "Configure_VP_VC",
            Down::PhysicalEquipmentError => "Physical_equipment_error",
            Down::RequestPassword { .. } => "Request_password",
            Down::ChurnedVp { .. } => "Churned_VP",
            Down::Popup => "POPUP",
            Down::VendorSpecific { .. } => "Vendor_specific",
            Down::Pst { .. } => "PST",
            Down::BerInterval { .. } => "BER_interval",
        }
    }
}

impl fmt::Display for Target {
    fn fmt(&self, f: &mut fmt::Formatter<'_>) -> fmt::Result {
        match self {
            Target::One(pon_id) => write!(f, "{pon_id}"),
            Target::All => f.write_str("all"),
        }
    }
}

impl fmt::Display for Down {
    fn fmt(&self, f: &mut fmt::Formatter<'_>) -> fmt::Result {
        write!(f, "message={}", self.name())?;
        match *self {
            Down::NoMessage | Down::PhysicalEquipmentError | Down::Popup => Ok(()),
            Down::UpstreamRxControl(RxControl::First(bytes)) => write!(f, " part=0 bytes={}", Hex(&bytes)),
            Down::UpstreamRxControl(RxControl::Second(bytes)) => write!(f, " part=1 bytes={}", Hex(&bytes)),
            Down::UpstreamOverhead { guard, overhead, delay } => {
                write!(f, " guard={guard} overhead={} delay={delay}", Hex(&overhead))
            }
            Down::RangingTime { pon_id, delay } => write!(f, " pon_id={pon_id} delay={delay}"),
            Down::SerialNumberMask { bits, serial } => write!(f, " bits={bits} serial={}", Hex(&serial)),
            Down::AssignPonId { pon_id, serial } => write!(f, " pon_id={pon_id} serial={}", Hex(&serial)),
            Down::DeactivatePonId { to } => write!(f, " pon_id={to}"),
            Down::DisableSerialNumber(Access::Deny(serial)) => write!(f, " access=deny serial={}", Hex(&serial)),
            Down::DisableSerialNumber(Access::AllowAll) => f.write_str(" access=allow_all"),
            Down::DisableSerialNumber(Access::Allow(serial)) => write!(f, " access=allow serial={}", Hex(&serial)),
            Down::NewChurningKeyRequest { pon_id } | Down::RequestPassword { pon_id } => {
                write!(f, " pon_id={pon_id}")
            }
            Down::ChurningKeyUpdate { pon_id, count } => write!(f, " pon_id={pon_id} count={count}"),
            Down::GrantAllocation { pon_id, data, data_active, ploam, ploam_active } => write!(
                f,
                " pon_id={pon_id} data={data} data_active={} ploam={ploam} ploam_active={}",
                u8::from(data_active),
                u8::from(ploam_active)
            ),
            Down::DividedSlotGrantConfiguration { pon_id, active, code, offset, length, service } => write!(
                f,
                " pon_id={pon_id} active={} code={code} offset={offset} length={length} service={service}",
                u8::from(active)
            ),
            Down::ConfigureVpVc { pon_id, active, header, mask } => write!(
                f,
                " pon_id={pon_id} active={} header={} mask={}",
                u8::from(active),
                Hex(&header),
                Hex(&mask)
            ),
            Down::ChurnedVp { pon_id, churned, vpi } => {
                write!(f, " pon_id={pon_id} churned={} vpi={vpi}", u8::from(churned))
            }
            Down::VendorSpecific { to, kind, bytes } => {
                write!(f, " pon_id={to} kind={kind} bytes={}", Hex(&bytes))
            }
            Down::Pst { line, k1, k2 } => write!(f, " line={line} k1={k1:02x} k2={k2:02x}"),
            Down::BerInterval { pon_id, frames } => write!(f, " pon_id={pon_id} frames={frames}"),
        }
    }
}
