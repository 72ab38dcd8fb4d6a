//! What can be wrong with a cell, a frame or a message.

use std::fmt;

/// A field that can be out of its range.
#[derive(Clone, Copy, PartialEq, Eq, Debug)]
pub enum Field {
    Part,
    Guard,
    Delay,
    Bits,
    PonId,
    Access,
    Count,
    Data,
    DataActive,
    Ploam,
    PloamActive,
    Active,
    Code,
    Offset,
    Length,
    Vpi,
    Line,
    Zero,
    Sequence,
}

impl Field {
    pub fn name(self) -> &'static str {
        match self {
            Field::Part => "part",
            Field::Guard => "guard",
            Field::Delay => "delay",
            Field::Bits => "bits",
            Field::PonId => "pon_id",
            Field::Access => "access",
            Field::Count => "count",
            Field::Data => "data",
            Field::DataActive => "data_active",
            Field::Ploam => "ploam",
            Field::PloamActive => "ploam_active",
            Field::Active => "active",
            Field::Code => "code",
            Field::Offset => "offset",
            Field::Length => "length",
            Field::Vpi => "vpi",
            Field::Line => "line",
            Field::Zero => "zero",
            Field::Sequence => "sequence",
        }
    }
}

/// Why a downstream message is refused.
#[derive(Clone, Copy, PartialEq, Eq, Debug)]
pub enum Cause {
    Identifier(u8),
    Address(u8),
    Field(Field),
}

/// Why an upstream message is refused.
#[derive(Clone, Copy, PartialEq, Eq, Debug)]
pub enum UpCause {
    Identifier(u8),
    Source(u8),
    Field(Field),
}

/// Why a cell is refused.
#[derive(Clone, Copy, PartialEq, Eq, Debug)]
pub enum Fault {
    Length,
    /// Groups 1 to 4 are those of the grants, group 5 is the message.
    Group(u8),
    Message(Cause),
}

impl Fault {
    pub fn number(self) -> u32 {
        match self {
            Fault::Length => 15,
            Fault::Group(_) => 16,
            Fault::Message(_) => 17,
        }
    }
}

/// Why a frame is refused.
#[derive(Clone, Copy, PartialEq, Eq, Debug)]
pub enum FrameFault {
    Length,
    /// The number of the cell, 1 or 2, and what is wrong with it.
    Cell(u8, Fault),
}

impl fmt::Display for Cause {
    fn fmt(&self, f: &mut fmt::Formatter<'_>) -> fmt::Result {
        match self {
            Cause::Identifier(byte) => write!(f, "fault 17 identifier={byte}"),
            Cause::Address(byte) => write!(f, "fault 17 address={byte}"),
            Cause::Field(field) => write!(f, "fault 17 field={}", field.name()),
        }
    }
}

impl fmt::Display for UpCause {
    fn fmt(&self, f: &mut fmt::Formatter<'_>) -> fmt::Result {
        match self {
            UpCause::Identifier(byte) => write!(f, "fault 17 identifier={byte}"),
            UpCause::Source(byte) => write!(f, "fault 17 source={byte}"),
            UpCause::Field(field) => write!(f, "fault 17 field={}", field.name()),
        }
    }
}

impl fmt::Display for Fault {
    fn fmt(&self, f: &mut fmt::Formatter<'_>) -> fmt::Result {
        match self {
            Fault::Length => f.write_str("fault 15 length"),
            Fault::Group(group) => write!(f, "fault 16 group={group}"),
            Fault::Message(cause) => cause.fmt(f),
        }
    }
}

impl fmt::Display for FrameFault {
    fn fmt(&self, f: &mut fmt::Formatter<'_>) -> fmt::Result {
        match self {
            FrameFault::Length => f.write_str("fault 15 length"),
            FrameFault::Cell(cell, fault) => write!(f, "cell={cell} {fault}"),
        }
    }
}
