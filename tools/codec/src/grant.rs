//! Grants. Every byte is one: three values are special, the others are codes.

use std::fmt;

#[derive(Clone, Copy, PartialEq, Eq, Debug)]
pub struct Grant(pub u8);

impl Grant {
    pub const RANGING: Grant = Grant(0xFD);
    pub const UNASSIGNED: Grant = Grant(0xFE);
    pub const IDLE: Grant = Grant(0xFF);
    /// The greatest code that can be allocated to an ONU.
    pub const LAST_CODE: u8 = 0xFC;
}

impl fmt::Display for Grant {
    fn fmt(&self, f: &mut fmt::Formatter<'_>) -> fmt::Result {
        match *self {
            Grant::RANGING => f.write_str("ranging"),
            Grant::UNASSIGNED => f.write_str("unassigned"),
            Grant::IDLE => f.write_str("idle"),
            Grant(code) => write!(f, "{code}"),
        }
    }
}

/// Grants as text, each run of equal ones joined as `NAME*COUNT`.
pub struct Runs<'a>(pub &'a [Grant]);

impl fmt::Display for Runs<'_> {
    fn fmt(&self, f: &mut fmt::Formatter<'_>) -> fmt::Result {
        for (i, run) in self.0.chunk_by(|a, b| a == b).enumerate() {
            if i > 0 {
                f.write_str(",")?;
            }
            write!(f, "{}", run[0])?;
            if run.len() > 1 {
                write!(f, "*{}", run.len())?;
            }
        }
        Ok(())
    }
}

#[cfg(test)]
mod tests {
    use super::*;

    #[test]
    fn runs() {
        let text = |bytes: &[u8]| {
            let grants: Vec<Grant> = bytes.iter().map(|&b| Grant(b)).collect();
            Runs(&grants).to_string()
        };
        assert_eq!(
            text(&[5, 5, 5, 69, 254, 253, 255, 255]),
            "5*3,69,unassigned,ranging,idle*2"
        );
        assert_eq!(text(&[252, 252, 0, 252]), "252*2,0,252");
        assert_eq!(text(&[255; 27]), "idle*27");
    }
}
