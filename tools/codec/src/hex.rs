//! Bytes as hex digits.

use std::fmt;

/// Bytes as lowercase hex, two digits each, nothing between.
pub struct Hex<'a>(pub &'a [u8]);

impl fmt::Display for Hex<'_> {
    fn fmt(&self, f: &mut fmt::Formatter<'_>) -> fmt::Result {
        for byte in self.0 {
            write!(f, "{byte:02x}")?;
        }
        Ok(())
    }
}

/// Reads hex digits, with blanks between bytes or without; `None` if the text
/// is anything else.
pub fn parse(text: &str) -> Option<Vec<u8>> {
    let mut bytes = Vec::new();
    for word in text.split_ascii_whitespace() {
        if word.len() % 2 != 0 {
            return None;
        }
        for pair in word.as_bytes().chunks(2) {
            let high = (pair[0] as char).to_digit(16)?;
            let low = (pair[1] as char).to_digit(16)?;
            bytes.push((high * 16 + low) as u8);
        }
    }
    Some(bytes)
}

#[cfg(test)]
mod tests {
    use super::*;

    #[test]
    fn there_and_back() {
        assert_eq!(Hex(&[0, 0xAB, 0x0F]).to_string(), "00ab0f");
        assert_eq!(parse("00ab 0F"), Some(vec![0, 0xAB, 0x0F]));
        assert_eq!(parse("00a"), None);
        assert_eq!(parse("0g"), None);
        assert_eq!(parse(""), Some(vec![]));
    }
}
