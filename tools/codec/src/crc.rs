//! The check byte: CRC-8 with the polynomial x^8 + x^2 + x + 1, the register
//! preset to zero, the most significant bit first.

const POLYNOMIAL: u8 = 0x07;

/// What the register becomes when it is shifted by eight bits.
const fn shift_eight(mut register: u8) -> u8 {
    let mut bit = 0;
    while bit < 8 {
        let carry = register & 0x80 != 0;
        register <<= 1;
        if carry {
            register ^= POLYNOMIAL;
        }
        bit += 1;
    }
    register
}

const fn make_table() -> [u8; 256] {
    let mut table = [0; 256];
    let mut i = 0;
    while i < 256 {
        table[i] = shift_eight(i as u8);
        i += 1;
    }
    table
}

static TABLE: [u8; 256] = make_table();

/// The check byte, one bit at a time: the plain polynomial division.
pub fn crc8_bitwise(bytes: &[u8]) -> u8 {
    let mut register = 0u8;
    for &byte in bytes {
        for bit in (0..8).rev() {
            let carry = (register >> 7) ^ ((byte >> bit) & 1);
            register <<= 1;
            if carry != 0 {
                register ^= POLYNOMIAL;
            }
        }
    }
    register
}

/// The register after one more byte.
#[inline]
pub fn step(register: u8, byte: u8) -> u8 {
    TABLE[usize::from(register ^ byte)]
}

/// The check byte, one byte at a time.
#[inline]
pub fn crc8(bytes: &[u8]) -> u8 {
    bytes.iter().fold(0, |register, &byte| step(register, byte))
}

#[cfg(test)]
mod tests {
    use super::*;
    use crate::random::Random;

    #[test]
    fn known_values() {
        assert_eq!(crc8_bitwise(b"123456789"), 0xF4);
        assert_eq!(crc8(b"123456789"), 0xF4);
        assert_eq!(crc8(&[0, 0, 0, 0, 0, 0, 0x0D]), 0x23);
        assert_eq!(crc8_bitwise(&[0, 0, 0, 0, 0, 0, 0x0D]), 0x23);
        assert_eq!(crc8(&[]), 0);
    }

    #[test]
    fn table_and_bits_agree() {
        let mut random = Random::new(7);
        for length in 0..200 {
            let bytes = random.bytes(length);
            assert_eq!(crc8(&bytes), crc8_bitwise(&bytes));
        }
    }

    /// Bytes followed by their check byte leave nothing in the register.
    #[test]
    fn remainder_is_zero() {
        let mut random = Random::new(8);
        for length in 0..50 {
            let mut bytes = random.bytes(length);
            bytes.push(crc8(&bytes));
            assert_eq!(crc8(&bytes), 0);
        }
    }
}
