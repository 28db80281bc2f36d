//! The check words of ES 201 980, annex D (document 01, "MDI packet": CRC).

/// x^8 + x^4 + x^3 + x^2 + 1: the taps, without the highest power.
const TAPS_8: u32 = 1 << 4 | 1 << 3 | 1 << 2 | 1;
/// x^16 + x^12 + x^5 + 1, likewise.
const TAPS_16: u32 = 1 << 12 | 1 << 5 | 1;

pub fn crc8(data: &[u8]) -> u8 {
    check_word(8, TAPS_8, data) as u8
}

pub fn crc16(data: &[u8]) -> u16 {
    check_word(16, TAPS_16, data) as u16
}

/// The shift register of figure D.1. Bit k of `register` is the stage b_k.
fn check_word(degree: u32, taps: u32, data: &[u8]) -> u32 {
    let all_ones = (1 << degree) - 1;
    let mut register = all_ones;
    for byte in data {
        for place in (0..8).rev() {
            let data_bit = u32::from(byte >> place & 1);
            let last_stage = register >> (degree - 1) & 1;
            register = register << 1 & all_ones;
            if data_bit != last_stage {
                register ^= taps;
            }
        }
    }
    register ^ all_ones
}

#[cfg(test)]
mod tests {
    use super::*;

    #[test]
    fn known_check_words() {
        assert_eq!(crc8(b"123456789"), 0x4B);
        assert_eq!(crc16(b"123456789"), 0xD64E);
    }

    #[test]
    fn nothing_has_check_word_zero() {
        assert_eq!(crc8(&[]), 0);
        assert_eq!(crc16(&[]), 0);
    }

    /// Whole blocks with their check words: a FAC, an empty FAC, an SDC and two packets.
    #[test]
    fn blocks_with_their_check_words() {
        assert_eq!(
            crc8(&[0x06, 0x0A, 0x0E, 0x1C, 0x23, 0x80, 0xA0, 0x80]),
            0x5B
        );
        assert_eq!(crc8(&[0; 8]), 0xE9);
        assert_eq!(crc16(&[0x00]), 0x1E0F);
        assert_eq!(crc16(&[0x05]), 0x4EAA);
        assert_eq!(crc16(&[0xF8, 0, 0, 0, 0]), 0xD388);
        assert_eq!(crc16(&[0x90, 1, 2, 3, 4]), 0xC57A);
    }
}
