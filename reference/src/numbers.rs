//! Unsigned big-endian numbers of two, four or eight bytes within a buffer (document 01, "MDI packet";
//! ES 201 980, clause 3.4: the most significant bit first).

/// Whether a number of `width` bytes at `offset` lies wholly in a buffer of `length` bytes.
/// The sum is taken in 128 bits, where no offset can make it wrap.
fn lies_within(width: usize, offset: u64, length: usize) -> bool {
    u128::from(offset) + width as u128 <= length as u128
}

/// The number at `offset`, or none where it does not lie wholly in the buffer.
pub fn read(buffer: &[u8], width: usize, offset: u64) -> Option<u64> {
    if !lies_within(width, offset, buffer.len()) {
        return None;
    }
    let mut number = 0;
    for place in 0..width {
        number = number << 8 | u64::from(buffer[offset as usize + place]);
    }
    Some(number)
}

/// Writes `value`, modulo 2 to the bits of the width, at `offset`. Where the number does not lie wholly
/// in the buffer, nothing is written and the answer is false.
pub fn write(buffer: &mut [u8], width: usize, offset: u64, value: u64) -> bool {
    if !lies_within(width, offset, buffer.len()) {
        return false;
    }
    for place in 0..width {
        let bits_behind = 8 * (width - 1 - place);
        buffer[offset as usize + place] = (value >> bits_behind & 0xFF) as u8;
    }
    true
}

#[cfg(test)]
mod tests {
    use super::*;

    const BYTES: [u8; 9] = [0x01, 0x23, 0x45, 0x67, 0x89, 0xAB, 0xCD, 0xEF, 0x10];

    #[test]
    fn reads_the_most_significant_byte_first() {
        assert_eq!(read(&BYTES, 2, 0), Some(0x0123));
        assert_eq!(read(&BYTES, 4, 1), Some(0x2345_6789));
        assert_eq!(read(&BYTES, 8, 1), Some(0x2345_6789_ABCD_EF10));
    }

    #[test]
    fn reads_nothing_past_the_end() {
        for width in [2, 4, 8] {
            let last = (BYTES.len() - width) as u64;
            assert!(read(&BYTES, width, last).is_some());
            let wrapping = u64::MAX - width as u64 + 1;
            for offset in [last + 1, 9, 10, 1 << 32, 1 << 63, wrapping, u64::MAX] {
                assert_eq!(read(&BYTES, width, offset), None);
            }
            assert_eq!(read(&[], width, 0), None);
        }
    }

    #[test]
    fn writes_its_bytes_and_no_others() {
        let mut buffer = [9; 6];
        assert!(write(&mut buffer, 4, 1, 0xAABB_CCDD_0102_0304));
        assert_eq!(buffer, [9, 1, 2, 3, 4, 9]);
        assert!(write(&mut buffer, 2, 4, 0xFFFF_0506));
        assert_eq!(buffer, [9, 1, 2, 3, 5, 6]);
    }

    #[test]
    fn writes_nothing_where_it_does_not_fit() {
        let mut buffer = [9; 8];
        for offset in [1, 8, 9, 1 << 32, 1 << 63, u64::MAX - 7, u64::MAX] {
            assert!(!write(&mut buffer, 8, offset, 1));
        }
        assert_eq!(buffer, [9; 8]);
    }
}
