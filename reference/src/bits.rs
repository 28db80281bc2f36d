//! Strings of bits made of fields, the most significant bit of each first (document 01 gives its fields in
//! bits; ES 201 980, clause 3.4 their order).

use std::collections::VecDeque;

#[derive(Default)]
pub struct Bits {
    bits: VecDeque<bool>,
}

impl Bits {
    /// The bits of a byte string.
    pub fn of(bytes: &[u8]) -> Bits {
        let mut bits = Bits::default();
        for byte in bytes {
            bits.put(8, u64::from(*byte));
        }
        bits
    }

    /// Puts a field of `width` bits at the end.
    pub fn put(&mut self, width: u32, value: u64) {
        debug_assert!(width == 64 || value < 1 << width);
        for place in (0..width).rev() {
            self.bits.push_back(value >> place & 1 == 1);
        }
    }

    /// Takes a field of `width` bits off the front; bits that are not there are zeros.
    pub fn take(&mut self, width: u32) -> u64 {
        let mut value = 0;
        for _ in 0..width {
            let bit = self.bits.pop_front().unwrap_or(false);
            value = 2 * value + u64::from(bit);
        }
        value
    }

    /// The bytes of a string whose length is a multiple of eight.
    pub fn bytes(mut self) -> Vec<u8> {
        debug_assert!(self.bits.len().is_multiple_of(8));
        let mut bytes = Vec::new();
        while !self.bits.is_empty() {
            bytes.push(self.take(8) as u8);
        }
        bytes
    }
}

#[cfg(test)]
mod tests {
    use super::*;

    #[test]
    fn the_most_significant_bit_comes_first() {
        let mut bits = Bits::default();
        for (width, value) in [(1, 1), (2, 0b01), (5, 0b00011), (12, 0xABC), (4, 0xD)] {
            bits.put(width, value);
        }
        assert_eq!(bits.bytes(), [0b1010_0011, 0xAB, 0xCD]);
    }

    #[test]
    fn put_and_taken_again() {
        let fields = [(14, 16_383), (40, (1 << 40) - 1), (10, 999), (64, u64::MAX)];
        let mut bits = Bits::default();
        for (width, value) in fields {
            bits.put(width, value);
        }
        let mut bits = Bits::of(&bits.bytes());
        for (width, value) in fields {
            assert_eq!(bits.take(width), value);
        }
    }
}
