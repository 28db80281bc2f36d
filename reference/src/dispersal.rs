//! Energy dispersal of ES 201 980, clause 7.2.2 (document 01, "Dispersal").
//!
//! The sequence is worked out bit by bit, as the clause has it, for the whole length of the input: no
//! table (document 01 has one of 511 bytes, and 02 in E6 does without), no period, no bytes at once.

use crate::refusal::{Refusal, LONGEST_INPUT};

/// The bits that stand before the first one, all of them ones.
const BITS_BEFORE: usize = 9;

/// Writes the input, XORed with the sequence, to the front of `output`.
pub fn disperse(input: &[u8], output: &mut [u8]) -> Result<(), Refusal> {
    if input.len() > LONGEST_INPUT || output.len() < input.len() {
        return Err(Refusal::number(1));
    }
    for (place, byte) in sequence(input.len()).into_iter().enumerate() {
        output[place] = input[place] ^ byte;
    }
    Ok(())
}

/// The first `length` bytes of the sequence.
fn sequence(length: usize) -> Vec<u8> {
    let mut bits = vec![1; BITS_BEFORE];
    for place in BITS_BEFORE..BITS_BEFORE + 8 * length {
        bits.push(bits[place - 5] ^ bits[place - 9]);
    }
    bits[BITS_BEFORE..].chunks(8).map(byte).collect()
}

/// Eight bits, the most significant one first.
fn byte(bits: &[u8]) -> u8 {
    bits.iter().fold(0, |byte, bit| byte << 1 | bit)
}

#[cfg(test)]
mod tests {
    use super::*;
    use crate::crc::crc16;
    use crate::random::Random;

    const PERIOD: usize = 511;

    fn dispersed(input: &[u8]) -> Vec<u8> {
        let mut output = vec![0; input.len()];
        disperse(input, &mut output).unwrap();
        output
    }

    #[test]
    fn first_bits_of_table_26() {
        assert_eq!(dispersed(&[0, 0]), [0b0000_0111, 0b1011_1110]);
    }

    #[test]
    fn first_and_last_bytes_of_the_period() {
        let table = sequence(PERIOD);
        let first = [
            0x07, 0xBE, 0x2E, 0x64, 0x12, 0x9D, 0xA3, 0xCF, 0x9B, 0x15, 0x23, 0x8D, 0xAB, 0x89,
            0x88, 0x80,
        ];
        let last = [0x24, 0x33, 0x85, 0xED, 0x9A, 0x1D, 0xE1, 0xFF];
        assert_eq!(table[..16], first);
        assert_eq!(table[PERIOD - 8..], last);
    }

    #[test]
    fn sum_ones_and_check_word_of_the_period() {
        let table = sequence(PERIOD);
        assert_eq!(
            table.iter().map(|byte| u32::from(*byte)).sum::<u32>(),
            65_280
        );
        assert_eq!(
            table.iter().map(|byte| byte.count_ones()).sum::<u32>(),
            2_048
        );
        assert_eq!(crc16(&table), 0x93E7);
    }

    #[test]
    fn repeats_after_511_bytes_and_not_before() {
        let bytes = sequence(LONGEST_INPUT);
        assert!((PERIOD..bytes.len()).all(|place| bytes[place] == bytes[place - PERIOD]));
        assert!((1..PERIOD).all(|shift| bytes[shift..shift + PERIOD] != bytes[..PERIOD]));
    }

    #[test]
    fn known_bytes() {
        assert_eq!(dispersed(&[0xAA; 4]), [0xAD, 0x14, 0x84, 0xCE]);
    }

    #[test]
    fn twice_gives_the_data_back() {
        let mut random = Random::new(1);
        for length in [0, 1, 2, 510, 511, 512, 1_022, LONGEST_INPUT] {
            let data = random.bytes(length);
            assert_eq!(dispersed(&dispersed(&data)), data);
        }
    }

    #[test]
    fn bytes_behind_the_input_stay() {
        let mut output = [1, 2, 3, 4];
        disperse(&[0, 0], &mut output).unwrap();
        assert_eq!(output, [0x07, 0xBE, 3, 4]);
    }

    #[test]
    fn refusals_leave_the_output() {
        let mut short = [1, 2, 3];
        assert_eq!(disperse(&[0; 4], &mut short), Err(Refusal::number(1)));
        assert_eq!(short, [1, 2, 3]);
        let mut long = vec![9; LONGEST_INPUT + 1];
        assert_eq!(
            disperse(&[0; LONGEST_INPUT + 1], &mut long),
            Err(Refusal::number(1))
        );
        assert!(long.iter().all(|byte| *byte == 9));
        assert_eq!(disperse(&[0; LONGEST_INPUT], &mut long), Ok(()));
    }
}
