//! The description of the streams, as a `sdci` value and as a type 0 entity (document 01, "The description
//! and the frame it cuts" and "MDI packet": `sdci`; ES 201 980, clauses 6.4.3.0 and 6.4.3.1).

use crate::bits::Bits;
use crate::output;
use crate::refusal::{refuse, Refusal, LONGEST_INPUT};

/// Slots for streams.
pub const SLOTS: usize = 4;
/// The largest number that a length of 12 bits can be.
pub const LONGEST_PART: u16 = 4_095;
/// The largest number that a level of two bits can be.
pub const HIGHEST_LEVEL: u8 = 3;
/// The MSC mode of 64-QAM.
pub const QAM_64: u8 = 0;
/// The MSC mode of 16-QAM.
pub const QAM_16: u8 = 3;

/// The type of the entity.
const TYPE: u64 = 0;

#[derive(Debug, Clone, Copy, Default, PartialEq, Eq)]
pub struct Stream {
    pub part_a: u16,
    pub part_b: u16,
}

impl Stream {
    pub fn length(self) -> usize {
        usize::from(self.part_a) + usize::from(self.part_b)
    }
}

/// A description as it is handed in: any content.
#[derive(Debug, Clone, Copy, Default, PartialEq, Eq)]
pub struct Description {
    pub level_a: u8,
    pub level_b: u8,
    /// The number of streams.
    pub count: u8,
    pub streams: [Stream; SLOTS],
}

impl Description {
    /// The slots in use and those behind them; with too large a count all are in use.
    fn slots(&self) -> (&[Stream], &[Stream]) {
        self.streams.split_at(SLOTS.min(usize::from(self.count)))
    }

    /// Bytes of all streams.
    pub fn length(&self) -> usize {
        self.streams.iter().map(|stream| stream.length()).sum()
    }

    /// The tests of a description that is handed in with an MSC mode, in order.
    pub fn check(&self, mode: u8) -> Result<(), Refusal> {
        refuse(6, self.has_too_large_a_field())?;
        check_mode(mode)?;
        refuse(10, !self.is_well_formed(mode))
    }

    /// The number of streams is no field with bits of its own.
    pub fn has_too_large_a_field(&self) -> bool {
        let level = self.level_a > HIGHEST_LEVEL || self.level_b > HIGHEST_LEVEL;
        let too_long = |stream: &Stream| stream.part_a.max(stream.part_b) > LONGEST_PART;
        level || self.streams.iter().any(too_long)
    }

    fn is_well_formed(&self, mode: u8) -> bool {
        let (used, unused) = self.slots();
        let one_to_four = (1..=SLOTS).contains(&usize::from(self.count));
        let none_empty = used.iter().all(|stream| stream.length() > 0);
        let nothing_behind = unused.iter().all(|stream| stream.length() == 0);
        let has_part_a = used.iter().any(|stream| stream.part_a > 0);
        let level_a_for_a_reason = has_part_a || self.level_a == 0;
        let low_levels = self.level_a <= 1 && self.level_b <= 1;
        let levels_of_the_mode = mode != QAM_16 || low_levels;
        one_to_four && none_empty && nothing_behind && level_a_for_a_reason && levels_of_the_mode
    }

    /// Writes the levels and the lengths, which a value and an entity have in common.
    fn put(&self, bits: &mut Bits) {
        bits.put(2, u64::from(self.level_a));
        bits.put(2, u64::from(self.level_b));
        for stream in self.slots().0 {
            bits.put(12, u64::from(stream.part_a));
            bits.put(12, u64::from(stream.part_b));
        }
    }

    fn take(bits: &mut Bits, count: usize) -> Description {
        let mut description = Description {
            level_a: bits.take(2) as u8,
            level_b: bits.take(2) as u8,
            count: count as u8,
            ..Description::default()
        };
        for stream in &mut description.streams[..count] {
            stream.part_a = bits.take(12) as u16;
            stream.part_b = bits.take(12) as u16;
        }
        description
    }

    /// The `sdci` value of a description whose fields are not too large: four reserved bits in front.
    pub fn value(&self) -> Vec<u8> {
        let mut bits = Bits::default();
        bits.put(4, 0);
        self.put(&mut bits);
        bits.bytes()
    }

    /// The type 0 entity, likewise.
    pub fn entity(&self, version: u8) -> Vec<u8> {
        let mut bits = Bits::default();
        bits.put(7, 3 * self.slots().0.len() as u64);
        bits.put(1, u64::from(version));
        bits.put(4, TYPE);
        self.put(&mut bits);
        bits.bytes()
    }
}

/// An MSC mode has two bits, and only two of its four values are served.
fn check_mode(mode: u8) -> Result<(), Refusal> {
    refuse(6, mode > 3)?;
    refuse(9, mode != QAM_64 && mode != QAM_16)
}

/// The number of streams whose levels and lengths, with four bits before them, take that many bytes.
fn count_of(length: usize) -> Option<usize> {
    (1..=SLOTS).find(|count| 1 + 3 * count == length)
}

pub fn read_value(mode: u8, value: &[u8]) -> Result<Description, Refusal> {
    refuse(1, value.len() > LONGEST_INPUT)?;
    let count = count_of(value.len()).ok_or(Refusal::number(5))?;
    check_mode(mode)?;
    let mut bits = Bits::of(value);
    let _reserved = bits.take(4);
    let description = Description::take(&mut bits, count);
    refuse(10, !description.is_well_formed(mode))?;
    Ok(description)
}

pub fn write_value(
    description: &Description,
    mode: u8,
    output: &mut [u8],
) -> Result<usize, Refusal> {
    description.check(mode)?;
    output::write(&description.value(), output)
}

/// The version and the description.
pub fn read_entity(mode: u8, entity: &[u8]) -> Result<(u8, Description), Refusal> {
    refuse(1, entity.len() > LONGEST_INPUT)?;
    let count = count_of(entity.len().saturating_sub(1)).ok_or(Refusal::number(5))?;
    check_mode(mode)?;
    let mut bits = Bits::of(entity);
    let length = bits.take(7);
    let version = bits.take(1) as u8;
    refuse(10, length != 3 * count as u64)?;
    refuse(10, bits.take(4) != TYPE)?;
    let description = Description::take(&mut bits, count);
    refuse(10, !description.is_well_formed(mode))?;
    Ok((version, description))
}

pub fn write_entity(
    version: u8,
    description: &Description,
    mode: u8,
    output: &mut [u8],
) -> Result<usize, Refusal> {
    refuse(6, version > 1)?;
    description.check(mode)?;
    output::write(&description.entity(version), output)
}

#[cfg(test)]
mod tests {
    use super::*;

    const ANNEX_C: [u8; 10] = [0x01, 0x00, 0x04, 0x51, 0x03, 0xB0, 0x00, 0x01, 0x30, 0x00];

    fn described(levels: [u8; 2], lengths: &[[u16; 2]]) -> Description {
        let mut description = Description {
            level_a: levels[0],
            level_b: levels[1],
            count: lengths.len() as u8,
            ..Description::default()
        };
        for (stream, [part_a, part_b]) in description.streams.iter_mut().zip(lengths) {
            (stream.part_a, stream.part_b) = (*part_a, *part_b);
        }
        description
    }

    fn annex_c() -> Description {
        described([0, 1], &[[0, 1_105], [59, 0], [19, 0]])
    }

    fn refused<T>(number: u8) -> Result<T, Refusal> {
        Err(Refusal::number(number))
    }

    #[test]
    fn annex_c_as_value_and_entity() {
        for mode in [QAM_64, QAM_16] {
            assert_eq!(read_value(mode, &ANNEX_C), Ok(annex_c()));
            let mut output = [9; 12];
            assert_eq!(write_value(&annex_c(), mode, &mut output), Ok(10));
            assert_eq!(output[..10], ANNEX_C);
            assert_eq!(output[10..], [9, 9]);
            let entity = [&[0x12], &ANNEX_C[..]].concat();
            assert_eq!(read_entity(mode, &entity), Ok((0, annex_c())));
            assert_eq!(write_entity(0, &annex_c(), mode, &mut output), Ok(11));
            assert_eq!(output[..11], entity[..]);
        }
    }

    #[test]
    fn an_entity_of_the_next_configuration() {
        let description = described([0, 3], &[[0, 4_095]]);
        let entity = [0x07, 0x03, 0x00, 0x0F, 0xFF];
        assert_eq!(description.entity(1), entity);
        assert_eq!(read_entity(QAM_64, &entity), Ok((1, description)));
        assert_eq!(read_entity(QAM_16, &entity), refused(10));
    }

    #[test]
    fn lengths_of_a_value_and_an_entity() {
        for length in 0..40 {
            let value = read_value(4, &vec![0; length]);
            let right = [4, 7, 10, 13].contains(&length);
            assert_eq!(value, refused(if right { 6 } else { 5 }));
            let entity = read_entity(4, &vec![0; length]);
            let right = [5, 8, 11, 14].contains(&length);
            assert_eq!(entity, refused(if right { 6 } else { 5 }));
        }
        for (length, number) in [(LONGEST_INPUT, 5), (LONGEST_INPUT + 1, 1)] {
            assert_eq!(read_value(4, &vec![0; length]), refused(number));
            assert_eq!(read_entity(4, &vec![0; length]), refused(number));
        }
    }

    /// The `sdci` values in the table of runs, in MSC mode 0.
    #[test]
    fn values_of_the_table() {
        let good: [&[u8]; 4] = [
            &[0xF0, 0x00, 0x00, 0x02],
            &[0x03, 0x00, 0x00, 0x02],
            &[0x08, 0x00, 0x10, 0x01],
            &[0x00, 0x00, 0x00, 0x03],
        ];
        for value in good {
            assert!(read_value(QAM_64, value).is_ok());
        }
        let bad: [&[u8]; 3] = [
            &[0x04, 0x00, 0x00, 0x02],
            &[0x00, 0x00, 0x00, 0x00],
            &[0x00, 0x00, 0x00, 0x02, 0x00, 0x00, 0x00],
        ];
        for value in bad {
            assert_eq!(read_value(QAM_64, value), refused(10));
        }
    }

    #[test]
    fn modes() {
        for (mode, number) in [(1, 9), (2, 9), (4, 6), (255, 6)] {
            assert_eq!(read_value(mode, &ANNEX_C), refused(number));
            assert_eq!(read_value(mode, &[0; 4]), refused(number));
            assert_eq!(read_value(mode, &[0; 3]), refused(5));
            assert_eq!(annex_c().check(mode), refused(number));
        }
    }

    #[test]
    fn levels() {
        for level in 0..=3 {
            let with_part_a = described([level, 0], &[[1, 0]]);
            let without = described([level, 0], &[[0, 1]]);
            let level_b = described([0, level], &[[0, 1]]);
            assert_eq!(with_part_a.check(QAM_64), Ok(()));
            assert_eq!(level_b.check(QAM_64), Ok(()));
            assert_eq!(without.check(QAM_64).is_ok(), level == 0);
            assert_eq!(with_part_a.check(QAM_16).is_ok(), level <= 1);
            assert_eq!(level_b.check(QAM_16).is_ok(), level <= 1);
        }
        assert_eq!(described([4, 0], &[[0, 1]]).check(QAM_64), refused(6));
        assert_eq!(described([0, 4], &[[0, 1]]).check(1), refused(6));
    }

    #[test]
    fn counts_and_unused_slots() {
        let mut description = described([0, 0], &[[1, 0], [0, 1], [1, 1], [4_095, 4_095]]);
        for (count, number) in [(0, 10), (3, 10), (5, 10), (255, 10)] {
            description.count = count;
            assert_eq!(description.check(QAM_64), refused(number));
        }
        description.count = 4;
        assert_eq!(description.check(QAM_64), Ok(()));
        description.count = 3;
        description.streams[3] = Stream::default();
        assert_eq!(description.check(QAM_64), Ok(()));
        description.streams[3].part_b = 4_096;
        assert_eq!(description.check(QAM_64), refused(6));
    }

    #[test]
    fn an_entity_of_another_type_or_length() {
        let entity = annex_c().entity(1);
        for bit in 0..12 {
            let mut other = entity.clone();
            other[bit / 8] ^= 0x80 >> (bit % 8);
            let expected = match bit {
                7 => Ok((0, annex_c())),
                _ => refused(10),
            };
            assert_eq!(read_entity(QAM_64, &other), expected);
        }
    }

    #[test]
    fn the_output_is_tried_last() {
        let mut output = [9; 9];
        assert_eq!(write_value(&annex_c(), 4, &mut output), refused(6));
        assert_eq!(write_value(&annex_c(), 1, &mut output), refused(9));
        let empty = Description::default();
        assert_eq!(write_value(&empty, QAM_64, &mut output), refused(10));
        assert_eq!(write_value(&annex_c(), QAM_64, &mut output), refused(1));
        assert_eq!(write_entity(2, &annex_c(), 1, &mut output), refused(6));
        assert_eq!(write_entity(1, &annex_c(), 0, &mut output), refused(1));
        assert_eq!(output, [9; 9]);
    }
}
