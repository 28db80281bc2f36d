//! Recording files (document 01, "Clock and recordings"). The packets in them are not read.

use crate::numbers;
use crate::output;
use crate::refusal::{refuse, refuse_at, Refusal, LONGEST_INPUT};

/// The byte with which a file begins.
pub const VERSION: u8 = 1;
/// Bytes of the length in front of each packet.
pub const HEADER: usize = 4;

/// A packet in a file: where it starts, how long it is, and where the next entry begins.
#[derive(Debug, PartialEq, Eq)]
pub struct Entry {
    pub start: u64,
    pub length: u64,
    pub next: u64,
}

pub fn open(file: &[u8]) -> Result<(), Refusal> {
    refuse_at(2, 0, file.is_empty())?;
    refuse(6, file[0] != VERSION)
}

/// The entry at an offset; none at the end of the file.
pub fn next(file: &[u8], offset: u64) -> Result<Option<Entry>, Refusal> {
    if offset == file.len() as u64 {
        return Ok(None);
    }
    let past_the_end = Refusal {
        number: 2,
        place: offset,
    };
    let length = numbers::read(file, HEADER, offset).ok_or(past_the_end)?;
    refuse(1, length > LONGEST_INPUT as u64)?;
    let start = offset + HEADER as u64;
    let next = start + length;
    refuse_at(2, offset, next > file.len() as u64)?;
    Ok(Some(Entry {
        start,
        length,
        next,
    }))
}

/// Writes what stands before the first entry and tells how many bytes that are.
pub fn start(output: &mut [u8]) -> Result<usize, Refusal> {
    output::write(&[VERSION], output)
}

/// Writes the entry of a packet at an offset of `output` and tells where the next one would go.
pub fn append(packet: &[u8], offset: u64, output: &mut [u8]) -> Result<u64, Refusal> {
    refuse(1, packet.len() > LONGEST_INPUT)?;
    refuse(1, offset > output.len() as u64)?;
    let entry = [&(packet.len() as u32).to_be_bytes(), packet].concat();
    let written = output::write(&entry, &mut output[offset as usize..])?;
    Ok(offset + written as u64)
}

#[cfg(test)]
mod tests {
    use super::*;

    /// Packets of two bytes, of none and of one.
    const FILE: [u8; 16] = [1, 0, 0, 0, 2, 7, 8, 0, 0, 0, 0, 0, 0, 0, 1, 9];

    fn past_the_end<T>(place: u64) -> Result<T, Refusal> {
        Err(Refusal { number: 2, place })
    }

    fn entry(start: u64, length: u64, next: u64) -> Result<Option<Entry>, Refusal> {
        Ok(Some(Entry {
            start,
            length,
            next,
        }))
    }

    #[test]
    fn opening() {
        assert_eq!(open(&[]), past_the_end(0));
        assert_eq!(open(&[1]), Ok(()));
        assert_eq!(open(&[1, 9]), Ok(()));
        for version in [0, 2, 255] {
            assert_eq!(open(&[version]), Err(Refusal::number(6)));
        }
    }

    #[test]
    fn walking() {
        assert_eq!(next(&FILE, 1), entry(5, 2, 7));
        assert_eq!(next(&FILE, 7), entry(11, 0, 11));
        assert_eq!(next(&FILE, 11), entry(15, 1, 16));
        assert_eq!(next(&FILE, 16), Ok(None));
        assert_eq!(next(&[1], 1), Ok(None));
        assert_eq!(next(&[], 0), Ok(None));
        for offset in [17, 18, 1 << 32, u64::MAX - 3, u64::MAX] {
            assert_eq!(next(&FILE, offset), past_the_end(offset));
        }
    }

    #[test]
    fn cut_anywhere() {
        for end in 2..7 {
            assert_eq!(next(&FILE[..end], 1), past_the_end(1));
        }
        for end in 12..16 {
            assert_eq!(next(&FILE[..end], 11), past_the_end(11));
        }
        assert_eq!(next(&FILE[..11], 7), entry(11, 0, 11));
        assert_eq!(next(&[1, 0, 0], 1), past_the_end(1));
    }

    #[test]
    fn the_longest_entry() {
        assert_eq!(next(&[1, 0, 0, 0xFF, 0xF8], 1), past_the_end(1));
        let too_long = Err(Refusal::number(1));
        assert_eq!(next(&[1, 0, 0, 0xFF, 0xF9], 1), too_long);
        assert_eq!(next(&[1, 0xFF, 0xFF, 0xFF, 0xFF], 1), too_long);
        let mut file = vec![0; 1 + 4 + 65_528];
        file[1..5].copy_from_slice(&[0, 0, 0xFF, 0xF8]);
        assert_eq!(next(&file, 1), entry(5, 65_528, 65_533));
    }

    #[test]
    fn written_and_walked() {
        let mut file = [9; 18];
        assert_eq!(start(&mut file), Ok(1));
        assert_eq!(append(&[7, 8], 1, &mut file), Ok(7));
        assert_eq!(append(&[], 7, &mut file), Ok(11));
        assert_eq!(append(&[9], 11, &mut file), Ok(16));
        assert_eq!(file[..16], FILE);
        assert_eq!(file[16..], [9, 9]);
    }

    #[test]
    fn no_room() {
        let too_short = Err(Refusal::number(1));
        assert_eq!(start(&mut []), too_short.map(|_: u64| 0));
        let mut output = [9; 6];
        for offset in [1, 5, 6, 7, 1 << 32, u64::MAX - 5, u64::MAX] {
            assert_eq!(append(&[1, 2], offset, &mut output), too_short);
        }
        assert_eq!(output, [9; 6]);
        assert_eq!(append(&[1, 2], 0, &mut output), Ok(6));
        let mut output = vec![9; 70_000];
        assert_eq!(append(&[0; 65_529], 0, &mut output), too_short);
        assert_eq!(append(&[0; 65_528], 9, &mut output), Ok(65_541));
    }
}
