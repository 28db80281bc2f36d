//! A buffer in the body of a case, in its two forms (docs/CASES.md, "A case").

use crate::reader::Reader;

/// The longest buffer of a case.
pub const LONGEST: usize = 131_072;

#[derive(Debug, Clone, PartialEq, Eq)]
pub enum Buffer {
    /// Kind 0: the bytes stand in the case.
    Given(Vec<u8>),
    /// Kind 1: the bytes follow from a seed.
    Seeded { length: usize, seed: u32 },
}

/// No bytes.
impl Default for Buffer {
    fn default() -> Buffer {
        Buffer::Given(Vec::new())
    }
}

impl Buffer {
    pub fn length(&self) -> usize {
        match self {
            Buffer::Given(bytes) => bytes.len(),
            Buffer::Seeded { length, .. } => *length,
        }
    }

    pub fn bytes(&self) -> Vec<u8> {
        match self {
            Buffer::Given(bytes) => bytes.clone(),
            Buffer::Seeded { length, seed } => seeded_bytes(*length, *seed),
        }
    }

    pub fn write(&self, body: &mut Vec<u8>) {
        match self {
            Buffer::Given(bytes) => {
                body.push(0);
                body.extend((bytes.len() as u32).to_be_bytes());
                body.extend(bytes);
            }
            Buffer::Seeded { length, seed } => {
                body.push(1);
                body.extend((*length as u32).to_be_bytes());
                body.extend(seed.to_be_bytes());
            }
        }
    }

    /// None where the kind is unknown, the length is over the longest, or the body too short.
    pub fn read(body: &mut Reader) -> Option<Buffer> {
        let kind = body.u8()?;
        let length = body.u32()? as usize;
        match kind {
            _ if length > LONGEST => None,
            0 => Some(Buffer::Given(body.bytes(length)?.to_vec())),
            1 => Some(Buffer::Seeded {
                length,
                seed: body.u32()?,
            }),
            _ => None,
        }
    }
}

fn seeded_bytes(length: usize, seed: u32) -> Vec<u8> {
    let mut bytes = Vec::with_capacity(length);
    let mut x = u64::from(seed);
    for _ in 0..length {
        x = (1_664_525 * x + 1_013_904_223) % (1 << 32);
        bytes.push((x / (1 << 24)) as u8);
    }
    bytes
}

#[cfg(test)]
mod tests {
    use super::*;

    /// From seed 0: x(1) = 1013904223 = 3C6EF35F, x(2) = 47502932, x(3) = D1CCF6E9.
    #[test]
    fn bytes_of_a_seed() {
        let buffer = Buffer::Seeded { length: 3, seed: 0 };
        assert_eq!(buffer.bytes(), [0x3C, 0x47, 0xD1]);
    }

    #[test]
    fn written_and_read_back() {
        let seed = 0xFFFF_FFFF;
        for buffer in [
            Buffer::Given(vec![]),
            Buffer::Given(vec![1, 2, 3]),
            Buffer::Given(vec![7; LONGEST]),
            Buffer::Seeded { length: 0, seed },
            Buffer::Seeded {
                length: LONGEST,
                seed,
            },
        ] {
            let mut body = Vec::new();
            buffer.write(&mut body);
            let mut reader = Reader::new(&body);
            assert_eq!(Buffer::read(&mut reader).as_ref(), Some(&buffer));
            assert!(reader.is_empty());
            assert_eq!(
                Buffer::read(&mut Reader::new(&body[..body.len() - 1])),
                None
            );
        }
    }

    #[test]
    fn no_longer_one_and_no_other_kind() {
        let long = [1, 0, 2, 0, 1, 0, 0, 0, 0];
        assert_eq!(Buffer::read(&mut Reader::new(&long)), None);
        let kind_2 = [2, 0, 0, 0, 0, 0, 0, 0, 0];
        assert_eq!(Buffer::read(&mut Reader::new(&kind_2)), None);
    }
}
