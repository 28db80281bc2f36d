//! Data packets (document 01, "Packets, queues and receiver"; ES 201 980, clauses 6.6.1.1 and 6.6.1.2).

use crate::bits::Bits;
use crate::crc::crc16;
use crate::output;
use crate::refusal::{refuse, Refusal};

/// Bytes of a packet that are no data: the header and the check word.
pub const FRAMING: usize = 3;
/// The most data bytes.
pub const LARGEST_P: u64 = 255;

const HIGHEST_ID: u8 = 3;
const HIGHEST_INDEX: u8 = 7;

/// What the header says, without the padded flag, which follows from the number of useful bytes.
#[derive(Debug, Clone, Copy, Default, PartialEq, Eq)]
pub struct Header {
    pub first: bool,
    pub last: bool,
    pub id: u8,
    /// The continuity index.
    pub index: u8,
}

#[derive(Debug, PartialEq, Eq)]
pub struct Packet {
    pub header: Header,
    pub padded: bool,
    pub useful: Vec<u8>,
}

pub fn check_p(p: u64) -> Result<(), Refusal> {
    refuse(13, !(1..=LARGEST_P).contains(&p))
}

pub fn check(p: u64, bytes: &[u8]) -> Result<(), Refusal> {
    read(p, bytes).map(|_| ())
}

/// The content of padding is not looked at.
pub fn read(p: u64, bytes: &[u8]) -> Result<Packet, Refusal> {
    check_p(p)?;
    let p = p as usize;
    refuse(1, bytes.len() != p + FRAMING)?;
    let (covered, check_word) = bytes.split_at(1 + p);
    refuse(16, crc16(covered).to_be_bytes() != check_word)?;
    let (header, padded) = header_of(covered[0]);
    let data = &covered[1..];
    if !padded {
        let useful = data.to_vec();
        return Ok(Packet {
            header,
            padded,
            useful,
        });
    }
    let count = usize::from(data[0]);
    refuse(16, count > p - 1)?;
    let useful = data[1..1 + count].to_vec();
    Ok(Packet {
        header,
        padded,
        useful,
    })
}

/// The header and the padded flag.
fn header_of(byte: u8) -> (Header, bool) {
    let mut bits = Bits::of(&[byte]);
    let first = bits.take(1) == 1;
    let last = bits.take(1) == 1;
    let id = bits.take(2) as u8;
    let padded = bits.take(1) == 1;
    let index = bits.take(3) as u8;
    let header = Header {
        first,
        last,
        id,
        index,
    };
    (header, padded)
}

/// Writes the packet to the front of `output` and tells its length.
pub fn write(p: u64, header: Header, useful: &[u8], output: &mut [u8]) -> Result<usize, Refusal> {
    check_p(p)?;
    refuse(1, useful.len() as u64 > p)?;
    refuse(6, header.id > HIGHEST_ID || header.index > HIGHEST_INDEX)?;
    let padded = (useful.len() as u64) < p;
    let mut bytes = vec![header_byte(header, padded)];
    bytes.extend(data_field(p as usize, padded, useful));
    bytes.extend(crc16(&bytes).to_be_bytes());
    output::write(&bytes, output)
}

/// The header byte of fields that are not too large.
pub fn header_byte(header: Header, padded: bool) -> u8 {
    let mut bits = Bits::default();
    bits.put(1, u64::from(header.first));
    bits.put(1, u64::from(header.last));
    bits.put(2, u64::from(header.id));
    bits.put(1, u64::from(padded));
    bits.put(3, u64::from(header.index));
    bits.bytes()[0]
}

/// The useful bytes alone, or their number, the bytes and zeros.
fn data_field(p: usize, padded: bool, useful: &[u8]) -> Vec<u8> {
    let mut data = Vec::new();
    if padded {
        data.push(useful.len() as u8);
    }
    data.extend(useful);
    data.resize(p, 0);
    data
}

#[cfg(test)]
mod tests {
    use super::*;
    use crate::random::Random;

    fn header(first: bool, last: bool, id: u8, index: u8) -> Header {
        Header {
            first,
            last,
            id,
            index,
        }
    }

    fn refused<T>(number: u8) -> Result<T, Refusal> {
        Err(Refusal::number(number))
    }

    /// p, header, useful bytes and the packet.
    type Known = (u64, Header, &'static [u8], &'static [u8]);

    /// Null packets, a unit of six bytes in two packets, and one of none in two.
    fn known() -> [Known; 6] {
        let null = header(true, true, 3, 0);
        let begin = header(true, false, 1, 0);
        let end = header(false, true, 1, 1);
        let (nothing, still_nothing) = (header(true, false, 0, 0), header(false, true, 0, 1));
        [
            (4, null, &[], &[0xF8, 0, 0, 0, 0, 0xD3, 0x88]),
            (1, null, &[], &[0xF8, 0, 0x78, 0x98]),
            (4, begin, &[1, 2, 3, 4], &[0x90, 1, 2, 3, 4, 0xC5, 0x7A]),
            (4, end, &[5, 6], &[0x59, 2, 5, 6, 0, 0xFF, 0x83]),
            (4, nothing, &[], &[0x88, 0, 0, 0, 0, 0xCE, 0x0E]),
            (4, still_nothing, &[], &[0x49, 0, 0, 0, 0, 0x57, 0xE7]),
        ]
    }

    #[test]
    fn known_packets() {
        for (p, header, useful, bytes) in known() {
            let mut output = [9; 9];
            assert_eq!(write(p, header, useful, &mut output), Ok(bytes.len()));
            assert_eq!(output[..bytes.len()], *bytes);
            assert!(output[bytes.len()..].iter().all(|byte| *byte == 9));
            let packet = Packet {
                header,
                padded: (useful.len() as u64) < p,
                useful: useful.to_vec(),
            };
            assert_eq!(read(p, bytes), Ok(packet));
            assert_eq!(check(p, bytes), Ok(()));
        }
    }

    #[test]
    fn a_count_over_p_less_one() {
        let packet = [0xC8, 4, 1, 2, 3, 0x74, 0xA6];
        assert_eq!(crc16(&packet[..5]), 0x74A6);
        assert_eq!(read(4, &packet), refused(16));
        let mut allowed = [0xC8, 3, 1, 2, 3, 0, 0];
        let check_word = crc16(&allowed[..5]).to_be_bytes();
        allowed[5..].copy_from_slice(&check_word);
        assert_eq!(
            read(4, &allowed).map(|packet| packet.useful),
            Ok(vec![1, 2, 3])
        );
    }

    #[test]
    fn padding_is_not_looked_at() {
        let mut packet = [0xC8, 1, 1, 2, 3, 0, 0];
        let check_word = crc16(&packet[..5]).to_be_bytes();
        packet[5..].copy_from_slice(&check_word);
        assert_eq!(read(4, &packet).map(|packet| packet.useful), Ok(vec![1]));
    }

    #[test]
    fn every_flipped_bit_is_found() {
        let packet = [0x59, 2, 5, 6, 0, 0xFF, 0x83];
        for bit in 0..8 * packet.len() {
            let mut flipped = packet;
            flipped[bit / 8] ^= 1 << (bit % 8);
            assert_eq!(check(4, &flipped), refused(16));
        }
    }

    #[test]
    fn order_of_reading() {
        let packet = [0xF8, 0, 0, 0, 0, 0xD3, 0x88];
        for p in [0, 256, (1 << 32) + 4, 1 << 63, u64::MAX] {
            assert_eq!(check(p, &packet), refused(13));
            assert_eq!(check(p, &packet[..6]), refused(13));
        }
        for p in [1, 3, 5, 255] {
            assert_eq!(check(p, &packet), refused(1));
        }
        assert_eq!(check(4, &[0; 7]), refused(16));
        assert_eq!(check(4, &[]), refused(1));
    }

    #[test]
    fn order_of_writing() {
        let good = header(true, true, 3, 7);
        let mut output = [9; 6];
        let mut tried = |p, header, length| write(p, header, &vec![0; length], &mut output);
        assert_eq!(tried(0, header(true, true, 4, 8), 1), refused(13));
        assert_eq!(tried(256, good, 0), refused(13));
        assert_eq!(tried(4, header(true, true, 4, 8), 5), refused(1));
        assert_eq!(tried(4, header(true, true, 4, 0), 4), refused(6));
        assert_eq!(tried(4, header(true, true, 0, 8), 4), refused(6));
        assert_eq!(tried(4, good, 4), refused(1));
        assert_eq!(tried(3, good, 3), Ok(6));
    }

    #[test]
    fn written_and_read_back() {
        let mut random = Random::new(1);
        for p in 1..=LARGEST_P {
            for length in [0, 1, p - 1, p, random.below(p + 1)] {
                let useful = random.bytes(length as usize);
                let header = header_of(random.draw() as u8).0;
                let mut output = vec![9; p as usize + FRAMING];
                assert_eq!(write(p, header, &useful, &mut output), Ok(output.len()));
                let packet = Packet {
                    header,
                    padded: length < p,
                    useful,
                };
                assert_eq!(read(p, &output), Ok(packet));
            }
        }
    }
}
