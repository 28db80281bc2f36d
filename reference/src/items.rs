//! TAG items: names, lengths in bits and values, one behind the other (document 01, "MDI packet"; TS 102 820,
//! clauses 4.2.1 and 5).

use crate::refusal::{refuse, refuse_at, Refusal, LONGEST_INPUT};
use std::collections::HashSet;

/// Bytes of a name and a length.
pub const HEADER: usize = 8;

pub type Name = [u8; 4];

#[derive(Debug, Clone, Copy, PartialEq, Eq)]
pub struct Item<'a> {
    /// Where it begins in the packet.
    pub offset: usize,
    pub name: Name,
    pub bits: u32,
    /// As many bytes as the bits take.
    pub value: &'a [u8],
}

/// The items of a packet, all of different names. Fewer bytes than a header's at the end are padding.
pub fn read(packet: &[u8]) -> Result<Vec<Item<'_>>, Refusal> {
    refuse(1, packet.len() > LONGEST_INPUT)?;
    let items = walk(packet)?;
    let mut names = HashSet::new();
    for item in &items {
        refuse_at(3, item.offset as u64, !names.insert(item.name))?;
    }
    Ok(items)
}

fn walk(packet: &[u8]) -> Result<Vec<Item<'_>>, Refusal> {
    let mut items = Vec::new();
    let mut offset = 0;
    while packet.len() - offset >= HEADER {
        let (header, rest) = packet[offset..].split_at(HEADER);
        let name = [header[0], header[1], header[2], header[3]];
        let bits = u32::from_be_bytes([header[4], header[5], header[6], header[7]]);
        let length = u64::from(bits).div_ceil(8) as usize;
        refuse_at(2, offset as u64, length > rest.len())?;
        let value = &rest[..length];
        items.push(Item {
            offset,
            name,
            bits,
            value,
        });
        offset += HEADER + length;
    }
    Ok(items)
}

/// The value of the item of that name.
pub fn value<'a>(items: &[Item<'a>], name: &Name) -> Option<&'a [u8]> {
    let item = items.iter().find(|item| item.name == *name)?;
    Some(item.value)
}

/// An item with a value of so many bits.
pub fn bytes(name: &Name, bits: u32, value: &[u8]) -> Vec<u8> {
    [&name[..], &bits.to_be_bytes(), value].concat()
}

/// An item with a value of whole bytes.
pub fn whole(name: &Name, value: &[u8]) -> Vec<u8> {
    bytes(name, 8 * value.len() as u32, value)
}

#[cfg(test)]
mod tests {
    use super::*;

    fn refused<T>(number: u8, place: u64) -> Result<T, Refusal> {
        Err(Refusal { number, place })
    }

    #[test]
    fn items_and_padding() {
        let packet = [
            &bytes(b"abcd", 9, &[1, 2])[..],
            &whole(b"efgh", &[]),
            &[9; 7],
        ]
        .concat();
        let items = read(&packet).unwrap();
        let names: Vec<Name> = items.iter().map(|item| item.name).collect();
        assert_eq!(names, [*b"abcd", *b"efgh"]);
        assert_eq!((items[0].bits, items[1].offset), (9, 10));
        assert_eq!(value(&items, b"abcd"), Some(&[1, 2][..]));
        assert_eq!(value(&items, b"efgh"), Some(&[][..]));
        assert_eq!(value(&items, b"EFGH"), None);
        assert_eq!(read(&[]), Ok(vec![]));
    }

    /// An item that is cut comes before a name that stands twice.
    #[test]
    fn two_before_three() {
        let twice = [whole(b"abcd", &[]), whole(b"abcd", &[1])].concat();
        assert_eq!(read(&twice), refused(3, 8));
        let cut = [&twice[..], &bytes(b"efgh", 1, &[])].concat();
        assert_eq!(read(&cut), refused(2, 17));
        for bits in [17, 4_000_000_000, u32::MAX - 6, u32::MAX] {
            assert_eq!(read(&bytes(b"efgh", bits, &[1, 2])), refused(2, 0));
        }
    }

    #[test]
    fn zeros_are_items() {
        assert!(read(&[0; 15]).is_ok_and(|items| items.len() == 1));
        assert_eq!(read(&[0; 16]), refused(3, 8));
        assert_eq!(read(&vec![0; LONGEST_INPUT]), refused(3, 8));
        assert_eq!(read(&vec![0; LONGEST_INPUT + 1]), refused(1, 0));
    }
}
