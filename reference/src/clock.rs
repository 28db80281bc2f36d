//! Timestamps (document 01, "Clock and recordings" and "MDI packet": `tist`; document 02, E3; TS 102 820, clause 5.2.2).

use crate::bits::Bits;
use crate::output;
use crate::refusal::{refuse, Refusal, LONGEST_INPUT};

/// Bits of the fields.
const UTCO_BITS: u32 = 14;
const SECONDS_BITS: u32 = 40;
const MILLISECONDS_BITS: u32 = 10;

/// Bytes of a value.
pub const BYTES: usize = 8;
/// From one packet to the next, in milliseconds.
const FRAME: u64 = 400;
/// A second, in milliseconds.
const SECOND: u64 = 1_000;

/// A timestamp as it is handed in: any content.
#[derive(Debug, Clone, Copy, Default, PartialEq, Eq)]
pub struct Timestamp {
    pub utco: u16,
    pub seconds: u64,
    pub milliseconds: u16,
}

impl Timestamp {
    pub fn check(&self) -> Result<(), Refusal> {
        refuse(6, self.utco >= 1 << UTCO_BITS)?;
        refuse(6, self.seconds >= 1 << SECONDS_BITS)?;
        refuse(6, u64::from(self.milliseconds) >= SECOND)
    }

    /// The value of a timestamp whose fields are not too large for their bits.
    pub fn value(&self) -> Vec<u8> {
        let mut bits = Bits::default();
        bits.put(UTCO_BITS, u64::from(self.utco));
        bits.put(SECONDS_BITS, self.seconds);
        bits.put(MILLISECONDS_BITS, u64::from(self.milliseconds));
        bits.bytes()
    }
}

pub fn write(timestamp: &Timestamp, output: &mut [u8]) -> Result<usize, Refusal> {
    timestamp.check()?;
    output::write(&timestamp.value(), output)
}

pub fn read(value: &[u8]) -> Result<Timestamp, Refusal> {
    refuse(1, value.len() > LONGEST_INPUT)?;
    refuse(5, value.len() != BYTES)?;
    let mut bits = Bits::of(value);
    let timestamp = Timestamp {
        utco: bits.take(UTCO_BITS) as u16,
        seconds: bits.take(SECONDS_BITS),
        milliseconds: bits.take(MILLISECONDS_BITS) as u16,
    };
    timestamp.check()?;
    Ok(timestamp)
}

/// 400 ms later, with the same UTCO.
pub fn next(timestamp: &Timestamp) -> Result<Timestamp, Refusal> {
    timestamp.check()?;
    let time = SECOND * timestamp.seconds + u64::from(timestamp.milliseconds) + FRAME;
    let next = Timestamp {
        utco: timestamp.utco,
        seconds: time / SECOND,
        milliseconds: (time % SECOND) as u16,
    };
    refuse(18, next.seconds >= 1 << SECONDS_BITS)?;
    Ok(next)
}

/// Whether the second one follows the first: at the time of the next one, with a UTCO that a leap second may have
/// moved by one, either way. Nothing follows one without a successor.
pub fn follows(first: &Timestamp, second: &Timestamp) -> Result<bool, Refusal> {
    first.check()?;
    second.check()?;
    let Ok(next) = next(first) else {
        return Ok(false);
    };
    let in_time = (second.seconds, second.milliseconds) == (next.seconds, next.milliseconds);
    let values = 1 << UTCO_BITS;
    let ahead = (i32::from(second.utco) - i32::from(first.utco)).rem_euclid(values);
    Ok(in_time && [0, 1, values - 1].contains(&ahead))
}

/// What of a packet matters for its place among others.
#[derive(Debug, Clone, Copy, Default, PartialEq, Eq)]
pub struct Moment {
    /// The logical frame count.
    pub count: u32,
    pub timestamp: Option<Timestamp>,
}

/// Whether the second packet follows the first: by the counts, the one after FFFFFFFF being 0, and where both
/// have a timestamp by these as well.
pub fn packet_follows(first: &Moment, second: &Moment) -> Result<bool, Refusal> {
    for timestamp in [first.timestamp, second.timestamp].iter().flatten() {
        timestamp.check()?;
    }
    let counts = u64::from(second.count) == (u64::from(first.count) + 1) % (1 << 32);
    let timestamps = match (&first.timestamp, &second.timestamp) {
        (Some(first), Some(second)) => follows(first, second)?,
        _ => true,
    };
    Ok(counts && timestamps)
}

#[cfg(test)]
mod tests {
    use super::*;

    const LAST_SECOND: u64 = (1 << 40) - 1;

    fn stamp(utco: u16, seconds: u64, milliseconds: u16) -> Timestamp {
        Timestamp {
            utco,
            seconds,
            milliseconds,
        }
    }

    fn refused<T>(number: u8) -> Result<T, Refusal> {
        Err(Refusal::number(number))
    }

    #[test]
    fn known_values() {
        let known: [(Timestamp, u64); 4] = [
            (stamp(0, 1, 400), 0x0590),
            (stamp(5, 1, 400), 0x0014_0000_0000_0590),
            (stamp(16_383, LAST_SECOND, 999), 0xFFFF_FFFF_FFFF_FFE7),
            (stamp(1, 0, 0), 0x0004_0000_0000_0000),
        ];
        for (timestamp, value) in known {
            let mut output = [9; 9];
            assert_eq!(write(&timestamp, &mut output), Ok(8));
            assert_eq!(output[..8], value.to_be_bytes());
            assert_eq!(output[8], 9);
            assert_eq!(read(&value.to_be_bytes()), Ok(timestamp));
        }
    }

    #[test]
    fn fields_too_large() {
        let mut output = [9; 7];
        for timestamp in [
            stamp(16_384, 0, 0),
            stamp(0, LAST_SECOND + 1, 0),
            stamp(0, 0, 1_000),
            stamp(0, 0, 1_024),
            stamp(65_535, u64::MAX, 65_535),
        ] {
            assert_eq!(write(&timestamp, &mut output), refused(6));
            assert_eq!(next(&timestamp), refused(6));
            assert_eq!(follows(&stamp(0, 0, 0), &timestamp), refused(6));
            assert_eq!(follows(&timestamp, &stamp(0, 0, 0)), refused(6));
        }
        assert_eq!(write(&stamp(0, 0, 0), &mut output), refused(1));
        assert_eq!(output, [9; 7]);
    }

    #[test]
    fn values_that_are_none() {
        for length in [0, 7, 9, 16, LONGEST_INPUT] {
            assert_eq!(read(&vec![0xFF; length]), refused(5));
        }
        assert_eq!(read(&vec![0xFF; LONGEST_INPUT + 1]), refused(1));
        assert_eq!(read(&0xFFFF_FFFF_FFFF_FFE8u64.to_be_bytes()), refused(6));
        assert_eq!(read(&[0xFF; 8]), refused(6));
    }

    #[test]
    fn the_next_one() {
        assert_eq!(next(&stamp(7, 1, 599)), Ok(stamp(7, 1, 999)));
        assert_eq!(next(&stamp(7, 1, 600)), Ok(stamp(7, 2, 0)));
        assert_eq!(next(&stamp(7, 1, 999)), Ok(stamp(7, 2, 399)));
        let last = next(&stamp(0, LAST_SECOND, 599));
        assert_eq!(last, Ok(stamp(0, LAST_SECOND, 999)));
        assert_eq!(next(&stamp(0, LAST_SECOND, 600)), refused(18));
        assert_eq!(next(&stamp(16_384, LAST_SECOND, 600)), refused(6));
    }

    #[test]
    fn following() {
        let first = stamp(3, 9, 700);
        for second in [stamp(3, 10, 100), stamp(4, 10, 100), stamp(2, 10, 100)] {
            assert_eq!(follows(&first, &second), Ok(true));
        }
        for other in [
            stamp(5, 10, 100),
            stamp(1, 10, 100),
            stamp(3, 9, 100),
            stamp(3, 10, 101),
            stamp(3, 11, 100),
            stamp(4, 11, 100),
            stamp(2, 10, 99),
            first,
        ] {
            assert_eq!(follows(&first, &other), Ok(false));
        }
        let last = stamp(0, LAST_SECOND, 600);
        for utco in [0, 1, 16_383] {
            for (seconds, milliseconds) in [(0, 0), (LAST_SECOND, 600), (LAST_SECOND, 0)] {
                let second = stamp(utco, seconds, milliseconds);
                assert_eq!(follows(&last, &second), Ok(false));
            }
        }
    }

    /// A leap second moves the UTCO by one, either way, and the seconds not at all.
    #[test]
    fn across_a_leap_second() {
        let known = [
            (stamp(5, 9, 600), stamp(6, 10, 0), Ok(true)),
            (stamp(5, 9, 600), stamp(4, 10, 0), Ok(true)),
            (stamp(5, 9, 600), stamp(7, 10, 0), Ok(false)),
            (stamp(16_383, 9, 0), stamp(0, 9, 400), Ok(true)),
            (stamp(0, 9, 0), stamp(16_383, 9, 400), Ok(true)),
            (stamp(0, 9, 0), stamp(16_382, 9, 400), Ok(false)),
            (stamp(16_382, 9, 0), stamp(0, 9, 400), Ok(false)),
            (stamp(5, 9, 600), stamp(6, 9, 600), Ok(false)),
            (stamp(5, 9, 600), stamp(5, 9, 1_000), refused(6)),
            (stamp(16_383, 9, 0), stamp(16_384, 9, 400), refused(6)),
        ];
        for (first, second, answer) in known {
            assert_eq!(follows(&first, &second), answer);
        }
        // Of all values exactly three follow each.
        for utco in [0, 1, 2, 8_191, 16_382, 16_383] {
            let first = stamp(utco, 9, 0);
            let count = (0..16_384)
                .filter(|&other| follows(&first, &stamp(other, 9, 400)) == Ok(true))
                .count();
            assert_eq!(count, 3);
        }
    }

    fn at(count: u32, timestamp: Option<Timestamp>) -> Moment {
        Moment { count, timestamp }
    }

    #[test]
    fn packets_following() {
        let (now, then) = (stamp(3, 9, 700), stamp(3, 10, 100));
        let last = stamp(0, LAST_SECOND, 600);
        for count in [0, 7, u32::MAX - 1, u32::MAX] {
            let next = count.wrapping_add(1);
            for (first, second, follows) in [
                (None, None, true),
                (Some(now), None, true),
                (None, Some(now), true),
                (Some(now), Some(then), true),
                (Some(now), Some(now), false),
                (Some(then), Some(now), false),
                (Some(now), Some(stamp(4, 10, 100)), true),
                (Some(now), Some(stamp(2, 10, 100)), true),
                (Some(now), Some(stamp(5, 10, 100)), false),
                (Some(now), Some(stamp(4, 9, 700)), false),
                (Some(last), Some(stamp(0, 0, 0)), false),
                (Some(last), None, true),
            ] {
                let first = at(count, first);
                assert_eq!(packet_follows(&first, &at(next, second)), Ok(follows));
                for other in [count, next.wrapping_add(1), count.wrapping_sub(1)] {
                    assert_eq!(packet_follows(&first, &at(other, second)), Ok(false));
                }
            }
            let wrong = at(count, Some(stamp(0, 0, 1_000)));
            for other in [at(next, None), at(next, Some(now)), at(9, None)] {
                assert_eq!(packet_follows(&wrong, &other), refused(6));
                assert_eq!(packet_follows(&other, &wrong), refused(6));
            }
        }
    }
}
