//! Makes the cases: for each call its limits first, then random ones (docs/CASES.md).

use crate::buffer::Buffer;
use crate::calls::CALLS;
use crate::case;
use crate::random::Random;
use crate::refusal::LONGEST_INPUT;
use std::io::{self, Write};
use std::ops::RangeInclusive;

/// Writes the fixed cases of every call in the range, and random ones until each has at least `count`.
pub fn generate(
    seed: u64,
    count: u64,
    calls: &RangeInclusive<u8>,
    out: &mut impl Write,
) -> io::Result<()> {
    for call in CALLS.iter().filter(|call| calls.contains(&call.code)) {
        let mut random = Random::of_call(seed, call.code);
        let fixed = (call.fixed)(&mut random);
        for body in &fixed {
            out.write_all(&case::framed(call.code, body))?;
        }
        for _ in fixed.len() as u64..count {
            out.write_all(&case::framed(call.code, &(call.random)(&mut random)))?;
        }
    }
    Ok(())
}

/// Lengths at which an answer's form, a byte, the dispersal sequence or a queue comes to its end.
const LIMITS: [usize; 9] = [8, 64, 255, 256, 510, 511, 1_022, 1_533, 4_096];

/// The longest buffer whose bytes are ever written out.
const LONGEST_GIVEN: usize = 1_200;

/// A length for a buffer: mostly short, sometimes at a limit, seldom at the longest input.
pub fn length(random: &mut Random) -> usize {
    match random.below(1_000) {
        0..=3 => LONGEST_INPUT - 4 + random.below(9) as usize,
        4..=103 => random.pick(&LIMITS) - 2 + random.below(5) as usize,
        104..=253 => random.below(1_600) as usize,
        254..=553 => random.below(90) as usize,
        _ => random.below(20) as usize,
    }
}

/// Lengths for an output that needs so many bytes: as many, more, too short by one, and none, each once.
pub fn output_lengths(needed: usize) -> Vec<usize> {
    let mut lengths = vec![needed, needed + 1, needed + 16, needed.saturating_sub(1), 0];
    lengths.sort();
    lengths.dedup();
    lengths
}

/// A length for an output that is long enough.
pub fn room(random: &mut Random, needed: usize) -> usize {
    match random.below(4) {
        0 | 1 => needed,
        2 => needed + 1,
        _ => needed + random.below(20) as usize,
    }
}

/// A buffer that is shorter than it needs to be, mostly by one.
pub fn too_short(random: &mut Random, needed: usize) -> Buffer {
    let length = match random.below(4) {
        0 => 0,
        1 => random.below(needed.max(1) as u64) as usize,
        _ => needed.saturating_sub(1),
    };
    compact(random, length)
}

/// A buffer of that length with random content, long ones as a seed.
pub fn buffer(random: &mut Random, length: usize) -> Buffer {
    let seeded = match length {
        0..=64 => random.one_in(8),
        65..=LONGEST_GIVEN => !random.one_in(16),
        _ => true,
    };
    if seeded {
        let seed = random.draw() as u32;
        Buffer::Seeded { length, seed }
    } else {
        Buffer::Given(random.bytes(length))
    }
}

/// A buffer likewise, of which no more than 64 bytes are written out.
pub fn compact(random: &mut Random, length: usize) -> Buffer {
    match length {
        0..=64 => buffer(random, length),
        _ => Buffer::Seeded {
            length,
            seed: random.draw() as u32,
        },
    }
}

#[cfg(test)]
mod tests {
    use super::*;
    use crate::calls;
    use crate::case::{Entries, Entry};

    fn generated(seed: u64, count: u64) -> Vec<u8> {
        let mut file = Vec::new();
        generate(seed, count, &(u8::MIN..=u8::MAX), &mut file).unwrap();
        file
    }

    #[test]
    fn the_same_seed_gives_the_same_cases() {
        assert_eq!(generated(1, 100), generated(1, 100));
        assert_ne!(generated(1, 100), generated(2, 100));
    }

    #[test]
    fn every_call_has_enough_cases() {
        let file = generated(u64::MAX, 900);
        for call in CALLS {
            let cases = Entries::new(&file).filter(
                |entry| matches!(entry, Entry::Case { call: code, .. } if *code == call.code),
            );
            assert!(cases.count() >= 900);
        }
    }

    /// None is malformed but the two with a width of three, five scripts and one MDI record, and both outcomes of
    /// dispersal occur.
    #[test]
    fn the_cases_are_good_ones() {
        let file = generated(7, 300);
        let answers: Vec<_> = Entries::new(&file)
            .map(|entry| calls::answer(&entry))
            .collect();
        assert_eq!(answers.iter().filter(|answer| answer.is_none()).count(), 8);
        let refused = answers
            .iter()
            .flatten()
            .filter(|answer| answer.number == 1)
            .count();
        assert!(refused > 30 && refused < answers.len());
    }
}
