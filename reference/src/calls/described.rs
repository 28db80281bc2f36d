//! Descriptions for the cases of several calls: worked, at their limits, random and spoiled (document 01,
//! "The description and the frame it cuts").

use crate::description::{Description, Stream, LONGEST_PART, QAM_16, QAM_64, SLOTS};
use crate::faults::Fault;
use crate::random::Random;

/// Arguments with a description and an MSC mode.
pub trait Described {
    fn description(&mut self) -> &mut Description;
    fn mode(&mut self) -> &mut u8;
}

/// The MSC modes that are served.
pub const SERVED: [u8; 2] = [QAM_64, QAM_16];

/// Capacities at their limits and around those that annex C's streams need; the wide ones would be 1,200
/// or 0 if their bits were shortened.
pub const CAPACITIES: [u64; 13] = [
    0,
    1,
    1_182,
    1_183,
    1_184,
    1_200,
    32_759,
    32_760,
    32_761,
    65_536 + 1_200,
    (1 << 32) + 1_200,
    1 << 63,
    u64::MAX,
];

/// A description of streams with these parts A and B.
pub fn of(level_a: u8, level_b: u8, parts: &[[u16; 2]]) -> Description {
    let mut description = Description {
        level_a,
        level_b,
        count: parts.len() as u8,
        ..Description::default()
    };
    for (stream, [part_a, part_b]) in description.streams.iter_mut().zip(parts) {
        *stream = Stream {
            part_a: *part_a,
            part_b: *part_b,
        };
    }
    description
}

/// The worked example of ES 201 980, annex C.
pub fn annex_c() -> Description {
    of(0, 1, &[[0, 1_105], [59, 0], [19, 0]])
}

/// Well formed in MSC mode 0, some in mode 3 too.
pub fn limits() -> Vec<Description> {
    vec![
        annex_c(),
        of(0, 0, &[[0, 1]]),
        of(0, 0, &[[1, 0]]),
        of(1, 1, &[[1, 1]]),
        of(2, 1, &[[1, 1]]),
        of(3, 0, &[[1, 0], [0, 1]]),
        of(0, 2, &[[0, 1], [0, 1]]),
        of(0, 3, &[[0, LONGEST_PART]]),
        of(1, 0, &[[LONGEST_PART, 0], [1, 0], [0, 1]]),
        of(0, 1, &[[0, 1]; SLOTS]),
        of(0, 0, &[[3, 2], [1, 0], [0, 4], [2, 5]]),
        of(3, 3, &[[LONGEST_PART, LONGEST_PART]; SLOTS]),
    ]
}

/// Numbers of streams, some of them allowed if their bits were shortened, each with all numbers of slots
/// filled.
pub fn counts() -> Vec<Description> {
    let mut list = Vec::new();
    for count in [0, 1, 2, 3, 4, 5, 6, 9, 130, 255] {
        for filled in 0..=SLOTS {
            let mut description = of(0, 0, &vec![[1, 2]; filled]);
            description.count = count;
            list.push(description);
        }
    }
    list
}

/// A well-formed one for a mode that is served, with parts of at most that length.
pub fn well_formed(random: &mut Random, mode: u8, longest: u16) -> Description {
    let levels = if mode == QAM_16 { 2 } else { 4 };
    let mut description = Description {
        level_a: random.below(levels) as u8,
        level_b: random.below(levels) as u8,
        count: 1 + random.below(SLOTS as u64) as u8,
        ..Description::default()
    };
    for stream in &mut description.streams[..usize::from(description.count)] {
        let choice = random.below(4);
        if choice != 0 {
            stream.part_b = 1 + random.below(u64::from(longest)) as u16;
        }
        if choice <= 1 {
            stream.part_a = 1 + random.below(u64::from(longest)) as u16;
        }
    }
    if description.streams.iter().all(|stream| stream.part_a == 0) {
        description.level_a = 0;
    }
    description
}

/// Any content, near the limits of every field.
pub fn any(random: &mut Random) -> Description {
    let mut description = Description {
        level_a: random.below(5) as u8,
        level_b: random.below(5) as u8,
        count: random.below(6) as u8,
        ..Description::default()
    };
    let used = random.below(1 + SLOTS as u64) as usize;
    for stream in &mut description.streams[..used] {
        stream.part_a = random.pick(&[0, 0, 1, 7, 4_095, 4_096]);
        stream.part_b = random.pick(&[0, 1, 2, 9, 4_095, 65_535]);
    }
    description
}

/// How long parts are at most: mostly short, now and then of any length.
pub fn longest_part(random: &mut Random) -> u16 {
    match random.below(100) {
        0..=69 => 12,
        70..=84 => 60,
        85..=96 => 300,
        _ => LONGEST_PART,
    }
}

/// What can be wrong with a description and an MSC mode; the number of each stands behind it.
pub fn faults<T: Described>() -> Vec<Fault<T>> {
    vec![
        level_a_without_part_a,                                          // 10
        |handed, random| *used(handed, random) = Stream::default(),      // 10
        unused_slot_filled,                                              // 10
        |handed, _| handed.description().count = 0,                      // 10
        |handed, random| handed.description().count = over(random, 4),   // 10
        levels_of_64_qam,                                                // 10
        |handed, random| *handed.mode() = random.pick(&[1, 2]),          // 9
        |handed, random| *handed.mode() = over(random, 3),               // 6
        |handed, random| handed.description().level_a = over(random, 3), // 6
        |handed, random| handed.description().level_b = over(random, 3), // 6
        |handed, random| used(handed, random).part_a = too_long(random), // 6
        |handed, random| handed.description().streams[3].part_b = too_long(random), // 6
    ]
}

/// A number over the highest allowed one, often the next.
pub fn over(random: &mut Random, highest: u8) -> u8 {
    let next = highest + 1;
    match random.below(4) {
        0 | 1 => next,
        2 => 255,
        _ => next + random.below(256 - u64::from(next)) as u8,
    }
}

fn too_long(random: &mut Random) -> u16 {
    let next = LONGEST_PART + 1;
    match random.below(4) {
        0 | 1 => next,
        2 => 65_535,
        _ => next + random.below(65_536 - u64::from(next)) as u16,
    }
}

/// A slot in use, or the first where none is.
fn used<'a, T: Described>(handed: &'a mut T, random: &mut Random) -> &'a mut Stream {
    let description = handed.description();
    let count = description.count.clamp(1, SLOTS as u8);
    &mut description.streams[random.below(u64::from(count)) as usize]
}

fn level_a_without_part_a<T: Described>(handed: &mut T, random: &mut Random) {
    let description = handed.description();
    description.level_a = 1 + random.below(3) as u8;
    for stream in &mut description.streams {
        stream.part_b = stream.part_b.max(stream.part_a.min(1));
        stream.part_a = 0;
    }
}

fn unused_slot_filled<T: Described>(handed: &mut T, random: &mut Random) {
    let description = handed.description();
    description.count = description.count.min(3);
    let last = &mut description.streams[3];
    match random.below(2) {
        0 => last.part_a = 1,
        _ => last.part_b = 1,
    }
}

fn levels_of_64_qam<T: Described>(handed: &mut T, random: &mut Random) {
    *handed.mode() = QAM_16;
    let description = handed.description();
    match random.below(2) {
        0 => description.level_a = random.pick(&[2, 3]),
        _ => description.level_b = random.pick(&[2, 3]),
    }
}

#[cfg(test)]
mod tests {
    use super::*;

    #[test]
    fn good_ones_are_good() {
        for description in limits() {
            assert_eq!(description.check(QAM_64), Ok(()));
        }
        let mut random = Random::new(1);
        for _ in 0..2_000 {
            let mode = random.pick(&SERVED);
            let longest = longest_part(&mut random);
            let description = well_formed(&mut random, mode, longest);
            assert_eq!(description.check(mode), Ok(()));
        }
    }

    struct Handed(Description, u8);

    impl Described for Handed {
        fn description(&mut self) -> &mut Description {
            &mut self.0
        }

        fn mode(&mut self) -> &mut u8 {
            &mut self.1
        }
    }

    #[test]
    fn faults_have_their_numbers() {
        let numbers = [10, 10, 10, 10, 10, 10, 9, 6, 6, 6, 6, 6];
        let mut random = Random::new(2);
        for round in 0..200 {
            let mode = random.pick(&SERVED);
            for (fault, number) in faults().into_iter().zip(numbers) {
                let good = match round {
                    0 => annex_c(),
                    _ => well_formed(&mut random, mode, 40),
                };
                let mut handed = Handed(good, mode);
                fault(&mut handed, &mut random);
                let refusal = handed.0.check(handed.1).unwrap_err();
                assert_eq!(refusal.number, number);
            }
        }
    }
}
