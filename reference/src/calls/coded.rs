//! Descriptions in bytes for the cases of several calls: a `sdci` value, a type 0 entity, or a value behind
//! a capacity (document 01, "The description and the frame it cuts").

use super::described::{annex_c, limits, longest_part, over, well_formed, SERVED};
use crate::buffer::Buffer;
use crate::description::{Description, QAM_16, QAM_64};
use crate::faults::Fault;
use crate::fields::{Arguments, Fields};
use crate::generate;
use crate::random::Random;
use crate::refusal::LONGEST_INPUT;

/// How the bytes of a description are made.
pub type Form = fn(&mut Random, u8, &Description) -> Coded;

/// An MSC mode, and bytes that end in levels and lengths.
#[derive(Default, Clone)]
pub struct Coded {
    pub mode: u8,
    pub bytes: Buffer,
    /// Where the byte with the levels stands; no field of a body.
    pub levels: usize,
}

impl Arguments for Coded {
    fn each(&mut self, fields: &mut impl Fields) -> Option<()> {
        fields.byte("MSC mode", &mut self.mode)?;
        fields.buffer("bytes", &mut self.bytes)
    }
}

impl Coded {
    pub fn new(mode: u8, bytes: Vec<u8>, levels: usize) -> Coded {
        let bytes = Buffer::Given(bytes);
        Coded {
            mode,
            bytes,
            levels,
        }
    }

    /// The bytes from the levels on, if they stand in the case and are long enough for one stream.
    fn value(&mut self) -> Option<&mut [u8]> {
        match &mut self.bytes {
            Buffer::Given(bytes) => bytes.get_mut(self.levels..).filter(|value| value.len() > 3),
            Buffer::Seeded { .. } => None,
        }
    }
}

/// Annex C's description, those at their limits, each in the two modes, and annex C's in the others.
pub fn worked(random: &mut Random, form: Form) -> Vec<Coded> {
    let mut list = Vec::new();
    for description in limits() {
        for mode in SERVED {
            list.push(form(random, mode, &description));
        }
    }
    for mode in [1, 2, 4, 255] {
        list.push(form(random, mode, &annex_c()));
    }
    list
}

/// Every short length and the longest input, in modes with and without a refusal of their own.
pub fn lengths(random: &mut Random, levels: usize) -> Vec<Coded> {
    let mut list = Vec::new();
    for length in 0..=17 {
        for (mode, byte) in [(QAM_64, 0x01), (QAM_16, 0xFF), (1, 0x01), (4, 0x00)] {
            list.push(Coded::new(mode, vec![byte; length], levels));
        }
    }
    for length in [LONGEST_INPUT - 1, LONGEST_INPUT, LONGEST_INPUT + 1, 131_072] {
        let mut long = Coded::new(random.pick(&[0, 1, 4]), Vec::new(), levels);
        long.bytes = generate::buffer(random, length);
        list.push(long);
    }
    list
}

/// A good one of random content.
pub fn good(random: &mut Random, form: Form) -> Coded {
    let mode = random.pick(&SERVED);
    let longest = longest_part(random);
    let description = well_formed(random, mode, longest);
    form(random, mode, &description)
}

/// What can be wrong with the bytes or the mode; the number of each stands behind it.
pub const FAULTS: &[Fault<Coded>] = &[
    level_a_without_part_a,                            // 10
    stream_of_nothing,                                 // 10
    levels_of_64_qam,                                  // 10
    |coded, random| coded.mode = random.pick(&[1, 2]), // 9
    |coded, random| coded.mode = over(random, 3),      // 6
    one_length_off,                                    // 5
    some_other_length,                                 // 5
    about_the_longest_input,                           // 5, mostly 1
];

fn level_a_without_part_a(coded: &mut Coded, random: &mut Random) {
    let level = 4 * (1 + random.below(3)) as u8;
    if let Some(value) = coded.value() {
        value[0] = value[0] & 0xF3 | level;
        for stream in value[1..].chunks_exact_mut(3) {
            (stream[0], stream[1]) = (0, stream[1] & 0x0F);
            stream[2] |= 1;
        }
    }
}

fn stream_of_nothing(coded: &mut Coded, random: &mut Random) {
    if let Some(value) = coded.value() {
        let streams = (value.len() - 1) / 3;
        let first = 1 + 3 * random.below(streams as u64) as usize;
        value[first..first + 3].fill(0);
    }
}

fn levels_of_64_qam(coded: &mut Coded, random: &mut Random) {
    coded.mode = QAM_16;
    let level = random.pick(&[0x02, 0x08]);
    if let Some(value) = coded.value() {
        value[0] |= level;
    }
}

fn one_length_off(coded: &mut Coded, random: &mut Random) {
    if let Buffer::Given(bytes) = &mut coded.bytes {
        match random.below(2) {
            0 => bytes.push(random.draw() as u8),
            _ => bytes.truncate(bytes.len().saturating_sub(1)),
        }
    }
}

/// Never the length of a value or an entity; behind a capacity it may be a right one.
fn some_other_length(coded: &mut Coded, random: &mut Random) {
    if let Buffer::Given(bytes) = &mut coded.bytes {
        let length = random.pick(&[0, 1, 2, 3, 6, 9, 12, 15, 16, 17, 19]);
        bytes.resize(length, 0x01);
    }
}

fn about_the_longest_input(coded: &mut Coded, random: &mut Random) {
    let length = LONGEST_INPUT + random.below(4) as usize;
    coded.bytes = generate::buffer(random, length);
}
