//! Call 14: where everything stands in a frame (document 01, "The description and the frame it cuts").

use super::described::{self, Described, CAPACITIES, SERVED};
use super::Call;
use crate::answer::Answer;
use crate::description::Description;
use crate::faults::{self, Fault};
use crate::fields::{bodies, lines, Arguments, Fields};
use crate::frames::{self, Layout, LARGEST_CAPACITY};
use crate::random::Random;
use crate::reader::Reader;

pub const LAYOUT: Call = Call {
    code: 14,
    name: "layout",
    fixed,
    random,
    answer,
    arguments: lines::<Handed>,
    values: &[
        "part A of stream 0 at",
        "length",
        "part A of stream 1 at",
        "length",
        "part A of stream 2 at",
        "length",
        "part A of stream 3 at",
        "length",
        "part B of stream 0 at",
        "length",
        "part B of stream 1 at",
        "length",
        "part B of stream 2 at",
        "length",
        "part B of stream 3 at",
        "length",
        "padding at",
        "length",
    ],
    buffers: &[],
};

#[derive(Default, Clone)]
struct Handed {
    capacity: u64,
    description: Description,
    mode: u8,
}

impl Arguments for Handed {
    fn each(&mut self, fields: &mut impl Fields) -> Option<()> {
        fields.number("capacity", &mut self.capacity)?;
        fields.description(&mut self.description)?;
        fields.byte("MSC mode", &mut self.mode)
    }
}

impl Described for Handed {
    fn description(&mut self) -> &mut Description {
        &mut self.description
    }

    fn mode(&mut self) -> &mut u8 {
        &mut self.mode
    }
}

fn answer(body: &mut Reader) -> Option<Answer> {
    let handed = Handed::read(body)?;
    let layout = frames::layout(handed.capacity, &handed.description, handed.mode);
    Some(Answer::of(layout.map(|layout| values(&layout))))
}

fn values(layout: &Layout) -> [u64; 18] {
    let mut values = [0; 18];
    let padding = [layout.padding];
    let runs = layout.parts_a.iter().chain(&layout.parts_b).chain(&padding);
    for (pair, run) in values.chunks_exact_mut(2).zip(runs) {
        pair.copy_from_slice(&[run.offset as u64, run.length as u64]);
    }
    values
}

const OWN_FAULTS: [Fault<Handed>; 2] = [
    |handed, random| handed.capacity = too_small(random, &handed.description), // 12
    |handed, random| handed.capacity = out_of_range(random),                   // 1
];

fn faults() -> Vec<Fault<Handed>> {
    [&OWN_FAULTS[..], &described::faults()].concat()
}

/// A capacity that a frame of these streams has.
pub fn capacity(random: &mut Random, description: &Description) -> u64 {
    let sum = description.length() as u64;
    let capacity = match random.below(20) {
        0..=7 => sum,
        8..=18 => sum + random.below(20),
        _ => sum + random.below(LARGEST_CAPACITY),
    };
    capacity.clamp(1, LARGEST_CAPACITY)
}

/// A capacity below the sum of the streams, if one is allowed.
pub fn too_small(random: &mut Random, description: &Description) -> u64 {
    let sum = description.length() as u64;
    let capacity = match random.below(3) {
        0 => 1 + random.below(sum.max(1)),
        _ => sum,
    };
    capacity.saturating_sub(1).clamp(1, LARGEST_CAPACITY)
}

/// A capacity that is not allowed, some of them allowed ones if their bits were shortened.
pub fn out_of_range(random: &mut Random) -> u64 {
    let wide = 1 << random.pick(&[16, 31, 32, 48, 63]);
    match random.below(6) {
        0 | 1 => 0,
        2 => LARGEST_CAPACITY + 1,
        3 => wide + 1_200,
        4 => wide,
        _ => random.draw() | 1 << 15,
    }
}

fn fixed(random: &mut Random) -> Vec<Vec<u8>> {
    let mut list = Vec::new();
    for capacity in CAPACITIES {
        for mode in SERVED {
            let description = described::annex_c();
            list.push(Handed {
                capacity,
                description,
                mode,
            });
        }
    }
    for description in described::limits().into_iter().chain(described::counts()) {
        let sum = description.length() as u64;
        for capacity in [sum, sum + 1, sum.wrapping_sub(1), LARGEST_CAPACITY] {
            list.push(Handed {
                capacity,
                description,
                mode: random.pick(&SERVED),
            });
        }
    }
    let good = Handed {
        capacity: 1_200,
        description: described::annex_c(),
        mode: 0,
    };
    list.extend(faults::all(&good, &faults(), random));
    bodies(list)
}

fn random(random: &mut Random) -> Vec<u8> {
    let mode = random.pick(&SERVED);
    let longest = described::longest_part(random);
    let mut description = described::well_formed(random, mode, longest);
    if random.one_in(10) {
        description = described::any(random);
    }
    let handed = Handed {
        capacity: capacity(random, &description),
        description,
        mode,
    };
    let faults = match random.below(3) {
        0 => OWN_FAULTS.to_vec(),
        _ => faults(),
    };
    faults::some(handed, &faults, random).body()
}
