//! Calls 10 to 13: a description read and written, as a `sdci` value and as a type 0 entity (document 01,
//! "The description and the frame it cuts").

use super::coded::{self, Coded, Form};
use super::described::{self, Described, SERVED};
use super::Call;
use crate::answer::Answer;
use crate::buffer::Buffer;
use crate::description::{self, Description, QAM_64};
use crate::faults::{self, Fault};
use crate::fields::{bodies, lines, Arguments, Fields};
use crate::generate;
use crate::random::Random;
use crate::reader::Reader;

pub const READ: Call = Call {
    code: 10,
    name: "description read",
    fixed: |random| bodies(fixed_reads(random, VALUE, coded::FAULTS)),
    random: |random| random_read(random, VALUE, coded::FAULTS),
    answer: read,
    arguments: lines::<Coded>,
    values: VALUES.split_at(1).1,
    buffers: &[],
};

pub const WRITE: Call = Call {
    code: 11,
    name: "description write",
    fixed: fixed_writes::<false>,
    random: random_write::<false>,
    answer: |body| Some(Write::<false>::read(body)?.answer()),
    arguments: lines::<Write<false>>,
    values: &["bytes written"],
    buffers: &["output"],
};

pub const ENTITY_READ: Call = Call {
    code: 12,
    name: "entity read",
    fixed: fixed_entity_reads,
    random: |random| random_read(random, ENTITY, &entity_faults()),
    answer: read_entity,
    arguments: lines::<Coded>,
    values: VALUES,
    buffers: &[],
};

pub const ENTITY_WRITE: Call = Call {
    code: 13,
    name: "entity write",
    fixed: fixed_writes::<true>,
    random: random_write::<true>,
    answer: |body| Some(Write::<true>::read(body)?.answer()),
    arguments: lines::<Write<true>>,
    values: &["bytes written"],
    buffers: &["output"],
};

/// The values of an entity; those of a description are all but the first.
const VALUES: &[&str] = &[
    "version",
    "level A",
    "level B",
    "streams",
    "part A of stream 0",
    "part B of stream 0",
    "part A of stream 1",
    "part B of stream 1",
    "part A of stream 2",
    "part B of stream 2",
    "part A of stream 3",
    "part B of stream 3",
];

fn values(description: &Description) -> [u64; 11] {
    let [first, second, third, fourth] = description
        .streams
        .map(|stream| [u64::from(stream.part_a), u64::from(stream.part_b)]);
    [
        u64::from(description.level_a),
        u64::from(description.level_b),
        u64::from(description.count),
        first[0],
        first[1],
        second[0],
        second[1],
        third[0],
        third[1],
        fourth[0],
        fourth[1],
    ]
}

fn read(body: &mut Reader) -> Option<Answer> {
    let handed = Coded::read(body)?;
    let found = description::read_value(handed.mode, &handed.bytes.bytes());
    Some(Answer::of(found.map(|description| values(&description))))
}

fn read_entity(body: &mut Reader) -> Option<Answer> {
    let handed = Coded::read(body)?;
    let found = description::read_entity(handed.mode, &handed.bytes.bytes());
    Some(Answer::of(found.map(|(version, description)| {
        let mut all = [u64::from(version); 12];
        all[1..].copy_from_slice(&values(&description));
        all
    })))
}

/// The reserved bits in front are of any content.
const VALUE: Form = |random, mode, description| {
    let mut bytes = description.value();
    bytes[0] |= random.pick(&[0, 0, 0, 0xF0, 0x80, 0x10]);
    Coded::new(mode, bytes, 0)
};

const ENTITY: Form = |random, mode, description| {
    let version = random.below(2) as u8;
    Coded::new(mode, description.entity(version), 1)
};

/// What can be wrong with an entity beyond its levels and lengths, and these.
fn entity_faults() -> Vec<Fault<Coded>> {
    let own: [Fault<Coded>; 3] = [
        |coded, random| flip(coded, 1, 0x10 << random.below(4)), // type: 10
        |coded, random| flip(coded, 0, 0x02 << random.below(7)), // length: 10
        |coded, random| put(coded, 0, 6 * random.pick(&[0, 1, 2, 3, 4, 5])), // length: mostly 10
    ];
    [&own, coded::FAULTS].concat()
}

fn flip(coded: &mut Coded, place: usize, bits: u8) {
    if let Buffer::Given(bytes) = &mut coded.bytes {
        bytes[place] ^= bits;
    }
}

fn put(coded: &mut Coded, place: usize, byte: u8) {
    if let Buffer::Given(bytes) = &mut coded.bytes {
        bytes[place] = byte;
    }
}

fn fixed_reads(random: &mut Random, form: Form, faults: &[Fault<Coded>]) -> Vec<Coded> {
    let good = form(random, QAM_64, &described::annex_c());
    let mut list = coded::worked(random, form);
    list.extend(coded::lengths(random, good.levels));
    list.extend(faults::all(&good, faults, random));
    list
}

/// Every header too: each first byte, and each type.
fn fixed_entity_reads(random: &mut Random) -> Vec<Vec<u8>> {
    let mut list = fixed_reads(random, ENTITY, &entity_faults());
    let good = ENTITY(random, QAM_64, &described::limits()[1]);
    for byte in 0..=255 {
        let mut other = good.clone();
        put(&mut other, 0, byte);
        list.push(other);
    }
    for kind in 1..16 {
        let mut other = good.clone();
        flip(&mut other, 1, kind << 4);
        list.push(other);
    }
    bodies(list)
}

/// Good ones, spoiled ones, and those of a right length with anything in them.
fn random_read(random: &mut Random, form: Form, faults: &[Fault<Coded>]) -> Vec<u8> {
    let mut handed = coded::good(random, form);
    if random.one_in(10) {
        let length = handed.bytes.length();
        handed.bytes = generate::buffer(random, length);
    }
    faults::some(handed, faults, random).body()
}

/// What a writer is handed; only that of an entity has a version.
#[derive(Default, Clone)]
struct Write<const ENTITY: bool> {
    version: u8,
    description: Description,
    mode: u8,
    output: Buffer,
}

impl<const ENTITY: bool> Arguments for Write<ENTITY> {
    fn each(&mut self, fields: &mut impl Fields) -> Option<()> {
        if ENTITY {
            fields.byte("version", &mut self.version)?;
        }
        fields.description(&mut self.description)?;
        fields.byte("MSC mode", &mut self.mode)?;
        fields.buffer("output before", &mut self.output)
    }
}

impl<const ENTITY: bool> Described for Write<ENTITY> {
    fn description(&mut self) -> &mut Description {
        &mut self.description
    }

    fn mode(&mut self) -> &mut u8 {
        &mut self.mode
    }
}

impl<const ENTITY: bool> Write<ENTITY> {
    fn answer(&self) -> Answer {
        let mut output = self.output.bytes();
        let (description, mode) = (&self.description, self.mode);
        let written = match ENTITY {
            true => description::write_entity(self.version, description, mode, &mut output),
            false => description::write_value(description, mode, &mut output),
        };
        Answer::written(written, &output)
    }

    /// Bytes that the output has to have.
    fn needed(&self) -> usize {
        1 + 3 * usize::from(self.description.count) + usize::from(ENTITY)
    }

    fn faults() -> Vec<Fault<Self>> {
        let mut faults: Vec<Fault<Self>> = vec![
            |handed, random| handed.output = generate::too_short(random, handed.needed()), // late 1
        ];
        faults.extend(described::faults());
        if ENTITY {
            faults.push(|handed, random| handed.version = described::over(random, 1));
            // 6
        }
        faults
    }
}

fn fixed_writes<const ENTITY: bool>(random: &mut Random) -> Vec<Vec<u8>> {
    let mut good = Write::<ENTITY> {
        description: described::annex_c(),
        ..Write::default()
    };
    let mut list = Vec::new();
    for description in described::limits() {
        good.description = description;
        for length in generate::output_lengths(good.needed()) {
            for mode in SERVED {
                good.output = generate::buffer(random, length);
                (good.version, good.mode) = (random.below(2) as u8, mode);
                list.push(good.clone());
            }
        }
    }
    for description in described::counts() {
        good.description = description;
        good.output = generate::buffer(random, 20);
        list.push(good.clone());
    }
    good.description = described::annex_c();
    good.output = generate::buffer(random, 16);
    list.extend(faults::all(&good, &Write::faults(), random));
    bodies(list)
}

fn random_write<const ENTITY: bool>(random: &mut Random) -> Vec<u8> {
    let mode = random.pick(&SERVED);
    let longest = described::longest_part(random);
    let mut handed = Write::<ENTITY> {
        version: random.below(2) as u8,
        description: described::well_formed(random, mode, longest),
        mode,
        output: Buffer::default(),
    };
    if random.one_in(10) {
        handed.description = described::any(random);
    }
    let length = generate::room(random, handed.needed());
    handed.output = generate::buffer(random, length);
    faults::some(handed, &Write::faults(), random).body()
}
