//! Calls 43 and 44: a FAC read and written (document 01, "MDI packet": FAC).

use super::Call;
use crate::answer::Answer;
use crate::buffer::Buffer;
use crate::fac::{self, Fac, BYTES, FIELDS, NAMES, WIDTHS};
use crate::faults::{self, Fault};
use crate::fields::{bodies, lines, Arguments, Fields};
use crate::generate;
use crate::random::Random;
use crate::reader::Reader;
use crate::refusal::LONGEST_INPUT;

pub const READ: Call = Call {
    code: 43,
    name: "fac read",
    fixed: fixed_reads,
    random: random_read,
    answer: read,
    arguments: lines::<Read>,
    values: &NAMES,
    buffers: &[],
};

pub const WRITE: Call = Call {
    code: 44,
    name: "fac write",
    fixed: fixed_writes,
    random: random_write,
    answer: write,
    arguments: lines::<Write>,
    values: &["bytes written"],
    buffers: &["output"],
};

#[derive(Default, Clone)]
struct Read(Buffer);

impl Arguments for Read {
    fn each(&mut self, fields: &mut impl Fields) -> Option<()> {
        fields.buffer("value", &mut self.0)
    }
}

fn read(body: &mut Reader) -> Option<Answer> {
    let Read(value) = Read::read(body)?;
    let found = fac::read(&value.bytes());
    Some(Answer::of(found.map(|fac| fac.fields().map(u64::from))))
}

#[derive(Default, Clone)]
struct Write {
    fac: Fac,
    output: Buffer,
}

impl Arguments for Write {
    fn each(&mut self, fields: &mut impl Fields) -> Option<()> {
        fields.fac(&mut self.fac)?;
        fields.buffer("output before", &mut self.output)
    }
}

fn write(body: &mut Reader) -> Option<Answer> {
    let Write { fac, output } = Write::read(body)?;
    let mut output = output.bytes();
    let written = fac::write(&fac, &mut output);
    Some(Answer::written(written, &output))
}

/// A random one that is served.
pub fn random_fac(random: &mut Random) -> Fac {
    let fac = Fac::of(WIDTHS.map(|width| random.below(1 << width) as u32));
    Fac {
        base: 0,
        rm: 0,
        occupancy: random.below(6) as u8,
        msc_mode: random.pick(&[0, 3]),
        services: random.pick(&[0, 1, 2, 3, 4, 5, 6, 7, 8, 9, 10, 12, 13, 15]),
        ..fac
    }
}

/// Makes it one that is not served.
pub fn unserved(fac: &mut Fac, random: &mut Random) {
    match random.below(5) {
        0 => fac.base = 1,
        1 => fac.rm = 1,
        2 => fac.occupancy = random.pick(&[6, 7]),
        3 => fac.msc_mode = random.pick(&[1, 2]),
        _ => fac.services = random.pick(&[0b1011, 0b1110]),
    }
}

/// Makes one field too large, mostly by one.
pub fn too_large(fac: &mut Fac, random: &mut Random) {
    let place = random.below(FIELDS as u64) as usize;
    let mut fields = fac.fields();
    let largest = if place == fac::SERVICE_ID {
        u32::MAX
    } else {
        255
    };
    let next = 1 << WIDTHS[place];
    fields[place] = random.pick(&[next, next, next + 1, largest]);
    *fac = Fac::of(fields);
}

/// Any value of each field that has few bits, every bit of the others, and any byte beyond.
fn each_value() -> Vec<Fac> {
    let mut list = vec![
        Fac::default(),
        Fac::of(WIDTHS.map(|width| (1 << width) - 1)),
        Fac::of([255; FIELDS]),
    ];
    for place in 0..FIELDS {
        let width = WIDTHS[place];
        let mut values: Vec<u32> = (0..(1 << width.min(4))).collect();
        values.extend((0..width).map(|bit| 1 << bit));
        values.extend([(1 << width) - 1, 1 << width, (1 << width) + 1, 255]);
        values.sort();
        values.dedup();
        for value in values {
            let mut fields = [0; FIELDS];
            fields[place] = value;
            list.push(Fac::of(fields));
        }
    }
    list
}

/// What can be wrong with a value; the number of each stands behind it.
const READ_FAULTS: &[Fault<Vec<u8>>] = &[
    |value, random| {
        let mut fac = Fac::take(value);
        unserved(&mut fac, random);
        *value = fac.value();
    }, // 9
    |value, random| {
        let bit = random.below(8 * BYTES as u64) as usize;
        value[bit / 8] ^= 0x80 >> (bit % 8);
    }, // 7
    |value, random| value.truncate(random.pick(&[0, 1, 7, 8])), // 5
    |value, random| value.resize(random.pick(&[10, 16, 18]), 0), // 5
];

fn fixed_reads(random: &mut Random) -> Vec<Vec<u8>> {
    // The worked one.
    let mut list = vec![vec![0x06, 0x0A, 0x0E, 0x1C, 0x23, 0x80, 0xA0, 0x80, 0x5B]];
    for fac in each_value() {
        if !fac.has_too_large_a_field() {
            list.push(fac.value());
        }
    }
    for bit in 0..8 * BYTES {
        let mut value = random_fac(random).value();
        value[bit / 8] ^= 0x80 >> (bit % 8);
        list.push(value);
    }
    let good = random_fac(random).value();
    list.extend(faults::all(&good, READ_FAULTS, random));
    let mut list: Vec<Read> = list
        .into_iter()
        .map(|value| Read(Buffer::Given(value)))
        .collect();
    for length in [0, 8, 9, 10, 64, LONGEST_INPUT, LONGEST_INPUT + 1, 131_072] {
        list.push(Read(generate::compact(random, length)));
    }
    bodies(list)
}

fn random_read(random: &mut Random) -> Vec<u8> {
    if random.one_in(60) {
        let length = LONGEST_INPUT + random.below(3) as usize;
        return Read(generate::compact(random, length)).body();
    }
    let good = random_fac(random).value();
    let value = faults::some(good, READ_FAULTS, random);
    Read(Buffer::Given(value)).body()
}

/// What can be wrong with a FAC to be written; the number of each stands behind it.
const WRITE_FAULTS: &[Fault<Write>] = &[
    |handed, random| handed.output = generate::too_short(random, BYTES), // late 1
    |handed, random| unserved(&mut handed.fac, random),                  // 9
    |handed, random| too_large(&mut handed.fac, random),                 // 6
];

fn good_write(random: &mut Random, fac: Fac) -> Write {
    let room = generate::room(random, BYTES);
    Write {
        fac,
        output: generate::compact(random, room),
    }
}

fn fixed_writes(random: &mut Random) -> Vec<Vec<u8>> {
    let mut list = Vec::new();
    for fac in each_value() {
        list.push(good_write(random, fac));
    }
    for length in generate::output_lengths(BYTES) {
        let mut handed = good_write(random, Fac::default());
        handed.output = generate::compact(random, length);
        list.push(handed);
    }
    for _ in 0..10 {
        let fac = random_fac(random);
        let good = good_write(random, fac);
        list.extend(faults::all(&good, WRITE_FAULTS, random));
    }
    bodies(list)
}

fn random_write(random: &mut Random) -> Vec<u8> {
    let fac = random_fac(random);
    let good = good_write(random, fac);
    faults::some(good, WRITE_FAULTS, random).body()
}
