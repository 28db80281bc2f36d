//! Calls 24 to 27: recordings opened, walked, started and prolonged (document 01, "Clock and recordings").

use super::Call;
use crate::answer::Answer;
use crate::buffer::{Buffer, LONGEST};
use crate::fields::{bodies, lines, Arguments, Fields};
use crate::generate;
use crate::random::Random;
use crate::reader::Reader;
use crate::recording::{self, HEADER, VERSION};
use crate::refusal::LONGEST_INPUT;

pub const OPEN: Call = Call {
    code: 24,
    name: "recording open",
    fixed: fixed_files,
    random: random_file,
    answer: open,
    arguments: lines::<File>,
    values: &[],
    buffers: &[],
};

pub const NEXT: Call = Call {
    code: 25,
    name: "recording next",
    fixed: fixed_walks,
    random: random_walk,
    answer: next,
    arguments: lines::<Walk>,
    values: &["an entry", "packet at", "length", "next entry at"],
    buffers: &[],
};

pub const START: Call = Call {
    code: 26,
    name: "recording start",
    fixed: fixed_starts,
    random: random_start,
    answer: start,
    arguments: lines::<Start>,
    values: &["bytes written"],
    buffers: &["output"],
};

pub const APPEND: Call = Call {
    code: 27,
    name: "recording append",
    fixed: fixed_appends,
    random: random_append,
    answer: append,
    arguments: lines::<Append>,
    values: &["next entry at"],
    buffers: &["output"],
};

#[derive(Default, Clone)]
struct File(Buffer);

impl Arguments for File {
    fn each(&mut self, fields: &mut impl Fields) -> Option<()> {
        fields.buffer("file", &mut self.0)
    }
}

fn open(body: &mut Reader) -> Option<Answer> {
    let File(file) = File::read(body)?;
    Some(Answer::of(recording::open(&file.bytes()).map(|()| [])))
}

#[derive(Default, Clone)]
struct Walk {
    offset: u64,
    file: Buffer,
}

impl Arguments for Walk {
    fn each(&mut self, fields: &mut impl Fields) -> Option<()> {
        fields.number("offset", &mut self.offset)?;
        fields.buffer("file", &mut self.file)
    }
}

fn next(body: &mut Reader) -> Option<Answer> {
    let Walk { offset, file } = Walk::read(body)?;
    let found = recording::next(&file.bytes(), offset);
    Some(Answer::of(found.map(|entry| match entry {
        Some(entry) => [1, entry.start, entry.length, entry.next],
        None => [0; 4],
    })))
}

#[derive(Default, Clone)]
struct Start(Buffer);

impl Arguments for Start {
    fn each(&mut self, fields: &mut impl Fields) -> Option<()> {
        fields.buffer("output before", &mut self.0)
    }
}

fn start(body: &mut Reader) -> Option<Answer> {
    let Start(output) = Start::read(body)?;
    let mut output = output.bytes();
    let written = recording::start(&mut output);
    Some(Answer::written(written, &output))
}

#[derive(Default, Clone)]
struct Append {
    packet: Buffer,
    offset: u64,
    output: Buffer,
}

impl Arguments for Append {
    fn each(&mut self, fields: &mut impl Fields) -> Option<()> {
        fields.buffer("packet", &mut self.packet)?;
        fields.number("offset", &mut self.offset)?;
        fields.buffer("output before", &mut self.output)
    }
}

fn append(body: &mut Reader) -> Option<Answer> {
    let handed = Append::read(body)?;
    let mut output = handed.output.bytes();
    let next = recording::append(&handed.packet.bytes(), handed.offset, &mut output);
    Some(Answer::of(next.map(|next| [next])).buffer(&output))
}

/// A file of packets of these lengths, and where its entries begin and end.
fn file_of(random: &mut Random, lengths: &[usize]) -> (Vec<u8>, Vec<usize>) {
    let mut file = vec![VERSION];
    let mut offsets = vec![file.len()];
    for length in lengths {
        file.extend((*length as u32).to_be_bytes());
        file.extend(random.bytes(*length));
        offsets.push(file.len());
    }
    (file, offsets)
}

fn any_file(random: &mut Random) -> (Vec<u8>, Vec<usize>) {
    let lengths: Vec<usize> = (0..random.below(5))
        .map(|_| random.below(15) as usize)
        .collect();
    file_of(random, &lengths)
}

fn fixed_files(random: &mut Random) -> Vec<Vec<u8>> {
    let (file, _) = file_of(random, &[3, 0, 2]);
    let mut list: Vec<Buffer> = (0..=file.len())
        .map(|end| Buffer::Given(file[..end].to_vec()))
        .collect();
    for version in [0, 1, 2, 3, 0x10, 0x81, 255] {
        list.push(Buffer::Given(vec![version]));
        list.push(Buffer::Given(vec![version, 0, 0, 0, 1]));
    }
    for length in [0, 1, 65, LONGEST_INPUT, LONGEST_INPUT + 1, LONGEST] {
        list.push(seeded(random, length));
        list.push(generate::buffer(random, length));
    }
    bodies(list.into_iter().map(File).collect())
}

/// A buffer from a seed that begins with the version byte, if with any.
fn seeded(random: &mut Random, length: usize) -> Buffer {
    loop {
        let seed = random.draw() as u32;
        if (Buffer::Seeded { length: 1, seed }).bytes() == [VERSION] {
            return Buffer::Seeded { length, seed };
        }
    }
}

fn random_file(random: &mut Random) -> Vec<u8> {
    let file = match random.below(10) {
        0 => Buffer::default(),
        1..=3 => {
            let length = generate::length(random);
            generate::buffer(random, length)
        }
        4 => {
            let length = generate::length(random);
            seeded(random, length)
        }
        _ => {
            let (mut file, _) = any_file(random);
            file.truncate(1 + random.below(file.len() as u64) as usize);
            file[0] = random.pick(&[VERSION, VERSION, 0, 2]);
            Buffer::Given(file)
        }
    };
    File(file).body()
}

/// Offsets far behind every file, some of which wrap when a header or an entry is added.
const FAR: [u64; 6] = [
    (1 << 32) + 1,
    1 << 63,
    u64::MAX - 7,
    u64::MAX - 4,
    u64::MAX - 3,
    u64::MAX,
];

/// A small file cut at each byte and read at each entry, and the whole one read everywhere.
fn fixed_walks(random: &mut Random) -> Vec<Vec<u8>> {
    let (file, starts) = file_of(random, &[3, 0, 2]);
    let mut list = Vec::new();
    let mut walk = |end: usize, offset: u64| {
        let file = Buffer::Given(file[..end].to_vec());
        list.push(Walk { offset, file });
    };
    for end in 0..file.len() {
        for start in &starts {
            walk(end, *start as u64);
        }
        walk(end, end as u64);
    }
    for offset in 0..file.len() as u64 + 6 {
        walk(file.len(), offset);
    }
    for offset in FAR {
        walk(file.len(), offset);
        walk(0, offset);
    }
    list.extend(lengths(random));
    list.extend(long_entries());
    bodies(list)
}

/// Lengths at their limit and where shortened numbers wrap, with nothing or little behind them.
fn lengths(random: &mut Random) -> Vec<Walk> {
    let longest = LONGEST_INPUT as u32;
    let mut list = Vec::new();
    for length in [
        0, 1, 4, 5, 255, 256, 257, 65_527, longest, 65_529, 65_535, 65_536, 65_537,
    ] {
        list.extend([0, 4].map(|behind| header(random, length, behind)));
    }
    for length in [1 << 24, 1 << 31, u32::MAX - 3, u32::MAX] {
        list.extend([0, 4].map(|behind| header(random, length, behind)));
    }
    list
}

/// A file with one entry of that stated length and as many bytes behind its header.
fn header(random: &mut Random, length: u32, behind: usize) -> Walk {
    let mut file = vec![VERSION];
    file.extend(length.to_be_bytes());
    file.extend(random.bytes(behind));
    Walk {
        offset: 1,
        file: Buffer::Given(file),
    }
}

/// Seeds whose first bytes are 00 00 FF F7 and 00 00 FF F9: entries of 65,527 and 65,529 bytes.
const SEED_65_527: u32 = 3_002_914_402;
const SEED_65_529: u32 = 213_281_507;

/// Whole entries, and one byte short of them.
fn long_entries() -> Vec<Walk> {
    let mut list = Vec::new();
    for (length, seed) in [(65_527, SEED_65_527), (65_529, SEED_65_529)] {
        let end = HEADER + length;
        for length in [HEADER - 1, HEADER, end - 1, end, end + 1, LONGEST] {
            list.push(Walk {
                offset: 0,
                file: Buffer::Seeded { length, seed },
            });
        }
    }
    list
}

/// A file as it is, cut or with one byte changed, read at one of its entries mostly; seldom no more than an
/// entry's length at its limit.
fn random_walk(random: &mut Random) -> Vec<u8> {
    if random.one_in(40) {
        let length = LONGEST_INPUT as u32 - 1 + random.below(4) as u32;
        let behind = random.below(9) as usize;
        return header(random, length, behind).body();
    }
    let (mut file, starts) = any_file(random);
    let offset = match random.below(20) {
        0..=13 => random.pick(&starts) as u64,
        14..=17 => random.below(file.len() as u64 + 3),
        18 => random.pick(&FAR),
        _ => random.draw(),
    };
    match random.below(10) {
        0..=2 => file.truncate(random.below(file.len() as u64 + 1) as usize),
        3 | 4 => {
            let place = random.below(file.len() as u64) as usize;
            file[place] = random.pick(&[0, 1, 2, 4, 255]);
        }
        _ => (),
    }
    let file = Buffer::Given(file);
    Walk { offset, file }.body()
}

fn fixed_starts(random: &mut Random) -> Vec<Vec<u8>> {
    let mut list = Vec::new();
    for length in [
        0,
        1,
        2,
        3,
        64,
        65,
        LONGEST_INPUT,
        LONGEST_INPUT + 1,
        LONGEST,
    ] {
        list.push(Start(generate::buffer(random, length)));
    }
    list.push(Start(Buffer::Seeded { length: 0, seed: 1 }));
    list.push(Start(Buffer::Given(vec![VERSION, VERSION])));
    bodies(list)
}

fn random_start(random: &mut Random) -> Vec<u8> {
    let length = match random.below(8) {
        0 => 0,
        _ => generate::length(random),
    };
    Start(generate::buffer(random, length)).body()
}

/// Packets and offsets with an output that fits exactly, is longer, and is too short by one.
fn fixed_appends(random: &mut Random) -> Vec<Vec<u8>> {
    let mut list = Vec::new();
    for length in [
        0,
        1,
        5,
        60,
        300,
        LONGEST_INPUT - 1,
        LONGEST_INPUT,
        LONGEST_INPUT + 1,
    ] {
        for offset in [0, 1, 8] {
            for room in generate::output_lengths(offset + HEADER + length) {
                list.push(Append {
                    packet: generate::buffer(random, length),
                    offset: offset as u64,
                    output: generate::buffer(random, room),
                });
            }
        }
    }
    for offset in FAR.into_iter().chain(0..=14) {
        for length in [0, 3, 4] {
            list.push(Append {
                packet: generate::buffer(random, length),
                offset,
                output: generate::buffer(random, 12),
            });
        }
    }
    bodies(list)
}

fn random_append(random: &mut Random) -> Vec<u8> {
    let length = generate::length(random);
    let before = random.below(20) as usize;
    let room = generate::room(random, before + HEADER + length);
    let offset = match random.below(20) {
        0 => random.draw(),
        1 => random.pick(&FAR),
        2 => (room as u64).wrapping_sub(random.below(6)),
        3 => random.below(room as u64 + 3),
        _ => before as u64,
    };
    let output = match random.below(8) {
        0 => generate::too_short(random, before + HEADER + length),
        _ => generate::buffer(random, room),
    };
    Append {
        packet: generate::buffer(random, length),
        offset,
        output,
    }
    .body()
}

#[cfg(test)]
mod tests {
    use super::*;

    #[test]
    fn seeds_of_long_entries() {
        for (seed, last) in [(SEED_65_527, 0xF7), (SEED_65_529, 0xF9)] {
            let file = Buffer::Seeded { length: 4, seed };
            assert_eq!(file.bytes(), [0, 0, 0xFF, last]);
        }
    }
}
