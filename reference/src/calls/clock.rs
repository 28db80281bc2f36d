//! Calls 20 to 23: timestamps written, read, moved on and compared (document 01, "Clock and recordings"; document 02, E3).

use super::Call;
use crate::answer::Answer;
use crate::bits::Bits;
use crate::buffer::Buffer;
use crate::clock::{self, Timestamp, BYTES};
use crate::fields::{bodies, lines, Arguments, Fields};
use crate::generate;
use crate::random::Random;
use crate::reader::Reader;
use crate::refusal::LONGEST_INPUT;

pub const WRITE: Call = Call {
    code: 20,
    name: "timestamp write",
    fixed: fixed_writes,
    random: random_write,
    answer: write,
    arguments: lines::<Write>,
    values: &["bytes written"],
    buffers: &["output"],
};

pub const READ: Call = Call {
    code: 21,
    name: "timestamp read",
    fixed: fixed_reads,
    random: random_read,
    answer: read,
    arguments: lines::<Read>,
    values: &["UTCO", "seconds", "milliseconds"],
    buffers: &[],
};

pub const NEXT: Call = Call {
    code: 22,
    name: "timestamp next",
    fixed: |_| bodies(limits().into_iter().map(Next).collect()),
    random: |random| Next(timestamp(random)).body(),
    answer: next,
    arguments: lines::<Next>,
    values: &["UTCO", "seconds", "milliseconds"],
    buffers: &[],
};

pub const FOLLOWS: Call = Call {
    code: 23,
    name: "timestamp follows",
    fixed: fixed_pairs,
    random: random_pair,
    answer: follows,
    arguments: lines::<Pair>,
    values: &["follows"],
    buffers: &[],
};

/// The last second that has 40 bits.
pub const LAST: u64 = (1 << 40) - 1;

#[derive(Default, Clone)]
struct Write {
    timestamp: Timestamp,
    output: Buffer,
}

impl Arguments for Write {
    fn each(&mut self, fields: &mut impl Fields) -> Option<()> {
        fields.timestamp("timestamp", &mut self.timestamp)?;
        fields.buffer("output before", &mut self.output)
    }
}

fn write(body: &mut Reader) -> Option<Answer> {
    let handed = Write::read(body)?;
    let mut output = handed.output.bytes();
    let written = clock::write(&handed.timestamp, &mut output);
    Some(Answer::written(written, &output))
}

#[derive(Default, Clone)]
struct Read(Buffer);

impl Arguments for Read {
    fn each(&mut self, fields: &mut impl Fields) -> Option<()> {
        fields.buffer("value", &mut self.0)
    }
}

fn read(body: &mut Reader) -> Option<Answer> {
    let Read(value) = Read::read(body)?;
    Some(Answer::of(clock::read(&value.bytes()).map(values)))
}

#[derive(Default, Clone)]
struct Next(Timestamp);

impl Arguments for Next {
    fn each(&mut self, fields: &mut impl Fields) -> Option<()> {
        fields.timestamp("timestamp", &mut self.0)
    }
}

fn next(body: &mut Reader) -> Option<Answer> {
    let Next(timestamp) = Next::read(body)?;
    Some(Answer::of(clock::next(&timestamp).map(values)))
}

#[derive(Default, Clone)]
struct Pair {
    first: Timestamp,
    second: Timestamp,
}

impl Arguments for Pair {
    fn each(&mut self, fields: &mut impl Fields) -> Option<()> {
        fields.timestamp("first", &mut self.first)?;
        fields.timestamp("second", &mut self.second)
    }
}

fn follows(body: &mut Reader) -> Option<Answer> {
    let Pair { first, second } = Pair::read(body)?;
    let follows = clock::follows(&first, &second);
    Some(Answer::of(follows.map(|follows| [u64::from(follows)])))
}

fn values(timestamp: Timestamp) -> [u64; 3] {
    let Timestamp {
        utco,
        seconds,
        milliseconds,
    } = timestamp;
    [u64::from(utco), seconds, u64::from(milliseconds)]
}

const UTCOS: [u16; 5] = [0, 1, 16_383, 16_384, 65_535];
const SECONDS: [u64; 7] = [0, 1, LAST - 1, LAST, LAST + 1, 1 << 63, u64::MAX];
const MILLISECONDS: [u16; 10] = [0, 399, 400, 599, 600, 999, 1_000, 1_023, 1_024, 65_535];

/// Every field at its limits, each with each.
fn limits() -> Vec<Timestamp> {
    let mut list = Vec::new();
    for utco in UTCOS {
        for seconds in SECONDS {
            for milliseconds in MILLISECONDS {
                list.push(Timestamp {
                    utco,
                    seconds,
                    milliseconds,
                });
            }
        }
    }
    list
}

/// Mostly good, in every part of its ranges.
pub fn timestamp(random: &mut Random) -> Timestamp {
    let seconds = match random.below(20) {
        0 => random.draw(),
        1 => random.pick(&SECONDS),
        2..=5 => LAST - random.below(2),
        _ => random.draw() >> (24 + random.below(40)),
    };
    let milliseconds = match random.below(20) {
        0 => random.draw() as u16,
        1..=5 => random.pick(&MILLISECONDS),
        _ => random.below(1_000) as u16,
    };
    let utco = match random.below(20) {
        0 => random.draw() as u16,
        1..=3 => random.pick(&UTCOS),
        _ => random.below(16_384) as u16,
    };
    Timestamp {
        utco,
        seconds,
        milliseconds,
    }
}

/// All limits with an output that fits exactly; two good ones and a bad one with outputs of all lengths.
fn fixed_writes(random: &mut Random) -> Vec<Vec<u8>> {
    let mut list = Vec::new();
    for timestamp in limits() {
        let output = generate::buffer(random, BYTES);
        list.push(Write { timestamp, output });
    }
    for milliseconds in [400, 999, 1_000] {
        let timestamp = Timestamp {
            utco: 5,
            seconds: 1,
            milliseconds,
        };
        for length in generate::output_lengths(BYTES) {
            let output = generate::buffer(random, length);
            list.push(Write { timestamp, output });
        }
    }
    bodies(list)
}

fn random_write(random: &mut Random) -> Vec<u8> {
    let output = match random.below(8) {
        0 => generate::too_short(random, BYTES),
        _ => {
            let length = generate::room(random, BYTES);
            generate::buffer(random, length)
        }
    };
    let timestamp = timestamp(random);
    Write { timestamp, output }.body()
}

/// The value of fields that have their bits, allowed or not.
fn value(utco: u64, seconds: u64, milliseconds: u64) -> Vec<u8> {
    let mut bits = Bits::default();
    bits.put(14, utco);
    bits.put(40, seconds);
    bits.put(10, milliseconds);
    bits.bytes()
}

fn fixed_reads(random: &mut Random) -> Vec<Vec<u8>> {
    let mut list = Vec::new();
    for utco in [0, 1, 8_192, 16_383] {
        for seconds in [0, 1, 1 << 39, LAST] {
            for milliseconds in [0, 1, 400, 512, 999, 1_000, 1_023] {
                let value = value(utco, seconds, milliseconds);
                list.push(Read(Buffer::Given(value)));
            }
        }
    }
    for length in 0..=17 {
        for byte in [0x00, 0xFF] {
            list.push(Read(Buffer::Given(vec![byte; length])));
        }
    }
    for length in [
        64,
        LONGEST_INPUT - 1,
        LONGEST_INPUT,
        LONGEST_INPUT + 1,
        131_072,
    ] {
        list.push(Read(generate::buffer(random, length)));
    }
    bodies(list)
}

fn random_read(random: &mut Random) -> Vec<u8> {
    let length = match random.below(100) {
        0..=69 => {
            let seconds = random.draw() >> (24 + random.below(40));
            let value = value(random.below(16_384), seconds, random.below(1_010));
            return Read(Buffer::Given(value)).body();
        }
        70..=84 => BYTES,
        85..=97 => generate::length(random),
        _ => LONGEST_INPUT + random.below(3) as usize,
    };
    Read(generate::buffer(random, length)).body()
}

/// The one that is 400 ms later, worked out without a look at any range.
pub fn later(timestamp: Timestamp) -> Timestamp {
    let milliseconds = timestamp.milliseconds.wrapping_add(400);
    if milliseconds < 1_000 {
        return Timestamp {
            milliseconds,
            ..timestamp
        };
    }
    Timestamp {
        seconds: timestamp.seconds.wrapping_add(1),
        milliseconds: milliseconds - 1_000,
        ..timestamp
    }
}

/// Second timestamps that follow the first, or nearly do.
pub fn seconds_of(first: Timestamp) -> Vec<Timestamp> {
    let later = later(first);
    let mut list = vec![first, later, Timestamp::default()];
    let mut with = |change: fn(&mut Timestamp)| {
        let mut other = later;
        change(&mut other);
        list.push(other);
    };
    with(|other| other.utco = other.utco.wrapping_add(1));
    with(|other| other.utco = other.utco.wrapping_sub(1));
    with(|other| other.utco = other.utco.wrapping_add(1) % 16_384);
    with(|other| other.utco = other.utco.wrapping_sub(1) % 16_384);
    with(|other| other.utco = other.utco.wrapping_add(2) % 16_384);
    with(|other| other.utco = other.utco.wrapping_sub(2) % 16_384);
    with(|other| other.seconds = other.seconds.wrapping_add(1));
    with(|other| other.seconds = other.seconds.wrapping_sub(1));
    with(|other| other.seconds &= LAST);
    with(|other| other.milliseconds = other.milliseconds.wrapping_add(1));
    with(|other| other.milliseconds = other.milliseconds.wrapping_sub(1));
    with(|other| other.milliseconds += 1_000);
    list
}

/// Pairs of UTCO, seconds and milliseconds around a leap second, each of a kind of its own.
const KNOWN: [[(u16, u64, u16); 2]; 9] = [
    [(5, 9, 600), (6, 10, 0)],
    [(5, 9, 600), (4, 10, 0)],
    [(5, 9, 600), (7, 10, 0)],
    [(16_383, 9, 0), (0, 9, 400)],
    [(0, 9, 0), (16_383, 9, 400)],
    [(0, 9, 0), (16_382, 9, 400)],
    [(16_382, 9, 0), (0, 9, 400)],
    [(5, 9, 600), (6, 9, 600)],
    [(5, 9, 600), (5, 9, 1_000)],
];

pub fn known_leaps() -> [[Timestamp; 2]; 9] {
    KNOWN.map(|pair| {
        pair.map(|(utco, seconds, milliseconds)| Timestamp {
            utco,
            seconds,
            milliseconds,
        })
    })
}

/// In time, a millisecond off, a second off, and at the time of the first.
pub const OFFS: [i64; 6] = [400, 399, 401, 1_400, -600, 0];

/// UTCOs at the ends and in the middle of their range, each with each and with one that is too large; the second
/// timestamp so many milliseconds after the first.
pub fn leaps(offs: &[i64]) -> Vec<[Timestamp; 2]> {
    const NEAR: [u16; 9] = [0, 1, 2, 8_191, 8_192, 16_381, 16_382, 16_383, 16_384];
    let at = |utco: u16, time: i64| Timestamp {
        utco,
        seconds: (time / 1_000) as u64,
        milliseconds: (time % 1_000) as u16,
    };
    let mut list = Vec::new();
    for before in NEAR {
        for after in NEAR {
            for time in [9_000, 9_600] {
                let pair = |off: &i64| [at(before, time), at(after, time + off)];
                list.extend(offs.iter().map(pair));
            }
        }
    }
    list
}

fn fixed_pairs(_random: &mut Random) -> Vec<Vec<u8>> {
    let mut list = Vec::new();
    for [first, second] in known_leaps().into_iter().chain(leaps(&OFFS)) {
        list.push(Pair { first, second });
    }
    for utco in [0, 16_383, 16_384] {
        for seconds in [0, LAST - 1, LAST, LAST + 1] {
            for milliseconds in [0, 599, 600, 999, 1_000] {
                let first = Timestamp {
                    utco,
                    seconds,
                    milliseconds,
                };
                for second in seconds_of(first) {
                    list.push(Pair { first, second });
                }
            }
        }
    }
    bodies(list)
}

fn random_pair(random: &mut Random) -> Vec<u8> {
    let first = timestamp(random);
    let second = match random.below(10) {
        0..=4 => later(first),
        5..=8 => random.pick(&seconds_of(first)),
        _ => timestamp(random),
    };
    let pair = match random.one_in(8) {
        true => Pair {
            first: second,
            second: first,
        },
        false => Pair { first, second },
    };
    pair.body()
}
