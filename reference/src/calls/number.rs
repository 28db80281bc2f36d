//! Calls 4 and 5: a number read from a buffer and written to one (docs/CASES.md, "The calls").

use super::Call;
use crate::answer::Answer;
use crate::buffer::Buffer;
use crate::generate;
use crate::numbers;
use crate::random::Random;
use crate::reader::Reader;
use crate::show;

pub const READ: Call = Call {
    code: 4,
    name: "number read",
    fixed: fixed_reads,
    random: |random| random_body(random, false),
    answer: read,
    arguments: |body| Some(Arguments::read(body, false)?.lines()),
    values: &["number"],
    buffers: &[],
};

pub const WRITE: Call = Call {
    code: 5,
    name: "number write",
    fixed: fixed_writes,
    random: |random| random_body(random, true),
    answer: write,
    arguments: |body| Some(Arguments::read(body, true)?.lines()),
    values: &["written"],
    buffers: &["buffer"],
};

const WIDTHS: [u8; 3] = [2, 4, 8];

/// What both calls are handed; only a write has a value.
struct Arguments {
    width: u8,
    offset: u64,
    value: Option<u64>,
    buffer: Buffer,
}

impl Arguments {
    fn read(body: &mut Reader, with_value: bool) -> Option<Arguments> {
        Some(Arguments {
            width: body.u8()?,
            offset: body.u64()?,
            value: if with_value { Some(body.u64()?) } else { None },
            buffer: Buffer::read(body)?,
        })
    }

    fn body(&self) -> Vec<u8> {
        let mut body = vec![self.width];
        body.extend(self.offset.to_be_bytes());
        if let Some(value) = self.value {
            body.extend(value.to_be_bytes());
        }
        self.buffer.write(&mut body);
        body
    }

    fn lines(&self) -> Vec<String> {
        let mut lines = vec![
            format!("width: {}", self.width),
            format!("offset: {}", show::number(self.offset)),
        ];
        if let Some(value) = self.value {
            lines.push(format!("value: {}", show::number(value)));
        }
        lines.push(show::buffer("buffer", &self.buffer));
        lines
    }

    /// The width, if it is one of the three.
    fn known_width(&self) -> Option<usize> {
        WIDTHS
            .contains(&self.width)
            .then_some(usize::from(self.width))
    }
}

fn read(body: &mut Reader) -> Option<Answer> {
    let handed = Arguments::read(body, false)?;
    let number = numbers::read(&handed.buffer.bytes(), handed.known_width()?, handed.offset);
    Some(Answer::done().value(number.unwrap_or(0)))
}

fn write(body: &mut Reader) -> Option<Answer> {
    let handed = Arguments::read(body, true)?;
    let mut buffer = handed.buffer.bytes();
    let width = handed.known_width()?;
    let written = numbers::write(&mut buffer, width, handed.offset, handed.value?);
    Some(Answer::done().value(written).buffer(&buffer))
}

/// Random content, and all ones: the largest number of each width.
fn fixed_reads(random: &mut Random) -> Vec<Vec<u8>> {
    let mut bodies = Vec::new();
    for (width, length, offset) in limits() {
        for content in [random.bytes(length), vec![0xFF; length]] {
            let buffer = Buffer::Given(content);
            bodies.push(
                Arguments {
                    width,
                    offset,
                    value: None,
                    buffer,
                }
                .body(),
            );
        }
    }
    bodies.push(width_of_three(random, None));
    bodies
}

fn fixed_writes(random: &mut Random) -> Vec<Vec<u8>> {
    let mut bodies = Vec::new();
    for (width, length, offset) in limits() {
        for value in [0, 1, u64::MAX, random.draw()] {
            let (value, buffer) = (Some(value), Buffer::Given(random.bytes(length)));
            bodies.push(
                Arguments {
                    width,
                    offset,
                    value,
                    buffer,
                }
                .body(),
            );
        }
    }
    bodies.push(width_of_three(random, Some(1)));
    bodies
}

/// A case with an answer of size 0.
fn width_of_three(random: &mut Random, value: Option<u64>) -> Vec<u8> {
    let buffer = Buffer::Given(random.bytes(20));
    Arguments {
        width: 3,
        offset: 0,
        value,
        buffer,
    }
    .body()
}

/// Widths, buffer lengths and offsets at which something changes.
fn limits() -> Vec<(u8, usize, u64)> {
    let mut limits = Vec::new();
    for width in WIDTHS {
        let own = usize::from(width);
        let mut lengths = vec![0, 1, own - 1, own, own + 1, 20];
        lengths.sort();
        lengths.dedup();
        for length in lengths {
            for offset in offsets(u64::from(width), length as u64) {
                limits.push((width, length, offset));
            }
        }
    }
    limits
}

/// The start, the end of the buffer, and where sums and shortened numbers wrap, each once.
fn offsets(width: u64, length: u64) -> Vec<u64> {
    let mut offsets = vec![0, 1, length, length + 1, 1 << 32, 1 << 63, u64::MAX];
    offsets.push(u64::MAX - width + 1);
    if length >= width {
        offsets.extend([length - width, length - width + 1]);
    }
    offsets.sort();
    offsets.dedup();
    offsets
}

fn random_body(random: &mut Random, with_value: bool) -> Vec<u8> {
    let width = random.pick(&WIDTHS);
    let length = match random.below(10) {
        0 => generate::length(random),
        _ => random.below(24) as usize,
    };
    let handed = Arguments {
        width,
        offset: random_offset(random, u64::from(width), length as u64),
        value: with_value.then(|| random_value(random)),
        buffer: generate::buffer(random, length),
    };
    handed.body()
}

fn random_offset(random: &mut Random, width: u64, length: u64) -> u64 {
    match random.below(100) {
        0..=54 => random.below(length + 2),
        55..=74 => length.saturating_sub(width + 1) + random.below(4),
        75..=89 => near_a_power(random),
        _ => random.draw(),
    }
}

fn random_value(random: &mut Random) -> u64 {
    match random.below(4) {
        0 => random.below(0x1_0000),
        1 => near_a_power(random),
        _ => random.draw(),
    }
}

/// A power of two, or the numbers around it; around 2 to the 64 where it wraps.
fn near_a_power(random: &mut Random) -> u64 {
    let power = 1u64.checked_shl(random.below(65) as u32).unwrap_or(0);
    power.wrapping_add(random.below(19)).wrapping_sub(9)
}
