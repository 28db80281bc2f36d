//! Calls 1 and 2: the check words of annex D (document 01, "MDI packet": CRC). No length is refused.

use super::Call;
use crate::answer::Answer;
use crate::buffer::Buffer;
use crate::crc::{crc16, crc8};
use crate::generate;
use crate::random::Random;
use crate::reader::Reader;
use crate::show;

pub const CRC8: Call = Call {
    code: 1,
    name: "crc8",
    fixed,
    random,
    answer: |body| Some(Answer::done().value(crc8(&data(body)?))),
    arguments,
    values: &["check word"],
    buffers: &[],
};

pub const CRC16: Call = Call {
    code: 2,
    name: "crc16",
    fixed,
    random,
    answer: |body| Some(Answer::done().value(crc16(&data(body)?))),
    arguments,
    values: &["check word"],
    buffers: &[],
};

const LENGTHS: [usize; 15] = [
    1, 2, 8, 9, 255, 256, 257, 510, 511, 512, 1_022, 4_096, 65_528, 65_529, 65_536,
];

fn data(body: &mut Reader) -> Option<Vec<u8>> {
    Some(Buffer::read(body)?.bytes())
}

fn arguments(body: &mut Reader) -> Option<Vec<String>> {
    Some(vec![show::buffer("data", &Buffer::read(body)?)])
}

fn body(data: &Buffer) -> Vec<u8> {
    let mut body = Vec::new();
    data.write(&mut body);
    body
}

fn fixed(random: &mut Random) -> Vec<Vec<u8>> {
    let mut bodies = Vec::new();
    let contents: [&[u8]; 6] = [&[], &[0x00], &[0x01], &[0x80], &[0xFF], b"123456789"];
    for content in contents {
        bodies.push(body(&Buffer::Given(content.to_vec())));
    }
    bodies.push(body(&Buffer::Seeded { length: 0, seed: 1 }));
    for length in LENGTHS {
        bodies.push(body(&generate::buffer(random, length)));
    }
    bodies
}

fn random(random: &mut Random) -> Vec<u8> {
    let length = generate::length(random);
    body(&generate::buffer(random, length))
}
