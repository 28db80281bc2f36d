//! Calls 30 to 32: a packet checked, read and written (document 01, "Packets, queues and receiver").

use super::described::over;
use super::Call;
use crate::answer::Answer;
use crate::buffer::Buffer;
use crate::crc::crc16;
use crate::faults::{self, Fault};
use crate::fields::{bodies, lines, Arguments, Fields};
use crate::generate;
use crate::packet::{self, header_byte, Header, FRAMING, LARGEST_P};
use crate::random::Random;
use crate::reader::Reader;
use crate::refusal::LONGEST_INPUT;

pub const CHECK: Call = Call {
    code: 30,
    name: "packet check",
    fixed: fixed_packets,
    random: random_packet,
    answer: check,
    arguments: lines::<Handed>,
    values: &[],
    buffers: &[],
};

pub const READ: Call = Call {
    code: 31,
    name: "packet read",
    fixed: fixed_packets,
    random: random_packet,
    answer: read,
    arguments: lines::<Handed>,
    values: &[
        "first flag",
        "last flag",
        "id",
        "padded flag",
        "continuity index",
        "useful bytes",
    ],
    buffers: &["useful"],
};

pub const WRITE: Call = Call {
    code: 32,
    name: "packet write",
    fixed: fixed_writes,
    random: random_write,
    answer: write,
    arguments: lines::<Write>,
    values: &["bytes written"],
    buffers: &["output"],
};

/// A packet as it is handed in.
#[derive(Default, Clone)]
pub struct Handed {
    pub p: u64,
    pub packet: Buffer,
}

impl Arguments for Handed {
    fn each(&mut self, fields: &mut impl Fields) -> Option<()> {
        fields.number("p", &mut self.p)?;
        fields.buffer("packet", &mut self.packet)
    }
}

fn check(body: &mut Reader) -> Option<Answer> {
    let Handed { p, packet } = Handed::read(body)?;
    Some(Answer::of(packet::check(p, &packet.bytes()).map(|()| [])))
}

fn read(body: &mut Reader) -> Option<Answer> {
    let Handed { p, packet } = Handed::read(body)?;
    let found = packet::read(p, &packet.bytes());
    let useful = match &found {
        Ok(packet) => packet.useful.clone(),
        Err(_) => Vec::new(),
    };
    let values = found.map(|packet| {
        [
            u64::from(packet.header.first),
            u64::from(packet.header.last),
            u64::from(packet.header.id),
            u64::from(packet.padded),
            u64::from(packet.header.index),
            packet.useful.len() as u64,
        ]
    });
    Some(Answer::of(values).buffer(&useful))
}

#[derive(Default, Clone)]
struct Write {
    p: u64,
    first: u8,
    last: u8,
    id: u8,
    index: u8,
    useful: Buffer,
    output: Buffer,
}

impl Arguments for Write {
    fn each(&mut self, fields: &mut impl Fields) -> Option<()> {
        fields.number("p", &mut self.p)?;
        fields.byte("first flag", &mut self.first)?;
        fields.byte("last flag", &mut self.last)?;
        fields.byte("id", &mut self.id)?;
        fields.byte("continuity index", &mut self.index)?;
        fields.buffer("useful", &mut self.useful)?;
        fields.buffer("output before", &mut self.output)
    }
}

fn write(body: &mut Reader) -> Option<Answer> {
    let handed = Write::read(body)?;
    let header = Header {
        first: handed.first != 0,
        last: handed.last != 0,
        id: handed.id,
        index: handed.index,
    };
    let mut output = handed.output.bytes();
    let written = packet::write(handed.p, header, &handed.useful.bytes(), &mut output);
    Some(Answer::written(written, &output))
}

/// Lengths of the data field: those of the examples, the limits, and around an answer's 64 bytes.
const P: [u64; 10] = [1, 2, 3, 4, 13, 61, 62, 128, 254, 255];

/// No p at all, some of them p = 4 if their bits were shortened.
pub const NO_P: [u64; 8] = [
    0,
    256,
    257,
    256 + 4,
    65_536 + 4,
    (1 << 32) + 4,
    1 << 63,
    u64::MAX,
];

/// A packet with this header byte and data, and its check word.
pub fn packed(header: u8, data: &[u8]) -> Vec<u8> {
    let mut packet = [&[header], data].concat();
    packet.extend(crc16(&packet).to_be_bytes());
    packet
}

/// A packet of so many useful bytes, with anything in its header and padding.
fn packet_of(random: &mut Random, p: usize, useful: usize) -> Handed {
    let header = random_header(random);
    let mut data = random.bytes(p);
    if useful < p {
        data[0] = useful as u8;
        if random.one_in(2) {
            data[1 + useful..].fill(0);
        }
    }
    Handed {
        p: p as u64,
        packet: Buffer::Given(packed(header_byte(header, useful < p), &data)),
    }
}

fn random_header(random: &mut Random) -> Header {
    Header {
        first: random.one_in(2),
        last: random.one_in(2),
        id: random.below(4) as u8,
        index: random.below(8) as u8,
    }
}

/// A padded packet with a right check word and that count, allowed or not.
fn counting(random: &mut Random, p: usize, count: u8) -> Handed {
    let mut data = random.bytes(p);
    data[0] = count;
    let header = header_byte(random_header(random), true);
    Handed {
        p: p as u64,
        packet: Buffer::Given(packed(header, &data)),
    }
}

/// The packets that the documents work out, all with p = 4 but the second.
pub fn worked() -> Vec<Handed> {
    let packets: [&[u8]; 7] = [
        &[0xF8, 0, 0, 0, 0, 0xD3, 0x88],
        &[0xF8, 0, 0x78, 0x98],
        &[0x90, 1, 2, 3, 4, 0xC5, 0x7A],
        &[0x59, 2, 5, 6, 0, 0xFF, 0x83],
        &[0xC8, 4, 1, 2, 3, 0x74, 0xA6],
        &[0x88, 0, 0, 0, 0, 0xCE, 0x0E],
        &[0x49, 0, 0, 0, 0, 0x57, 0xE7],
    ];
    packets.into_iter().map(handed).collect()
}

/// A packet of these bytes, with the p that they have room for.
pub fn handed(packet: &[u8]) -> Handed {
    Handed {
        p: (packet.len() - FRAMING) as u64,
        packet: Buffer::Given(packet.to_vec()),
    }
}

fn fixed_packets(random: &mut Random) -> Vec<Vec<u8>> {
    let mut list = worked();
    for flipped in [1, 3] {
        let good = list[flipped].clone();
        for bit in 0..8 * good.packet.length() {
            let mut bad = good.clone();
            flip(&mut bad, bit);
            list.push(bad);
        }
    }
    for p in P.map(|p| p as usize) {
        for useful in [0, 1, p - 1, p] {
            list.push(packet_of(random, p, useful));
        }
        for count in [p - 1, p, p + 1, 255] {
            list.push(counting(random, p, count.min(255) as u8));
        }
    }
    for p in NO_P {
        for length in [0, 7, 259] {
            let packet = generate::buffer(random, length);
            list.push(Handed { p, packet });
        }
        let packet = list[0].packet.clone();
        list.push(Handed { p, packet });
    }
    list.extend(other_lengths(random));
    let good = packet_of(random, 4, 2);
    list.extend(faults::all(&good, FAULTS, random));
    bodies(list)
}

/// Bytes of every length around the right one, and far longer.
fn other_lengths(random: &mut Random) -> Vec<Handed> {
    let mut list = Vec::new();
    for p in [1, 4, 255] {
        let right = p + FRAMING;
        for length in [0, 1, 2, 3, right - 1, right, right + 1, LONGEST_INPUT + 1] {
            list.push(Handed {
                p: p as u64,
                packet: generate::buffer(random, length),
            });
        }
    }
    list
}

fn flip(handed: &mut Handed, bit: usize) {
    if let Buffer::Given(packet) = &mut handed.packet {
        packet[bit / 8] ^= 0x80 >> (bit % 8);
    }
}

/// What can be wrong with a packet; the number of each stands behind it.
pub const FAULTS: &[Fault<Handed>] = &[
    too_high_a_count,                                        // 16
    flip_any,                                                // 16
    one_length_off,                                          // 1
    |handed, random| handed.p = 1 + random.below(LARGEST_P), // mostly 1
    |handed, random| handed.p = random.pick(&NO_P),          // 13
];

fn too_high_a_count(handed: &mut Handed, random: &mut Random) {
    let p = handed.p as usize;
    let count = match random.below(2) {
        0 => p as u64,
        _ => p as u64 + random.below(256 - p as u64),
    };
    *handed = counting(random, p, count as u8);
}

fn flip_any(handed: &mut Handed, random: &mut Random) {
    let bits = 8 * handed.packet.length() as u64;
    flip(handed, random.below(bits) as usize);
}

fn one_length_off(handed: &mut Handed, random: &mut Random) {
    if let Buffer::Given(packet) = &mut handed.packet {
        match random.below(2) {
            0 => packet.push(random.draw() as u8),
            _ => packet.truncate(packet.len() - 1),
        }
    }
}

/// Mostly short ones, now and then of any length.
fn random_p(random: &mut Random) -> usize {
    match random.below(20) {
        0 => 1 + random.below(LARGEST_P) as usize,
        1 | 2 => random.pick(&P) as usize,
        _ => 1 + random.below(24) as usize,
    }
}

fn random_packet(random: &mut Random) -> Vec<u8> {
    let p = random_p(random);
    let useful = useful_length(random, p);
    let good = packet_of(random, p, useful);
    faults::some(good, FAULTS, random).body()
}

/// At most p, often as many or one less.
fn useful_length(random: &mut Random, p: usize) -> usize {
    match random.below(4) {
        0 => p,
        1 => p - 1,
        _ => random.below(p as u64 + 1) as usize,
    }
}

impl Write {
    fn good(random: &mut Random, p: usize, useful: usize) -> Write {
        let room = generate::room(random, p + FRAMING);
        Write {
            p: p as u64,
            first: random.pick(&[0, 0, 1, 1, 2, 255]),
            last: random.pick(&[0, 0, 1, 1, 128, 255]),
            id: random.below(4) as u8,
            index: random.below(8) as u8,
            useful: generate::buffer(random, useful),
            output: generate::buffer(random, room),
        }
    }
}

/// What can be wrong with a packet to be written; the number of each stands behind it.
const WRITE_FAULTS: &[Fault<Write>] = &[
    |handed, random| handed.output = generate::too_short(random, handed.p as usize + FRAMING), // late 1
    |handed, random| handed.id = over(random, 3),                                              // 6
    |handed, random| handed.index = over(random, 7),                                           // 6
    too_much,                                                                                  // 1
    |handed, random| handed.p = random.pick(&NO_P),                                            // 13
];

/// More useful bytes than there is room for.
fn too_much(handed: &mut Write, random: &mut Random) {
    let p = handed.p as usize;
    let length = match random.below(8) {
        0 => 256,
        1 => LONGEST_INPUT + 1,
        2 => p + 256,
        _ => p + 1,
    };
    handed.useful = generate::buffer(random, length.max(p + 1));
}

fn fixed_writes(random: &mut Random) -> Vec<Vec<u8>> {
    let mut list = Vec::new();
    for p in P.map(|p| p as usize) {
        for useful in [0, 1, p - 1, p, p + 1] {
            list.push(Write::good(random, p, useful));
        }
        for length in generate::output_lengths(p + FRAMING) {
            let mut handed = Write::good(random, p, p / 2);
            handed.output = generate::buffer(random, length);
            list.push(handed);
        }
    }
    for header in 0..=255u8 {
        let mut handed = Write::good(random, 2, usize::from(header >> 3 & 1));
        (handed.first, handed.last) = (header & 0x80, header & 0x40);
        (handed.id, handed.index) = (header >> 4 & 3, header & 7);
        list.push(handed);
    }
    for value in [3, 4, 7, 8, 64, 128, 255] {
        let mut handed = Write::good(random, 4, 2);
        handed.id = value;
        list.push(handed.clone());
        (handed.id, handed.index) = (0, value);
        list.push(handed);
    }
    for p in NO_P {
        let mut handed = Write::good(random, 4, 2);
        handed.p = p;
        list.push(handed);
    }
    let good = Write::good(random, 4, 2);
    list.extend(faults::all(&good, WRITE_FAULTS, random));
    bodies(list)
}

fn random_write(random: &mut Random) -> Vec<u8> {
    let p = random_p(random);
    let useful = useful_length(random, p);
    let good = Write::good(random, p, useful);
    faults::some(good, WRITE_FAULTS, random).body()
}
