//! MDI packets for the cases of several calls: worked, random and spoiled (document 01, "MDI packet").

use super::described::{self, SERVED};
use super::fac::{random_fac, unserved};
use crate::clock::Timestamp;
use crate::crc::crc8;
use crate::description::{Description, SLOTS};
use crate::fac::Fac;
use crate::faults::Fault;
use crate::items::{self, Name};
use crate::mdi::{sdc_value, STREAMS};
use crate::random::Random;
use crate::refusal::LONGEST_INPUT;

/// A packet as a list of items, right or wrong.
#[derive(Default, Clone)]
pub struct Draft {
    pub items: Vec<Part>,
    /// Bytes behind the last item.
    pub tail: Vec<u8>,
}

/// An item; the bits need not be those of the value.
#[derive(Clone)]
pub struct Part {
    name: Name,
    bits: u32,
    value: Vec<u8>,
}

impl Draft {
    pub fn bytes(&self) -> Vec<u8> {
        let mut packet = Vec::new();
        for item in &self.items {
            packet.extend(items::bytes(&item.name, item.bits, &item.value));
        }
        packet.extend(&self.tail);
        packet
    }

    /// The first item of that name.
    fn part(&mut self, name: &Name) -> Option<&mut Part> {
        self.items.iter_mut().find(|item| item.name == *name)
    }

    /// With another value for an item, or with that item at the end.
    pub fn with(self, name: &Name, value: &[u8]) -> Draft {
        self.with_bits(name, 8 * value.len() as u32, value)
    }

    fn with_bits(mut self, name: &Name, bits: u32, value: &[u8]) -> Draft {
        match self.part(name) {
            Some(item) => (item.bits, item.value) = (bits, value.to_vec()),
            None => return self.plus_bits(name, bits, value),
        }
        self
    }

    /// With one more item at the end.
    fn plus(self, name: &Name, value: &[u8]) -> Draft {
        self.plus_bits(name, 8 * value.len() as u32, value)
    }

    fn plus_bits(mut self, name: &Name, bits: u32, value: &[u8]) -> Draft {
        self.items.push(Part {
            name: *name,
            bits,
            value: value.to_vec(),
        });
        self
    }

    /// With one more empty item at the end.
    fn grown(mut self, name: &Name) -> Draft {
        self.items.push(Part {
            name: *name,
            bits: 0,
            value: Vec::new(),
        });
        self
    }

    fn without(mut self, name: &Name) -> Draft {
        self.items.retain(|item| item.name != *name);
        self
    }

    fn ending(mut self, tail: &[u8]) -> Draft {
        self.tail = tail.to_vec();
        self
    }

    /// With one more item, so that it has that length.
    fn filled(self, length: usize) -> Draft {
        let room = length - self.bytes().len() - items::HEADER;
        self.plus(b"xxxx", &vec![0x55; room])
    }
}

const V0_FAC: Fac = Fac {
    base: 0,
    identity: 0,
    rm: 0,
    occupancy: 3,
    interleaver: 0,
    msc_mode: 0,
    sdc_mode: 0,
    services: 0b0101,
    reconfiguration: 0,
    channel_bits: 0,
    service_id: 0xE1C238,
    short_id: 0,
    audio_ca: 0,
    language: 5,
    audio_data: 0,
    descriptor: 1,
    data_ca: 0,
    reserved: 0,
};

/// The worked packet of the documents, 103 bytes.
pub fn v0() -> Draft {
    Draft::default()
        .plus(b"*ptr", b"DMDI\0\0\0\0")
        .plus(b"dlfc", &[0, 0, 0, 7])
        .plus(b"fac_", &V0_FAC.value())
        .plus(b"sdc_", &sdc_value(0, &[]))
        .plus(b"sdci", &[0, 0, 0, 2])
        .plus(b"robm", &[1])
        .plus(b"str0", &[0xAB, 0xCD])
        .plus(b"tist", &[0, 0x14, 0, 0, 0, 0, 5, 0x90])
}

/// A change of the worked packet, the packet, and the number and place that it is answered with.
pub type Run = (&'static str, Draft, u8, u64);

/// The table of runs.
pub fn table() -> Vec<Run> {
    let mut runs = walked();
    runs.extend(lengths_and_values());
    runs.extend(meanings());
    runs
}

fn walked() -> Vec<Run> {
    let robm_twice = || v0().plus(b"robm", &[1]);
    let three = || {
        v0().plus(b"xxxx", &[])
            .plus(b"robm", &[])
            .plus(b"xxxx", &[])
    };
    vec![
        ("none", v0(), 0, 0),
        ("7 bytes FF", v0().ending(&[0xFF; 7]), 0, 0),
        ("8 bytes 00", v0().ending(&[0; 8]), 0, 0),
        ("16 bytes 00", v0().ending(&[0; 16]), 3, 111),
        ("1 bit, no value", v0().plus_bits(b"xxxx", 1, &[]), 2, 103),
        ("1 bit, FF", v0().plus_bits(b"xxxx", 1, &[0xFF]), 0, 0),
        ("many bits", v0().plus_bits(b"xxxx", u32::MAX, &[0]), 2, 103),
        ("robm again", robm_twice(), 3, 103),
        ("robm, cut", robm_twice().plus_bits(b"yyyy", 8, &[]), 2, 112),
        ("three empty ones", three(), 3, 111),
        ("to 65,528", v0().filled(LONGEST_INPUT), 0, 0),
        ("to 65,529", v0().filled(LONGEST_INPUT + 1), 1, 0),
    ]
}

fn lengths_and_values() -> Vec<Run> {
    let fac_64 = &V0_FAC.value()[..8];
    let ms_1000 = [0, 0x14, 0, 0, 0, 0, 0x07, 0xE8];
    vec![
        ("no robm", v0().without(b"robm"), 4, 0),
        ("robm 0 bits", v0().with(b"robm", &[]), 5, 0),
        (
            "no robm, fac_ 64",
            v0().without(b"robm").with(b"fac_", fac_64),
            4,
            0,
        ),
        ("tist 0 bits", v0().with(b"tist", &[]), 5, 0),
        ("no tist", v0().without(b"tist"), 0, 0),
        ("no sdc_", v0().without(b"sdc_"), 0, 0),
        ("sdc_ 0 bits", v0().with(b"sdc_", &[]), 0, 0),
        ("sdc_ 16 bits", v0().with(b"sdc_", &[0, 0]), 5, 0),
        (
            "str0 15 bits",
            v0().with_bits(b"str0", 15, &[0xAB, 0xCD]),
            5,
            0,
        ),
        (
            "sdc_ 20 bits",
            v0().with_bits(b"sdc_", 20, &[0, 0x1E, 0x0F]),
            5,
            0,
        ),
        ("robm 7 bits", v0().with_bits(b"robm", 7, &[1]), 5, 0),
        ("minor 9", v0().with(b"*ptr", b"DMDI\0\0\0\x09"), 0, 0),
        ("major 1", v0().with(b"*ptr", b"DMDI\0\x01\0\0"), 6, 0),
        ("major 256", v0().with(b"*ptr", b"DMDI\x01\0\0\0"), 6, 0),
        ("protocol", v0().with(b"*ptr", b"DMDi\0\0\0\0"), 6, 0),
        ("robm 4", v0().with(b"robm", &[4]), 6, 0),
        ("ms 1000", v0().with(b"tist", &ms_1000), 6, 0),
        ("str1 empty", v0().plus(b"str1", &[]), 0, 0),
        ("str4 1 byte", v0().plus(b"str4", &[1]), 0, 0),
        (
            "STR0 and info",
            v0().plus(b"STR0", &[1]).plus(b"info", &[2]),
            0,
            0,
        ),
    ]
}

fn meanings() -> Vec<Run> {
    let fac = |fac: Fac| v0().with(b"fac_", &fac.value());
    let sdci = |value: &[u8]| v0().with(b"sdci", value);
    let mut broken = V0_FAC.value();
    broken[8] = 0x5A;
    let crc = || v0().with(b"fac_", &broken);
    let mode_3 = || {
        fac(Fac {
            msc_mode: 3,
            ..V0_FAC
        })
    };
    let all_ones = fac(Fac {
        channel_bits: 3,
        reserved: 63,
        ..V0_FAC
    });
    vec![
        ("fac_ CRC", crc(), 7, 0),
        ("fac_ CRC, robm 4", crc().with(b"robm", &[4]), 6, 0),
        ("sdc_ 10", v0().with(b"sdc_", &sdc_value(0x10, &[])), 8, 0),
        ("sdc_ CRC", v0().with(b"sdc_", &[0, 0x1E, 0x0E]), 8, 0),
        ("base", fac(Fac { base: 1, ..V0_FAC }), 9, 0),
        ("RM", fac(Fac { rm: 1, ..V0_FAC }), 9, 0),
        (
            "occupancy 6",
            fac(Fac {
                occupancy: 6,
                ..V0_FAC
            }),
            9,
            0,
        ),
        (
            "occupancy 7",
            fac(Fac {
                occupancy: 7,
                ..V0_FAC
            }),
            9,
            0,
        ),
        (
            "MSC 1",
            fac(Fac {
                msc_mode: 1,
                ..V0_FAC
            }),
            9,
            0,
        ),
        (
            "MSC 2",
            fac(Fac {
                msc_mode: 2,
                ..V0_FAC
            }),
            9,
            0,
        ),
        (
            "services 1011",
            fac(Fac {
                services: 0b1011,
                ..V0_FAC
            }),
            9,
            0,
        ),
        (
            "services 1110",
            fac(Fac {
                services: 0b1110,
                ..V0_FAC
            }),
            9,
            0,
        ),
        ("MSC 3, levels 0", mode_3(), 0, 0),
        (
            "MSC 3, level B 2",
            mode_3().with(b"sdci", &[2, 0, 0, 2]),
            10,
            0,
        ),
        ("toggle, rfu, rfa", all_ones, 0, 0),
        ("sdci F0", sdci(&[0xF0, 0, 0, 2]), 0, 0),
        ("sdci 04", sdci(&[0x04, 0, 0, 2]), 10, 0),
        ("sdci 03", sdci(&[0x03, 0, 0, 2]), 0, 0),
        ("sdci 0", sdci(&[0, 0, 0, 0]), 10, 0),
        ("sdci two", sdci(&[0, 0, 0, 2, 0, 0, 0]), 10, 0),
        ("sdci length 3", sdci(&[0, 0, 0, 3]), 11, 0),
        ("sdci A 1, B 1", sdci(&[0x08, 0, 0x10, 0x01]), 0, 0),
        ("str1 1 byte", v0().plus(b"str1", &[1]), 11, 0),
    ]
}

/// A random packet that is read: unknown items among the known ones, any order, padding.
pub fn random_draft(random: &mut Random) -> Draft {
    let mode = random.pick(&SERVED);
    let longest = match random.below(400) {
        0 => 4_095,
        1..=12 => 300,
        13..=80 => 60,
        _ => 8,
    };
    let description = described::well_formed(random, mode, longest);
    let mut draft = described_draft(random, mode, &description);
    if random.one_in(3) {
        add_unknown(&mut draft, random);
    }
    if random.one_in(2) {
        shuffle(&mut draft, random);
    }
    if random.one_in(3) {
        let length = random.below(8) as usize;
        draft.tail = random.bytes(length);
    }
    draft
}

/// A packet with streams as described, in the writer's order; read where the description is well formed.
pub fn described_draft(random: &mut Random, mode: u8, description: &Description) -> Draft {
    let fac = Fac {
        msc_mode: mode,
        ..random_fac(random)
    };
    let mut draft = Draft::default()
        .plus(b"*ptr", &[b"DMDI\0\0".to_vec(), random.bytes(2)].concat())
        .plus(b"dlfc", &random.bytes(4))
        .plus(b"fac_", &fac.value());
    if !random.one_in(3) {
        draft = draft.plus(b"sdc_", &random_sdc(random));
    }
    draft = draft
        .plus(b"sdci", &random_sdci(random, description))
        .plus(b"robm", &[random.below(4) as u8]);
    for (name, stream) in STREAMS.iter().zip(description.streams) {
        if stream.length() > 0 || random.one_in(4) {
            draft = draft.plus(name, &random.bytes(stream.length()));
        }
    }
    if !random.one_in(3) {
        draft = draft.plus(b"tist", &random_timestamp(random).value());
    }
    draft
}

/// A packet with every item that there is, unknown ones among them, in any order and with padding.
pub fn full_draft(random: &mut Random) -> Draft {
    let description = described::of(2, 1, &[[0, 3], [2, 1], [1, 0], [0, 5]]);
    let data = random.bytes(3);
    let mut draft = described_draft(random, 0, &description)
        .with(b"sdc_", &sdc_value(9, &data))
        .with(b"tist", &random_timestamp(random).value());
    add_unknown(&mut draft, random);
    shuffle(&mut draft, random);
    draft.ending(&[0x2A; 7])
}

/// The worked packet with each of its items in turn moved to the front, and in the other direction.
pub fn other_orders() -> Vec<Draft> {
    let mut list = Vec::new();
    for place in 0..v0().items.len() {
        let mut draft = v0();
        draft.items.rotate_left(place);
        list.push(draft.clone());
        draft.items.reverse();
        list.push(draft);
    }
    list
}

/// The worked packet without each known item, with each one twice, and with each one in lengths around its
/// own.
pub fn each_item() -> Vec<Draft> {
    let names = [
        *b"*ptr", *b"dlfc", *b"fac_", *b"sdc_", *b"sdci", *b"robm", *b"tist",
    ];
    let mut list = Vec::new();
    for name in names.iter().chain(&STREAMS) {
        let value = v0().part(name).map_or(vec![], |item| item.value.clone());
        list.push(v0().without(name));
        list.push(v0().with(name, &value).plus(name, &[]));
        list.push(v0().with(name, &value).plus(name, &value));
        let bits = 8 * value.len() as u32;
        for other in [
            0,
            bits.saturating_sub(8),
            bits.saturating_sub(1),
            bits + 1,
            bits + 8,
        ] {
            let mut other_value = value.clone();
            other_value.resize(other.div_ceil(8) as usize, 0);
            list.push(v0().with_bits(name, other, &other_value));
        }
        // Another case of its letters, and the next name.
        for byte in [0, 3] {
            let mut draft = v0();
            if let Some(item) = draft.part(name) {
                item.name[byte] ^= if byte == 0 { 0x20 } else { 0x01 };
            }
            list.push(draft);
        }
    }
    for length in [0, 1, 2, 1_022, 1_023, 1_024, 1_025, 1_026] {
        list.push(v0().with(b"sdc_", &sdc_value(7, &vec![0x5A; length])));
    }
    list
}

/// Packets of as many bytes as there may be, and one more: of one great item or of a great many empty ones,
/// good and spoiled at their end.
pub fn longest_drafts(random: &mut Random) -> Vec<Draft> {
    let mut list = Vec::new();
    for length in [LONGEST_INPUT - 1, LONGEST_INPUT, LONGEST_INPUT + 1] {
        list.push(v0().filled(length));
        list.push(random_fill(random, length));
        list.push(v0().without(b"robm").filled(length));
    }
    let room = (LONGEST_INPUT - v0().bytes().len()) / items::HEADER;
    let mut many = v0();
    for number in 0..room as u32 {
        many = many.grown(&number.to_be_bytes());
    }
    list.push(many.clone());
    let mut twice = many.clone();
    if let Some(item) = twice.items.last_mut() {
        item.name = [0, 0, 0, 5];
    }
    list.push(twice);
    let mut cut = many.clone();
    if let Some(item) = cut.items.last_mut() {
        item.bits = 9;
    }
    list.push(cut.ending(&[0]));
    let padding = LONGEST_INPUT - many.bytes().len();
    list.push(many.clone().ending(&vec![0; padding]));
    list.push(many.ending(&vec![0; padding + 1]));
    list
}

/// A random packet with one more item, so that it has that length; one that is longer stays as it is.
pub fn random_fill(random: &mut Random, length: usize) -> Draft {
    let mut draft = random_draft(random).without(b"xxxx");
    draft.tail.clear();
    let now = draft.bytes().len();
    match now + items::HEADER <= length {
        true => draft.filled(length),
        false => draft,
    }
}

/// An empty value, or an AFS index with few data bytes, seldom with as many as there may be.
fn random_sdc(random: &mut Random) -> Vec<u8> {
    let length = match random.below(60) {
        0 => random.pick(&[1_023, 1_024]),
        1..=6 => return Vec::new(),
        7..=16 => 0,
        _ => random.below(20),
    };
    let data = random.bytes(length as usize);
    sdc_value(random.below(16) as u8, &data)
}

/// The value with anything in its reserved bits.
fn random_sdci(random: &mut Random, description: &Description) -> Vec<u8> {
    let mut value = description.value();
    if random.one_in(3) {
        value[0] |= (random.below(16) as u8) << 4;
    }
    value
}

pub fn random_timestamp(random: &mut Random) -> Timestamp {
    Timestamp {
        utco: random.below(1 << 14) as u16,
        seconds: random.below(1 << 40),
        milliseconds: random.pick(&[0, 400, 998, 999]),
    }
}

/// Up to three items of names that nobody knows, all of them different.
fn add_unknown(draft: &mut Draft, random: &mut Random) {
    let names = [
        *b"xxxx", *b"info", *b"str4", *b"STR0", *b"*dmy", *b"fac ", [0; 4],
    ];
    let first = random.below(names.len() as u64) as usize;
    for step in 0..1 + random.below(3) as usize {
        let length = random.below(6) as usize;
        let value = random.bytes(length);
        let unused = match length {
            0 => 0,
            _ => random.below(8) as u32,
        };
        let name = names[(first + step) % names.len()];
        let place = random.below(draft.items.len() as u64 + 1) as usize;
        let bits = 8 * length as u32 - unused;
        draft.items.insert(place, Part { name, bits, value });
    }
}

fn shuffle(draft: &mut Draft, random: &mut Random) {
    for place in (1..draft.items.len()).rev() {
        let other = random.below(place as u64 + 1) as usize;
        draft.items.swap(place, other);
    }
}

/// What can be wrong with a packet; the number of each stands behind it.
pub const FAULTS: &[Fault<Draft>] = &[
    stream_length_off,     // 11
    stream_too_many,       // 11
    description_malformed, // 10
    levels_of_64_qam,      // 10
    not_served,            // 9
    sdc_nibble,            // 8
    sdc_check_word,        // 8
    fac_check_word,        // 7
    |draft, random| {
        change(draft, b"robm", |value| {
            value[0] = random.pick(&[4, 5, 128, 255])
        })
    }, // 6
    pointer,               // 6
    milliseconds,          // 6
    other_length,          // 5
    required_missing,      // 4
    name_twice,            // 3
    cut,                   // 2
];

/// Changes the value of an item, if it has one.
fn change(draft: &mut Draft, name: &Name, change: impl FnOnce(&mut Vec<u8>)) {
    if let Some(item) = draft.part(name) {
        if !item.value.is_empty() {
            change(&mut item.value);
            item.bits = 8 * item.value.len() as u32;
        }
    }
}

fn stream_length_off(draft: &mut Draft, random: &mut Random) {
    let streams = draft.items.iter_mut();
    let mut filled = streams.filter(|item| STREAMS.contains(&item.name) && !item.value.is_empty());
    if let Some(item) = filled.next() {
        match random.below(3) {
            0 => item.value.truncate(item.value.len() - 1),
            1 => item.value.clear(),
            _ => item.value.push(7),
        }
        item.bits = 8 * item.value.len() as u32;
    }
}

/// A byte in the last stream, which is mostly not described.
fn stream_too_many(draft: &mut Draft, random: &mut Random) {
    let name = random.pick(&[b"str3", b"str3", b"str1"]);
    let mut value = random.bytes(1);
    if let Some(item) = draft.part(name) {
        value.extend(&item.value);
    }
    *draft = draft.clone().with(name, &value);
}

fn description_malformed(draft: &mut Draft, random: &mut Random) {
    change(draft, b"sdci", |value| match random.below(3) {
        // Level A without a part A.
        0 => *value = vec![0x04, 0, 0, 2],
        // An empty stream at the end.
        1 if value.len() < 1 + 3 * SLOTS => value.extend([0; 3]),
        _ => {
            let last = value.len() - 3;
            value[last..].fill(0);
        }
    });
}

fn levels_of_64_qam(draft: &mut Draft, random: &mut Random) {
    let level_b = random.pick(&[2, 3]);
    change(draft, b"sdci", |value| value[0] |= level_b);
    change_fac(draft, |fac| fac.msc_mode = 3);
}

fn not_served(draft: &mut Draft, random: &mut Random) {
    change_fac(draft, |fac| unserved(fac, random));
}

/// Changes the FAC and gives it its check word.
fn change_fac(draft: &mut Draft, spoil: impl FnOnce(&mut Fac)) {
    change(draft, b"fac_", |value| {
        let mut fac = Fac::take(value);
        spoil(&mut fac);
        *value = fac.value();
    });
}

fn sdc_nibble(draft: &mut Draft, random: &mut Random) {
    let index = random.pick(&[0x10, 0x21, 0x80, 0xF5]);
    *draft = draft.clone().with(b"sdc_", &sdc_value(index, &[1, 2]));
}

fn sdc_check_word(draft: &mut Draft, random: &mut Random) {
    let mut value = sdc_value(3, &[4, 5]);
    let bit = random.below(40);
    value[bit as usize / 8] ^= 0x80 >> (bit % 8);
    *draft = draft.clone().with(b"sdc_", &value);
}

fn fac_check_word(draft: &mut Draft, random: &mut Random) {
    change(draft, b"fac_", |value| {
        let last = value.len() - 1;
        value[last] = crc8(&value[..last]) ^ random.pick(&[1, 2, 64, 255]);
    });
}

fn pointer(draft: &mut Draft, random: &mut Random) {
    let byte = random.below(6) as usize;
    let bit = 1 << random.below(8);
    change(draft, b"*ptr", |value| value[byte] ^= bit);
}

fn milliseconds(draft: &mut Draft, random: &mut Random) {
    let timestamp = Timestamp {
        milliseconds: random.pick(&[1_000, 1_001, 1_023]),
        ..random_timestamp(random)
    };
    *draft = draft.clone().with(b"tist", &timestamp.value());
}

/// A known item of a length that it cannot have.
fn other_length(draft: &mut Draft, random: &mut Random) {
    let known: [(&Name, &[u32]); 9] = [
        (b"*ptr", &[0, 32, 56, 63, 65, 72]),
        (b"dlfc", &[0, 8, 24, 31, 33, 40]),
        (b"fac_", &[0, 64, 71, 73, 80]),
        (b"sdc_", &[1, 8, 16, 20, 25, 8_217, 8_224]),
        (b"sdci", &[0, 8, 24, 31, 33, 40, 48, 72, 96, 112, 128]),
        (b"robm", &[0, 1, 7, 9, 16]),
        (b"tist", &[0, 8, 56, 63, 65, 72]),
        (b"str0", &[1, 7, 9, 15, 17]),
        (b"str3", &[1, 7, 9]),
    ];
    let (name, lengths) = random.pick(&known);
    let bits = random.pick(lengths);
    let mut value = draft
        .part(name)
        .map_or(Vec::new(), |item| item.value.clone());
    value.resize(bits.div_ceil(8) as usize, 0);
    *draft = draft.clone().with_bits(name, bits, &value);
}

fn required_missing(draft: &mut Draft, random: &mut Random) {
    let name = random.pick(&[b"*ptr", b"dlfc", b"fac_", b"sdci", b"robm"]);
    match random.below(3) {
        // Another name in its place.
        0 => {
            if let Some(item) = draft.part(name) {
                item.name[3] ^= 0x20;
            }
        }
        _ => *draft = draft.clone().without(name),
    }
}

/// One of the items once more, anywhere, with the same value or none.
fn name_twice(draft: &mut Draft, random: &mut Random) {
    if draft.items.is_empty() {
        return;
    }
    for _ in 0..random.pick(&[1, 1, 2]) {
        let count = draft.items.len() as u64;
        let mut item = draft.items[random.below(count) as usize].clone();
        if random.one_in(2) {
            (item.bits, item.value) = (0, Vec::new());
        }
        let place = random.below(count + 1) as usize;
        draft.items.insert(place, item);
    }
}

/// An item that runs past the end: the last one, one behind it, or a great length anywhere.
fn cut(draft: &mut Draft, random: &mut Random) {
    let bits = random.pick(&[1 << 16, 1 << 31, u32::MAX - 7, u32::MAX - 6, u32::MAX]);
    let count = draft.items.len() as u64;
    match random.below(3) {
        0 if count > 0 => draft.items[random.below(count) as usize].bits = bits.max(1 << 20),
        1 => {
            let length = random.below(3) as usize;
            let value = random.bytes(length);
            draft.tail.clear();
            let bits = 8 * length as u32 + random.pick(&[1, 8, 9]);
            *draft = draft.clone().plus_bits(b"zzzz", bits, &value);
        }
        _ => {
            draft.tail.clear();
            *draft = draft.clone().plus_bits(b"zzzz", bits, &[1]);
        }
    }
}

#[cfg(test)]
mod tests {
    use super::*;
    use crate::mdi;

    #[test]
    fn good_ones_are_good() {
        let mut random = Random::new(1);
        for _ in 0..1_000 {
            let packet = random_draft(&mut random).bytes();
            assert!(mdi::read(&packet).is_ok());
        }
    }

    /// Every item at its place, in any order, and as long a packet as there may be.
    #[test]
    fn more_good_ones() {
        let mut random = Random::new(3);
        for _ in 0..200 {
            assert!(mdi::read(&full_draft(&mut random).bytes()).is_ok());
        }
        for draft in other_orders() {
            assert_eq!(mdi::read(&draft.bytes()), mdi::read(&v0().bytes()));
        }
        for description in described::limits() {
            let draft = described_draft(&mut random, 0, &description);
            assert!(mdi::read(&draft.bytes()).is_ok());
        }
    }

    #[test]
    fn the_longest_packets() {
        let longest = longest_drafts(&mut Random::new(4));
        let found: Vec<(usize, u8, u64)> = longest
            .iter()
            .map(|draft| {
                let packet = draft.bytes();
                let (number, place) = match mdi::read(&packet) {
                    Ok(_) => (0, 0),
                    Err(refusal) => (refusal.number, refusal.place),
                };
                (packet.len(), number, place)
            })
            .collect();
        for (length, number, _) in &found {
            assert!(*length > LONGEST_INPUT - 3 && *length < LONGEST_INPUT + 2);
            assert_eq!(*number == 1, *length > LONGEST_INPUT);
        }
        let many: Vec<(usize, u8, u64)> = found[9..].to_vec();
        assert_eq!(
            many,
            [
                (65_527, 0, 0),
                (65_527, 3, 65_519),
                (65_528, 2, 65_519),
                (65_528, 0, 0),
                (65_529, 1, 0)
            ]
        );
    }

    #[test]
    fn faults_have_their_numbers() {
        let numbers = [11, 11, 10, 10, 9, 8, 8, 7, 6, 6, 6, 5, 4, 3, 2];
        let mut random = Random::new(2);
        for _ in 0..200 {
            for (fault, number) in FAULTS.iter().zip(numbers) {
                let mut draft = v0();
                fault(&mut draft, &mut random);
                let refusal = mdi::read(&draft.bytes()).unwrap_err();
                assert_eq!(refusal.number, number);
            }
        }
    }
}
