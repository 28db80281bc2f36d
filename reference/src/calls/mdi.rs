//! Calls 40 to 42: an MDI packet read, one of its streams handed back, and one written (document 01, "MDI
//! packet").

use super::described::{self, over, Described, SERVED};
use super::fac::{random_fac, too_large, unserved};
use super::mdi_drafts::{
    self, described_draft, full_draft, random_draft, random_fill, random_timestamp, v0, Draft,
};
use super::Call;
use crate::answer::Answer;
use crate::buffer::Buffer;
use crate::clock::Timestamp;
use crate::description::{Description, SLOTS};
use crate::fac::{Fac, FIELDS};
use crate::faults::{self, Fault};
use crate::fields::{bodies, lines, Arguments, Fields};
use crate::generate;
use crate::items;
use crate::mdi::{self, Record, Sdc, SDC_DATA};
use crate::random::Random;
use crate::reader::Reader;
use crate::refusal::LONGEST_INPUT;

pub const READ: Call = Call {
    code: 40,
    name: "mdi read",
    fixed: fixed_reads,
    random: |random| Read(random_packet(random)).body(),
    answer: read,
    arguments: lines::<Read>,
    values: &[
        "frame count",
        "base flag",
        "identity",
        "RM flag",
        "spectrum occupancy",
        "interleaver depth",
        "MSC mode",
        "SDC mode",
        "number of services",
        "reconfiguration index",
        "last two channel bits",
        "service id",
        "short id",
        "audio CA",
        "language",
        "audio/data flag",
        "service descriptor",
        "data CA",
        "reserved",
        "SDC given",
        "AFS index",
        "SDC data bytes",
        "level A",
        "level B",
        "streams",
        "part A of stream 0",
        "part B of stream 0",
        "part A of stream 1",
        "part B of stream 1",
        "part A of stream 2",
        "part B of stream 2",
        "part A of stream 3",
        "part B of stream 3",
        "robustness",
        "timestamp given",
        "UTCO",
        "seconds",
        "milliseconds",
    ],
    buffers: &["SDC data"],
};

pub const STREAM: Call = Call {
    code: 41,
    name: "mdi stream",
    fixed: fixed_streams,
    random: random_stream,
    answer: stream,
    arguments: lines::<Stream>,
    values: &[],
    buffers: &["stream"],
};

pub const WRITE: Call = Call {
    code: 42,
    name: "mdi write",
    fixed: fixed_writes,
    random: random_write,
    answer: write,
    arguments: lines::<Write>,
    values: &["bytes written"],
    buffers: &["output"],
};

/// Values of a record.
const VALUES: usize = 1 + FIELDS + 3 + 11 + 1 + 4;

#[derive(Default, Clone)]
struct Read(Buffer);

impl Arguments for Read {
    fn each(&mut self, fields: &mut impl Fields) -> Option<()> {
        fields.buffer("packet", &mut self.0)
    }
}

fn read(body: &mut Reader) -> Option<Answer> {
    let Read(packet) = Read::read(body)?;
    let found = mdi::read(&packet.bytes());
    let data = match &found {
        Ok(record) => {
            let length = record.sdc.map_or(0, |sdc| sdc.length);
            record.sdc_data[..length as usize].to_vec()
        }
        Err(_) => Vec::new(),
    };
    Some(Answer::of(found.map(|record| values(&record))).buffer(&data))
}

fn values(record: &Record) -> [u64; VALUES] {
    let mut list = vec![u64::from(record.count)];
    list.extend(record.fac.fields().map(u64::from));
    list.extend(match record.sdc {
        Some(sdc) => [1, u64::from(sdc.afs), sdc.length],
        None => [0; 3],
    });
    let description = &record.description;
    let levels = [description.level_a, description.level_b, description.count];
    list.extend(levels.map(u64::from));
    for stream in description.streams {
        list.extend([u64::from(stream.part_a), u64::from(stream.part_b)]);
    }
    list.push(u64::from(record.robustness));
    list.extend(match record.timestamp {
        Some(stamp) => [
            1,
            u64::from(stamp.utco),
            stamp.seconds,
            u64::from(stamp.milliseconds),
        ],
        None => [0; 4],
    });
    let mut values = [0; VALUES];
    values.copy_from_slice(&list);
    values
}

#[derive(Default, Clone)]
struct Stream {
    number: u64,
    packet: Buffer,
}

impl Arguments for Stream {
    fn each(&mut self, fields: &mut impl Fields) -> Option<()> {
        fields.number("stream", &mut self.number)?;
        fields.buffer("packet", &mut self.packet)
    }
}

fn stream(body: &mut Reader) -> Option<Answer> {
    let Stream { number, packet } = Stream::read(body)?;
    let packet = packet.bytes();
    Some(Answer::done().buffer(mdi::stream(&packet, number)))
}

#[derive(Default, Clone)]
struct Write {
    count: u32,
    fac: Fac,
    sdc_given: u8,
    afs: u8,
    data_bytes: u64,
    data: Buffer,
    description: Description,
    robustness: u8,
    stamp_given: u8,
    timestamp: Timestamp,
    streams: [Buffer; SLOTS],
    output: Buffer,
}

impl Arguments for Write {
    fn each(&mut self, fields: &mut impl Fields) -> Option<()> {
        fields.word("frame count", &mut self.count)?;
        fields.fac(&mut self.fac)?;
        fields.byte("SDC given", &mut self.sdc_given)?;
        fields.byte("AFS index", &mut self.afs)?;
        fields.number("SDC data bytes", &mut self.data_bytes)?;
        fields.buffer("SDC data", &mut self.data)?;
        fields.description(&mut self.description)?;
        fields.byte("robustness", &mut self.robustness)?;
        fields.byte("timestamp given", &mut self.stamp_given)?;
        fields.timestamp("timestamp", &mut self.timestamp)?;
        for (slot, stream) in self.streams.iter_mut().enumerate() {
            fields.buffer(&format!("stream {slot}"), stream)?;
        }
        fields.buffer("output before", &mut self.output)
    }
}

impl Described for Write {
    fn description(&mut self) -> &mut Description {
        &mut self.description
    }

    fn mode(&mut self) -> &mut u8 {
        &mut self.fac.msc_mode
    }
}

fn write(body: &mut Reader) -> Option<Answer> {
    let handed = Write::read(body)?;
    let data = handed.data.bytes();
    if data.len() > SDC_DATA {
        return None;
    }
    let mut sdc_data = [0; SDC_DATA];
    sdc_data[..data.len()].copy_from_slice(&data);
    let sdc = Sdc {
        afs: handed.afs,
        length: handed.data_bytes,
    };
    let record = Record {
        count: handed.count,
        fac: handed.fac,
        sdc: (handed.sdc_given != 0).then_some(sdc),
        sdc_data,
        description: handed.description,
        robustness: handed.robustness,
        timestamp: (handed.stamp_given != 0).then_some(handed.timestamp),
    };
    let streams = handed.streams.map(|stream| stream.bytes());
    let slices = [&streams[0][..], &streams[1], &streams[2], &streams[3]];
    let mut output = handed.output.bytes();
    let written = mdi::write(&record, slices, &mut output);
    Some(Answer::written(written, &output))
}

fn given(draft: &Draft) -> Buffer {
    Buffer::Given(draft.bytes())
}

/// As many items as there can be, all of them empty and unknown.
fn most_items() -> Vec<u8> {
    let numbers = 0..(LONGEST_INPUT / items::HEADER) as u32;
    numbers
        .flat_map(|number| items::whole(&number.to_be_bytes(), &[]))
        .collect()
}

/// The table of runs, the worked packet and one with every item cut at each byte, both spoiled in one, two
/// and three ways, every item in turn, every order, and the limits of streams and packets.
fn fixed_packets(random: &mut Random) -> Vec<Buffer> {
    let runs = mdi_drafts::table();
    let mut list: Vec<Buffer> = runs.iter().map(|(_, draft, _, _)| given(draft)).collect();
    let full = full_draft(random);
    for whole in [v0().bytes(), full.bytes()] {
        for end in 0..=whole.len() {
            list.push(Buffer::Given(whole[..end].to_vec()));
        }
    }
    for draft in [v0(), full] {
        let spoiled = faults::all(&draft, mdi_drafts::FAULTS, random);
        list.extend(spoiled.iter().map(given));
    }
    list.extend(mdi_drafts::each_item().iter().map(given));
    list.extend(mdi_drafts::other_orders().iter().map(given));
    for description in described::limits() {
        let mode = random.pick(&SERVED);
        list.push(given(&described_draft(random, mode, &description)));
    }
    list.extend(mdi_drafts::longest_drafts(random).iter().map(given));
    for length in [0, 7, 8, 103, LONGEST_INPUT, LONGEST_INPUT + 1, 131_072] {
        list.push(generate::compact(random, length));
    }
    list
}

fn fixed_reads(random: &mut Random) -> Vec<Vec<u8>> {
    let mut list: Vec<Read> = fixed_packets(random).into_iter().map(Read).collect();
    list.push(Read(Buffer::Given(most_items())));
    bodies(list)
}

/// Often good, or spoiled in one to four ways, cut, with a bit flipped, or at the longest length.
fn random_packet(random: &mut Random) -> Buffer {
    match random.below(240) {
        0 | 1 => {
            let length = LONGEST_INPUT + random.below(3) as usize;
            return generate::compact(random, length);
        }
        2 => {
            let length = LONGEST_INPUT - 1 + random.below(3) as usize;
            return given(&random_fill(random, length));
        }
        _ => {}
    }
    let mut draft = random_draft(random);
    if !random.one_in(3) {
        draft = faults::several(draft, mdi_drafts::FAULTS, random);
    }
    let mut packet = draft.bytes();
    match random.below(20) {
        0 => packet.truncate(random.below(packet.len() as u64 + 1) as usize),
        1 if !packet.is_empty() => {
            let bit = random.below(8 * packet.len() as u64) as usize;
            packet[bit / 8] ^= 0x80 >> (bit % 8);
        }
        _ => {}
    }
    Buffer::Given(packet)
}

fn fixed_streams(random: &mut Random) -> Vec<Vec<u8>> {
    let mut list = Vec::new();
    for number in [0, 1, 2, 3, 4, 5, 256, 1 << 32, 1 << 63, u64::MAX] {
        for draft in [v0(), full_draft(random), random_draft(random)] {
            let packet = given(&draft);
            list.push(Stream { number, packet });
        }
    }
    for packet in fixed_packets(random) {
        list.push(Stream { number: 0, packet });
    }
    bodies(list)
}

fn random_stream(random: &mut Random) -> Vec<u8> {
    let number = match random.below(12) {
        0 => random.pick(&[4, 5, 256, 1 << 32, (1 << 32) + 1, u64::MAX]),
        _ => random.below(4),
    };
    let packet = match random.below(2) {
        0 => given(&random_draft(random)),
        _ => random_packet(random),
    };
    Stream { number, packet }.body()
}

impl Write {
    fn good(random: &mut Random, description: Description, mode: u8) -> Write {
        let mut handed = Write {
            count: random.draw() as u32,
            fac: Fac {
                msc_mode: mode,
                ..random_fac(random)
            },
            sdc_given: random.pick(&[0, 1, 1, 2, 255]),
            afs: random.below(16) as u8,
            description,
            robustness: random.below(4) as u8,
            stamp_given: random.pick(&[0, 1, 1, 2, 255]),
            timestamp: random_timestamp(random),
            streams: description
                .streams
                .map(|stream| generate::compact(random, stream.length())),
            ..Write::default()
        };
        if handed.sdc_given != 0 {
            let length = match random.below(20) {
                0 => random.pick(&[1_023, 1_024]),
                1..=4 => 0,
                _ => random.below(20),
            };
            handed.data_bytes = length;
            handed.data = generate::compact(random, length as usize);
        }
        handed.leave_out(random);
        let room = generate::room(random, handed.needed());
        handed.output = generate::compact(random, room);
        handed
    }

    /// Zeros behind the data, and anything in what is absent, change nothing.
    fn leave_out(&mut self, random: &mut Random) {
        if random.one_in(4) && self.data.length() < 64 {
            let mut data = self.data.bytes();
            let zeros = random.pick(&[1, 5, SDC_DATA - data.len()]);
            data.resize(data.len() + zeros, 0);
            self.data = Buffer::Given(data);
        }
        if self.stamp_given == 0 && random.one_in(2) {
            self.timestamp = Timestamp {
                utco: 65_535,
                seconds: u64::MAX,
                milliseconds: 1_000,
            };
        }
    }

    /// The length of the packet.
    fn needed(&self) -> usize {
        let sdci = 9 + 3 * usize::from(self.description.count.min(SLOTS as u8));
        let mut length = 16 + 12 + 17 + sdci + 9;
        if self.sdc_given != 0 {
            length += 11 + self.data_bytes.min(SDC_DATA as u64) as usize;
        }
        if self.stamp_given != 0 {
            length += 16;
        }
        let streams = self.streams.iter().map(Buffer::length);
        length
            + streams
                .filter(|stream| *stream > 0)
                .map(|stream| 8 + stream)
                .sum::<usize>()
    }
}

/// What can be wrong with a record beside its description and MSC mode; the number of each stands behind
/// it.
const OWN_FAULTS: &[Fault<Write>] = &[
    |handed, random| handed.output = generate::too_short(random, handed.needed()), // late 1
    stream_length_off,                                                             // 11
    |handed, random| handed.streams[3] = generate::compact(random, 8_191),         // 11
    |handed, random| unserved(&mut handed.fac, random),                            // 9
    |handed, random| too_large(&mut handed.fac, random),                           // 6
    |handed, random| (handed.sdc_given, handed.afs) = (1, over(random, 15)),       // 6
    byte_behind,                                                                   // 6
    byte_of_absent,                                                                // 6
    |handed, random| handed.robustness = over(random, 3),                          // 6
    stamp_too_large,                                                               // 6
    too_much_data,                                                                 // 5
    |handed, random| {
        let slot = random.below(SLOTS as u64) as usize;
        handed.streams[slot] = generate::compact(random, LONGEST_INPUT + 1);
    }, // 1
];

fn stream_length_off(handed: &mut Write, random: &mut Random) {
    let slot = random.below(SLOTS as u64) as usize;
    let length = handed.streams[slot].length();
    let other = match random.below(8) {
        0 => LONGEST_INPUT,
        1..=3 if length > 0 => length - 1,
        _ => length + 1,
    };
    handed.streams[slot] = generate::compact(random, other);
}

/// A byte that is not 0 behind the data, next to it or as far as it can be.
fn byte_behind(handed: &mut Write, random: &mut Random) {
    let length = random.below(20) as usize;
    let mut data = random.bytes(length);
    data.resize(random.pick(&[length, length, length + 3, SDC_DATA - 1]), 0);
    data.push(random.pick(&[1, 128, 255]));
    (handed.sdc_given, handed.data_bytes) = (1, length as u64);
    handed.data = Buffer::Given(data);
}

fn byte_of_absent(handed: &mut Write, random: &mut Random) {
    let mut data = vec![0; random.pick(&[0, 0, 3, SDC_DATA - 1])];
    data.push(1);
    handed.sdc_given = 0;
    handed.data_bytes = random.pick(&[0, data.len() as u64]);
    handed.data = Buffer::Given(data);
}

fn stamp_too_large(handed: &mut Write, random: &mut Random) {
    handed.stamp_given = 1;
    handed.timestamp = random_timestamp(random);
    match random.below(3) {
        0 => handed.timestamp.utco = random.pick(&[16_384, 65_535]),
        1 => handed.timestamp.seconds = random.pick(&[1 << 40, u64::MAX]),
        _ => handed.timestamp.milliseconds = random.pick(&[1_000, 1_023, 1_024, 65_535]),
    }
}

fn too_much_data(handed: &mut Write, random: &mut Random) {
    handed.sdc_given = 1;
    handed.data_bytes = random.pick(&[1_025, 2_048, 65_536 + 3, (1 << 32) + 3, u64::MAX]);
}

fn all_faults() -> Vec<Fault<Write>> {
    [described::faults(), OWN_FAULTS.to_vec()].concat()
}

fn fixed_writes(random: &mut Random) -> Vec<Vec<u8>> {
    let mut list = Vec::new();
    let annex_c = Write::good(random, described::annex_c(), 0);
    list.extend(faults::all(&annex_c, &all_faults(), random));
    for description in described::limits() {
        list.push(Write::good(random, description, 0));
    }
    for description in described::counts() {
        let mut handed = Write::good(random, described::of(0, 0, &[[1, 2]]), 3);
        handed.description = description;
        handed.streams = description
            .streams
            .map(|stream| generate::compact(random, stream.length()));
        list.push(handed);
    }
    let small = described::of(0, 1, &[[0, 3], [2, 1]]);
    for given in [0, 1] {
        for stamped in [0, 1] {
            let mut handed = Write::good(random, small, 0);
            (handed.sdc_given, handed.stamp_given) = (given, stamped);
            (handed.data_bytes, handed.data) = (0, Buffer::default());
            for length in generate::output_lengths(handed.needed()) {
                handed.output = generate::compact(random, length);
                list.push(handed.clone());
            }
        }
    }
    for length in [0, 1, 2, 1_023, 1_024] {
        let mut handed = Write::good(random, small, 3);
        (handed.sdc_given, handed.data_bytes) = (1, length);
        handed.data = generate::compact(random, length as usize);
        let needed = handed.needed();
        handed.output = generate::compact(random, needed);
        list.push(handed);
    }
    for count in [0, 1, u32::MAX] {
        let mut handed = Write::good(random, small, 0);
        handed.count = count;
        list.push(handed);
    }
    // More SDC data than a record holds: no case.
    let mut handed = Write::good(random, small, 0);
    handed.data = generate::compact(random, SDC_DATA + 1);
    list.push(handed);
    bodies(list)
}

fn random_write(random: &mut Random) -> Vec<u8> {
    let mode = random.pick(&SERVED);
    let longest = described::longest_part(random);
    let description = described::well_formed(random, mode, longest);
    let handed = Write::good(random, description, mode);
    match random.below(2) {
        0 => faults::some(handed, OWN_FAULTS, random).body(),
        _ => faults::some(handed, &all_faults(), random).body(),
    }
}

#[cfg(test)]
mod tests {
    use super::*;

    fn answered(handed: &Write) -> Answer {
        write(&mut Reader::new(&handed.body())).unwrap()
    }

    fn draw(random: &mut Random) -> Write {
        let mode = random.pick(&SERVED);
        let description = described::well_formed(random, mode, 20);
        Write::good(random, description, mode)
    }

    #[test]
    fn good_ones_are_good() {
        let mut random = Random::new(1);
        for _ in 0..500 {
            let handed = draw(&mut random);
            let answer = answered(&handed);
            assert_eq!(answer.number, 0);
            assert_eq!(answer.values, [handed.needed() as u64]);
        }
    }

    #[test]
    fn faults_have_their_numbers() {
        let numbers = [1, 11, 11, 9, 6, 6, 6, 6, 6, 6, 5, 1];
        let mut random = Random::new(2);
        for _ in 0..100 {
            for (fault, number) in OWN_FAULTS.iter().zip(numbers) {
                let mut handed = draw(&mut random);
                fault(&mut handed, &mut random);
                assert_eq!(answered(&handed).number, number);
            }
        }
    }
}
