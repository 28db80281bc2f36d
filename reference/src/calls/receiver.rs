//! Call 36: a receiver that is given packets, step by step (document 01, "Packets, queues and receiver";
//! document 02, E5).

use super::packet::{self, handed, packed, Handed, NO_P};
use super::Call;
use crate::answer::Answer;
use crate::buffer::Buffer;
use crate::faults::{self, Fault};
use crate::fields::{bodies, lines, Arguments, Fields};
use crate::generate;
use crate::packet::{header_byte, Header, LARGEST_P};
use crate::random::Random;
use crate::reader::Reader;
use crate::receiver::{Link, Receiver, BUFFER_BYTES, ID_BYTES};
use crate::refusal::Refusal;
use crate::runs::Hearing;
use crate::sender::IDS;
use std::collections::VecDeque;

/// Its values have no names: each step has five, and the receiver 16.
pub const SCRIPT: Call = Call {
    code: 36,
    name: "receiver script",
    fixed,
    random: random_script,
    answer,
    arguments: lines::<Script>,
    values: &[],
    buffers: &["buffer"],
};

/// The most packets.
const LONGEST: usize = 24;

#[derive(Default, Clone)]
struct Script {
    receiver: Receiver,
    buffer: Buffer,
    packets: Vec<Handed>,
}

impl Arguments for Script {
    fn each(&mut self, fields: &mut impl Fields) -> Option<()> {
        fields.receiver(&mut self.receiver)?;
        fields.buffer("buffer before", &mut self.buffer)?;
        let mut count = self.packets.len() as u8;
        fields.byte("packets", &mut count)?;
        self.packets.resize(usize::from(count), Handed::default());
        for handed in &mut self.packets {
            handed.each(fields)?;
        }
        Some(())
    }
}

fn answer(body: &mut Reader) -> Option<Answer> {
    let script = Script::read(body)?;
    if script.packets.len() > LONGEST {
        return None;
    }
    let mut run = Hearing::new(script.receiver, script.buffer.bytes());
    let mut last = Refusal::number(0);
    let mut values = Vec::new();
    for Handed { p, packet } in &script.packets {
        let done = run.step(*p, &packet.bytes());
        last = done.err().unwrap_or(Refusal::number(0));
        values.push(u64::from(last.number));
        let heard = done.unwrap_or_default();
        values.extend(match heard.ended {
            Some(ended) => [1, ended.id as u64, ended.length as u64],
            None => [0; 3],
        });
        values.push(heard.dropped as u64);
    }
    for link in &run.receiver.links {
        values.push(u64::from(link.heard != 0));
        values.push(u64::from(link.index));
        values.push(u64::from(link.open != 0));
        values.push(u64::from(link.length));
    }
    let mut answer = Answer::refused(last);
    answer.values = values;
    answer.added = run.added();
    Some(answer.buffer(&run.buffer))
}

impl Script {
    fn new(random: &mut Random, receiver: Receiver, packets: Vec<Handed>) -> Script {
        Script {
            receiver,
            buffer: generate::compact(random, BUFFER_BYTES),
            packets,
        }
    }

    fn fresh(random: &mut Random, packets: Vec<Handed>) -> Script {
        Script::new(random, Receiver::default(), packets)
    }
}

/// A packet's part of a unit: its flags and its useful bytes.
#[derive(Clone, Copy)]
struct Piece {
    first: bool,
    last: bool,
    useful: usize,
}

fn piece(first: bool, last: bool, useful: usize) -> Piece {
    Piece {
        first,
        last,
        useful,
    }
}

/// Both flags and nothing useful, whatever p is.
const NULL: Piece = Piece {
    first: true,
    last: true,
    useful: 0,
};

/// A unit of full packets, but for the last.
fn unit(p: usize, length: usize) -> Vec<Piece> {
    let count = length.div_ceil(p);
    let useful = |place: usize| p.min(length - p * place);
    (0..count)
        .map(|place| piece(place == 0, place + 1 == count, useful(place)))
        .collect()
}

/// A packet of this piece, with any useful bytes and now and then with anything in its padding.
fn packet_of(random: &mut Random, p: usize, id: usize, index: u8, piece: Piece) -> Handed {
    let useful = piece.useful.min(p);
    let padded = useful < p;
    let header = Header {
        first: piece.first,
        last: piece.last,
        id: id as u8,
        index,
    };
    let mut data = random.bytes(p);
    if padded {
        data[0] = useful as u8;
        if !random.one_in(4) {
            data[1 + useful..].fill(0);
        }
    }
    Handed {
        p: p as u64,
        packet: Buffer::Given(packed(header_byte(header, padded), &data)),
    }
}

/// Where the packets come from: what is to be sent on each id, and with which index.
struct Source {
    p: usize,
    indexes: [u8; IDS],
    pieces: [VecDeque<Piece>; IDS],
}

impl Source {
    /// One that goes on where the receiver is.
    fn of(random: &mut Random, p: usize, receiver: &Receiver) -> Source {
        let mut source = Source {
            p,
            indexes: [0; IDS],
            pieces: Default::default(),
        };
        for (id, link) in receiver.links.iter().enumerate() {
            source.indexes[id] = match link.heard {
                0 => random.below(8) as u8,
                _ => link.index,
            };
            if link.open != 0 && !random.one_in(4) {
                source.pieces[id] = rest(random, p, link.length).into();
            }
        }
        source
    }

    /// The id's next packet; units are drawn as they are needed.
    fn next(&mut self, random: &mut Random, id: usize) -> Handed {
        if self.pieces[id].is_empty() {
            self.pieces[id] = drawn_unit(random, self.p).into();
        }
        let piece = self.pieces[id].pop_front().unwrap_or(NULL);
        self.packet(random, id, piece)
    }

    fn packet(&mut self, random: &mut Random, id: usize, piece: Piece) -> Handed {
        let index = self.indexes[id];
        self.indexes[id] = (index + 1) % 8;
        packet_of(random, self.p, id, index, piece)
    }

    /// Packets of the same unit, or of several, one behind the other.
    fn all(&mut self, random: &mut Random, id: usize, pieces: &[Piece]) -> Vec<Handed> {
        let packet = |piece: &Piece| self.packet(random, id, *piece);
        pieces.iter().map(packet).collect()
    }
}

/// What a unit lacks that has so many bytes already: up to the longest unit, or one byte more, or little.
fn rest(random: &mut Random, p: usize, already: u16) -> Vec<Piece> {
    let room = ID_BYTES.saturating_sub(usize::from(already));
    let mut pieces = match random.below(4) {
        0 => unit(p, room.min(4 * p)),
        1 => unit(p, (room + 1).min(4 * p)),
        2 => vec![piece(false, true, 0)],
        _ => unit(p, 1 + random.below(3 * p as u64) as usize),
    };
    if let Some(piece) = pieces.first_mut() {
        piece.first = false;
    }
    pieces
}

/// A unit of one of many kinds, some of which a sender never makes.
fn drawn_unit(random: &mut Random, p: usize) -> Vec<Piece> {
    let any = |random: &mut Random| random.below(p as u64 + 1) as usize;
    let some = |random: &mut Random| 1 + random.below(p as u64) as usize;
    let few = 1 + random.below(3) as usize;
    match random.below(20) {
        // Without useful bytes.
        0 | 1 => {
            let mut pieces = vec![piece(false, false, 0); few + 1];
            pieces[0].first = true;
            pieces[few].last = true;
            pieces
        }
        // Useful bytes in any number everywhere.
        2..=4 => {
            let mut pieces: Vec<Piece> = (0..few + 1)
                .map(|_| piece(false, false, any(random)))
                .collect();
            pieces[0].first = true;
            pieces[few].last = true;
            pieces
        }
        // Without an end.
        5 => {
            let mut pieces = vec![piece(false, false, p); few];
            pieces[0].first = true;
            pieces
        }
        // Without a beginning.
        6 => vec![piece(false, false, p), piece(false, true, any(random))],
        // As long as a unit may be, or one byte longer, where a script can hold it.
        7 | 8 if p * LONGEST > ID_BYTES => {
            let length = random.pick(&[ID_BYTES - 1, ID_BYTES, ID_BYTES, ID_BYTES + 1]);
            unit(p, length)
        }
        9..=13 => unit(p, some(random)),
        _ => unit(p, p * few + some(random)),
    }
}

/// A record that is allowed, reached by any receiver or by none.
fn record(random: &mut Random, p: usize) -> Receiver {
    let mut receiver = Receiver::default();
    for link in &mut receiver.links {
        link.heard = random.pick(&[0, 1, 1, 1, 2, 255]);
        link.index = random.below(8) as u8;
        link.open = random.pick(&[0, 1, 1, 128, 255]);
        let any = random.below(ID_BYTES as u64 + 1) as usize;
        let near = ID_BYTES - random.below(4 * p as u64 + 1) as usize;
        link.length = match link.open {
            0 => random.pick(&[0, 0, 5, 4_097, 65_535]),
            _ => random.pick(&[0, 1, any, near, near, ID_BYTES]) as u16,
        };
    }
    receiver
}

/// A record likewise, in which the open units are full but for two packets or less.
fn nearly_full(random: &mut Random, p: usize) -> Receiver {
    let mut receiver = record(random, p);
    for link in receiver.links.iter_mut().filter(|link| link.open != 0) {
        link.length = (ID_BYTES - random.below(2 * p as u64 + 1) as usize) as u16;
    }
    receiver
}

fn random_p(random: &mut Random) -> usize {
    match random.below(20) {
        0 | 1 => random.pick(&[171, 200, 254, 255, 255]),
        2 => 1 + random.below(LARGEST_P) as usize,
        3 => 1,
        _ => 1 + random.below(12) as usize,
    }
}

/// Packets that all arrive in order, null packets among them.
fn clean(random: &mut Random, source: &mut Source, count: usize) -> Vec<Handed> {
    let ids = some_ids(random);
    let mut packets = Vec::new();
    while packets.len() < count {
        let id = random.pick(&ids);
        packets.push(match random.below(12) {
            0 => source.packet(random, id, NULL),
            _ => source.next(random, id),
        });
    }
    packets
}

/// Packets that are lost, repeated, swapped and damaged on their way.
fn rough(random: &mut Random, source: &mut Source, count: usize) -> Vec<Handed> {
    let ids = some_ids(random);
    let mut packets: Vec<Handed> = Vec::new();
    while packets.len() < count {
        let id = random.pick(&ids);
        match random.below(40) {
            0 => lose(random, source, id, 1),
            1 => lose(random, source, id, 8),
            2 => {
                let lost = random.pick(&[2, 3, 7, 9, 16]);
                lose(random, source, id, lost);
            }
            3 => packets.extend(packets.last().cloned()),
            4 => source.indexes[id] = random.below(8) as u8,
            5..=8 => packets.push(source.packet(random, id, NULL)),
            9 => {
                let last = packets.len();
                if last > 1 {
                    packets.swap(last - 1, last - 2);
                }
            }
            10 => source.p = random_p(random),
            // Refused; then the same packet in order, or it is lost.
            11..=13 => {
                let good = source.next(random, id);
                let fault = random.pick(packet::FAULTS);
                let mut bad = good.clone();
                fault(&mut bad, random);
                packets.push(bad);
                if !random.one_in(3) {
                    packets.push(good);
                }
            }
            _ => packets.push(source.next(random, id)),
        }
    }
    packets.truncate(count);
    packets
}

/// Packets that mostly go on with a unit and do not end it, until it is too long.
fn unending(random: &mut Random, source: &mut Source, count: usize) -> Vec<Handed> {
    let ids = some_ids(random);
    let mut packets = Vec::new();
    while packets.len() < count {
        let id = random.pick(&ids);
        let useful = random.below(source.p as u64 + 1) as usize;
        let tried = match random.below(12) {
            0 => NULL,
            1 => piece(true, false, useful),
            2 => piece(true, true, useful),
            3 => piece(false, true, useful),
            4 | 5 => piece(false, false, useful),
            _ => piece(false, false, source.p),
        };
        if random.one_in(12) {
            source.indexes[id] = random.below(8) as u8;
        }
        packets.push(source.packet(random, id, tried));
    }
    packets
}

fn lose(random: &mut Random, source: &mut Source, id: usize, lost: usize) {
    for _ in 0..lost {
        source.next(random, id);
    }
}

/// The ids of a script: one, two or all, some more often than others.
fn some_ids(random: &mut Random) -> Vec<usize> {
    let count = random.pick(&[1, 1, 2, 3, 6]);
    (0..count)
        .map(|_| random.below(IDS as u64) as usize)
        .collect()
}

fn random_script(random: &mut Random) -> Vec<u8> {
    let p = random_p(random);
    let kind = random.below(4);
    let receiver = match random.below(5) {
        _ if kind == 0 => nearly_full(random, p),
        0..=2 => Receiver::default(),
        _ => record(random, p),
    };
    let mut source = Source::of(random, p, &receiver);
    // Losses and repeats from the start on: long enough that much of it shows in the sums of E11.
    let storm = kind > 1 && receiver == Receiver::default();
    let count = match random.below(10) {
        _ if p > 170 => LONGEST,
        _ if storm => 12 + random.below(13) as usize,
        0..=6 => 2 + random.below(10) as usize,
        7 | 8 => 12 + random.below(12) as usize,
        _ => LONGEST,
    };
    let packets = match kind {
        0 => unending(random, &mut source, count),
        1 => clean(random, &mut source, count),
        _ => rough(random, &mut source, count),
    };
    let script = Script::new(random, receiver, packets);
    match random.below(3) {
        0 => faults::some(script, FAULTS, random).body(),
        _ => script.body(),
    }
}

/// What can be wrong with a script, of packets the last one; the number of each stands behind it.
const FAULTS: &[Fault<Script>] = &[
    |script, random| spoil(script, random, 0), // 16
    |script, random| spoil(script, random, 1), // 16
    |script, random| spoil(script, random, 2), // 1
    |script, random| spoil(script, random, 3), // mostly 1
    |script, random| {
        let length = random.pick(&[0, 4_096, 12_288, 16_383, 16_385, 32_768, 65_536 + 16_384]);
        script.buffer = generate::compact(random, length);
    }, // 1
    |script, random| any(script, random).index = random.pick(&[8, 8, 9, 16, 128, 255]), // 17
    |script, random| {
        let link = any(script, random);
        link.open = random.pick(&[1, 1, 2, 255]);
        link.length = random.pick(&[4_097, 4_097, 5_000, 8_192, 65_535]);
    }, // 17
    |script, random| spoil(script, random, 4), // 13
];

/// Spoils the last packet in one of its ways.
fn spoil(script: &mut Script, random: &mut Random, kind: usize) {
    if let Some(handed) = script.packets.last_mut() {
        // A p that is none has no packet to be spoiled any further.
        if (1..=LARGEST_P).contains(&handed.p) {
            packet::FAULTS[kind](handed, random);
        }
    }
}

fn any<'a>(script: &'a mut Script, random: &mut Random) -> &'a mut Link {
    &mut script.receiver.links[random.below(IDS as u64) as usize]
}

fn link(heard: u8, index: u8, open: u8, length: u16) -> Link {
    Link {
        heard,
        index,
        open,
        length,
    }
}

/// Every kind of packet after every kind of history, and one more packet that shows whether a unit is
/// open.
fn each_kind(random: &mut Random) -> Vec<Script> {
    let mut list = Vec::new();
    for flags in 0..4 {
        for useful in [0, 1, 4] {
            for history in 0..8 {
                let id = random.below(IDS as u64) as usize;
                let index = random.below(8) as u8;
                let expected = match history & 4 {
                    0 => index,
                    _ => (index + 1 + random.below(7) as u8) % 8,
                };
                let mut receiver = record(random, 4);
                let length = random.pick(&[0, 7, 4_092]);
                receiver.links[id] = link(history & 1, expected, history & 2, length);
                let tried = piece(flags & 1 != 0, flags & 2 != 0, useful);
                let packets = vec![
                    packet_of(random, 4, id, index, tried),
                    packet_of(random, 4, id, (index + 1) % 8, piece(false, true, 1)),
                ];
                list.push(Script::new(random, receiver, packets));
            }
        }
    }
    list
}

/// Every index where every other is expected: the last packet of a unit of eight bytes.
fn each_index(random: &mut Random) -> Vec<Script> {
    let mut list = Vec::new();
    for expected in 0..8 {
        for index in 0..8 {
            let id = random.below(IDS as u64) as usize;
            let mut receiver = Receiver::default();
            receiver.links[id] = link(1, expected, 1, 5);
            let packets = vec![packet_of(random, 3, id, index, piece(false, true, 3))];
            list.push(Script::new(random, receiver, packets));
        }
    }
    list
}

/// Units as long as they may be and one byte longer, from their first packet on and near their end.
fn longest_units(random: &mut Random) -> Vec<Script> {
    let mut list = Vec::new();
    for (p, id) in [(255, 0), (255, 1), (255, 2), (255, 3), (171, 0), (254, 3)] {
        for length in [ID_BYTES - 1, ID_BYTES, ID_BYTES + 1] {
            let mut source = Source::of(random, p, &Receiver::default());
            let packets = source.all(random, id, &unit(p, length));
            list.push(Script::fresh(random, packets));
        }
    }
    for p in [1, 4, 255] {
        for (already, useful) in [
            (ID_BYTES - p, p),
            (ID_BYTES - p + 1, p),
            (ID_BYTES, 0),
            (ID_BYTES, 1),
            (ID_BYTES - 1, 1),
        ] {
            for last in [false, true] {
                let id = random.below(IDS as u64) as usize;
                let mut receiver = record(random, p);
                let index = random.below(8) as u8;
                receiver.links[id] = link(1, index, 1, already as u16);
                let mut source = Source::of(random, p, &receiver);
                let pieces = [piece(false, last, useful), piece(false, true, 0)];
                let packets = source.all(random, id, &pieces);
                list.push(Script::new(random, receiver, packets));
            }
        }
    }
    list
}

/// One to seventeen lost packets within a unit, of which eight and sixteen cannot be seen.
fn lost_in_a_row(random: &mut Random) -> Vec<Script> {
    let mut list = Vec::new();
    for lost in 0..=17 {
        let id = random.below(IDS as u64) as usize;
        let mut source = Source::of(random, 4, &Receiver::default());
        let mut packets = source.all(random, id, &unit(4, 4 * 21 + 1));
        packets.drain(2..2 + lost);
        list.push(Script::fresh(random, packets));
    }
    list
}

/// Null packets within a unit, on its id and on others; a packet twice; two in the wrong order.
fn disturbed(random: &mut Random) -> Vec<Script> {
    let mut list = Vec::new();
    for id in 0..IDS {
        for other in 0..IDS {
            let mut source = Source::of(random, 4, &Receiver::default());
            let pieces = unit(4, 10);
            let mut packets = source.all(random, id, &pieces[..2]);
            packets.push(source.packet(random, other, NULL));
            packets.extend(source.all(random, id, &pieces[2..]));
            list.push(Script::fresh(random, packets));
        }
        for place in 0..3 {
            let mut source = Source::of(random, 4, &Receiver::default());
            let packets = source.all(random, id, &unit(4, 10));
            let mut twice = packets.clone();
            twice.insert(place, packets[place].clone());
            list.push(Script::fresh(random, twice));
            let mut swapped = packets;
            swapped.swap(place, (place + 1) % 3);
            list.push(Script::fresh(random, swapped));
        }
    }
    list
}

/// Records at the limits of what they may hold, on every id.
fn records(random: &mut Random) -> Vec<Script> {
    let mut list = Vec::new();
    for id in 0..IDS {
        for tried in [
            link(1, 8, 0, 0),
            link(0, 8, 0, 0),
            link(0, 255, 1, 4_097),
            link(1, 0, 1, 4_097),
            link(0, 0, 1, 4_097),
            link(0, 0, 255, 65_535),
            link(1, 7, 1, 4_096),
            link(1, 7, 0, 4_097),
            link(255, 7, 0, 65_535),
            link(0, 7, 1, 4_096),
            link(0, 3, 128, 9),
            link(0, 3, 0, 65_535),
        ] {
            // A packet of that id, and one of another.
            for of in [id, (id + 1) % IDS] {
                let mut receiver = Receiver::default();
                receiver.links[id] = tried;
                let index = tried.index % 8;
                let packets = vec![packet_of(random, 4, of, index, piece(false, true, 0))];
                list.push(Script::new(random, receiver, packets));
            }
        }
    }
    list
}

/// What a packet meets on its id.
struct Meeting {
    link: Link,
    p: usize,
    index: u8,
    piece: Piece,
}

/// This packet where its index is the one expected, where another is, and where that does not matter since
/// nothing was heard; each on no open unit and on open ones, up to those that it fills or is too much for.
fn meetings(random: &mut Random, p: usize, tried: Piece) -> Vec<Meeting> {
    let room = ID_BYTES - tried.useful;
    let mut lengths = vec![0, 1, room, room + 1, ID_BYTES];
    lengths.retain(|length| *length <= ID_BYTES);
    lengths.dedup();
    let mut list = Vec::new();
    for (heard, expected) in [(1, true), (1, false), (0, false)] {
        let mut units = vec![(0, random.pick(&[0, 5, 4_097, 65_535]))];
        units.extend(lengths.iter().map(|length| (1, *length as u16)));
        for (open, length) in units {
            let index = random.below(8) as u8;
            let other = (index + 1 + random.below(7) as u8) % 8;
            let next = if expected { index } else { other };
            list.push(Meeting {
                link: link(heard, next, open, length),
                p,
                index,
                piece: tried,
            });
        }
    }
    list
}

/// A packet an id; behind them one more an id with one byte and the last flag, which ends an open unit, is
/// too much for it, or is skipped.
fn together(random: &mut Random, meetings: &[Meeting]) -> Script {
    let mut receiver = Receiver::default();
    let turn = random.below(IDS as u64) as usize;
    let (mut packets, mut behind) = (Vec::new(), Vec::new());
    for (place, met) in meetings.iter().enumerate() {
        let id = (turn + place) % IDS;
        receiver.links[id] = met.link;
        packets.push(packet_of(random, met.p, id, met.index, met.piece));
        let next = (met.index + 1) % 8;
        behind.push(packet_of(random, 1, id, next, piece(false, true, 1)));
    }
    packets.extend(behind);
    Script::new(random, receiver, packets)
}

/// Every kind of packet on every kind of unit, four meetings a script.
fn each_drop(random: &mut Random) -> Vec<Script> {
    let mut list = Vec::new();
    for p in [1, 4, 7, 255] {
        let mut counts = vec![0, 1, p];
        counts.dedup();
        for flags in 0..4 {
            for useful in &counts {
                let tried = piece(flags & 1 != 0, flags & 2 != 0, *useful);
                list.extend(meetings(random, p, tried));
            }
        }
    }
    list.chunks(IDS)
        .map(|meetings| together(random, meetings))
        .collect()
}

/// The packets that the documents work out: what each of seven drops of four open bytes, and a history.
fn worked_drops(random: &mut Random) -> Vec<Script> {
    let first = [0x80, 1, 2, 3, 4, 0xC1, 0x20];
    let behind: [&[u8]; 7] = [
        &[0x4A, 1, 9, 0, 0, 0x51, 0x10],
        &[0x82, 9, 10, 11, 12, 0xA1, 0x60],
        &[0xC9, 0, 0, 0, 0, 0x75, 0x37],
        &[0xCA, 0, 0, 0, 0, 0x9B, 0xE5],
        &[0xC9, 1, 7, 0, 0, 0x86, 0x13],
        &[0xCA, 1, 7, 0, 0, 0x68, 0xC1],
        &[0x49, 1, 7, 0, 0, 0xA4, 0xC3],
    ];
    let mut histories: Vec<Vec<&[u8]>> = behind.map(|packet| vec![&first[..], packet]).to_vec();
    histories.push(vec![
        &first,
        &[0x02, 5, 6, 7, 8, 0xBC, 0x0A],
        &[0x8B, 3, 1, 2, 3, 0xDA, 0x31],
        &[0x4C, 1, 4, 0, 0, 0xDE, 0xC4],
        &[0x90, 1, 2, 3, 4, 0xC5, 0x7A],
        &[0xD9, 0, 0, 0, 0, 0x71, 0x6D],
    ]);
    histories
        .into_iter()
        .map(|packets| Script::fresh(random, packets.into_iter().map(handed).collect()))
        .collect()
}

/// An open unit, and the packets of its id that drop it, each in its way, and the one that ends it.
fn droppers(random: &mut Random, id: usize) -> (Link, [Handed; 5]) {
    let index = random.below(8) as u8;
    let other = (index + 1 + random.below(7) as u8) % 8;
    let packets = [
        (other, piece(false, false, 2)),
        (index, piece(true, false, 2)),
        (index, piece(false, true, 7)),
        (other, NULL),
        (index, piece(false, true, 6)),
    ]
    .map(|(index, piece)| packet_of(random, 7, id, index, piece));
    (link(1, index, 1, 4_090), packets)
}

/// Refusals where a unit is open: nothing is dropped, and the packet as it should be does what it does.
fn refused_while_open(random: &mut Random) -> Vec<Script> {
    let mut list = Vec::new();
    for id in 0..IDS {
        let (open, packets) = droppers(random, id);
        let mut receiver = Receiver::default();
        receiver.links[id] = open;
        // 16 twice, 1 and 13, each of the packet that then is accepted.
        for good in &packets {
            let mut spoiled: Vec<Handed> = [0, 1, 2, 4]
                .map(|kind| {
                    let mut bad = good.clone();
                    packet::FAULTS[kind](&mut bad, random);
                    bad
                })
                .to_vec();
            spoiled.push(good.clone());
            list.push(Script::new(random, receiver, spoiled));
        }
        // 17 by another id and by the open unit itself, and 1 by the buffer: all packets are refused.
        let mut broken = Script::new(random, receiver, packets.to_vec());
        broken.receiver.links[(id + 1) % IDS].index = 8;
        let mut overlong = Script::new(random, receiver, packets.to_vec());
        overlong.receiver.links[id].length = 4_097;
        let mut short = Script::new(random, receiver, packets.to_vec());
        short.buffer = generate::compact(random, BUFFER_BYTES - 1);
        list.extend([broken, overlong, short]);
    }
    list
}

/// A unit of three packets whose second is damaged, 16: it comes once more, or the third is a break.
fn damaged(random: &mut Random) -> Vec<Script> {
    let mut list = Vec::new();
    for id in 0..IDS {
        for repeated in [true, false] {
            let mut source = Source::of(random, 4, &Receiver::default());
            let mut packets = source.all(random, id, &unit(4, 10));
            let good = packets[1].clone();
            packet::FAULTS[1](&mut packets[1], random);
            if repeated {
                packets.insert(2, good);
            }
            list.push(Script::fresh(random, packets));
        }
    }
    list
}

fn fixed(random: &mut Random) -> Vec<Vec<u8>> {
    let mut list = vec![Script::fresh(random, vec![])];
    list.push(Script::fresh(random, packet::worked()));
    list.extend(each_kind(random));
    list.extend(each_index(random));
    list.extend(longest_units(random));
    list.extend(lost_in_a_row(random));
    list.extend(disturbed(random));
    list.extend(records(random));
    // The order of the refusals, of a packet alone and behind two others.
    for count in [1, 3] {
        let receiver = record(random, 4);
        let mut source = Source::of(random, 4, &receiver);
        let packets = clean(random, &mut source, count);
        let good = Script::new(random, receiver, packets);
        list.extend(faults::all(&good, FAULTS, random));
    }
    // Buffers of other lengths, and no p at all, with a good packet behind it.
    for length in [0, 4_096, 16_383, 16_384, 16_385, 65_536, 131_072] {
        let packets = vec![packet_of(random, 4, 3, 0, piece(true, true, 3))];
        let mut script = Script::fresh(random, packets);
        script.buffer = generate::compact(random, length);
        list.push(script);
    }
    for p in NO_P {
        let good = packet_of(random, 4, 2, 0, piece(true, true, 3));
        let mut bad = good.clone();
        bad.p = p;
        list.push(Script::fresh(random, vec![bad.clone()]));
        list.push(Script::fresh(random, vec![bad, good]));
    }
    // As many packets as there may be, and one too many.
    for count in [LONGEST, LONGEST + 1] {
        let mut source = Source::of(random, 2, &Receiver::default());
        let packets = clean(random, &mut source, count);
        list.push(Script::fresh(random, packets));
    }
    list.extend(each_drop(random));
    list.extend(worked_drops(random));
    list.extend(refused_while_open(random));
    list.extend(damaged(random));
    bodies(list)
}

#[cfg(test)]
mod tests {
    use super::*;

    fn answered(script: &Script) -> Answer {
        answer(&mut Reader::new(&script.body())).unwrap()
    }

    #[test]
    fn records_are_allowed_and_broken_ones_are_not() {
        let mut random = Random::new(1);
        let numbers = [16, 16, 1, 1, 1, 17, 17, 13];
        for _ in 0..200 {
            let p = 2 + random_p(&mut random).min(20);
            let receiver = record(&mut random, p);
            let mut source = Source::of(&mut random, p, &receiver);
            let packets = clean(&mut random, &mut source, 3);
            let good = Script::new(&mut random, receiver, packets);
            assert_eq!(answered(&good).number, 0);
            for (place, (fault, number)) in FAULTS.iter().zip(numbers).enumerate() {
                let mut bad = good.clone();
                fault(&mut bad, &mut random);
                let same_p = place == 3 && bad.packets[2].p == p as u64;
                assert!(answered(&bad).number == number || same_p);
            }
        }
    }

    /// A unit in two packets, a refused packet between: five values each, then the receiver's 16.
    #[test]
    fn values_of_a_script() {
        let worked = packet::worked();
        let packets = vec![worked[2].clone(), worked[4].clone(), worked[3].clone()];
        let mut script = Script::fresh(&mut Random::new(2), packets);
        script.buffer = Buffer::Given(vec![0; BUFFER_BYTES]);
        script.receiver.links[3] = link(2, 5, 0, 9);
        let answer = answered(&script);
        let mut expected = vec![0, 0, 0, 0, 0, 16, 0, 0, 0, 0, 0, 1, 1, 6, 0];
        expected.extend([0, 0, 0, 0, 1, 2, 0, 0, 0, 0, 0, 0, 1, 5, 0, 9]);
        assert_eq!((answer.number, answer.values), (0, expected));
        let mut buffer = vec![0; BUFFER_BYTES];
        buffer[4_096..4_102].copy_from_slice(&[1, 2, 3, 4, 5, 6]);
        assert_eq!(answer.buffers, Answer::done().buffer(&buffer).buffers);
    }

    /// Among random scripts, most deliver a unit, and some as long a one as there may be.
    #[test]
    fn units_are_delivered() {
        let mut random = Random::new(3);
        let (mut delivering, mut empty, mut longest) = (0, 0, 0);
        for _ in 0..1_000 {
            let body = random_script(&mut random);
            let answer = answer(&mut Reader::new(&body)).unwrap();
            let steps = answer.values.len() - 16;
            let units: Vec<&[u64]> = answer.values[..steps]
                .chunks(5)
                .filter(|step| step[1] == 1)
                .collect();
            delivering += usize::from(!units.is_empty());
            empty += units.iter().filter(|unit| unit[3] == 0).count();
            longest += units.iter().filter(|unit| unit[3] == 4_096).count();
        }
        assert!(delivering > 500 && empty > 50 && longest > 10);
    }

    /// How often a script drops a unit with a byte in it: by an index break, by a first packet, by overlength.
    fn drops(body: &[u8]) -> [usize; 3] {
        let script = Script::read(&mut Reader::new(body)).unwrap();
        let (mut receiver, mut buffer) = (script.receiver, script.buffer.bytes());
        let mut found = [0; 3];
        for Handed { p, packet } in &script.packets {
            let before = receiver;
            let Ok(heard) = receiver.step(*p, &mut buffer, &packet.bytes()) else {
                continue;
            };
            let header = crate::packet::read(*p, &packet.bytes()).unwrap().header;
            let link = before.links[usize::from(header.id)];
            let kind = match heard.dropped {
                0 => continue,
                1..=ID_BYTES if header.index != link.index && link.heard != 0 => 0,
                1..=ID_BYTES => 1,
                _ => 2,
            };
            found[kind] += 1;
        }
        found
    }

    /// Among random scripts, many go from a fresh receiver through losses and repeats, so that it drops a unit.
    #[test]
    fn fresh_receivers_drop() {
        let mut random = Random::new(5);
        let (mut fresh, mut dropping) = (0, 0);
        for _ in 0..1_000 {
            let body = random_script(&mut random);
            let script = Script::read(&mut Reader::new(&body)).unwrap();
            if script.receiver == Receiver::default() {
                fresh += 1;
                dropping += usize::from(drops(&body) != [0; 3]);
            }
        }
        assert!(fresh > 350 && dropping > 180, "{fresh}, {dropping}");
    }

    /// Among random scripts, units are dropped in each of the three ways in many.
    #[test]
    fn units_are_dropped() {
        let mut random = Random::new(4);
        let mut dropping = [0; 3];
        for _ in 0..1_000 {
            let body = random_script(&mut random);
            for (count, found) in dropping.iter_mut().zip(drops(&body)) {
                *count += usize::from(found > 0);
            }
        }
        assert!(dropping.iter().all(|count| *count > 150), "{dropping:?}");
    }
}
