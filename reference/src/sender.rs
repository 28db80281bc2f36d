//! The sender of the shared stream: its settings, the hand-out of a frame's packets, and the three queues
//! (document 01, "Packets, queues and receiver"; "Numbers given back": 13, 14, 15 and 17; document 02, E1 and E9).

use crate::output;
use crate::packet::{self, Header, FRAMING, LARGEST_P};
use crate::refusal::{refuse, Refusal, LONGEST_INPUT};

/// Queues, of the ids 0, 1 and 2.
pub const QUEUES: usize = 3;
/// The ids: those of the queues and the filler's.
pub const IDS: usize = 4;
/// The most units in a queue.
pub const UNITS: usize = 8;
/// The store's bytes for each queue, and the longest unit.
pub const QUEUE_BYTES: usize = 4_096;
/// The store's bytes.
pub const STORE_BYTES: usize = QUEUES * QUEUE_BYTES;
/// The longest frame.
pub const LONGEST_FRAME: u64 = 8_190;

const FILLER: usize = 3;
const HIGHEST_INDEX: u8 = 7;

/// Settings as they are handed in: any content.
#[derive(Debug, Clone, Copy, Default, PartialEq, Eq)]
pub struct Settings {
    pub p: u64,
    /// Packets per frame, the N of the document.
    pub packets: u64,
    pub shares: [u64; QUEUES],
    pub ceilings: [u64; QUEUES],
}

impl Settings {
    /// Products and sums are taken in 128 bits, where none can wrap.
    pub fn check(&self) -> Result<(), Refusal> {
        refuse(13, !(1..=LARGEST_P).contains(&self.p))?;
        refuse(13, self.packets < 1)?;
        let frame = u128::from(self.packets) * u128::from(self.p + FRAMING as u64);
        refuse(13, frame > u128::from(LONGEST_FRAME))?;
        for (share, ceiling) in self.shares.iter().zip(self.ceilings) {
            refuse(13, *share > ceiling)?;
            refuse(13, !(1..=self.packets).contains(&ceiling))?;
        }
        let shares: u128 = self.shares.iter().map(|share| u128::from(*share)).sum();
        refuse(13, shares > u128::from(self.packets))
    }
}

/// What the packets of a frame are used for.
#[derive(Debug, Clone, Default, PartialEq, Eq)]
pub struct HandOut {
    pub packets: [u64; QUEUES],
    pub spares: u64,
    pub filler: u64,
    /// The turn after it.
    pub turn: u64,
    /// The ids that got a spare, in order; in no answer, but added up over a run (document 02, E11).
    pub ids: Vec<usize>,
}

/// Every share first, then the spares one by one from the turn on, then filler.
pub fn hand_out(
    settings: &Settings,
    waiting: [u64; QUEUES],
    turn: u64,
) -> Result<HandOut, Refusal> {
    settings.check()?;
    let mut packets = [0; QUEUES];
    for id in 0..QUEUES {
        packets[id] = settings.shares[id].min(waiting[id]);
    }
    let (mut spares, mut turn, mut ids) = (0, turn, Vec::new());
    while packets.iter().sum::<u64>() < settings.packets {
        let first = (turn % QUEUES as u64) as usize;
        let can_take = |id: &usize| packets[*id] < waiting[*id].min(settings.ceilings[*id]);
        let mut in_turn = (0..QUEUES).map(|step| (first + step) % QUEUES);
        let Some(id) = in_turn.find(can_take) else {
            break;
        };
        ids.push(id);
        packets[id] += 1;
        spares += 1;
        turn = ((id + 1) % QUEUES) as u64;
    }
    Ok(HandOut {
        packets,
        spares,
        filler: settings.packets - packets.iter().sum::<u64>(),
        turn,
        ids,
    })
}

/// A queue as it is handed in: any content.
#[derive(Debug, Clone, Copy, Default, PartialEq, Eq)]
pub struct Queue {
    /// The number of units.
    pub units: u64,
    /// Bytes of the first unit already sent.
    pub sent: u64,
    /// The stored count of waiting packets.
    pub waiting: u16,
    /// Where the unsent bytes begin in the queue's bytes of the store, which are a ring: byte i of them stands at
    /// start + i modulo 4,096.
    pub start: u16,
    /// Bytes left of each unit.
    pub left: [u16; UNITS],
}

impl Queue {
    /// The bytes left of the units that are there.
    fn there(&self) -> &[u16] {
        &self.left[..self.units.min(UNITS as u64) as usize]
    }

    /// Bytes of the store that are not yet sent.
    pub fn unsent(&self) -> usize {
        self.there().iter().map(|left| usize::from(*left)).sum()
    }

    /// Packets that the units still take, each unit's rounded up: what the stored count is held against.
    pub fn summed(&self, p: u64) -> u64 {
        let packets = |left: &u16| u64::from(*left).div_ceil(p);
        self.there().iter().map(packets).sum()
    }

    fn check(&self, p: u64) -> Result<(), Refusal> {
        refuse(17, self.units > UNITS as u64)?;
        for (place, left) in self.there().iter().enumerate() {
            let sent = if place == 0 { self.sent } else { 0 };
            let length = u128::from(sent) + u128::from(*left);
            refuse(17, *left == 0)?;
            refuse(17, length > QUEUE_BYTES as u128)?;
        }
        refuse(17, self.unsent() > QUEUE_BYTES)?;
        refuse(17, !self.sent.is_multiple_of(p))?;
        refuse(17, self.units == 0 && self.sent > 0)?;
        refuse(17, u64::from(self.waiting) != self.summed(p))?;
        refuse(17, usize::from(self.start) >= QUEUE_BYTES)
    }

    /// Puts a unit behind the others; there is room for it.
    pub fn push(&mut self, p: u64, length: usize) {
        self.left[self.units as usize] = length as u16;
        self.units += 1;
        self.waiting += length.div_ceil(p as usize) as u16;
    }

    /// Takes one packet off the first unit: its first flag, its last flag, its useful bytes.
    pub fn take_packet(&mut self, p: u64) -> (bool, bool, usize) {
        let left = u64::from(self.left[0]);
        let useful = left.min(p);
        let (first, last) = (self.sent == 0, useful == left);
        self.sent += useful;
        self.left[0] -= useful as u16;
        self.waiting -= 1;
        if last {
            self.units -= 1;
            self.sent = 0;
            self.left.rotate_left(1);
            self.left[UNITS - 1] = 0;
        }
        (first, last, useful as usize)
    }
}

/// The state of the three queues as it is handed in: any content.
#[derive(Debug, Clone, Copy, Default, PartialEq, Eq)]
pub struct Sender {
    pub queues: [Queue; QUEUES],
    pub turn: u64,
    /// The continuity index of each id's next packet.
    pub indexes: [u8; IDS],
}

impl Sender {
    fn check(&self, p: u64) -> Result<(), Refusal> {
        for queue in &self.queues {
            queue.check(p)?;
        }
        refuse(17, self.turn >= QUEUES as u64)?;
        refuse(17, self.indexes.iter().any(|index| *index > HIGHEST_INDEX))
    }

    /// The stored counts.
    pub fn waiting(&self) -> [u64; QUEUES] {
        self.queues.map(|queue| u64::from(queue.waiting))
    }

    /// What a load is refused for. No byte of the store is looked at.
    pub fn check_load(
        &self,
        settings: &Settings,
        store: &[u8],
        id: u64,
        unit: &[u8],
    ) -> Result<(), Refusal> {
        settings.check()?;
        self.check(settings.p)?;
        refuse(1, store.len() != STORE_BYTES)?;
        refuse(1, unit.len() > LONGEST_INPUT)?;
        refuse(14, unit.is_empty() || unit.len() > QUEUE_BYTES)?;
        refuse(14, id >= QUEUES as u64)?;
        let queue = &self.queues[id as usize];
        refuse(15, queue.unsent() + unit.len() > QUEUE_BYTES)?;
        refuse(15, queue.units >= UNITS as u64)
    }

    /// What a frame is refused for before it is made.
    pub fn check_frame(&self, settings: &Settings, store: &[u8]) -> Result<(), Refusal> {
        settings.check()?;
        self.check(settings.p)?;
        refuse(1, store.len() != STORE_BYTES)
    }

    /// Puts a unit behind the bytes of its queue that are not yet sent, around the ring.
    pub fn load(
        &mut self,
        settings: &Settings,
        store: &mut [u8],
        id: u64,
        unit: &[u8],
    ) -> Result<(), Refusal> {
        self.check_load(settings, store, id, unit)?;
        let queue = &mut self.queues[id as usize];
        let ring = &mut store[QUEUE_BYTES * id as usize..][..QUEUE_BYTES];
        let end = usize::from(queue.start) + queue.unsent();
        for (place, byte) in unit.iter().enumerate() {
            ring[(end + place) % QUEUE_BYTES] = *byte;
        }
        queue.push(settings.p, unit.len());
        Ok(())
    }

    /// Writes the next frame to the front of `output`. Each start moves on by the bytes that the frame takes; also
    /// that of a queue which empties.
    pub fn frame(
        &mut self,
        settings: &Settings,
        store: &[u8],
        output: &mut [u8],
    ) -> Result<HandOut, Refusal> {
        self.check_frame(settings, store)?;
        let handed = hand_out(settings, self.waiting(), self.turn)?;
        let mut next = *self;
        let mut frame = Vec::new();
        for id in 0..QUEUES {
            let ring = &store[QUEUE_BYTES * id..][..QUEUE_BYTES];
            for _ in 0..handed.packets[id] {
                let queue = &mut next.queues[id];
                let start = usize::from(queue.start);
                let (first, last, count) = queue.take_packet(settings.p);
                queue.start = ((start + count) % QUEUE_BYTES) as u16;
                let places = (start..start + count).map(|place| place % QUEUE_BYTES);
                let useful: Vec<u8> = places.map(|place| ring[place]).collect();
                frame.extend(next.packet(settings.p, first, last, id, &useful)?);
            }
        }
        frame.extend(next.filler(settings.p, handed.filler)?);
        next.turn = handed.turn;
        output::write(&frame, output)?;
        *self = next;
        Ok(handed)
    }

    /// So many packets of filler.
    pub fn filler(&mut self, p: u64, count: u64) -> Result<Vec<u8>, Refusal> {
        let mut bytes = Vec::new();
        for _ in 0..count {
            bytes.extend(self.packet(p, true, true, FILLER, &[])?);
        }
        Ok(bytes)
    }

    /// The id's next packet; moves its index on.
    pub fn packet(
        &mut self,
        p: u64,
        first: bool,
        last: bool,
        id: usize,
        useful: &[u8],
    ) -> Result<Vec<u8>, Refusal> {
        let index = self.indexes[id];
        self.indexes[id] = (index + 1) % (HIGHEST_INDEX + 1);
        let header = Header {
            first,
            last,
            id: id as u8,
            index,
        };
        let mut bytes = vec![0; p as usize + FRAMING];
        packet::write(p, header, useful, &mut bytes)?;
        Ok(bytes)
    }
}

#[cfg(test)]
mod tests {
    use super::*;
    use crate::random::Random;
    use crate::runs::Sending;

    fn refused<T>(number: u8) -> Result<T, Refusal> {
        Err(Refusal::number(number))
    }

    /// The settings of examples 9 to 12.
    fn example() -> Settings {
        Settings {
            p: 4,
            packets: 10,
            shares: [3, 3, 2],
            ceilings: [10, 6, 10],
        }
    }

    fn small(p: u64, packets: u64) -> Settings {
        Settings {
            p,
            packets,
            shares: [0; 3],
            ceilings: [packets; 3],
        }
    }

    /// The ids are those that get the spares.
    fn handed(
        packets: [u64; 3],
        ids: &[usize],
        filler: u64,
        turn: u64,
    ) -> Result<HandOut, Refusal> {
        Ok(HandOut {
            packets,
            spares: ids.len() as u64,
            filler,
            turn,
            ids: ids.to_vec(),
        })
    }

    #[test]
    fn examples_9_to_12() {
        let out = |waiting, turn| hand_out(&example(), waiting, turn);
        assert_eq!(out([20, 1, 0], 0), handed([9, 1, 0], &[0; 6], 0, 1));
        assert_eq!(out([0, 20, 0], 0), handed([0, 6, 0], &[1; 3], 4, 2));
        assert_eq!(out([20, 20, 20], 0), handed([4, 4, 2], &[0, 1], 0, 2));
        assert_eq!(out([16, 16, 18], 2), handed([4, 3, 3], &[2, 0], 0, 1));
    }

    #[test]
    fn nothing_spare_leaves_the_turn() {
        assert_eq!(
            hand_out(&example(), [3, 0, 2], 7),
            handed([3, 0, 2], &[], 5, 7)
        );
        assert_eq!(
            hand_out(&example(), [4, 4, 4], 7),
            handed([3, 4, 3], &[1, 2], 0, 0)
        );
    }

    #[test]
    fn limits_of_settings() {
        assert_eq!(example().check(), Ok(()));
        for (p, packets, right) in [
            (1, 2_047, true),
            (1, 2_048, false),
            (2, 1_638, true),
            (2, 1_639, false),
            (255, 31, true),
            (255, 32, false),
            (1, 0, false),
            (0, 1, false),
            (256, 1, false),
            (1, 1 << 62, false),
            (253, 1 << 56, false),
        ] {
            assert_eq!(small(p, packets).check().is_ok(), right);
        }
        let changed = |shares, ceilings| {
            let settings = Settings {
                shares,
                ceilings,
                ..example()
            };
            settings.check()
        };
        assert_eq!(changed([10, 0, 0], [10, 1, 1]), Ok(()));
        assert_eq!(changed([4, 3, 3], [4, 3, 3]), Ok(()));
        assert_eq!(changed([4, 4, 3], [4, 4, 3]), refused(13));
        assert_eq!(changed([3, 3, 2], [2, 6, 10]), refused(13));
        assert_eq!(changed([3, 3, 2], [3, 6, 11]), refused(13));
        assert_eq!(changed([0, 0, 0], [1, 0, 1]), refused(13));
        let half = 1 << 63;
        assert_eq!(changed([half, half, 0], [half, half, 1]), refused(13));
    }

    /// Six bytes on id 1 in two packets, then filler, then filler with its own index going on.
    #[test]
    fn a_unit_in_two_packets() {
        let settings = small(4, 3);
        let mut run = Sending::new(Sender::default(), vec![7; STORE_BYTES]);
        let unit = [1, 2, 3, 4, 5, 6];
        assert_eq!(run.load(&settings, 1, &unit), Ok(()));
        assert_eq!(run.store[4_096..4_103], [1, 2, 3, 4, 5, 6, 7]);
        let mut output = [9; 22];
        let out = run.frame(&settings, &mut output);
        assert_eq!(out, handed([0, 2, 0], &[1, 1], 1, 2));
        let expected = [
            0x90, 1, 2, 3, 4, 0xC5, 0x7A, // first
            0x59, 2, 5, 6, 0, 0xFF, 0x83, // last
            0xF8, 0, 0, 0, 0, 0xD3, 0x88, // filler
            9,
        ];
        assert_eq!(output, expected);
        let mut after = Sender {
            turn: 2,
            indexes: [0, 2, 0, 1],
            ..Sender::default()
        };
        after.queues[1].start = 6;
        assert_eq!(run.sender, after);
        let out = run.frame(&settings, &mut output);
        assert_eq!(out, handed([0, 0, 0], &[], 3, 2));
        assert_eq!([output[0], output[7], output[14]], [0xF9, 0xFA, 0xFB]);
        after.indexes[3] = 4;
        assert_eq!(run.sender, after);
        assert_eq!(run.added().differences, [""; 0]);
    }

    #[test]
    fn no_room() {
        let settings = small(1, 1);
        let mut store = vec![0; STORE_BYTES];
        let mut sender = Sender::default();
        let mut load = |id, length| sender.load(&settings, &mut store, id, &vec![1; length]);
        assert_eq!(load(0, 4_096), Ok(()));
        assert_eq!(load(0, 1), refused(15));
        assert_eq!(load(1, 4_095), Ok(()));
        assert_eq!(load(1, 2), refused(15));
        assert_eq!(load(1, 1), Ok(()));
        for _ in 0..8 {
            assert_eq!(load(2, 1), Ok(()));
        }
        assert_eq!(load(2, 1), refused(15));
        assert_eq!(load(2, 0), refused(14));
        assert_eq!(load(2, 4_097), refused(14));
        assert_eq!(load(3, 1), refused(14));
        assert_eq!(load(u64::MAX, 65_528), refused(14));
        assert_eq!(load(3, 65_529), refused(1));
    }

    /// Every kind of 17 but a wrong count, and what is not one: the counts are those of the units that are there.
    #[test]
    fn broken_states() {
        let p = 10;
        let good = Queue {
            units: 2,
            sent: 20,
            waiting: 401,
            start: 0,
            left: [5, 4_000, 0, 65_535, 0, 0, 0, 0],
        };
        assert_eq!(good.check(p), Ok(()));
        let full = Queue {
            units: 8,
            sent: 3_580,
            waiting: 416,
            start: 4_095,
            left: [512; 8],
        };
        assert_eq!(full.check(p), Ok(()));
        let broken = [
            Queue { units: 9, ..full },
            Queue { units: 3, ..good },
            Queue { units: 4, ..good },
            Queue { units: 0, ..good },
            Queue { sent: 21, ..good },
            Queue {
                sent: 3_590,
                ..full
            },
            Queue {
                sent: u64::MAX - 5,
                ..good
            },
            Queue {
                units: u64::MAX,
                ..good
            },
            Queue {
                left: [513, 512, 512, 512, 512, 512, 512, 512],
                ..full
            },
            Queue {
                start: 4_096,
                ..full
            },
            Queue {
                start: 65_535,
                ..Queue::default()
            },
        ];
        for queue in broken {
            let waiting = queue.summed(p) as u16;
            let queue = Queue { waiting, ..queue };
            assert_eq!(queue.check(p), refused(17));
            for id in 0..QUEUES {
                let mut sender = Sender::default();
                sender.queues[id] = queue;
                assert_eq!(sender.check(p), refused(17));
            }
        }
        let mut sender = Sender {
            turn: 2,
            indexes: [7; 4],
            ..Sender::default()
        };
        assert_eq!(sender.check(p), Ok(()));
        sender.turn = 3;
        assert_eq!(sender.check(p), refused(17));
        for id in 0..IDS {
            let mut sender = Sender::default();
            sender.indexes[id] = 8;
            assert_eq!(sender.check(p), refused(17));
        }
    }

    #[test]
    fn order_of_refusals() {
        let mut settings = small(4, 2);
        let mut store = vec![3; STORE_BYTES];
        let (mut short, mut output) = (vec![3; STORE_BYTES - 1], [9; 13]);
        let mut sender = Sender::default();
        let long = vec![0; LONGEST_INPUT + 1];
        assert_eq!(sender.load(&settings, &mut short, 3, &[]), refused(1));
        assert_eq!(sender.load(&settings, &mut store, 3, &long), refused(1));
        assert_eq!(sender.frame(&settings, &mut short, &mut []), refused(1));
        assert_eq!(sender.frame(&settings, &mut store, &mut output), refused(1));
        assert_eq!(sender, Sender::default());
        sender.turn = 3;
        assert_eq!(sender.load(&settings, &mut short, 3, &long), refused(17));
        assert_eq!(sender.frame(&settings, &mut short, &mut []), refused(17));
        settings.p = 0;
        assert_eq!(sender.load(&settings, &mut short, 3, &long), refused(13));
        assert_eq!(sender.frame(&settings, &mut short, &mut []), refused(13));
        assert!(store.iter().all(|byte| *byte == 3) && output == [9; 13]);
    }

    /// From a fresh state no 17 arises, and the packets of each id, put together, are its units.
    #[test]
    fn units_come_back() {
        let mut random = Random::new(1);
        for _ in 0..60 {
            let settings = Settings {
                shares: [random.below(3), random.below(3), random.below(3)],
                ceilings: [2 + random.below(5), 2 + random.below(5), 6],
                ..small(1 + random.below(9), 6)
            };
            let mut run = Sending::new(Sender::default(), vec![5; STORE_BYTES]);
            let mut loaded: [Vec<u8>; 3] = Default::default();
            let mut received: [Vec<u8>; 3] = Default::default();
            for _ in 0..200 {
                let length = 1 + random.below(40) as usize;
                let (id, unit) = (random.below(3) as usize, random.bytes(length));
                match run.load(&settings, id as u64, &unit) {
                    Ok(()) => loaded[id].extend(unit),
                    Err(refusal) => assert_eq!(refusal.number, 15),
                }
                let size = settings.p as usize + FRAMING;
                let mut output = vec![0; 6 * size];
                let out = run.frame(&settings, &mut output).unwrap();
                assert_eq!(out.packets.iter().sum::<u64>() + out.filler, 6);
                for bytes in output.chunks(size) {
                    let packet = packet::read(settings.p, bytes).unwrap();
                    match packet.header.id {
                        3 => assert!(packet.useful.is_empty()),
                        id => received[usize::from(id)].extend(packet.useful),
                    }
                }
            }
            for (id, received) in received.iter_mut().enumerate() {
                let queue = run.sender.queues[id];
                let mut ring = run.store[QUEUE_BYTES * id..][..QUEUE_BYTES].to_vec();
                ring.rotate_left(usize::from(queue.start));
                received.extend(&ring[..queue.unsent()]);
            }
            assert_eq!(loaded, received);
            assert_eq!(run.added().differences, [""; 0]);
        }
    }
}
