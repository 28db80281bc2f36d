//! The receiver of the shared stream: four ids, one packet a call (document 01, "Packets, queues and
//! receiver"; "Numbers given back": 17; document 02, E5: the bytes dropped).

use crate::packet::{self, Packet};
use crate::refusal::{refuse, Refusal};
use crate::sender::IDS;

/// The buffer's bytes for each id, and the longest unit.
pub const ID_BYTES: usize = 4_096;
/// The buffer's bytes.
pub const BUFFER_BYTES: usize = IDS * ID_BYTES;

const HIGHEST_INDEX: u8 = 7;

/// What is known of one id, as it is handed in: any content. A flag is 0 or not.
#[derive(Debug, Clone, Copy, Default, PartialEq, Eq)]
pub struct Link {
    /// Whether there was a packet of this id.
    pub heard: u8,
    /// The continuity index of the next packet; of no meaning where there was none yet.
    pub index: u8,
    /// Whether a unit has begun and not ended.
    pub open: u8,
    /// Bytes of the open unit; of no meaning where none is open.
    pub length: u16,
}

impl Link {
    fn check(&self) -> Result<(), Refusal> {
        refuse(17, self.index > HIGHEST_INDEX)?;
        refuse(17, self.open != 0 && usize::from(self.length) > ID_BYTES)
    }

    /// No unit is open any more; the bytes of the one that was, 0 where there was none.
    fn close(&mut self) -> usize {
        let bytes = match self.open {
            0 => 0,
            _ => usize::from(self.length),
        };
        (self.open, self.length) = (0, 0);
        bytes
    }

    /// Takes an accepted packet of this id in; the buffer is the id's part. What is dropped is counted
    /// where document 01's paragraph drops it; behind a break no unit is open, so none counts twice.
    fn take(&mut self, packet: &Packet, buffer: &mut [u8]) -> Heard {
        let header = packet.header;
        let expected = self.heard == 0 || header.index == self.index;
        (self.heard, self.index) = (1, (header.index + 1) % (HIGHEST_INDEX + 1));
        let mut heard = Heard::default();
        if self.open == 0 || !expected {
            heard.dropped += self.close();
        }
        if is_null(packet) {
            return heard;
        }
        if header.first {
            heard.dropped += self.close();
            self.open = 1;
        }
        if self.open == 0 {
            return heard;
        }
        let begin = usize::from(self.length);
        let end = begin + packet.useful.len();
        if end > ID_BYTES {
            heard.dropped += self.close() + packet.useful.len();
            return heard;
        }
        buffer[begin..end].copy_from_slice(&packet.useful);
        self.length = end as u16;
        if header.last {
            let (id, length) = (usize::from(header.id), self.close());
            heard.ended = Some(Delivered { id, length });
        }
        heard
    }
}

/// Padded, count 0, both flags, on any id.
pub fn is_null(packet: &Packet) -> bool {
    packet.padded && packet.useful.is_empty() && packet.header.first && packet.header.last
}

/// A unit that has ended: its bytes stand at the front of its id's part of the buffer.
#[derive(Debug, Clone, Copy, PartialEq, Eq)]
pub struct Delivered {
    pub id: usize,
    pub length: usize,
}

impl Delivered {
    pub fn unit<'a>(&self, buffer: &'a [u8]) -> &'a [u8] {
        let begin = ID_BYTES * self.id;
        &buffer[begin..begin + self.length]
    }
}

/// What an accepted packet does.
#[derive(Debug, Clone, Copy, Default, PartialEq, Eq)]
pub struct Heard {
    /// The unit that it ends.
    pub ended: Option<Delivered>,
    /// Bytes of the open unit that it drops: by an index break, as a new first packet or, with all of its
    /// own useful bytes, by overlength.
    pub dropped: usize,
}

/// The record of the four ids as it is handed in: any content.
#[derive(Debug, Clone, Copy, Default, PartialEq, Eq)]
pub struct Receiver {
    pub links: [Link; IDS],
}

impl Receiver {
    /// Takes one packet in, and tells which unit it ends and what it drops.
    pub fn step(&mut self, p: u64, buffer: &mut [u8], bytes: &[u8]) -> Result<Heard, Refusal> {
        packet::check_p(p)?;
        for link in &self.links {
            link.check()?;
        }
        refuse(1, buffer.len() != BUFFER_BYTES)?;
        let packet = packet::read(p, bytes)?; // 1, 16
        let id = usize::from(packet.header.id);
        let part = &mut buffer[ID_BYTES * id..ID_BYTES * (id + 1)];
        Ok(self.links[id].take(&packet, part))
    }
}

#[cfg(test)]
mod tests {
    use super::*;
    use crate::packet::{Header, FRAMING};
    use crate::random::Random;
    use crate::runs::{Hearing, Sending};
    use crate::sender::Settings;
    use std::collections::VecDeque;

    fn refused<T>(number: u8) -> Result<T, Refusal> {
        Err(Refusal::number(number))
    }

    fn header(flags: u8, id: u8, index: u8) -> Header {
        Header {
            first: flags & 2 != 0,
            last: flags & 1 != 0,
            id,
            index,
        }
    }

    const FIRST: u8 = 2;
    const MIDDLE: u8 = 0;
    const LAST: u8 = 1;
    const BOTH: u8 = 3;

    /// A run whose packets are all accepted, and which adds up after each.
    struct Run {
        hearing: Hearing,
    }

    impl Run {
        fn new() -> Run {
            Run::of(Receiver::default())
        }

        fn of(receiver: Receiver) -> Run {
            Run {
                hearing: Hearing::new(receiver, vec![0xEE; BUFFER_BYTES]),
            }
        }

        /// With this link of one id, and the others fresh.
        fn at(id: usize, link: Link) -> Run {
            let mut receiver = Receiver::default();
            receiver.links[id] = link;
            Run::of(receiver)
        }

        /// A packet with p = 4: the unit's bytes where one ends.
        fn take(&mut self, flags: u8, id: u8, index: u8, useful: &[u8]) -> Option<Vec<u8>> {
            let mut bytes = [0; 7];
            packet::write(4, header(flags, id, index), useful, &mut bytes).unwrap();
            self.step(&bytes).ended.map(|ended| {
                assert_eq!(ended.id, usize::from(id));
                ended.unit(&self.hearing.buffer).to_vec()
            })
        }

        /// A packet that is accepted.
        fn step(&mut self, bytes: &[u8]) -> Heard {
            let p = (bytes.len() - FRAMING) as u64;
            let heard = self.hearing.step(p, bytes).unwrap();
            assert_eq!(self.hearing.added().differences, [""; 0]);
            heard
        }

        fn link(&self, id: usize) -> (u8, u8, u8, u16) {
            let link = self.hearing.receiver.links[id];
            (link.heard, link.index, link.open, link.length)
        }
    }

    #[test]
    fn worked_packets() {
        let mut run = Run::new();
        let packets: [&[u8]; 4] = [
            &[0x90, 1, 2, 3, 4, 0xC5, 0x7A],
            &[0x59, 2, 5, 6, 0, 0xFF, 0x83],
            &[0x88, 0, 0, 0, 0, 0xCE, 0x0E],
            &[0x49, 0, 0, 0, 0, 0x57, 0xE7],
        ];
        let ended = packets.map(|bytes| run.step(bytes).ended);
        assert_eq!(ended[0], None);
        assert_eq!(ended[1], Some(Delivered { id: 1, length: 6 }));
        assert_eq!(ended[2], None);
        assert_eq!(ended[3], Some(Delivered { id: 0, length: 0 }));
        let front = &run.hearing.buffer[4_096..4_103];
        assert_eq!(front, [1, 2, 3, 4, 5, 6, 0xEE]);
        assert_eq!((run.link(0), run.link(1)), ((1, 2, 0, 0), (1, 2, 0, 0)));
        assert_eq!(run.link(2), (0, 0, 0, 0));
    }

    /// First contact takes any index, and a break drops the unit even where a packet goes on.
    #[test]
    fn breaks() {
        let mut run = Run::new();
        assert_eq!(run.take(FIRST, 2, 6, &[1, 2]), None);
        assert_eq!(run.take(MIDDLE, 2, 7, &[3, 4, 5, 6]), None);
        assert_eq!(run.link(2), (1, 0, 1, 6));
        assert_eq!(run.take(LAST, 2, 0, &[]), Some(vec![1, 2, 3, 4, 5, 6]));
        assert_eq!(run.take(FIRST, 2, 1, &[7]), None);
        assert_eq!(run.take(LAST, 2, 3, &[8]), None);
        assert_eq!(run.link(2), (1, 4, 0, 0));
        assert_eq!(run.take(LAST, 2, 4, &[8]), None);
        // A break and a first flag: the new unit stands.
        assert_eq!(run.take(FIRST, 2, 5, &[9]), None);
        assert_eq!(run.take(BOTH, 2, 1, &[10]), Some(vec![10]));
        // A repeated packet is a break.
        assert_eq!(run.take(FIRST, 2, 2, &[1]), None);
        assert_eq!(run.take(MIDDLE, 2, 3, &[2]), None);
        assert_eq!(run.take(MIDDLE, 2, 3, &[2]), None);
        assert_eq!(run.take(LAST, 2, 4, &[3]), None);
    }

    #[test]
    fn null_packets_leave_the_unit_open() {
        for id in 0..4 {
            let mut run = Run::new();
            assert_eq!(run.take(FIRST, id, 7, &[1, 2, 3, 4]), None);
            assert_eq!(run.take(BOTH, id, 0, &[]), None);
            assert_eq!(run.link(usize::from(id)), (1, 1, 1, 4));
            assert_eq!(run.take(LAST, id, 1, &[5]), Some(vec![1, 2, 3, 4, 5]));
            assert_eq!(run.take(FIRST, id, 2, &[1]), None);
            assert_eq!(run.take(BOTH, id, 4, &[]), None);
            assert_eq!(run.link(usize::from(id)), (1, 5, 0, 0));
            assert_eq!(run.take(LAST, id, 5, &[5]), None);
        }
    }

    #[test]
    fn eight_lost_packets_are_not_seen() {
        for lost in 1..=16 {
            let mut run = Run::new();
            assert_eq!(run.take(FIRST, 1, 3, &[1]), None);
            let found = run.take(LAST, 1, (4 + lost) % 8, &[2]);
            assert_eq!(found, (lost % 8 == 0).then(|| vec![1, 2]));
        }
    }

    /// Up to 4,096 bytes; one more and the unit is dropped, nothing written, and its end delivers nothing.
    #[test]
    fn the_longest_unit() {
        for (already, useful, length) in [
            (4_092, 4, Some(4_096)),
            (4_093, 4, None),
            (4_096, 0, Some(4_096)),
            (4_096, 1, None),
        ] {
            let link = Link {
                heard: 1,
                index: 5,
                open: 1,
                length: already,
            };
            let mut run = Run::at(3, link);
            let found = run.take(LAST, 3, 5, &[7; 4][..useful]);
            assert_eq!(found.map(|unit| unit.len()), length);
            let bytes = run.hearing.buffer.iter();
            let written = bytes.filter(|byte| **byte == 7).count();
            assert_eq!(written, length.map_or(0, |_| useful));
            assert_eq!(run.link(3), (1, 6, 0, 0));
            assert_eq!(run.take(LAST, 3, 6, &[7]), None);
        }
    }

    /// What a packet drops after a first packet of four bytes with index 0, all of id 0: the bytes dropped,
    /// the length delivered, and the length of the unit that is open after it.
    #[test]
    fn dropped_after_four_bytes() {
        let vectors: [(&[u8], usize, Option<usize>, Option<u16>); 7] = [
            // Index 2, last and not first: a break, and the packet is skipped.
            (&[0x4A, 1, 9, 0, 0, 0x51, 0x10], 4, None, None),
            // Index 2, first: counted once.
            (&[0x82, 9, 10, 11, 12, 0xA1, 0x60], 4, None, Some(4)),
            // Null, with index 1 and with index 2.
            (&[0xC9, 0, 0, 0, 0, 0x75, 0x37], 0, None, Some(4)),
            (&[0xCA, 0, 0, 0, 0, 0x9B, 0xE5], 4, None, None),
            // A unit of one packet, with index 1 and with index 2.
            (&[0xC9, 1, 7, 0, 0, 0x86, 0x13], 4, Some(1), None),
            (&[0xCA, 1, 7, 0, 0, 0x68, 0xC1], 4, Some(1), None),
            // Last, index 1.
            (&[0x49, 1, 7, 0, 0, 0xA4, 0xC3], 0, Some(5), None),
        ];
        for (packet, dropped, length, open) in vectors {
            let mut run = Run::new();
            let first = run.step(&[0x80, 1, 2, 3, 4, 0xC1, 0x20]);
            assert_eq!(first, Heard::default());
            let ended = length.map(|length| Delivered { id: 0, length });
            assert_eq!(run.step(packet), Heard { ended, dropped });
            let (_, _, flag, bytes) = run.link(0);
            assert_eq!((flag, bytes), (u8::from(open.is_some()), open.unwrap_or(0)));
        }
    }

    /// Overlength drops the open unit with all useful bytes of the packet; the packets of that unit which
    /// follow are skipped.
    #[test]
    fn dropped_by_overlength() {
        for (p, already, useful, flags, length, dropped) in [
            (7, 4_090, 7, MIDDLE, None, 4_097),
            (7, 4_090, 6, MIDDLE, None, 0),
            (7, 4_090, 6, LAST, Some(4_096), 0),
            (255, 4_096, 255, LAST, None, 4_351),
            (255, 4_096, 0, LAST, Some(4_096), 0),
            (255, 4_096, 0, MIDDLE, None, 0),
            // A first packet fits always.
            (255, 4_096, 255, FIRST, None, 4_096),
            (1, 4_096, 1, MIDDLE, None, 4_097),
        ] {
            let link = Link {
                heard: 1,
                index: 7,
                open: 1,
                length: already,
            };
            let mut run = Run::at(2, link);
            let mut bytes = vec![0; p + FRAMING];
            packet::write(p as u64, header(flags, 2, 7), &vec![7; useful], &mut bytes).unwrap();
            let ended = length.map(|length| Delivered { id: 2, length });
            assert_eq!(run.step(&bytes), Heard { ended, dropped });
            packet::write(p as u64, header(LAST, 2, 0), &[7], &mut bytes).unwrap();
            let open = dropped == 0 && flags == MIDDLE;
            let next = if open { 4_097 } else { 0 };
            assert_eq!(run.step(&bytes).dropped, next);
        }
    }

    /// The useful bytes of a history, 16, are those delivered, dropped, open and skipped, four each; none
    /// but the second packet drops, and its own four bytes are skipped.
    #[test]
    fn dropped_in_a_history() {
        let packets: [&[u8]; 6] = [
            &[0x80, 1, 2, 3, 4, 0xC1, 0x20],
            &[0x02, 5, 6, 7, 8, 0xBC, 0x0A],
            &[0x8B, 3, 1, 2, 3, 0xDA, 0x31],
            &[0x4C, 1, 4, 0, 0, 0xDE, 0xC4],
            &[0x90, 1, 2, 3, 4, 0xC5, 0x7A],
            &[0xD9, 0, 0, 0, 0, 0x71, 0x6D],
        ];
        let mut run = Run::new();
        let heard = packets.map(|bytes| run.step(bytes));
        assert_eq!(heard.map(|heard| heard.dropped), [0, 4, 0, 0, 0, 0]);
        assert_eq!(heard[3].ended, Some(Delivered { id: 0, length: 4 }));
        assert_eq!((run.link(0), run.link(1)), ((1, 5, 0, 0), (1, 2, 1, 4)));
    }

    /// First contact drops nothing by its index; a length is not looked at where no unit is open.
    #[test]
    fn dropped_at_first_contact() {
        for (heard, open, flags, useful, dropped) in [
            (0, 1, LAST, 1, 0),
            (0, 1, BOTH, 0, 0),
            (0, 1, BOTH, 1, 9),
            (0, 0, BOTH, 1, 0),
            (1, 0, BOTH, 1, 0),
            (1, 0, LAST, 1, 0),
            (1, 1, LAST, 1, 9),
        ] {
            let link = Link {
                heard,
                index: 3,
                open,
                length: 9,
            };
            let mut run = Run::at(1, link);
            let mut bytes = [0; 7];
            packet::write(4, header(flags, 1, 5), &[7; 4][..useful], &mut bytes).unwrap();
            assert_eq!(run.step(&bytes).dropped, dropped);
        }
    }

    /// What is handed in for an id that is not the packet's stays as it is.
    #[test]
    fn other_ids_stay() {
        let strange = Link {
            heard: 0,
            index: 3,
            open: 0,
            length: 65_535,
        };
        let links = [strange; 4];
        let mut run = Run::of(Receiver { links });
        assert_eq!(run.take(BOTH, 0, 2, &[]), None);
        assert_eq!(run.link(0), (1, 3, 0, 0));
        assert_eq!(run.hearing.receiver.links[1..], [strange; 3]);
        assert_eq!(run.hearing.buffer, [0xEE; BUFFER_BYTES]);
    }

    #[test]
    fn order_of_refusals() {
        let good = [0x90, 1, 2, 3, 4, 0xC5, 0x7A];
        let wrong = [0x90, 1, 2, 3, 4, 0xC5, 0x7B];
        let mut broken = Receiver::default();
        broken.links[3].index = 8;
        let tried = |receiver: Receiver, p, length, bytes: &[u8]| {
            let mut after = receiver;
            let mut buffer = vec![0xEE; length];
            let found = after.step(p, &mut buffer, bytes);
            assert_eq!((after, buffer), (receiver, vec![0xEE; length]));
            found
        };
        for p in [0, 256, (1 << 32) + 4, u64::MAX] {
            assert_eq!(tried(broken, p, 5, &wrong), refused(13));
        }
        assert_eq!(tried(broken, 4, 5, &wrong[1..]), refused(17));
        let fresh = Receiver::default();
        for length in [0, 16_383, 16_385] {
            assert_eq!(tried(fresh, 4, length, &wrong), refused(1));
        }
        assert_eq!(tried(fresh, 4, BUFFER_BYTES, &wrong[..6]), refused(1));
        assert_eq!(tried(fresh, 4, BUFFER_BYTES, &wrong), refused(16));
        assert!(Run::new().take(BOTH, 1, 0, &good[1..5]).is_some());
    }

    #[test]
    fn broken_records() {
        for id in 0..4 {
            for (heard, index, open, length, number) in [
                (1, 8, 0, 0, 17),
                (0, 8, 0, 0, 17),
                (0, 255, 1, 4_097, 17),
                (1, 0, 1, 4_097, 17),
                (0, 0, 1, 4_097, 17),
                (0, 0, 255, 65_535, 17),
                (1, 7, 1, 4_096, 0),
                (1, 7, 0, 4_097, 0),
                (0, 7, 1, 4_096, 0),
            ] {
                let mut receiver = Receiver::default();
                receiver.links[id] = Link {
                    heard,
                    index,
                    open,
                    length,
                };
                let null = [0xF8, 0, 0, 0, 0, 0xD3, 0x88];
                let found = receiver.step(4, &mut vec![0; BUFFER_BYTES], &null);
                assert_eq!(found.map_or_else(|refusal| refusal.number, |_| 0), number);
            }
        }
    }

    /// Every unit wholly sent comes back, per id in order, byte for byte, and nothing is dropped.
    #[test]
    fn from_sender_to_receiver() {
        let mut random = Random::new(1);
        let mut delivered = 0;
        for round in 0..60 {
            let packets = 1 + random.below(12);
            let settings = Settings {
                p: random.pick(&[1, 2, 3, 7, 20, 255]),
                packets,
                shares: [packets / 3; 3],
                ceilings: [packets, packets.div_ceil(2), packets],
            };
            settings.check().unwrap();
            let (mut sending, mut run) = (Sending::fresh(), Run::new());
            let mut loaded: [VecDeque<Vec<u8>>; 3] = Default::default();
            let bytes = settings.p as usize + FRAMING;
            for _ in 0..80 {
                let id = random.below(3) as usize;
                let length = random.pick(&[1, 5, 30, settings.p, 2 * settings.p, 700]);
                let unit = random.bytes(length as usize);
                if sending.load(&settings, id as u64, &unit).is_ok() {
                    loaded[id].push_back(unit);
                }
                let mut frame = vec![0; packets as usize * bytes];
                sending.frame(&settings, &mut frame).unwrap();
                for packet in frame.chunks(bytes) {
                    let heard = run.step(packet);
                    assert_eq!(heard.dropped, 0, "round {round}");
                    if let Some(ended) = heard.ended {
                        let unit = loaded[ended.id].pop_front().unwrap();
                        let arrived = ended.unit(&run.hearing.buffer);
                        assert_eq!(arrived, unit, "round {round}");
                        delivered += 1;
                    }
                }
            }
            assert_eq!(sending.added().differences, [""; 0]);
            for (queue, left) in sending.sender.queues.iter().zip(loaded) {
                assert_eq!(queue.units as usize, left.len());
            }
        }
        assert!(delivered > 1_000);
    }
}
