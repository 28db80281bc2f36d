//! The balance of bytes at a receiver (document 02, E11): over a run of packets the useful bytes of those that
//! are accepted are the bytes of the units delivered, of those dropped as E5 counts them, of those open at the
//! end, and of the packets skipped; for each id and for all together.
//!
//! The account goes by the packets. Of the receiver it takes only what is held against them: the lengths
//! delivered and the bytes dropped as they are reported, the record and the buffer.

use crate::packet::{self, Packet};
use crate::receiver::{is_null, Heard, Receiver, ID_BYTES};
use crate::refusal::Refusal;
use crate::sender::IDS;

/// The place of the sums over all ids, behind those of each.
const ALL: usize = IDS;

/// What the packets of one id say.
#[derive(Default)]
struct History {
    /// The continuity index that goes on from the last packet's; none before the first.
    next: Option<u8>,
    /// The bytes gathered of the open unit.
    open: Option<Vec<u8>>,
}

/// What becomes of one packet's useful bytes, other than being dropped or gathered.
#[derive(Default)]
struct Taken {
    skipped: usize,
    /// The unit that the packet ends, gathered from its packets.
    ended: Option<Vec<u8>>,
}

impl History {
    /// Document 01's order: the index, null, first flag, skipped, overlength, last flag.
    fn take(&mut self, packet: &Packet) -> Taken {
        let (header, mut taken) = (packet.header, Taken::default());
        let next = self.next.replace((header.index + 1) % 8);
        if next.is_some_and(|next| next != header.index) {
            self.open = None;
        }
        if is_null(packet) {
            return taken;
        }
        if header.first {
            self.open = Some(Vec::new());
        }
        let Some(unit) = &mut self.open else {
            taken.skipped = packet.useful.len();
            return taken;
        };
        unit.extend(&packet.useful);
        if unit.len() > ID_BYTES {
            self.open = None;
        } else if header.last {
            taken.ended = self.open.take();
        }
        taken
    }

    fn open_bytes(&self) -> usize {
        self.open.as_ref().map_or(0, Vec::len)
    }
}

/// In bytes, over the accepted packets so far.
#[derive(Debug, Clone, Copy, Default, PartialEq, Eq)]
struct Sums {
    /// Open before the run: none where the record was fresh.
    before: usize,
    useful: usize,
    delivered: usize,
    dropped: usize,
    skipped: usize,
}

/// The account of a run.
pub struct Balance {
    histories: [History; IDS],
    sums: [Sums; IDS + 1],
    /// Packets handed in, and those of them accepted.
    steps: u64,
    accepted: u64,
    /// All that is wrong after the first packet after which something is.
    differences: Vec<String>,
}

impl Balance {
    /// Before the first packet. The bytes of a unit that is open in the record stand in the buffer.
    pub fn new(receiver: &Receiver, buffer: &[u8]) -> Balance {
        let mut balance = Balance {
            histories: Default::default(),
            sums: Default::default(),
            steps: 0,
            accepted: 0,
            differences: Vec::new(),
        };
        for (id, link) in receiver.links.iter().enumerate() {
            let history = &mut balance.histories[id];
            history.next = (link.heard != 0).then_some(link.index);
            if link.open != 0 {
                let (begin, length) = (ID_BYTES * id, usize::from(link.length));
                // A buffer of another length has all packets refused.
                let unit = buffer.get(begin..begin + length);
                history.open = Some(unit.map_or_else(|| vec![0; length], <[u8]>::to_vec));
            }
            balance.sums[id].before = history.open_bytes();
            balance.sums[ALL].before += history.open_bytes();
        }
        balance
    }

    /// One step: the packet with its p, what came back, and the record and buffer as they are after it. A
    /// refused packet counts nowhere, and the record must still be that of the packets before it.
    pub fn step(
        &mut self,
        (p, bytes): (u64, &[u8]),
        done: &Result<Heard, Refusal>,
        receiver: &Receiver,
        buffer: &[u8],
    ) {
        if !self.differences.is_empty() {
            return;
        }
        self.steps += 1;
        match (done, packet::read(p, bytes)) {
            (Ok(heard), Ok(packet)) => self.take(&packet, heard, buffer),
            (Ok(_), Err(_)) => self.differ("accepted, but it is no packet"),
            (Err(_), _) => {}
        }
        self.hold_open(receiver);
        self.hold_sums();
    }

    fn take(&mut self, packet: &Packet, heard: &Heard, buffer: &[u8]) {
        self.accepted += 1;
        let id = usize::from(packet.header.id);
        let taken = self.histories[id].take(packet);
        for place in [id, ALL] {
            let sums = &mut self.sums[place];
            sums.useful += packet.useful.len();
            sums.delivered += heard.ended.map_or(0, |ended| ended.length);
            sums.dropped += heard.dropped;
            sums.skipped += taken.skipped;
        }
        let delivered = heard.ended.map(|ended| (ended.id, ended.length));
        let gathered = taken.ended.as_ref().map(|unit| (id, unit.len()));
        if delivered != gathered {
            self.differ(&format!(
                "delivered {delivered:?}, but its packets gather {gathered:?} (id, length)"
            ));
        } else if heard.ended.map(|ended| ended.unit(buffer)) != taken.ended.as_deref() {
            self.differ("the unit delivered has other bytes than its packets");
        }
    }

    /// The record's length is a stored sum: it must be that of the gathered bytes.
    fn hold_open(&mut self, receiver: &Receiver) {
        for (id, link) in receiver.links.iter().enumerate() {
            let stored = (link.open != 0).then_some(usize::from(link.length));
            let gathered = self.histories[id].open.as_ref().map(Vec::len);
            if stored != gathered {
                self.differ(&format!(
                    "id {id}: open in the record {stored:?}, gathered {gathered:?}"
                ));
            }
        }
    }

    fn hold_sums(&mut self) {
        let mut open = [0; IDS + 1];
        for (id, history) in self.histories.iter().enumerate() {
            open[id] = history.open_bytes();
            open[ALL] += history.open_bytes();
        }
        for (place, open) in open.into_iter().enumerate() {
            let sums = self.sums[place];
            let gone = sums.delivered + sums.dropped + open + sums.skipped;
            if sums.useful + sums.before != gone {
                let whose = match place {
                    ALL => "all ids".to_string(),
                    id => format!("id {id}"),
                };
                self.differ(&format!("{whose}: no balance, open {open}, {sums:?}"));
            }
        }
    }

    fn differ(&mut self, what: &str) {
        let step = self.steps;
        self.differences.push(format!("packet {step}: {what}"));
    }

    /// How many packets were accepted.
    pub fn accepted(&self) -> u64 {
        self.accepted
    }

    pub fn differences(&self) -> &[String] {
        &self.differences
    }
}

#[cfg(test)]
mod tests {
    use super::*;
    use crate::crc::crc16;
    use crate::packet::{Header, FRAMING};
    use crate::random::Random;
    use crate::receiver::{Link, BUFFER_BYTES};

    /// What a run's packets are given to, and the account of it.
    struct Run {
        receiver: Receiver,
        buffer: Vec<u8>,
        balance: Balance,
    }

    impl Run {
        fn from(receiver: Receiver, buffer: Vec<u8>) -> Run {
            let balance = Balance::new(&receiver, &buffer);
            Run {
                receiver,
                buffer,
                balance,
            }
        }

        fn fresh() -> Run {
            Run::from(Receiver::default(), vec![0; BUFFER_BYTES])
        }

        /// A step as it is, but for what `wrong` makes of it before the account sees it.
        fn step(&mut self, p: u64, bytes: &[u8], wrong: Wrong) {
            let before = self.receiver;
            let done = self.receiver.step(p, &mut self.buffer, bytes);
            let mut told = Told {
                heard: done.unwrap_or_default(),
                receiver: self.receiver,
            };
            if let (Ok(_), Ok(packet)) = (&done, packet::read(p, bytes)) {
                let link = before.links[usize::from(packet.header.id)];
                wrong(&mut told, link, &packet);
            }
            let done = done.map(|_| told.heard);
            self.balance
                .step((p, bytes), &done, &told.receiver, &self.buffer);
        }

        /// A step with a buffer of another length, which is refused.
        fn refused_step(&mut self, p: u64, bytes: &[u8], length: usize) {
            let mut buffer = vec![0; length];
            let done = self.receiver.step(p, &mut buffer, bytes);
            assert!(done.is_err());
            self.balance
                .step((p, bytes), &done, &self.receiver, &buffer);
        }
    }

    /// What a step reports, and the record that it leaves.
    struct Told {
        heard: Heard,
        receiver: Receiver,
    }

    /// Another rule: what it makes of a step's report, by the link of the packet's id before the step.
    type Wrong = fn(&mut Told, Link, &Packet);

    const AS_IT_IS: Wrong = |_, _, _| {};

    fn written(p: u64, header: Header, useful: &[u8]) -> Vec<u8> {
        let mut bytes = vec![0; p as usize + FRAMING];
        packet::write(p, header, useful, &mut bytes).unwrap();
        bytes
    }

    /// Packets on their way to a receiver, with a temper that changes now and then.
    struct Storm {
        random: Random,
        p: u64,
        /// One in so many packets begins or ends a unit, or does both.
        ends: u64,
        /// Before one in so many others are lost.
        losses: u64,
        indexes: [u8; IDS],
        last: Vec<u8>,
    }

    impl Storm {
        fn new(seed: u64) -> Storm {
            let mut random = Random::new(seed);
            let indexes = [0; IDS].map(|_| random.below(8) as u8);
            Storm {
                random,
                p: 4,
                ends: 3,
                losses: 10,
                indexes,
                last: Vec::new(),
            }
        }

        /// The next packet with its p: repeated, behind a loss, null, or in order.
        fn packet(&mut self) -> (u64, Vec<u8>) {
            let random = &mut self.random;
            if random.one_in(150) {
                self.p = random.pick(&[1, 4, 7, 60, 254, 255, 255]);
                self.ends = random.pick(&[3, 8, 60, 60]);
                self.losses = random.pick(&[10, 30, 300, 300]);
            }
            if random.one_in(2 * self.losses) && !self.last.is_empty() {
                return (self.last.len() as u64 - FRAMING as u64, self.last.clone());
            }
            let id = random.pick(&[0, 1, 1, 2, 2, 2, 3]);
            if random.one_in(self.losses) {
                self.indexes[id] = random.below(8) as u8;
            }
            let index = self.indexes[id];
            self.indexes[id] = (index + 1) % 8;
            let flags = match random.one_in(self.ends) {
                true => random.pick(&[1, 1, 2, 3]),
                false => 0,
            };
            let header = Header {
                first: flags & 1 != 0,
                last: flags & 2 != 0,
                id: id as u8,
                index,
            };
            let count = random.below(self.p + 1);
            let length = random.pick(&[self.p, self.p, self.p, count, 0]);
            let useful = random.bytes(length as usize);
            self.last = written(self.p, header, &useful);
            (self.p, self.last.clone())
        }

        /// A packet that is refused: a wrong check word, another length, a count too high, or no p.
        fn refused(&mut self) -> (u64, Vec<u8>) {
            let (p, mut bytes) = self.packet();
            let random = &mut self.random;
            match random.below(4) {
                0 => bytes[random.below(p + 3) as usize] ^= 1 << random.below(8),
                1 => bytes.truncate(random.below(p + 3) as usize),
                2 => {
                    bytes[0] |= 8;
                    bytes[1] = p as u8;
                    let check_word = crc16(&bytes[..=p as usize]).to_be_bytes();
                    bytes[1 + p as usize..].copy_from_slice(&check_word);
                }
                _ => return (random.pick(&[0, 256, u64::MAX]), bytes),
            }
            (p, bytes)
        }

        /// So many packets to this run, refused ones and wrong buffers among them, unless something is found.
        fn play(&mut self, run: &mut Run, packets: usize, wrong: Wrong) {
            for _ in 0..packets {
                if !run.balance.differences().is_empty() {
                    return;
                }
                match self.random.below(12) {
                    0 => {
                        let (p, bytes) = self.refused();
                        run.step(p, &bytes, wrong);
                    }
                    1 => {
                        let (p, bytes) = self.packet();
                        let length = self.random.pick(&[0, 4_096, 16_383, 16_385]);
                        run.refused_step(p, &bytes, length);
                        run.step(p, &bytes, wrong);
                    }
                    _ => {
                        let (p, bytes) = self.packet();
                        run.step(p, &bytes, wrong);
                    }
                }
            }
        }
    }

    /// The packets that the documents work out: useful 16; delivered, dropped, open and skipped 4 each.
    #[test]
    fn the_worked_history() {
        let packets: [&[u8]; 6] = [
            &[0x80, 1, 2, 3, 4, 0xC1, 0x20],
            &[0x02, 5, 6, 7, 8, 0xBC, 0x0A],
            &[0x8B, 3, 1, 2, 3, 0xDA, 0x31],
            &[0x4C, 1, 4, 0, 0, 0xDE, 0xC4],
            &[0x90, 1, 2, 3, 4, 0xC5, 0x7A],
            &[0xD9, 0, 0, 0, 0, 0x71, 0x6D],
        ];
        let mut run = Run::fresh();
        for packet in packets {
            run.step(4, packet, AS_IT_IS);
        }
        let all = Sums {
            before: 0,
            useful: 16,
            delivered: 4,
            dropped: 4,
            skipped: 4,
        };
        assert_eq!(run.balance.sums[ALL], all);
        assert_eq!(run.balance.sums[0], Sums { useful: 12, ..all });
        assert_eq!(run.balance.histories[1].open, Some(vec![1, 2, 3, 4]));
        assert_eq!(run.balance.differences(), [""; 0]);
    }

    /// A null packet adds to nothing; with a broken index it moves the open bytes to those dropped.
    #[test]
    fn null_packets_carry_none() {
        for (index, dropped) in [(1, 0), (2, 3)] {
            let mut run = Run::fresh();
            let header = |last, index| Header {
                first: true,
                last,
                id: 3,
                index,
            };
            run.step(4, &written(4, header(false, 0), &[7; 3]), AS_IT_IS);
            run.step(4, &written(4, header(true, index), &[]), AS_IT_IS);
            let sums = Sums {
                useful: 3,
                dropped,
                ..Sums::default()
            };
            assert_eq!((run.balance.sums[3], run.balance.sums[ALL]), (sums, sums));
            assert_eq!(run.balance.histories[3].open_bytes(), 3 - dropped);
            assert_eq!(run.balance.differences(), [""; 0]);
        }
    }

    /// Long storms from a fresh record; in all of them together there is much of everything.
    #[test]
    fn storms_balance() {
        let (mut all, mut open, mut packets) = (Sums::default(), 0, 0);
        for seed in 0..200 {
            let mut run = Run::fresh();
            Storm::new(seed).play(&mut run, 1_000, AS_IT_IS);
            assert_eq!(run.balance.differences(), [""; 0], "seed {seed}");
            let sums = run.balance.sums[ALL];
            all.useful += sums.useful;
            all.delivered += sums.delivered;
            all.dropped += sums.dropped;
            all.skipped += sums.skipped;
            let histories = run.balance.histories.iter();
            open += histories.map(History::open_bytes).sum::<usize>();
            packets += run.balance.accepted();
        }
        assert_eq!(all.useful, all.delivered + all.dropped + open + all.skipped);
        assert!(packets > 150_000, "{packets}");
        let least = all.delivered.min(all.dropped).min(all.skipped);
        assert!(
            least > 500_000 && open > 50_000,
            "{all:?}, {open} open, {packets}"
        );
    }

    /// From a record with units open, long ones among them, whose bytes stand in the buffer.
    #[test]
    fn storms_balance_from_any_record() {
        for seed in 0..200 {
            let mut storm = Storm::new(seed);
            let (indexes, random) = (storm.indexes, &mut storm.random);
            let links = [0, 1, 2, 3].map(|id| Link {
                heard: random.pick(&[0, 1, 255]),
                index: indexes[id],
                open: random.pick(&[0, 1, 255]),
                length: random.pick(&[0, 1, 2_000, 4_095, 4_096]),
            });
            let buffer = random.bytes(BUFFER_BYTES);
            let mut run = Run::from(Receiver { links }, buffer);
            storm.play(&mut run, 100, AS_IT_IS);
            assert_eq!(run.balance.differences(), [""; 0], "seed {seed}");
        }
    }

    /// A record that is 17 has every packet refused, and nothing moves.
    #[test]
    fn a_broken_record() {
        let mut receiver = Receiver::default();
        receiver.links[2] = Link {
            heard: 1,
            index: 0,
            open: 1,
            length: 65_535,
        };
        let mut run = Run::from(receiver, vec![0; BUFFER_BYTES]);
        Storm::new(1).play(&mut run, 50, AS_IT_IS);
        assert_eq!(run.balance.differences(), [""; 0]);
        assert_eq!(run.balance.accepted(), 0);
    }

    fn is_overlong(link: Link, packet: &Packet) -> bool {
        let open = usize::from(link.length);
        link.open != 0 && !packet.header.first && open + packet.useful.len() > ID_BYTES
    }

    fn is_broken(link: Link, packet: &Packet) -> bool {
        link.heard != 0 && link.index != packet.header.index
    }

    /// Rules that are wrong, and in whose words each is reported at least.
    const WRONG: [(&str, &str, Wrong); 8] = [
        (
            "skipped bytes are dropped ones",
            "balance",
            |told, link, packet| {
                let skipped = !packet.header.first && (link.open == 0 || is_broken(link, packet));
                told.heard.dropped += if skipped { packet.useful.len() } else { 0 };
            },
        ),
        ("the excess only", "balance", |told, link, packet| {
            if told.heard.dropped > ID_BYTES && is_overlong(link, packet) {
                told.heard.dropped -= ID_BYTES;
            }
        }),
        (
            "the packet too long left out",
            "balance",
            |told, link, packet| {
                if told.heard.dropped > ID_BYTES && is_overlong(link, packet) {
                    told.heard.dropped -= packet.useful.len();
                }
            },
        ),
        (
            "a break and a first flag count twice",
            "balance",
            |told, link, packet| {
                if is_broken(link, packet) && packet.header.first {
                    told.heard.dropped *= 2;
                }
            },
        ),
        (
            "a null packet drops nothing",
            "balance",
            |told, _, packet| {
                told.heard.dropped *= usize::from(!is_null(packet));
            },
        ),
        (
            "nothing is open after a null packet",
            "open in the record",
            |told, _, packet| {
                if is_null(packet) {
                    told.receiver.links[usize::from(packet.header.id)].length = 0;
                }
            },
        ),
        (
            "the last packet is not delivered",
            "balance",
            |told, _, packet| {
                if let Some(ended) = &mut told.heard.ended {
                    ended.length -= packet.useful.len();
                }
            },
        ),
        (
            "a unit is delivered for another id",
            "delivered",
            |told, _, _| {
                if let Some(ended) = &mut told.heard.ended {
                    ended.id = (ended.id + 1) % IDS;
                }
            },
        ),
    ];

    /// Each is found in most storms, in its words.
    #[test]
    fn wrong_rules_are_found() {
        for (name, words, wrong) in WRONG {
            let found = |seed: &u64| {
                let mut run = Run::fresh();
                Storm::new(*seed).play(&mut run, 5_000, wrong);
                let mut differences = run.balance.differences().iter();
                differences.any(|what| what.contains(words))
            };
            let storms = (0..20).filter(found).count();
            assert!(storms > 10, "{name}: {storms}");
        }
    }

    /// A unit whose bytes in the buffer are not those of its packets.
    #[test]
    fn wrong_bytes_are_found() {
        let mut run = Run::fresh();
        let header = |first, index| Header {
            first,
            last: !first,
            id: 0,
            index,
        };
        run.step(4, &written(4, header(true, 0), &[1, 2]), AS_IT_IS);
        run.buffer[1] ^= 1;
        run.step(4, &written(4, header(false, 1), &[3]), AS_IT_IS);
        let found = "packet 2: the unit delivered has other bytes than its packets";
        assert_eq!(run.balance.differences(), [found]);
    }

    /// A receiver that takes what is no packet.
    #[test]
    fn no_packet_is_accepted() {
        let mut balance = Run::fresh().balance;
        let done = Ok(Heard::default());
        balance.step((4, &[0; 7]), &done, &Receiver::default(), &[]);
        assert_eq!(
            balance.differences(),
            ["packet 1: accepted, but it is no packet"]
        );
    }
}
