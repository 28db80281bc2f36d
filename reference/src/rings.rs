//! Queues as rings over a run (document 02, E9): each call gives the number, the counts and the output that it gives
//! in the layout before (`fronts`), and leaves the same state but for the starts, and the same unsent bytes. A
//! frame leaves the store, a load changes only the places of its unit, and a start moves on by the bytes that a
//! frame takes. A start past its ring has no counterpart in the layout before: it is refused.
//!
//! The account goes by whole rings, turned so that the start comes first.

use crate::fronts::Fronts;
use crate::refusal::Refusal;
use crate::sender::{HandOut, Sender, Settings, QUEUES, QUEUE_BYTES, STORE_BYTES};
use std::fmt::Debug;

/// A state with its store.
#[derive(Clone, Copy)]
pub struct Desk<'a> {
    sender: &'a Sender,
    store: &'a [u8],
}

impl<'a> Desk<'a> {
    pub fn of(sender: &'a Sender, store: &'a [u8]) -> Desk<'a> {
        Desk { sender, store }
    }

    /// Unsent bytes of a queue; one that has more than its ring is refused.
    fn unsent(&self, id: usize) -> usize {
        self.sender.queues[id].unsent().min(QUEUE_BYTES)
    }

    /// The queue's ring from its start on; no start is past it, and the store is as long as it has to be.
    fn turned(&self, id: usize) -> Vec<u8> {
        let start = usize::from(self.sender.queues[id].start);
        let (behind, first) = self.store[QUEUE_BYTES * id..][..QUEUE_BYTES].split_at(start);
        [first, behind].concat()
    }

    /// The same in the layout before; none where a start is past its ring. The bytes that are not unsent are others,
    /// since nothing may come of them.
    fn unrolled(&self) -> Option<Fronts> {
        let mut queues = self.sender.queues.iter();
        if queues.any(|queue| usize::from(queue.start) >= QUEUE_BYTES) {
            return None;
        }
        let mut store = self.store.to_vec();
        if store.len() == STORE_BYTES {
            for id in 0..QUEUES {
                let part = &mut store[QUEUE_BYTES * id..][..QUEUE_BYTES];
                part.copy_from_slice(&self.turned(id));
                for byte in &mut part[self.unsent(id)..] {
                    *byte = !*byte;
                }
            }
        }
        let sender = without_starts(self.sender);
        Some(Fronts { sender, store })
    }
}

fn without_starts(sender: &Sender) -> Sender {
    let mut sender = *sender;
    sender.queues.iter_mut().for_each(|queue| queue.start = 0);
    sender
}

/// A call at a sender: its settings, and the desks before and after it.
pub struct Change<'a> {
    pub settings: &'a Settings,
    pub before: Desk<'a>,
    pub after: Desk<'a>,
}

/// What is wrong in a queue after a call: its start, by the bytes taken, or the bytes that are unsent.
fn fault(change: &Change, fronts: &Fronts, id: usize) -> Option<String> {
    let Change { before, after, .. } = change;
    let unsent = after.unsent(id);
    let taken = before.unsent(id).saturating_sub(unsent);
    let [from, to] = [before, after].map(|desk| desk.sender.queues[id].start);
    if usize::from(to) != (usize::from(from) + taken) % QUEUE_BYTES {
        return Some(format!(
            "queue {id}: {taken} bytes taken, the start goes from {from} to {to}"
        ));
    }
    // Where the store has another length every call is refused.
    let same = after.store.len() != STORE_BYTES
        || fronts.store[QUEUE_BYTES * id..][..unsent] == after.turned(id)[..unsent];
    (!same).then(|| format!("queue {id}: other bytes are unsent"))
}

/// The account of a run.
pub struct Rings {
    /// The same run in the layout before; none where a start is past its ring.
    fronts: Option<Fronts>,
    /// Calls so far, and those played in both layouts.
    calls: u64,
    both: u64,
    /// All that is wrong after the first call after which something is.
    differences: Vec<String>,
}

impl Rings {
    pub fn new(desk: Desk) -> Rings {
        Rings {
            fronts: desk.unrolled(),
            calls: 0,
            both: 0,
            differences: Vec::new(),
        }
    }

    /// The run's next call, a load.
    pub fn load(&mut self, change: &Change, id: u64, unit: &[u8], done: Result<(), Refusal>) {
        if !self.begin() {
            return;
        }
        let Some(fronts) = &mut self.fronts else {
            self.hold_past(change, done.err());
            return;
        };
        let old = fronts.load(change.settings, id, unit);
        self.hold_answer(&done, &old);
        match done {
            Ok(()) => self.hold_places(change, id as usize, unit),
            Err(_) => self.hold_store(change),
        }
        self.hold_desk(change);
    }

    /// The run's next call, a frame, with the output before and after it.
    pub fn frame(
        &mut self,
        change: &Change,
        [before, after]: [&[u8]; 2],
        done: &Result<HandOut, Refusal>,
    ) {
        if !self.begin() {
            return;
        }
        let mut output = before.to_vec();
        let Some(fronts) = &mut self.fronts else {
            self.hold_past(change, done.as_ref().err().copied());
            self.hold_output(&output, after);
            return;
        };
        let old = fronts.frame(change.settings, &mut output);
        self.hold_answer(done, &old);
        self.hold_output(&output, after);
        self.hold_store(change);
        self.hold_desk(change);
    }

    /// Whether the call is looked at.
    fn begin(&mut self) -> bool {
        let well = self.differences.is_empty();
        self.calls += u64::from(well);
        self.both += u64::from(well && self.fronts.is_some());
        well
    }

    fn hold_answer<T: PartialEq + Debug>(&mut self, done: &T, old: &T) {
        if done != old {
            self.differ(&format!("{done:?}, in the layout before {old:?}"));
        }
    }

    /// Of a state with a start past its ring.
    fn hold_past(&mut self, change: &Change, refusal: Option<Refusal>) {
        let number = if change.settings.check().is_err() {
            13
        } else {
            17
        };
        if refusal != Some(Refusal::number(number)) {
            self.differ(&format!("a start past its ring, and not {number}"));
        }
        self.hold_store(change);
    }

    fn hold_output(&mut self, expected: &[u8], after: &[u8]) {
        if expected != after {
            self.differ("another output");
        }
    }

    fn hold_store(&mut self, change: &Change) {
        if change.before.store != change.after.store {
            self.differ("the store has changed");
        }
    }

    /// After an accepted load: the unit's bytes from the end of the unsent ones on, all other bytes as they were.
    fn hold_places(&mut self, Change { before, after, .. }: &Change, id: usize, unit: &[u8]) {
        let mut ring = before.turned(id);
        ring[before.unsent(id)..][..unit.len()].copy_from_slice(unit);
        ring.rotate_right(usize::from(before.sender.queues[id].start));
        let mut store = before.store.to_vec();
        store[QUEUE_BYTES * id..][..QUEUE_BYTES].copy_from_slice(&ring);
        if store != after.store {
            self.differ("the store is not as it was but for the unit");
        }
    }

    fn hold_desk(&mut self, change: &Change) {
        let Some(fronts) = &self.fronts else {
            return;
        };
        let mut wrong = Vec::new();
        if without_starts(change.after.sender) != fronts.sender {
            wrong.push("another state than in the layout before".to_string());
        }
        wrong.extend((0..QUEUES).filter_map(|id| fault(change, fronts, id)));
        wrong.iter().for_each(|what| self.differ(what));
    }

    fn differ(&mut self, what: &str) {
        let call = self.calls;
        self.differences.push(format!("call {call}: {what}"));
    }

    /// Calls that were played in both layouts.
    pub fn both(&self) -> u64 {
        self.both
    }

    pub fn differences(&self) -> &[String] {
        &self.differences
    }
}

#[cfg(test)]
mod tests {
    use super::*;
    use crate::random::Random;
    use crate::runs::Sending;

    fn settings(p: u64, packets: u64, shares: [u64; 3]) -> Settings {
        Settings {
            p,
            packets,
            shares,
            ceilings: [packets; 3],
        }
    }

    /// Empty queues with this start.
    fn started(start: u16) -> Sender {
        let mut sender = Sender::default();
        let queues = sender.queues.iter_mut();
        queues.for_each(|queue| queue.start = start);
        sender
    }

    /// Ten bytes that go round the end, in three packets, the second of which does.
    #[test]
    fn a_unit_round_the_end() {
        let unit: Vec<u8> = (1..=10).collect();
        for id in 0..QUEUES {
            let mut shares = [0; 3];
            shares[id] = 3;
            let settings = settings(4, 3, shares);
            let mut run = Sending::new(started(4_090), vec![0xEE; STORE_BYTES]);
            assert_eq!(run.load(&settings, id as u64, &unit), Ok(()));
            let mut store = vec![0xEE; STORE_BYTES];
            let front = QUEUE_BYTES * id;
            store[front + 4_090..front + 4_096].copy_from_slice(&unit[..6]);
            store[front..front + 4].copy_from_slice(&unit[6..]);
            assert_eq!((run.sender.queues[id].start, &run.store), (4_090, &store));
            let mut output = [0; 21];
            assert!(run.frame(&settings, &mut output).is_ok());
            let expected = [
                0x80, 1, 2, 3, 4, 0xC1, 0x20, // first
                0x01, 5, 6, 7, 8, 0x52, 0xD8, // over the end
                0x4A, 2, 9, 10, 0, 0x25, 0x07, // last
            ];
            assert!(id > 0 || output == expected);
            let [first, second] = [(id + 1) % QUEUES, (id + 2) % QUEUES];
            let starts = run.sender.queues.map(|queue| queue.start);
            assert_eq!(
                [starts[id], starts[first], starts[second]],
                [4, 4_090, 4_090]
            );
            assert_eq!(run.store, store);
            assert_eq!(run.added().differences, [""; 0]);
        }
    }

    /// A frame of 12 packets after each load; the start goes round twice, and stays where the queue empties.
    #[test]
    fn a_worked_run() {
        let settings = Settings {
            ceilings: [12, 1, 1],
            ..settings(255, 12, [12, 0, 0])
        };
        let mut run = Sending::fresh();
        for (length, start, unsent) in [
            (4_096, 3_060, 1_036),
            (3_000, 1_785, 1_215),
            (1_000, 4_000, 0),
            (97, 1, 0),
        ] {
            assert_eq!(run.load(&settings, 0, &vec![length as u8; length]), Ok(()));
            assert!(run.frame(&settings, &mut [0; 3_096]).is_ok());
            let queue = run.sender.queues[0];
            assert_eq!((queue.start, queue.unsent()), (start, unsent));
        }
        let added = run.added();
        assert_eq!((added.layouts, added.differences), (8, vec![]));
    }

    /// Every p with its data over the end at each of its bytes.
    #[test]
    fn a_packet_wraps_at_each_of_its_bytes() {
        let mut random = Random::new(1);
        for p in [2, 3, 4, 127, 255] {
            for over in 1..p {
                let start = (QUEUE_BYTES as u64 - over) as u16;
                let id = random.below(3);
                let settings = settings(p, 2, [0; 3]);
                let store = random.bytes(STORE_BYTES);
                let mut run = Sending::new(started(start), store);
                let unit = random.bytes(p as usize);
                assert_eq!(run.load(&settings, id, &unit), Ok(()));
                let mut output = vec![0; 2 * (p as usize + 3)];
                assert!(run.frame(&settings, &mut output).is_ok());
                assert_eq!(output[1..=p as usize], unit);
                assert_eq!(u64::from(run.sender.queues[id as usize].start), p - over);
                assert_eq!(run.added().differences, [""; 0]);
            }
        }
    }

    /// 4,096 bytes unsent from a start that is not 0: no room, until a frame takes some.
    #[test]
    fn a_full_ring() {
        let settings = settings(4, 2, [0; 3]);
        for start in [1, 2_048, 4_095] {
            for id in 0..3 {
                let mut run = Sending::new(started(start), vec![0; STORE_BYTES]);
                let unit: Vec<u8> = (0..QUEUE_BYTES).map(|place| (place % 251) as u8).collect();
                assert_eq!(run.load(&settings, id, &unit), Ok(()));
                let no_room = Err(Refusal::number(15));
                assert_eq!(run.load(&settings, id, &[1]), no_room);
                assert!(run.frame(&settings, &mut [0; 14]).is_ok());
                assert_eq!(run.load(&settings, id, &[1; 9]), no_room);
                assert_eq!(run.load(&settings, id, &[1; 8]), Ok(()));
                assert_eq!(run.load(&settings, id, &[1]), no_room);
                assert_eq!(run.added().differences, [""; 0]);
            }
        }
    }

    /// 13 comes before a start past its ring, and all else behind it; what is refused leaves the start.
    #[test]
    fn a_start_past_its_ring() {
        for (id, start) in [(0, 4_096), (1, 4_096), (2, 4_096), (2, 65_535)] {
            let mut sender = Sender::default();
            sender.queues[id].start = start;
            for length in [STORE_BYTES, STORE_BYTES - 1] {
                let mut run = Sending::new(sender, vec![0; length]);
                for (p, number) in [(4, 17), (0, 13), (256, 13)] {
                    let (now, refusal) = (settings(p, 2, [0; 3]), Refusal::number(number));
                    assert_eq!(run.load(&now, 1, &[7]), Err(refusal));
                    assert_eq!(run.load(&now, 3, &[]), Err(refusal));
                    assert_eq!(run.frame(&now, &mut [0; 14]), Err(refusal));
                    assert_eq!(run.frame(&now, &mut []), Err(refusal));
                    assert_eq!(run.sender, sender);
                }
                let added = run.added();
                assert_eq!((added.layouts, added.differences), (0, vec![]));
            }
        }
    }

    /// 60 loads and frames at a time on a store with other content, with another p wherever nothing waits: both
    /// layouts agree, and the rings go round many times.
    #[test]
    fn long_runs_in_both_layouts() {
        let mut random = Random::new(2);
        let (mut rounds, mut changes) = (0, 0);
        for _ in 0..40 {
            let mut run = Sending::new(Sender::default(), random.bytes(STORE_BYTES));
            let mut p = 4;
            for step in 0..60 {
                if run.sender.waiting() == [0; 3] {
                    p = random.pick(&[1, 2, 4, 127, 254, 255]);
                    changes += 1;
                }
                let packets = 8_190 / (p + 3);
                let now = settings(p, packets, [packets / 3; 3]);
                let starts = run.sender.queues.map(|queue| queue.start);
                if step % 2 == 0 || random.one_in(5) {
                    let id = random.below(3);
                    let room = QUEUE_BYTES - run.sender.queues[id as usize].unsent();
                    let drawn = 1 + random.below(QUEUE_BYTES as u64) as usize;
                    let length = random.pick(&[room, room, drawn, drawn / 2, 0, 4_097]);
                    let _ = run.load(&now, id, &random.bytes(length));
                } else {
                    let room = random.pick(&[8_190, 8_190, 8_190, 8_190, 7]);
                    let _ = run.frame(&now, &mut vec![0; room]);
                }
                let queues = run.sender.queues.iter().zip(starts);
                rounds += queues.filter(|(queue, start)| queue.start < *start).count();
            }
            let added = run.added();
            assert_eq!((added.layouts, added.differences), (60, vec![]));
        }
        assert!(rounds > 200 && changes > 80, "{rounds} {changes}");
    }

    /// A run from start 4,000: a load of 200 bytes on queue 1 and a frame that takes 100. What `wrong` makes of a
    /// call's state, store and output is handed to the account.
    fn account(wrong: fn(bool, &mut Sender, &mut Vec<u8>, &mut [u8])) -> Vec<String> {
        let settings = &settings(100, 1, [0; 3]);
        let (sender, store) = (started(4_000), vec![5; STORE_BYTES]);
        let mut rings = Rings::new(Desk::of(&sender, &store));
        let (mut loaded, mut filled) = (sender, store.clone());
        let unit: Vec<u8> = (0..200).collect();
        let done = loaded.load(settings, &mut filled, 1, &unit);
        wrong(false, &mut loaded, &mut filled, &mut []);
        let change = Change {
            settings,
            before: Desk::of(&sender, &store),
            after: Desk::of(&loaded, &filled),
        };
        rings.load(&change, 1, &unit, done);
        let (mut framed, mut left, mut output) = (loaded, filled.clone(), [9; 104]);
        let done = framed.frame(settings, &filled, &mut output);
        wrong(true, &mut framed, &mut left, &mut output);
        let change = Change {
            settings,
            before: Desk::of(&loaded, &filled),
            after: Desk::of(&framed, &left),
        };
        rings.frame(&change, [&[9; 104], &output], &done);
        rings.differences().to_vec()
    }

    #[test]
    fn what_is_wrong_is_found() {
        assert_eq!(account(|_, _, _, _| {}), [""; 0]);
        let store = "call 1: the store is not as it was but for the unit";
        let wrong = account(|_, _, store, _| store[8_192] ^= 1);
        assert_eq!(wrong, [store]);
        let wrong = account(|_, _, store, _| store[4_096] ^= 1);
        assert_eq!(wrong, [store, "call 1: queue 1: other bytes are unsent"]);
        let wrong = account(|_, sender, _, _| sender.queues[1].start = 104);
        let moved = "call 1: queue 1: 0 bytes taken, the start goes from 4000 to 104";
        assert_eq!(wrong, [moved]);
        let wrong = account(|frame, sender, _, _| {
            sender.queues[1].start = if frame { 4_100 } else { 4_000 };
        });
        let past = "call 2: queue 1: 100 bytes taken, the start goes from 4000 to 4100";
        assert_eq!(wrong, [past]);
        let wrong = account(|frame, _, store, _| store[0] ^= u8::from(frame));
        assert_eq!(wrong, ["call 2: the store has changed"]);
        let wrong = account(|frame, _, _, output| {
            if frame {
                output[50] ^= 1;
            }
        });
        assert_eq!(wrong, ["call 2: another output"]);
        let wrong = account(|frame, sender, _, _| sender.turn += u64::from(frame));
        assert_eq!(wrong, ["call 2: another state than in the layout before"]);
    }

    /// A number that is not that of the layout before, and a start past its ring that is let through.
    #[test]
    fn wrong_numbers_are_found() {
        let settings = &settings(4, 2, [0; 3]);
        for (start, what) in [
            (
                4_095,
                "call 1: Err(Refusal { number: 17, place: 0 }), in the layout before Ok(())",
            ),
            (4_096, "call 1: a start past its ring, and not 17"),
        ] {
            let (sender, store) = (started(start), vec![0; STORE_BYTES]);
            let desk = Desk::of(&sender, &store);
            let mut rings = Rings::new(desk);
            let change = Change {
                settings,
                before: desk,
                after: desk,
            };
            let done = match start {
                4_095 => Err(Refusal::number(17)),
                _ => Ok(()),
            };
            rings.load(&change, 0, &[1], done);
            assert_eq!(rings.differences()[0], what);
        }
    }
}
