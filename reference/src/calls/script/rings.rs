//! The rings of call 35 (document 02, E9): starts at their limits and past them, units and packets that go round the
//! end of a queue's bytes, and runs that are longer than a script.

use super::counts::nine_units;
use super::senders::{self, state, LIMITS, PAST};
use super::{frame, load, other_settings, other_store, store};
use super::{Script, Step, LOAD, LONGEST};
use crate::buffer::Buffer;
use crate::calls::settings;
use crate::faults::Fault;
use crate::packet::FRAMING;
use crate::random::Random;
use crate::sender::{Sender, Settings, LONGEST_FRAME, QUEUES, QUEUE_BYTES, STORE_BYTES};

/// All queues empty, with this start in one of them.
fn started(id: usize, start: u16) -> Sender {
    let mut sender = Sender::default();
    sender.queues[id].start = start;
    sender
}

/// A load on that queue and a frame, as often as there are lengths.
fn pairs(random: &mut Random, settings: Settings, id: usize, lengths: &[u64]) -> Vec<Step> {
    let mut steps = Vec::new();
    for length in lengths {
        steps.push(load(random, settings, id as u64, *length as usize));
        steps.push(frame(settings));
    }
    steps
}

/// Each start in each queue, with units and without.
fn starts(random: &mut Random, settings: Settings) -> Vec<Script> {
    let mut list = Vec::new();
    for start in LIMITS.into_iter().chain(PAST) {
        for id in 0..QUEUES {
            for mut sender in [Sender::default(), state(random, settings.p)] {
                sender.queues[id].start = start;
                let steps = pairs(random, settings, id, &[10, 10]);
                list.push(Script::new(random, steps).from(sender));
            }
        }
    }
    list
}

/// Data over the end at each byte of a packet of four, and at some bytes of others.
fn over_the_end(random: &mut Random) -> Vec<Script> {
    let mut places = Vec::new();
    for before in 1..=8 {
        places.extend([0, 1, 2].map(|id| (4, id, before)));
    }
    for p in [1, 2, 127, 254, 255] {
        for (place, before) in [1, 2, p / 2 + 1, p - 1, p, p + 1].into_iter().enumerate() {
            places.push((p, place % QUEUES, before.max(1)));
        }
    }
    let mut list = Vec::new();
    for (p, id, before) in places {
        let settings = settings::of(p, 3, [1; 3], [3; 3]);
        let first = random.pick(&[2 * p, 2 * p + 1, 3 * p - 1]);
        let steps = pairs(random, settings, id, &[first, p]);
        let sender = started(id, QUEUE_BYTES as u16 - before as u16);
        list.push(Script::new(random, steps).from(sender));
    }
    list
}

/// Full rings at starts that are not 0: no room, a frame, and as much room as it took. By loads, and in the state
/// handed in.
fn full(random: &mut Random) -> Vec<Script> {
    let mut list = Vec::new();
    let many = settings::of(255, 12, [4; 3], [12; 3]);
    let few = settings::of(4, 2, [0; 3], [2; 3]);
    for id in 0..QUEUES {
        for start in [1, 2_048, 4_095] {
            let mut steps = Vec::new();
            for length in [4_096, 1] {
                steps.push(load(random, many, id as u64, length));
            }
            steps.push(frame(many));
            for length in [3_061, 3_060, 1] {
                steps.push(load(random, many, id as u64, length));
            }
            steps.extend(vec![frame(many); 2]);
            list.push(Script::new(random, steps).from(started(id, start)));
            let mut sender = started(id, start);
            (sender.queues[id].units, sender.queues[id].left[0]) = (1, 4_096);
            senders::count(&mut sender, few.p);
            let mut steps = Vec::new();
            for length in [1, 9, 8, 1] {
                steps.push(load(random, few, id as u64, length));
                if length == 1 {
                    steps.push(frame(few));
                }
            }
            list.push(Script::new(random, steps).from(sender));
        }
    }
    list
}

/// Queues that empty and keep their starts, with another p each time, up to the end and over it.
fn emptied(random: &mut Random) -> Vec<Script> {
    let mut list = Vec::new();
    for id in 0..QUEUES {
        for start in [0, 4_080, 4_086] {
            let mut steps = Vec::new();
            for (p, length) in [(4, 7), (7, 3), (255, 10), (1, 1), (4, 5)] {
                let settings = settings::of(p, 2, [0; 3], [2; 3]);
                steps.extend(pairs(random, settings, id, &[length]));
                steps.push(frame(settings));
            }
            list.push(Script::new(random, steps).from(started(id, start)));
        }
    }
    list
}

/// What goes with a start past its ring; the number of each stands behind it.
const BESIDES: [Fault<Script>; 4] = [
    other_settings, // 13
    |script, random| {
        let p = script.p();
        senders::miscount(&mut script.sender, random, p);
    }, // 17
    nine_units,     // 17
    other_store,    // 1
];

/// Starts past their ring in each queue, and all that is refused before them, with them and behind them.
fn past(random: &mut Random, settings: Settings) -> Vec<Script> {
    let mut list = Vec::new();
    for start in PAST {
        for id in 0..QUEUES {
            for end in [load(random, settings, 1, 5), frame(settings)] {
                let mut good = Script::new(random, vec![end]).from(state(random, settings.p));
                good.sender.queues[id].start = start;
                for fault in BESIDES {
                    let mut script = good.clone();
                    fault(&mut script, random);
                    list.push(script);
                }
                list.push(good);
            }
        }
    }
    list
}

/// A unit 01 to 0A from 4,090 on, in three packets; and four loads with a frame of 12 packets after each, the start
/// going to 3,060, 1,785, 4,000 and 1.
fn worked(random: &mut Random) -> Vec<Script> {
    let mut list = Vec::new();
    for id in 0..QUEUES {
        let mut small = settings::of(4, 3, [0; 3], [3; 3]);
        small.shares[id] = 3;
        let mut steps = pairs(random, small, id, &[10]);
        steps[0].unit = Buffer::Given((1..=10).collect());
        list.push(Script::new(random, steps).from(started(id, 4_090)));
        let mut large = settings::of(255, 12, [0; 3], [1; 3]);
        (large.shares[id], large.ceilings[id]) = (12, 12);
        let steps = pairs(random, large, id, &[4_096, 3_000, 1_000, 97]);
        list.push(Script::new(random, steps));
    }
    list
}

/// A run that is made step by step, each step by what the last one left.
struct Round {
    settings: Settings,
    sender: Sender,
    store: Buffer,
}

impl Round {
    /// From the fresh state, from empty queues with starts, or from any state.
    fn new(random: &mut Random) -> Round {
        let settings = settings_of_round(random);
        let sender = match random.below(3) {
            0 => Sender::default(),
            1 => senders::emptied(random, settings.p),
            _ => state(random, settings.p),
        };
        Round {
            settings,
            sender,
            store: store(random, STORE_BYTES),
        }
    }

    /// A script that begins where the last one ended, mostly on one queue, with other settings now and then where
    /// nothing waits.
    fn script(&mut self, random: &mut Random, count: usize) -> Script {
        let (sender, before) = (self.sender, self.store.clone());
        let mut bytes = before.bytes();
        let mut steps = Vec::new();
        let only = random.below(6);
        for _ in 0..count {
            if self.sender.waiting() == [0; QUEUES] && random.one_in(2) {
                self.settings = settings_of_round(random);
            }
            let id = if only < 3 { only } else { random.below(3) };
            let step = match random.below(9) {
                0..=4 => self.load(random, id),
                _ => frame(self.settings),
            };
            self.play(&step, &mut bytes);
            steps.push(step);
        }
        self.store = Buffer::Given(bytes);
        let mut script = Script::new(random, steps).from(sender);
        script.store = before;
        script
    }

    /// Of as much as there is room for, of more, of any length, or of few packets.
    fn load(&self, random: &mut Random, id: u64) -> Step {
        let p = self.settings.p;
        let room = (QUEUE_BYTES - self.sender.queues[id as usize].unsent()) as u64;
        let length = match random.below(10) {
            0 | 1 => room.max(1),
            2 => room + 1,
            3 => 1 + random.below(QUEUE_BYTES as u64),
            4 => 1 + random.below(room + 1),
            5..=7 => p * (1 + random.below(4)) + random.below(2),
            _ => 1 + random.below(5 * p.min(30)),
        };
        load(random, self.settings, id, length as usize)
    }

    /// What is refused leaves all as it was.
    fn play(&mut self, step: &Step, bytes: &mut [u8]) {
        let settings = &step.settings;
        let _ = match step.kind {
            LOAD => self
                .sender
                .load(settings, bytes, step.id, &step.unit.bytes()),
            _ => self
                .sender
                .frame(settings, bytes, &mut [0; LONGEST_FRAME as usize])
                .map(drop),
        };
    }
}

/// Such that few frames take all that waits in a queue.
fn settings_of_round(random: &mut Random) -> Settings {
    let p = match random.below(3) {
        0 => 1 + random.below(12),
        _ => random.pick(&[4, 61, 100, 127, 254, 255]),
    };
    let most = LONGEST_FRAME / (p + FRAMING as u64);
    let packets = random
        .pick(&[most, most / 2, most / 4, 12, 12, 4])
        .clamp(1, most);
    let share = random.pick(&[0, packets / 3]);
    settings::of(p, packets, [share; 3], [packets; 3])
}

/// Runs of 60 loads and frames, three scripts each.
fn long(random: &mut Random) -> Vec<Script> {
    let mut list = Vec::new();
    for _ in 0..3 {
        let mut round = Round::new(random);
        list.extend([20; 3].map(|count| round.script(random, count)));
    }
    list
}

/// Mostly the beginning of a run, now and then what comes behind 40 steps.
pub fn random_round(random: &mut Random) -> Script {
    let mut round = Round::new(random);
    if random.one_in(16) {
        round.script(random, 40);
    }
    let count = match random.below(8) {
        0 => LONGEST as u64,
        _ => 3 + random.below(10),
    };
    round.script(random, count as usize)
}

/// The script with a start past its ring, mostly with few of its steps, since all are refused; in some, something
/// else is wrong as well.
pub fn random_past(random: &mut Random, mut script: Script) -> Script {
    senders::past(&mut script.sender, random);
    script.steps.truncate(random.pick(&[1, 1, 1, 2, LONGEST]));
    if let Some(fault) = BESIDES.get(random.below(6) as usize) {
        fault(&mut script, random);
    }
    script
}

pub fn fixed(random: &mut Random) -> Vec<Script> {
    let settings = settings::example();
    let mut list = worked(random);
    list.extend(starts(random, settings));
    list.extend(over_the_end(random));
    list.extend(full(random));
    list.extend(emptied(random));
    list.extend(past(random, settings));
    list.extend(long(random));
    list
}

#[cfg(test)]
mod tests {
    use super::super::{answer, fixed, random_script, FRAME};
    use super::*;
    use crate::answer::Answer;
    use crate::fields::Arguments;
    use crate::reader::Reader;
    use crate::sender::Queue;

    /// What stands in the starts of the state handed in, and where a ring is gone round: the kinds of cases of
    /// document 02, E9, each counted for each queue.
    const KINDS: [&str; 15] = [
        "a start past its ring",
        "a start past its ring, without units",
        "a start past its ring and 13",
        "a start past its ring and a wrong count",
        "a start past its ring and another store",
        "a unit over the end",
        "a unit of 4,096 bytes over the end",
        "a unit wholly behind the end",
        "a unit for an empty queue at a start that is not 0",
        "a full ring at a start that is not 0, and 15",
        "a packet over the end",
        "a frame up to the end",
        "a frame over the end, after a unit over it",
        "emptied, the start kept",
        "another p at a start that is not 0, accepted",
    ];

    /// A step with the state before it, the one after it, and its number.
    struct Met<'a> {
        step: &'a Step,
        before: Sender,
        after: Sender,
        number: u8,
        other_store: bool,
        /// Than that of the last step that was accepted.
        other_p: bool,
    }

    /// The steps of a script, played.
    fn played(script: &Script) -> Vec<Met<'_>> {
        let (mut sender, mut bytes) = (script.sender, script.store.bytes());
        let mut output = script.output.bytes();
        let (mut list, mut last) = (Vec::new(), None);
        for step in &script.steps {
            let (before, settings) = (sender, &step.settings);
            let done = match step.kind {
                LOAD => sender.load(settings, &mut bytes, step.id, &step.unit.bytes()),
                _ => sender.frame(settings, &bytes, &mut output).map(drop),
            };
            list.push(Met {
                step,
                before,
                after: sender,
                number: done.err().map_or(0, |refusal| refusal.number),
                other_store: bytes.len() != STORE_BYTES,
                other_p: last.is_some_and(|last| last != settings.p),
            });
            if done.is_ok() {
                last = Some(settings.p);
            }
        }
        list
    }

    /// Where the unsent bytes of a queue end, over 4,096 where they go over the end of the ring.
    fn end(queue: &Queue) -> usize {
        usize::from(queue.start) + queue.unsent()
    }

    /// Whether one of the packets that a frame took went over the end.
    fn packet_over(before: &Queue, after: &Queue, p: u64) -> bool {
        let (mut queue, mut place) = (*before, usize::from(before.start));
        while queue.unsent() > after.unsent() {
            let (_, _, count) = queue.take_packet(p);
            if place < QUEUE_BYTES && place + count > QUEUE_BYTES {
                return true;
            }
            place += count;
        }
        false
    }

    impl Met<'_> {
        fn is_miscounted(&self) -> bool {
            let mut queues = self.before.queues.iter();
            queues.any(|queue| u64::from(queue.waiting) != queue.summed(self.step.settings.p))
        }

        /// Which kinds the step is of, in that queue.
        fn kinds(&self, id: usize) -> [bool; KINDS.len()] {
            let [before, after] = [&self.before, &self.after].map(|sender| sender.queues[id]);
            let accepted = self.number == 0;
            let past = usize::from(before.start) >= QUEUE_BYTES;
            let past_alone = past && self.number == 17;
            let this = self.step.kind == LOAD && self.step.id == id as u64;
            let loaded = this && accepted;
            let taken = self.step.kind == FRAME && after.unsent() < before.unsent();
            let over = loaded && end(&before) < QUEUE_BYTES && end(&after) > QUEUE_BYTES;
            let full = before.unsent() == QUEUE_BYTES;
            let moved = before.start > 0;
            [
                past_alone,
                past_alone && before.units == 0,
                past && self.number == 13,
                past_alone && self.is_miscounted(),
                past_alone && self.other_store,
                over,
                over && self.step.unit.length() == QUEUE_BYTES,
                loaded && end(&before) >= QUEUE_BYTES,
                loaded && before.units == 0 && moved,
                this && full && moved && self.number == 15,
                taken && packet_over(&before, &after, self.step.settings.p),
                taken && after.start == 0,
                taken && end(&before) > QUEUE_BYTES && after.start < before.start,
                taken && after.units == 0 && after.start > 0,
                accepted && self.other_p && moved,
            ]
        }
    }

    /// Adds the script to the kinds that it is of.
    fn count(script: &Script, counts: &mut [[usize; QUEUES]; KINDS.len()]) {
        let played = played(script);
        for id in 0..QUEUES {
            let mut found = [false; KINDS.len()];
            for met in &played {
                let kinds = found.iter_mut().zip(met.kinds(id));
                kinds.for_each(|(found, kind)| *found |= kind);
            }
            for (count, found) in counts.iter_mut().zip(found) {
                count[id] += usize::from(found);
            }
        }
    }

    /// All kinds of starts and of rings occur in each queue, among the fixed cases and in some of the random ones.
    #[test]
    fn every_kind_of_ring_occurs() {
        let mut random = Random::new(5);
        let fixed = fixed(&mut random);
        let drawn: Vec<_> = (0..2_000).map(|_| random_script(&mut random)).collect();
        for (bodies, least) in [(fixed, 2), (drawn, 4)] {
            let mut counts = [[0; QUEUES]; KINDS.len()];
            for body in bodies {
                if answer(&mut Reader::new(&body)).is_some() {
                    let script = Script::read(&mut Reader::new(&body)).unwrap();
                    count(&script, &mut counts);
                }
            }
            let all: Vec<_> = KINDS.iter().zip(&counts).collect();
            assert!(
                counts.iter().flatten().all(|count| *count >= least),
                "{all:?}"
            );
        }
    }

    /// Each script of a long run begins with the sender and the store that the one before it leaves.
    #[test]
    fn long_runs_go_on_where_they_were() {
        for run in long(&mut Random::new(7)).chunks(3) {
            assert_eq!(
                run.iter().map(|script| script.steps.len()).sum::<usize>(),
                60
            );
            for two in run.windows(2) {
                let last = played(&two[0]).pop().unwrap();
                assert_eq!(last.after, two[1].sender);
                let left = answer(&mut Reader::new(&two[0].body())).unwrap();
                let store = Answer::done().buffer(&two[1].store.bytes());
                assert_eq!(left.buffers[0], store.buffers[0]);
            }
        }
    }

    /// A start past its ring alone is 17 at a load and at a frame, and the state with another start is allowed.
    #[test]
    fn starts_past_their_rings_alone_are_refused() {
        let mut random = Random::new(6);
        for round in 0..600 {
            let settings = settings::good(&mut random);
            let step = match round % 2 {
                0 => frame(settings),
                _ => load(&mut random, settings, 3, 1),
            };
            let good = state(&mut random, settings.p);
            let script = Script::new(&mut random, vec![step]).from(good);
            let mut past = script.clone();
            senders::past(&mut past.sender, &mut random);
            let numbers = [past, script].map(|script| played(&script)[0].number);
            assert_eq!(numbers, [17, [0, 14][round % 2]]);
        }
    }
}
