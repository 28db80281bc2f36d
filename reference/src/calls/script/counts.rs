//! The counts of call 35 (document 02, E1): wrong ones in the state handed in, and changes of p.

use super::senders::{self, any, MISCOUNTS};
use super::{frame, load, other_settings, other_store, random_step, with_p};
use super::{Script, Step, LONGEST};
use crate::calls::settings;
use crate::random::Random;
use crate::sender::{Sender, Settings, QUEUES};

/// What waits where p changes.
#[derive(Clone, Copy, PartialEq)]
enum Waits {
    Nothing,
    /// Units that take as many packets for the one p as for the other.
    Alike,
    /// And one that does not.
    Unlike,
}

/// Bytes of a unit that takes as many packets for the one p as for the other, or does not; the two differ.
fn unit_of(random: &mut Random, [p, q]: [u64; 2], alike: bool) -> usize {
    let (short, long) = (p.min(q), p.max(q));
    for _ in 0..20 {
        let length = 1 + random.below(3 * long);
        if (length.div_ceil(p) == length.div_ceil(q)) == alike {
            return length as usize;
        }
    }
    (if alike { short } else { long }) as usize
}

/// Loads with the one p, frames until nothing waits where that is asked for, and steps mostly with the other.
fn change_of_p(random: &mut Random, [first, second]: [Settings; 2], waits: Waits) -> Script {
    let both = [first.p, second.p];
    let mut steps = Vec::new();
    for place in 0..1 + random.below(3) {
        let alike = waits == Waits::Alike || (waits == Waits::Unlike && place > 0);
        let length = match waits {
            Waits::Nothing => 1 + random.below(3 * first.p) as usize,
            _ => unit_of(random, both, alike),
        };
        let id = random.below(3);
        steps.push(load(random, first, id, length));
    }
    // One packet a frame at the least.
    let packets = |step: &Step| step.unit.bytes().len().div_ceil(first.p as usize);
    let frames: usize = steps.iter().map(packets).sum();
    if waits == Waits::Nothing {
        steps.extend(vec![frame(first); frames]);
    }
    for now in [second, second, first, second] {
        steps.push(random_step(random, now));
    }
    if random.one_in(3) {
        steps.push(frame(first));
    }
    Script::new(random, steps)
}

pub fn random_change(random: &mut Random) -> Script {
    let first = settings::good(random);
    let drawn = settings::good(random);
    let second = with_p(drawn, senders::another_p(random, first.p));
    let waits = random.pick(&[Waits::Nothing, Waits::Alike, Waits::Unlike]);
    change_of_p(random, [first, second], waits)
}

/// Every kind of wrong count in every queue, at a load on queue 1 and at a frame.
fn wrong_counts(random: &mut Random, settings: Settings) -> Vec<Script> {
    let mut list = Vec::new();
    for kind in 0..MISCOUNTS {
        for id in 0..QUEUES {
            for end in [load(random, settings, 1, 5), frame(settings)] {
                let sender = senders::miscounted(random, settings.p, kind, id);
                list.push(Script::new(random, vec![end]).from(sender));
            }
        }
    }
    list
}

/// A unit too many, and in all places something left.
pub fn nine_units(script: &mut Script, random: &mut Random) {
    let queue = any(&mut script.sender, random);
    queue.left = queue.left.map(|left| left.clamp(1, 9));
    queue.units = 9;
}

/// Every kind of wrong count with settings that are refused, with a store of another length, and with nine units.
fn wrong_counts_and_more(random: &mut Random, settings: Settings) -> Vec<Script> {
    let mut list = Vec::new();
    for kind in 0..MISCOUNTS {
        let id = random.below(QUEUES as u64) as usize;
        for end in [load(random, settings, 1, 5), frame(settings)] {
            let sender = senders::miscounted(random, settings.p, kind, id);
            let wrong = Script::new(random, vec![end]).from(sender);
            for fault in [other_settings, other_store, nine_units] {
                let mut other = wrong.clone();
                fault(&mut other, random);
                list.push(other);
            }
        }
    }
    list
}

/// 25 bytes of which 10 are sent, 10 and 1, for p 10: 4 packets. One unit of 25, and 3 stored: right for p 9 to 12.
/// And a run in which the counts rise to 5 and 2.
fn worked_counts(random: &mut Random) -> Vec<Script> {
    let mut list = Vec::new();
    let settings = |p| settings::of(p, 2, [1, 0, 0], [1, 2, 2]);
    let states = [3, 4, 5].map(|stored| (10, 10, stored, vec![15, 10, 1]));
    let units = [5, 8, 9, 10, 12, 13].map(|p| (p, 0, 3, vec![25]));
    for (p, sent, stored, units) in states.into_iter().chain(units) {
        for id in 0..QUEUES {
            let mut sender = Sender::default();
            let queue = &mut sender.queues[id];
            (queue.units, queue.sent, queue.waiting) = (units.len() as u64, sent, stored);
            queue.left[..units.len()].copy_from_slice(&units);
            for end in [load(random, settings(p), 1, 5), frame(settings(p))] {
                list.push(Script::new(random, vec![end]).from(sender));
            }
        }
    }
    let mut steps = Vec::new();
    for (id, length) in [(0, 25), (0, 10), (0, 1), (2, 11)] {
        steps.push(load(random, settings(10), id, length));
    }
    steps.extend(vec![frame(settings(10)); 5]);
    list.push(Script::new(random, steps));
    list
}

/// All of these, and changes between p 4 and others.
pub fn fixed(random: &mut Random) -> Vec<Script> {
    let settings = settings::example();
    let mut list = worked_counts(random);
    list.extend(wrong_counts(random, settings));
    list.extend(wrong_counts_and_more(random, settings));
    for waits in [Waits::Nothing, Waits::Alike, Waits::Unlike] {
        for p in [1, 3, 5, 8, 255] {
            let both = [settings, with_p(settings, p)];
            list.push(change_of_p(random, both, waits));
            list.push(change_of_p(random, [both[1], both[0]], waits));
        }
    }
    list
}

/// The script from a state with a wrong count, mostly with few of its steps, since most are refused; in some,
/// something else is wrong as well.
pub fn miscounted(random: &mut Random, mut script: Script) -> Script {
    let (kind, id) = (random.below(MISCOUNTS as u64), random.below(QUEUES as u64));
    script.sender = senders::miscounted(random, script.p(), kind as usize, id as usize);
    script.steps.truncate(random.pick(&[1, 1, 1, 2, LONGEST]));
    match random.below(10) {
        0 => other_settings(&mut script, random),
        1 => other_store(&mut script, random),
        2 => nine_units(&mut script, random),
        _ => {}
    }
    script
}

#[cfg(test)]
mod tests {
    use super::super::{answer, fixed, random_script, FRAME, LOAD};
    use super::*;
    use crate::answer::Answer;
    use crate::fields::Arguments;
    use crate::reader::Reader;
    use crate::refusal::Refusal;
    use crate::runs::Sending;
    use crate::sender::{Queue, STORE_BYTES};

    fn answered(script: &Script) -> Answer {
        answer(&mut Reader::new(&script.body())).unwrap()
    }

    /// What stands in the counts of the state handed in, and where p changes: the kinds of cases of document 02, E1.
    const KINDS: [&str; 18] = [
        "right, with units waiting",
        "one more",
        "one less",
        "the ceiling of the sum",
        "the number of units",
        "the bytes",
        "the sum for another p",
        "those of two queues exchanged",
        "65,535",
        "wrong in a queue that is not loaded alone",
        "wrong at a frame",
        "wrong and 13",
        "wrong and another store",
        "wrong and nine units",
        "other settings with the same p, accepted",
        "another p and nothing waiting, accepted",
        "another p and equal sums, accepted",
        "another p and other sums, 17",
    ];

    /// Queues whose count is wrong.
    fn wrong_queues(sender: &Sender, p: u64) -> Vec<usize> {
        let wrong = |id: &usize| {
            let queue = sender.queues[*id];
            u64::from(queue.waiting) != queue.summed(p)
        };
        (0..QUEUES).filter(wrong).collect()
    }

    /// Which of the first nine kinds the state is of.
    fn stored(sender: &Sender, p: u64) -> [bool; 9] {
        let wrong = wrong_queues(sender, p);
        let of = |kind: &dyn Fn(&Queue) -> u64| {
            let same =
                |id: &usize| u64::from(sender.queues[*id].waiting) == kind(&sender.queues[*id]);
            wrong.len() == 1 && wrong.iter().all(same)
        };
        let sums = sender.queues.map(|queue| queue.summed(p));
        let counts = sender.waiting();
        [
            wrong.is_empty() && sums != [0; 3],
            of(&|queue| queue.summed(p) + 1),
            of(&|queue| queue.summed(p).wrapping_sub(1)),
            of(&|queue| (queue.unsent() as u64).div_ceil(p)),
            of(&|queue| queue.units),
            of(&|queue| queue.unsent() as u64),
            (1..256).any(|other| of(&|queue| queue.summed(other))),
            matches!(wrong[..], [i, j] if [counts[j], counts[i]] == [sums[i], sums[j]]),
            of(&|_| 65_535),
        ]
    }

    /// Which kinds a script has.
    fn kinds(script: &Script) -> Vec<bool> {
        let Some(first) = script.steps.first() else {
            return vec![false; KINDS.len()];
        };
        let p = first.settings.p.clamp(1, 255);
        let wrong = wrong_queues(&script.sender, p);
        let numbers = numbers(script);
        let (one, frame) = (wrong.len() == 1, first.kind == FRAME);
        let other_store = script.store.bytes().len() != STORE_BYTES;
        let mut found = match numbers[0] {
            0 | 17 => stored(&script.sender, p).to_vec(),
            _ => vec![false; 9],
        };
        found.extend([
            one && !frame && first.id < 3 && wrong[0] != first.id as usize && numbers[0] == 17,
            one && frame && numbers[0] == 17,
            !wrong.is_empty() && numbers[0] == 13,
            !wrong.is_empty() && other_store && numbers[0] == 17,
            !wrong.is_empty() && script.sender.queues.iter().any(|queue| queue.units == 9),
        ]);
        found.extend(changes(script));
        found
    }

    fn numbers(script: &Script) -> Vec<u8> {
        let values = answered(script).values;
        let steps = values[..values.len() - 41].chunks(8);
        steps.map(|step| step[0] as u8).collect()
    }

    /// Which of the last four kinds a script has: a step behind an accepted one with other settings.
    fn changes(script: &Script) -> [bool; 4] {
        let mut found = [false; 4];
        let mut run = Sending::new(script.sender, script.store.bytes());
        let mut last: Option<Settings> = None;
        for step in &script.steps {
            let sums = |p| run.sender.queues.map(|queue| queue.summed(p));
            let (p, units) = (step.settings.p, run.sender.queues.map(|queue| queue.units));
            let met = last.filter(|last| *last != step.settings && step.settings.check().is_ok());
            let kind = met.map(|last| match (p == last.p, units == [0; 3]) {
                (true, _) => 0,
                (false, true) => 1,
                (false, false) if sums(p) == sums(last.p) => 2,
                (false, false) => 3,
            });
            let mut output = script.output.bytes();
            let done = match step.kind {
                LOAD => run.load(&step.settings, step.id, &step.unit.bytes()),
                _ => run.frame(&step.settings, &mut output).map(drop),
            };
            if let Some(kind) = kind {
                assert!(kind < 3 || done == Err(Refusal::number(17)));
                found[kind] |= kind == 3 || done.is_ok();
            }
            if done.is_ok() {
                last = Some(step.settings);
            }
        }
        found
    }

    /// All kinds of counts and of changes of p occur, among the fixed cases and in many of the random ones.
    #[test]
    fn every_kind_of_count_occurs() {
        let mut random = Random::new(5);
        let fixed = fixed(&mut random);
        let drawn: Vec<_> = (0..2_000).map(|_| random_script(&mut random)).collect();
        for (bodies, least) in [(fixed, 1), (drawn, 10)] {
            let mut counts = vec![0; KINDS.len()];
            for body in bodies {
                let script = Script::read(&mut Reader::new(&body)).unwrap();
                if answer(&mut Reader::new(&body)).is_none() {
                    continue;
                }
                for (count, found) in counts.iter_mut().zip(kinds(&script)) {
                    *count += usize::from(found);
                }
            }
            let all: Vec<_> = KINDS.iter().zip(&counts).collect();
            assert!(counts.iter().all(|count| *count >= least), "{all:?}");
        }
    }

    /// A wrong count alone is 17 at a load and at a frame, and the state with its counts put right is allowed.
    #[test]
    fn wrong_counts_alone_are_refused() {
        let mut random = Random::new(6);
        for round in 0..600 {
            let settings = settings::good(&mut random);
            let step = match round % 2 {
                0 => frame(settings),
                _ => load(&mut random, settings, 3, 1),
            };
            let (kind, id) = (round % MISCOUNTS, round % QUEUES);
            let sender = senders::miscounted(&mut random, settings.p, kind, id);
            let mut script = Script::new(&mut random, vec![step]).from(sender);
            assert_eq!(answered(&script).number, 17, "kind {kind}");
            senders::count(&mut script.sender, settings.p);
            assert_eq!(answered(&script).number, [0, 14][round % 2]);
        }
    }
}
