//! Call 35: a sender that is handed units and asked for frames, step by step (document 01, "Packets, queues
//! and receiver"; document 02, E1 and E9).

mod counts;
mod rings;
mod senders;

use self::senders::{any, state, BROKEN};
use super::settings::{self, Set};
use super::Call;
use crate::answer::Answer;
use crate::buffer::Buffer;
use crate::crc::crc16;
use crate::faults::{self, Fault};
use crate::fields::{bodies, lines, Arguments, Fields};
use crate::generate;
use crate::packet::FRAMING;
use crate::random::Random;
use crate::reader::Reader;
use crate::refusal::{Refusal, LONGEST_INPUT};
use crate::runs::Sending;
use crate::sender::{HandOut, Sender, Settings, QUEUE_BYTES, STORE_BYTES};

/// Its values have no names: each step has eight, and the sender 41.
pub const SCRIPT: Call = Call {
    code: 35,
    name: "sender script",
    fixed,
    random: random_script,
    answer,
    arguments: lines::<Script>,
    values: &[],
    buffers: &["store", "output"],
};

/// The most steps.
const LONGEST: usize = 24;

/// The kinds of a step.
const LOAD: u8 = 0;
const FRAME: u8 = 1;

#[derive(Default, Clone)]
struct Script {
    sender: Sender,
    store: Buffer,
    output: Buffer,
    steps: Vec<Step>,
}

#[derive(Default, Clone)]
struct Step {
    kind: u8,
    settings: Settings,
    /// Of a load alone.
    id: u64,
    unit: Buffer,
}

impl Arguments for Script {
    fn each(&mut self, fields: &mut impl Fields) -> Option<()> {
        fields.sender(&mut self.sender)?;
        fields.buffer("store before", &mut self.store)?;
        fields.buffer("output before", &mut self.output)?;
        let mut count = self.steps.len() as u8;
        fields.byte("steps", &mut count)?;
        self.steps.resize(usize::from(count), Step::default());
        for step in &mut self.steps {
            fields.byte("step of kind", &mut step.kind)?;
            fields.settings(&mut step.settings)?;
            if step.kind == LOAD {
                fields.number("id", &mut step.id)?;
                fields.buffer("unit", &mut step.unit)?;
            }
        }
        Some(())
    }
}

fn answer(body: &mut Reader) -> Option<Answer> {
    let script = Script::read(body)?;
    if script.steps.len() > LONGEST || script.steps.iter().any(|step| step.kind > FRAME) {
        return None;
    }
    let mut run = Sending::new(script.sender, script.store.bytes());
    let mut output = script.output.bytes();
    let mut last = Refusal::number(0);
    let mut values = Vec::new();
    for step in &script.steps {
        let done = match step.kind {
            LOAD => run
                .load(&step.settings, step.id, &step.unit.bytes())
                .map(|()| HandOut::default()),
            _ => run.frame(&step.settings, &mut output),
        };
        last = *done.as_ref().err().unwrap_or(&Refusal::number(0));
        let out = done.unwrap_or_default();
        values.push(u64::from(last.number));
        values.extend(out.packets);
        values.extend([out.spares, out.filler]);
        values.push(u64::from(crc16(&output)));
        values.push(output.iter().map(|byte| u64::from(*byte)).sum());
    }
    values.extend(values_of(&run.sender));
    let mut answer = Answer::refused(last);
    answer.values = values;
    answer.added = run.added();
    Some(answer.buffer(&run.store).buffer(&output))
}

fn values_of(sender: &Sender) -> Vec<u64> {
    let mut values = Vec::new();
    for queue in &sender.queues {
        values.extend([queue.units, queue.sent]);
        values.extend([queue.waiting, queue.start].map(u64::from));
        values.extend(queue.left.map(u64::from));
    }
    values.push(sender.turn);
    values.extend(sender.indexes.map(u64::from));
    values
}

/// The settings of the last step, which decides the number of the answer.
impl Set for Script {
    fn settings(&mut self) -> &mut Settings {
        &mut self.last().settings
    }
}

impl Script {
    /// From the fresh state, with the output that the longest of its frames needs or some more.
    fn new(random: &mut Random, steps: Vec<Step>) -> Script {
        let needed = steps.iter().map(Step::needed).max().unwrap_or(0);
        let room = generate::room(random, needed);
        Script {
            sender: Sender::default(),
            store: store(random, STORE_BYTES),
            output: generate::compact(random, room),
            steps,
        }
    }

    fn from(mut self, sender: Sender) -> Script {
        self.sender = sender;
        self
    }

    /// The last step; every script that is spoiled has one.
    fn last(&mut self) -> &mut Step {
        let last = self.steps.len() - 1;
        &mut self.steps[last]
    }

    /// That of the first step; every p is 1 to 255 until settings are spoiled.
    fn p(&self) -> u64 {
        self.steps.first().map_or(1, |step| step.settings.p)
    }
}

impl Step {
    /// Bytes of the frame; 0 for a load and for settings that are none.
    fn needed(&self) -> usize {
        if self.kind == FRAME && self.settings.check().is_ok() {
            let Settings { p, packets, .. } = self.settings;
            return packets as usize * (p as usize + FRAMING);
        }
        0
    }
}

/// Any bytes, hardly ever written out.
fn store(random: &mut Random, length: usize) -> Buffer {
    let seed = random.draw() as u32;
    Buffer::Seeded { length, seed }
}

fn frame(settings: Settings) -> Step {
    Step {
        kind: FRAME,
        settings,
        ..Step::default()
    }
}

fn load(random: &mut Random, settings: Settings, id: u64, length: usize) -> Step {
    Step {
        kind: LOAD,
        settings,
        id,
        unit: generate::compact(random, length),
    }
}

/// What can be wrong with a script; the number of each stands behind it.
const FAULTS: &[Fault<Script>] = &[
    |script, random| script.output = shorter(random, script), // late 1
    |script, random| {
        let (id, p) = (script.last().id, script.p());
        senders::full(&mut script.sender, random, id);
        senders::count(&mut script.sender, p);
    }, // 15
    |script, random| script.last().id = random.pick(&[3, 4, 256, 1 << 32, u64::MAX]), // 14
    |script, _| script.last().unit = Buffer::default(),       // 14
    |script, random| {
        let length = random.pick(&[4_097, 5_000, LONGEST_INPUT]);
        script.last().unit = store(random, length);
    }, // 14
    |script, random| script.last().unit = store(random, LONGEST_INPUT + 1), // 1
    other_store,                                              // 1
    |script, random| spoil(script, random, 0..3),             // 17
    |script, random| spoil(script, random, 3..8),             // 17
    |script, random| spoil(script, random, 8..13),            // 17
    |script, random| spoil(script, random, 13..14),           // 17
    no_multiple,                                              // 17
    |script, random| {
        let p = script.p();
        senders::miscount(&mut script.sender, random, p);
    }, // 17
    other_settings,                                           // 13
];

fn other_store(script: &mut Script, random: &mut Random) {
    let length = random.pick(&[0, 4_096, 12_287, 12_289, 16_384]);
    script.store = store(random, length);
}

fn other_settings(script: &mut Script, random: &mut Random) {
    let wrong = settings::faults::<Script>();
    wrong[random.below(wrong.len() as u64) as usize](script, random);
}

/// Sent bytes that are no multiple of p; where p is 1, too many of them. The counts are right.
fn no_multiple(script: &mut Script, random: &mut Random) {
    let p = script.p();
    let queue = any(&mut script.sender, random);
    senders::one_left(queue, 0, 3);
    queue.sent = match p {
        2..=1_000 => p * random.below(3) + 1 + random.below(p - 1),
        _ => QUEUE_BYTES as u64,
    };
    senders::count(&mut script.sender, p);
}

/// One of those kinds of 17, with counts that are right: it alone decides.
fn spoil(script: &mut Script, random: &mut Random, kinds: std::ops::Range<usize>) {
    let kinds = &BROKEN[kinds];
    kinds[random.below(kinds.len() as u64) as usize](&mut script.sender, random);
    senders::count(&mut script.sender, script.steps[0].settings.p);
}

/// An output that is too short for the longest frame, mostly by one.
fn shorter(random: &mut Random, script: &Script) -> Buffer {
    let needed = script.steps.iter().map(Step::needed).max().unwrap_or(0);
    generate::too_short(random, needed)
}

/// The limits of a queue and of a unit, met step by step.
fn limits(random: &mut Random, settings: Settings) -> Vec<Script> {
    let mut list = Vec::new();
    let of = |random: &mut Random, lengths: &[(u64, usize)], frames: usize| {
        let mut steps: Vec<Step> = Vec::new();
        for (id, length) in lengths {
            steps.push(load(random, settings, *id, *length));
        }
        steps.extend(vec![frame(settings); frames]);
        Script::new(random, steps)
    };
    let p = settings.p as usize;
    list.push(of(random, &[], 0));
    list.push(of(random, &[], 3));
    list.push(of(
        random,
        &[(0, 4_096), (0, 1), (1, 4_095), (1, 2), (1, 1), (2, 1)],
        9,
    ));
    list.push(of(random, &[(2, 1); 9], 4));
    list.push(of(random, &[(1, 512); 9], 9));
    list.push(of(
        random,
        &[(0, p), (0, p + 1), (1, 2 * p), (2, 2 * p + 1), (2, 1)],
        8,
    ));
    for bad in [
        (0, 0),
        (1, 4_097),
        (2, 65_528),
        (2, 65_529),
        (3, 1),
        (3, 0),
        (u64::MAX, 65_529),
    ] {
        list.push(of(random, &[(0, 3), bad], 2));
        list.push(of(random, &[(0, 3), bad], 0));
    }
    // Room of sent bytes is used again.
    let mut steps = vec![load(random, settings, 1, 4_096)];
    for _ in 0..6 {
        steps.push(frame(settings));
        for length in [1, p] {
            steps.push(load(random, settings, 1, length));
        }
    }
    list.push(Script::new(random, steps));
    list
}

/// p and the rest of the settings changed from step to step.
fn changing(random: &mut Random) -> Script {
    let (first, second) = (settings::good(random), settings::good(random));
    let drawn = 1 + random.below(12);
    let other = random.pick(&[first.p, first.p, drawn, 2 * first.p.min(20)]);
    let second = with_p(second, other);
    let mut steps = Vec::new();
    for _ in 0..3 + random.below(9) {
        let now = random.pick(&[first, first, second]);
        steps.push(random_step(random, now));
    }
    Script::new(random, steps)
}

/// These settings, or where they are too long with that p, others.
fn with_p(settings: Settings, p: u64) -> Settings {
    let changed = Settings { p, ..settings };
    match changed.check() {
        Ok(()) => changed,
        Err(_) => settings::of(p, 2, [1, 0, 0], [2, 1, 2]),
    }
}

fn random_step(random: &mut Random, settings: Settings) -> Step {
    if random.one_in(2) {
        return frame(settings);
    }
    let p = settings.p;
    let length = match random.below(40) {
        0 => random.pick(&[0, 4_097, 65_528, 65_529]),
        1 => random.pick(&[4_096, 4_095, 2_048]),
        2..=5 => 1 + random.below(600),
        6..=12 => p * (1 + random.below(4)),
        13..=16 => p * (1 + random.below(4)) + 1,
        _ => 1 + random.below(5 * p.min(30)),
    };
    let id = match random.below(60) {
        0 => random.pick(&[3, 4, 1 << 32, u64::MAX]),
        _ => random.below(3),
    };
    load(random, settings, id, length as usize)
}

/// A whole script with the same settings.
fn steady(random: &mut Random) -> Script {
    let settings = settings::good(random);
    let small = settings.packets * (settings.p + FRAMING as u64) < 800;
    let count = match random.below(if small { 24 } else { 6 }) {
        0..=15 => 3 + random.below(8),
        16..=21 => 8 + random.below(12),
        _ => LONGEST as u64,
    };
    // Often of one queue alone, so that it fills.
    let only = random.one_in(4).then(|| random.below(3));
    let mut steps: Vec<Step> = (0..count).map(|_| random_step(random, settings)).collect();
    if let Some(id) = only {
        for step in &mut steps {
            step.id = id;
        }
    }
    Script::new(random, steps)
}

/// Queues that all have packets for many frames, or two of them: frame upon frame with spares, the settings
/// changed between some, and loads and refused calls among them (document 02, E11).
fn busy(random: &mut Random) -> Script {
    let p = settings::busy_p(random);
    let mut now = settings::busy(random, p);
    let without = random.below(12);
    let mut steps = Vec::new();
    for id in (0..3).filter(|id| *id != without) {
        let length = 600 + random.below(3_000) as usize;
        steps.push(load(random, now, id, length));
    }
    let count = 7 + random.below(LONGEST as u64 - 6) as usize;
    while steps.len() < count {
        if random.one_in(3) {
            now = settings::busy(random, p);
        }
        steps.push(match random.below(12) {
            0 | 1 => random_step(random, now),
            2 => load(random, now, 3, 1),
            3 => frame(settings::of(p, 0, [0; 3], [1; 3])),
            _ => frame(now),
        });
    }
    Script::new(random, steps)
}

fn fixed(random: &mut Random) -> Vec<Vec<u8>> {
    let mut list = Vec::new();
    for settings in [
        settings::example(),
        settings::of(1, 1, [0; 3], [1; 3]),
        settings::of(255, 3, [1, 1, 0], [2, 1, 3]),
        settings::of(1, 2_047, [0; 3], [2_047; 3]),
        settings::of(255, 31, [31, 0, 0], [31, 1, 31]),
    ] {
        list.extend(limits(random, settings));
    }
    for settings in settings::limits() {
        let mut steps = Vec::new();
        for id in 0..3 {
            let length = 1 + random.below(40) as usize;
            steps.push(load(random, settings, id, length));
        }
        steps.extend(vec![frame(settings); 3]);
        list.push(Script::new(random, steps));
    }
    // Every kind of 17 alone, in scripts that end with a load and with a frame.
    let settings = settings::example();
    let ends = [load(random, settings, 1, 5), frame(settings)];
    for _ in 0..2 {
        for kind in 0..BROKEN.len() {
            for end in &ends {
                let mut script = Script::new(random, vec![end.clone()]);
                script.sender = state(random, settings.p);
                let mut other = script.clone();
                spoil(&mut script, random, kind..kind + 1);
                no_multiple(&mut other, random);
                list.extend([script, other]);
            }
        }
    }
    // Changes of all but p, wrong counts, changes of p, and rings.
    list.extend((0..6).map(|_| busy(random)));
    list.extend(counts::fixed(random));
    list.extend(rings::fixed(random));
    // The order of the refusals.
    for end in ends {
        let good = Script::new(random, vec![end]);
        let waiting = state(random, settings.p);
        list.extend(faults::all(&good.from(waiting), FAULTS, random));
    }
    // Outputs of all lengths.
    for length in generate::output_lengths(70) {
        let mut script = Script::new(random, vec![frame(settings); 2]);
        script.output = generate::compact(random, length);
        list.push(script);
    }
    // An unknown kind, and a step too many.
    let mut unknown = frame(settings);
    unknown.kind = 2;
    list.push(Script::new(random, vec![unknown]));
    for count in [LONGEST, LONGEST + 1] {
        list.push(Script::new(random, vec![frame(settings); count]));
    }
    bodies(list)
}

fn random_script(random: &mut Random) -> Vec<u8> {
    let mut script = match random.below(11) {
        0 => changing(random),
        1 => return counts::random_change(random).body(),
        2..=5 => busy(random),
        6 => return rings::random_round(random).body(),
        _ => steady(random),
    };
    if random.one_in(3) {
        // Now and then for the p of the last step, which may be another.
        let p = random.pick(&[script.p(), script.p(), script.p(), script.last().settings.p]);
        script.sender = state(random, p);
    }
    match random.below(12) {
        0 | 1 => counts::miscounted(random, script).body(),
        2 => rings::random_past(random, script).body(),
        3..=5 => faults::some(script, FAULTS, random).body(),
        _ => script.body(),
    }
}

#[cfg(test)]
mod tests {
    use super::*;

    fn answered(script: &Script) -> Answer {
        answer(&mut Reader::new(&script.body())).unwrap()
    }

    #[test]
    fn states_are_allowed_and_broken_ones_are_not() {
        let mut random = Random::new(1);
        for round in 0..300 {
            let settings = match round % 2 {
                0 => settings::example(),
                _ => settings::good(&mut random),
            };
            let good = state(&mut random, settings.p);
            let script = Script::new(&mut random, vec![frame(settings)]);
            assert_eq!(answered(&script.clone().from(good)).number, 0);
            let kind = round % BROKEN.len();
            let good = script.from(state(&mut random, settings.p));
            let mut broken = good.clone();
            spoil(&mut broken, &mut random, kind..kind + 1);
            assert_eq!(answered(&broken).number, 17, "kind {kind}");
            let mut broken = good;
            no_multiple(&mut broken, &mut random);
            assert_eq!(answered(&broken).number, 17);
        }
    }

    /// Two loads, one of them refused, and a frame: eight values each, then the sender's 41.
    #[test]
    fn values_of_a_script() {
        let mut random = Random::new(2);
        let settings = settings::of(4, 3, [0; 3], [3; 3]);
        let mut first = load(&mut random, settings, 1, 6);
        first.unit = Buffer::Given(vec![1, 2, 3, 4, 5, 6]);
        let second = load(&mut random, settings, 3, 1);
        let mut script = Script::new(&mut random, vec![first, second, frame(settings)]);
        script.output = Buffer::Given(vec![0; 22]);
        let answer = answered(&script);
        assert_eq!(answer.number, 0);
        let mut expected = vec![0, 0, 0, 0, 0, 0, u64::from(crc16(&[0; 22])), 0];
        expected.extend_from_within(..);
        expected[8] = 14;
        let frame = [
            0x90, 1, 2, 3, 4, 0xC5, 0x7A, 0x59, 2, 5, 6, 0, 0xFF, 0x83, 0xF8, 0, 0, 0, 0, 0xD3,
            0x88, 0,
        ];
        let sum = frame.iter().map(|byte| u64::from(*byte)).sum();
        expected.extend([0, 0, 2, 0, 2, 1, u64::from(crc16(&frame)), sum]);
        expected.extend([0; 36]);
        expected.extend([2, 0, 2, 0, 1]);
        expected[24 + 12 + 3] = 6;
        assert_eq!(answer.values, expected);
    }

    #[test]
    fn no_step_at_all() {
        let script = Script::new(&mut Random::new(3), vec![]);
        let answer = answered(&script);
        assert_eq!((answer.number, answer.values), (0, vec![0; 41]));
    }
}
