//! Call 37: whole runs from a fresh sender to a fresh receiver (document 01, "Packets, queues and receiver";
//! document 02, E5 and E9).

use super::settings::{self, Set};
use super::Call;
use crate::answer::Answer;
use crate::buffer::Buffer;
use crate::crc::crc16;
use crate::faults;
use crate::fields::{bodies, lines, Arguments, Fields};
use crate::generate;
use crate::packet::FRAMING;
use crate::random::Random;
use crate::reader::Reader;
use crate::refusal::{Refusal, LONGEST_INPUT};
use crate::runs::{Added, Hearing, Sending};
use crate::sender::{Settings, QUEUE_BYTES, UNITS};

/// Its values have no names: each step has five.
pub const SCRIPT: Call = Call {
    code: 37,
    name: "through script",
    fixed,
    random: random_run,
    answer,
    arguments: lines::<Run>,
    values: &[],
    buffers: &[],
};

/// The most steps.
const LONGEST: usize = 24;

/// The kinds of a step.
const LOAD: u8 = 0;
const FRAME: u8 = 1;

#[derive(Default, Clone)]
struct Run {
    settings: Settings,
    steps: Vec<Step>,
}

#[derive(Default, Clone)]
struct Step {
    kind: u8,
    /// Of a load alone.
    id: u64,
    unit: Buffer,
}

impl Arguments for Run {
    fn each(&mut self, fields: &mut impl Fields) -> Option<()> {
        fields.settings(&mut self.settings)?;
        let mut count = self.steps.len() as u8;
        fields.byte("steps", &mut count)?;
        self.steps.resize(usize::from(count), Step::default());
        for step in &mut self.steps {
            fields.byte("step of kind", &mut step.kind)?;
            if step.kind == LOAD {
                fields.number("id", &mut step.id)?;
                fields.buffer("unit", &mut step.unit)?;
            }
        }
        Some(())
    }
}

impl Set for Run {
    fn settings(&mut self) -> &mut Settings {
        &mut self.settings
    }
}

/// What arrives in a step.
#[derive(Default)]
struct Arrived {
    /// The units delivered, in order, each with its id.
    units: Vec<(usize, Vec<u8>)>,
    /// Bytes dropped over all packets: 0 in every run, since every packet is given in order.
    dropped: usize,
}

impl Arrived {
    fn values(&self) -> [u64; 4] {
        let weighed = |(id, unit): &(usize, Vec<u8>)| (id + 1) as u64 * unit.len() as u64;
        let bytes: Vec<u8> = self
            .units
            .iter()
            .flat_map(|(_, unit)| unit.clone())
            .collect();
        [
            self.units.len() as u64,
            self.units.iter().map(weighed).sum(),
            u64::from(crc16(&bytes)),
            self.dropped as u64,
        ]
    }
}

/// Both ends of the stream.
struct Ends {
    sending: Sending,
    hearing: Hearing,
}

impl Ends {
    fn fresh() -> Ends {
        Ends {
            sending: Sending::fresh(),
            hearing: Hearing::fresh(),
        }
    }

    /// What arrives with a frame's packets.
    fn frame(&mut self, settings: &Settings) -> Result<Arrived, Refusal> {
        settings.check()?;
        let length = settings.p as usize + FRAMING;
        let mut frame = vec![0; settings.packets as usize * length];
        self.sending.frame(settings, &mut frame)?;
        let mut arrived = Arrived::default();
        for packet in frame.chunks(length) {
            let heard = self.hearing.step(settings.p, packet)?;
            arrived.dropped += heard.dropped;
            if let Some(ended) = heard.ended {
                let unit = ended.unit(&self.hearing.buffer).to_vec();
                arrived.units.push((ended.id, unit));
            }
        }
        Ok(arrived)
    }

    /// The spares of the one end and the balance of the other.
    fn added(&self) -> Added {
        let mut added = self.sending.added();
        added.add(&self.hearing.added());
        added
    }
}

fn answer(body: &mut Reader) -> Option<Answer> {
    let Run { settings, steps } = Run::read(body)?;
    if steps.len() > LONGEST || steps.iter().any(|step| step.kind > FRAME) {
        return None;
    }
    let mut ends = Ends::fresh();
    let mut last = Refusal::number(0);
    let mut values = Vec::new();
    for step in &steps {
        let done = match step.kind {
            LOAD => ends
                .sending
                .load(&settings, step.id, &step.unit.bytes())
                .map(|()| Arrived::default()),
            _ => ends.frame(&settings),
        };
        last = *done.as_ref().err().unwrap_or(&Refusal::number(0));
        values.push(u64::from(last.number));
        values.extend(done.unwrap_or_default().values());
    }
    let mut answer = Answer::refused(last);
    answer.values = values;
    answer.added = ends.added();
    Some(answer)
}

fn frame() -> Step {
    Step {
        kind: FRAME,
        ..Step::default()
    }
}

fn load(random: &mut Random, id: u64, length: usize) -> Step {
    Step {
        kind: LOAD,
        id,
        unit: generate::compact(random, length),
    }
}

/// Loads of these lengths, then frames.
fn of(random: &mut Random, settings: Settings, lengths: &[(u64, usize)], frames: usize) -> Run {
    let mut steps: Vec<Step> = lengths
        .iter()
        .map(|(id, length)| load(random, *id, *length))
        .collect();
    steps.extend(vec![frame(); frames]);
    Run { settings, steps }
}

/// The limits of a queue and of a unit.
fn limits(random: &mut Random, settings: Settings) -> Vec<Run> {
    let p = settings.p as usize;
    let mut list = vec![
        of(random, settings, &[], 3),
        of(
            random,
            settings,
            &[(0, 4_096), (1, 4_096), (2, 4_096), (0, 1)],
            20,
        ),
        of(random, settings, &[(0, 4_095), (0, 1), (0, 1)], 21),
        of(random, settings, &[(2, 1); 9], 12),
        of(random, settings, &[(1, 512); 9], 15),
        of(
            random,
            settings,
            &[(0, p), (0, p + 1), (1, 2 * p), (2, 2 * p + 1), (2, 1)],
            8,
        ),
    ];
    for bad in [
        (0, 0),
        (1, 4_097),
        (2, 65_528),
        (2, 65_529),
        (3, 1),
        (3, 0),
        (u64::MAX, 65_529),
    ] {
        list.push(of(random, settings, &[(0, 3), bad], 2));
        list.push(of(random, settings, &[(0, 3), bad], 0));
    }
    // Room of sent bytes is used again.
    let mut steps = vec![load(random, 1, 4_096)];
    for _ in 0..6 {
        steps.push(frame());
        for length in [1, p] {
            steps.push(load(random, 1, length));
        }
    }
    list.push(Run { settings, steps });
    list
}

/// Loads on one queue with a frame after each.
fn pairs(random: &mut Random, settings: Settings, id: u64, lengths: &[usize]) -> Run {
    let mut steps = Vec::new();
    for length in lengths {
        steps.extend([load(random, id, *length), frame()]);
    }
    Run { settings, steps }
}

/// Runs that go round the rings of their queues (document 02, E9), with frames of one queue alone.
fn rounds(random: &mut Random) -> Vec<Run> {
    let mut list = Vec::new();
    for (id, p, packets, lengths) in [
        (0, 255, 12, vec![4_096, 3_000, 1_000, 97]),
        (1, 255, 12, vec![4_096, 3_000, 1_000, 97]),
        (2, 255, 12, vec![4_096, 3_000, 1_000, 97]),
        (0, 255, 31, vec![4_096; 12]),
        (1, 127, 63, vec![4_095; 6]),
        (2, 4, 1_170, vec![4_096, 4_093, 4_096, 4_090, 5, 12]),
        (2, 1, 2_047, vec![4_096, 2_047, 2_046, 2_047, 3]),
    ] {
        let mut settings = settings::of(p, packets, [0; 3], [1; 3]);
        (settings.shares[id], settings.ceilings[id]) = (packets, packets);
        list.push(pairs(random, settings, id as u64, &lengths));
    }
    list
}

fn fixed(random: &mut Random) -> Vec<Vec<u8>> {
    let mut list = rounds(random);
    for settings in [
        settings::example(),
        settings::of(1, 1, [0; 3], [1; 3]),
        settings::of(255, 3, [1, 1, 0], [2, 1, 3]),
        settings::of(1, 2_047, [0; 3], [2_047; 3]),
        settings::of(255, 31, [31, 0, 0], [31, 1, 31]),
        settings::of(61, 127, [40, 40, 40], [127, 60, 127]),
    ] {
        list.extend(limits(random, settings));
    }
    for settings in settings::limits() {
        let lengths = [0, 1, 2, 1, 0].map(|id| (id, 1 + random.below(40) as usize));
        list.push(of(random, settings, &lengths, 12));
    }
    let good = of(random, settings::example(), &[(0, 5), (1, 9)], 2);
    list.extend(faults::all(&good, &settings::faults(), random));
    for steps in [vec![load(random, 1, LONGEST_INPUT + 1)], vec![]] {
        let settings = Settings::default();
        list.push(Run { settings, steps });
    }
    // An unknown kind, and a step too many.
    let mut unknown = good.clone();
    unknown.steps[1].kind = 2;
    list.push(unknown);
    for count in [0, LONGEST, LONGEST + 1] {
        list.push(of(random, settings::example(), &[], count));
    }
    bodies(list)
}

/// Mostly small settings, now and then those of long packets in long frames.
fn drawn_settings(random: &mut Random) -> Settings {
    if !random.one_in(8) {
        return settings::good(random);
    }
    let p = random.pick(&[61, 100, 200, 254, 255]);
    let packets = 8_190 / (p + FRAMING as u64) - random.below(4);
    let (first, second) = (random.below(packets / 2), random.below(packets / 2));
    let ceiling = |share: u64, random: &mut Random| share.max(1) + random.below(packets - share);
    let shares = [first, second, random.below(packets - first - second + 1)];
    let ceilings = shares.map(|share| ceiling(share, random).min(packets));
    settings::of(p, packets, shares, ceilings)
}

/// The length of a unit: of few packets, at a limit, or as much as a queue holds.
fn drawn_length(random: &mut Random, p: u64) -> usize {
    let length = match random.below(40) {
        0 => random.pick(&[0, 4_097, 65_528, 65_529]),
        1 | 2 => random.pick(&[4_096, 4_096, 4_095, 2_048]),
        3..=6 => 1 + random.below(600),
        7..=14 => p * (1 + random.below(4)),
        15..=18 => p * (1 + random.below(4)) + 1,
        _ => 1 + random.below(5 * p.min(30)),
    };
    length as usize
}

/// Loads in bursts, and frames in runs, on some of the queues.
fn drawn_steps(random: &mut Random, p: u64, count: usize) -> Vec<Step> {
    let ids: Vec<u64> = (0..random.pick(&[1, 2, 6]))
        .map(|_| random.below(3))
        .collect();
    let mut steps = Vec::new();
    while steps.len() < count {
        for _ in 0..1 + random.below(4) {
            let id = match random.below(60) {
                0 => random.pick(&[3, 4, 1 << 32, u64::MAX]),
                _ => random.pick(&ids),
            };
            let length = drawn_length(random, p);
            steps.push(load(random, id, length));
        }
        let frames = random.pick(&[1, 1, 2, 3, 5]);
        steps.extend(vec![frame(); frames]);
    }
    steps.truncate(count);
    steps
}

/// A queue filled to its limit, in bytes or in units, and one unit more.
fn overloaded(random: &mut Random) -> Vec<Step> {
    let id = random.below(3);
    let lengths = match random.below(4) {
        0 => vec![QUEUE_BYTES, 1],
        1 => vec![QUEUE_BYTES - 1, 2, 1],
        2 => vec![1 + random.below(9) as usize; UNITS + 1],
        _ => vec![QUEUE_BYTES / UNITS; UNITS + 1],
    };
    lengths
        .into_iter()
        .map(|length| load(random, id, length))
        .collect()
}

/// Queues that all have packets for many frames, or two of them, with a short unit first that arrives soon
/// (document 02, E11).
fn busy(random: &mut Random) -> Run {
    let p = settings::busy_p(random);
    let settings = settings::busy(random, p);
    let without = random.below(12);
    let mut steps = Vec::new();
    for id in (0..3).filter(|id| *id != without) {
        for length in [1 + random.below(3 * p), 600 + random.below(3_000)] {
            steps.push(load(random, id, length as usize));
        }
    }
    let count = 12 + random.below(LONGEST as u64 - 11) as usize;
    while steps.len() < count {
        steps.push(match random.below(8) {
            0 => {
                let (id, length) = (random.below(3), drawn_length(random, p));
                load(random, id, length)
            }
            _ => frame(),
        });
    }
    Run { settings, steps }
}

/// Few queues, long units, and frames that take nearly all of them.
fn random_round(random: &mut Random) -> Run {
    let p = random.pick(&[4, 61, 100, 127, 254, 255]);
    let most = 8_190 / (p + FRAMING as u64);
    let packets = random.pick(&[most, most, most / 2]);
    let settings = settings::of(p, packets, [0; 3], [packets; 3]);
    let ids: Vec<u64> = (0..1 + random.below(2)).map(|_| random.below(3)).collect();
    let mut steps = Vec::new();
    for _ in 0..3 + random.below(6) {
        let drawn = 1 + random.below(QUEUE_BYTES as u64) as usize;
        let length = random.pick(&[QUEUE_BYTES, QUEUE_BYTES - 1, drawn, drawn, drawn / 2 + 1]);
        let id = random.pick(&ids);
        steps.extend([load(random, id, length), frame()]);
    }
    Run { settings, steps }
}

fn random_run(random: &mut Random) -> Vec<u8> {
    match random.below(20) {
        0..=3 => return busy(random).body(),
        4 => return random_round(random).body(),
        _ => {}
    }
    let settings = drawn_settings(random);
    let count = match random.below(10) {
        0..=5 => 4 + random.below(10),
        6..=8 => 12 + random.below(12),
        _ => LONGEST as u64,
    };
    let mut steps = drawn_steps(random, settings.p, count as usize);
    match random.below(12) {
        0 => steps = overloaded(random),
        1 => steps.splice(0..0, overloaded(random)).for_each(drop),
        2 => {
            let id = random.pick(&[0, 1, 2, 3, u64::MAX]);
            let length = random.pick(&[0, 4_097, 65_528, 65_529, 131_072]);
            steps.push(load(random, id, length));
        }
        // All that waits is sent.
        3..=8 => steps.resize(LONGEST, frame()),
        _ => {}
    }
    // The last ones stay: they decide the number.
    let over = steps.len().saturating_sub(LONGEST);
    steps.drain(..over);
    let run = Run { settings, steps };
    match random.below(12) {
        0 => faults::some(run, &settings::faults(), random).body(),
        _ => run.body(),
    }
}

#[cfg(test)]
mod tests {
    use super::*;
    use crate::sender::QUEUES;

    fn answered(run: &Run) -> Answer {
        answer(&mut Reader::new(&run.body())).unwrap()
    }

    /// Two units in one frame, of ids 1 and 2 and lengths 6 and 1.
    #[test]
    fn values_of_a_run() {
        let settings = settings::of(4, 3, [0; 3], [3; 3]);
        let mut run = of(&mut Random::new(1), settings, &[(2, 1), (1, 6), (3, 1)], 2);
        run.steps[0].unit = Buffer::Given(vec![9]);
        run.steps[1].unit = Buffer::Given(vec![1, 2, 3, 4, 5, 6]);
        let answer = answered(&run);
        let check_word = u64::from(crc16(&[1, 2, 3, 4, 5, 6, 9]));
        let mut expected = vec![0; 25];
        expected[10] = 14;
        expected[16..19].copy_from_slice(&[2, 2 * 6 + 3, check_word]);
        assert_eq!((answer.number, answer.values), (0, expected));
        assert_eq!(answer.buffers, []);
    }

    #[test]
    fn settings_that_are_refused() {
        let settings = settings::of(4, u64::MAX, [0; 3], [3; 3]);
        let answer = answered(&of(&mut Random::new(1), settings, &[(0, 1)], 1));
        assert_eq!(
            (answer.number, answer.values),
            (13, vec![13, 0, 0, 0, 0, 13, 0, 0, 0, 0])
        );
    }

    /// From fresh ends, with every packet given in order, no step of any run drops a byte.
    #[test]
    fn nothing_is_dropped() {
        let mut random = Random::new(4);
        let mut bodies = fixed(&mut random);
        bodies.extend((0..500).map(|_| random_run(&mut random)));
        for body in bodies {
            if let Some(answer) = answer(&mut Reader::new(&body)) {
                assert!(answer.values.chunks(5).all(|step| step[4] == 0));
            }
        }
    }

    /// Bytes that go into each queue.
    fn loaded(run: &Run) -> [usize; QUEUES] {
        let (mut sending, mut loaded) = (Sending::fresh(), [0; QUEUES]);
        for step in &run.steps {
            if step.kind == FRAME {
                let _ = sending.frame(&run.settings, &mut [0; 8_190]);
                continue;
            }
            let unit = step.unit.bytes();
            if sending.load(&run.settings, step.id, &unit).is_ok() {
                loaded[step.id as usize] += unit.len();
            }
        }
        loaded
    }

    /// Each queue's ring is gone round, in fixed cases and in some of the random ones.
    #[test]
    fn rings_are_gone_round() {
        let mut random = Random::new(5);
        let fixed = fixed(&mut random);
        let drawn: Vec<_> = (0..500).map(|_| random_run(&mut random)).collect();
        for (bodies, least) in [(fixed, 2), (drawn, 10)] {
            let mut rounds = [0; QUEUES];
            for body in bodies {
                let run = Run::read(&mut Reader::new(&body)).unwrap();
                for (count, bytes) in rounds.iter_mut().zip(loaded(&run)) {
                    *count += usize::from(bytes > QUEUE_BYTES);
                }
            }
            assert!(rounds.iter().all(|count| *count >= least), "{rounds:?}");
        }
    }

    /// Where an index is passed over, the sum shows it: the open bytes of both ids, in one frame.
    #[test]
    fn what_is_dropped_is_added_up() {
        let settings = settings::of(4, 2, [1, 1, 0], [1; 3]);
        let mut ends = Ends::fresh();
        for (id, length) in [(0, 5), (1, 9)] {
            let unit = vec![7; length];
            assert_eq!(ends.sending.load(&settings, id, &unit), Ok(()));
        }
        let dropped = [false, true].map(|lost| {
            if lost {
                let mut sender = ends.sending.sender;
                sender.indexes = sender.indexes.map(|index| index + 1);
                ends.sending = Sending::new(sender, ends.sending.store.clone());
            }
            ends.frame(&settings).unwrap().values()
        });
        assert_eq!(dropped, [[0; 4], [0, 0, 0, 8]]);
        assert_eq!(ends.added().differences, [""; 0]);
    }

    #[test]
    fn drawn_settings_are_good() {
        let mut random = Random::new(2);
        for _ in 0..5_000 {
            assert_eq!(drawn_settings(&mut random).check(), Ok(()));
        }
    }

    /// Nearly every random run delivers a unit.
    #[test]
    fn units_are_delivered() {
        let mut random = Random::new(3);
        let mut delivering = 0;
        for _ in 0..500 {
            let body = random_run(&mut random);
            let answer = answer(&mut Reader::new(&body)).unwrap();
            let delivered: u64 = answer.values.chunks(5).map(|step| step[1]).sum();
            delivering += usize::from(delivered > 0);
        }
        assert!(delivering > 350);
    }
}
