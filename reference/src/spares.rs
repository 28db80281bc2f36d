//! The spares over a run of frames (document 02, E11): two queues that are both still below their waiting packets
//! and their ceilings each time a spare is handed out, to whichever queue, get numbers of spares that differ
//! by at most one.
//!
//! The claim is on every run of consecutive frames in which that holds. Loads and refused calls between them
//! count for nothing, and the settings may change from frame to frame.

use crate::sender::{HandOut, Settings, QUEUES};

/// The pairs of queues; what is claimed of i and j is claimed of j and i.
const PAIRS: [[usize; 2]; 3] = [[0, 1], [0, 2], [1, 2]];

/// A frame that was written: what it was made from, and what was handed out.
pub struct Frame<'a> {
    pub settings: &'a Settings,
    /// Packets waiting in each queue before it.
    pub waiting: [u64; QUEUES],
    /// The turn before it.
    pub turn: u64,
    pub out: &'a HandOut,
}

/// Which queues are, just before a spare is handed out, below their waiting packets and their ceilings.
type Able = [bool; QUEUES];

/// Whether a frame belongs to the claim on a pair of queues: by the ids that get its spares, and by which
/// queues could have taken each.
type Premise = fn(&[usize], &[Able], [usize; 2]) -> bool;

/// At every spare, whoever gets it.
fn both_able(_ids: &[usize], able: &[Able], [i, j]: [usize; 2]) -> bool {
    able.iter().all(|able| able[i] && able[j])
}

impl Frame<'_> {
    /// The packets of the shares alone.
    fn shared(&self) -> [u64; QUEUES] {
        [0, 1, 2].map(|id| self.settings.shares[id].min(self.waiting[id]))
    }

    /// The spares that this id got.
    fn count(&self, id: usize) -> u64 {
        self.out.ids.iter().filter(|got| **got == id).count() as u64
    }

    /// Of each spare; the packets of a queue are those of the frame so far, its share's among them.
    fn able(&self) -> Vec<Able> {
        let mut packets = self.shared();
        let mut list = Vec::new();
        for id in &self.out.ids {
            list.push([0, 1, 2].map(|id| {
                let (waiting, ceiling) = (self.waiting[id], self.settings.ceilings[id]);
                packets[id] < waiting && packets[id] < ceiling
            }));
            packets[*id] += 1;
        }
        list
    }
}

/// 1 where from this turn on, in cyclic order, the first of the pair comes before the second, else 0.
fn ahead(turn: u64, pair: [usize; 2]) -> u64 {
    let turn = (turn % QUEUES as u64) as usize;
    let [first, second] = pair.map(|id| (id + QUEUES - turn) % QUEUES);
    u64::from(first < second)
}

/// Frames one behind the other in all of which the premise holds for a pair.
struct Stretch {
    /// The turn before it.
    turn: u64,
    spares: [u64; 2],
    /// How far the first of the pair was ahead, at the least and at the most, at its start or at the end of
    /// any of its frames: between two of these lies every run of its frames.
    least: i64,
    most: i64,
    /// Its frames that have a spare.
    frames: u64,
}

impl Stretch {
    fn from(turn: u64) -> Stretch {
        Stretch {
            turn,
            spares: [0; 2],
            least: 0,
            most: 0,
            frames: 0,
        }
    }

    fn add(&mut self, frame: &Frame, pair: [usize; 2]) {
        for (sum, id) in self.spares.iter_mut().zip(pair) {
            *sum += frame.count(id);
        }
        let ahead = self.spares[0] as i64 - self.spares[1] as i64;
        (self.least, self.most) = (self.least.min(ahead), self.most.max(ahead));
        self.frames += u64::from(!frame.out.ids.is_empty());
    }

    /// What is wrong with it where it ends with this turn.
    fn differences(&self, turn: u64, pair: [usize; 2]) -> Vec<String> {
        let ([i, j], [of_i, of_j]) = (pair, self.spares);
        let mut list = Vec::new();
        if self.most - self.least > 1 {
            let apart = self.most - self.least;
            list.push(format!("queues {i} and {j}: {apart} spares apart"));
        }
        // What the claim rests on: who is ahead in spares is behind in the turn.
        if of_i + ahead(turn, pair) != of_j + ahead(self.turn, pair) {
            let turns = format!("turn {} before and {turn} after", self.turn);
            list.push(format!(
                "queues {i} and {j}: spares {of_i} and {of_j}, {turns}"
            ));
        }
        list
    }
}

/// The account of a run.
pub struct Spares {
    premise: Premise,
    /// The turn that the last frame left.
    turn: Option<u64>,
    /// The stretch of each pair that the last frame belongs to.
    stretches: [Option<Stretch>; PAIRS.len()],
    /// Frames so far.
    frames: u64,
    /// Frames with a spare that meet the premise, and stretches with two or more of them; both counted for
    /// each pair.
    met: u64,
    runs: u64,
    /// All that is wrong after the first frame after which something is.
    differences: Vec<String>,
}

impl Spares {
    pub fn new() -> Spares {
        Spares::with(both_able)
    }

    fn with(premise: Premise) -> Spares {
        Spares {
            premise,
            turn: None,
            stretches: Default::default(),
            frames: 0,
            met: 0,
            runs: 0,
            differences: Vec::new(),
        }
    }

    /// The run's next frame that is not refused.
    pub fn frame(&mut self, frame: &Frame) {
        if !self.differences.is_empty() {
            return;
        }
        self.frames += 1;
        if self.turn.is_some_and(|turn| turn != frame.turn) {
            self.differ("it begins with another turn than the last frame left");
        }
        self.turn = Some(frame.out.turn);
        self.hold_reported(frame);
        let able = frame.able();
        for place in 0..PAIRS.len() {
            self.hold_pair(place, frame, &able);
        }
    }

    /// A queue's spares are its packets less the smaller of share and waiting, and all of them are reported.
    fn hold_reported(&mut self, frame: &Frame) {
        let (shared, packets) = (frame.shared(), frame.out.packets);
        for id in 0..QUEUES {
            let spares = frame.count(id);
            if shared[id] + spares != packets[id] {
                let reported = format!("{} by share and {} in all", shared[id], packets[id]);
                self.differ(&format!("queue {id}: {spares} spares, {reported}"));
            }
        }
        let (steps, spares) = (frame.out.ids.len() as u64, frame.out.spares);
        if steps != spares {
            self.differ(&format!("{spares} spares reported, {steps} handed out"));
        }
    }

    fn hold_pair(&mut self, place: usize, frame: &Frame, able: &[Able]) {
        let pair = PAIRS[place];
        if !(self.premise)(&frame.out.ids, able, pair) {
            self.stretches[place] = None;
            return;
        }
        let stretch = self.stretches[place].get_or_insert_with(|| Stretch::from(frame.turn));
        stretch.add(frame, pair);
        if !able.is_empty() {
            self.met += 1;
            self.runs += u64::from(stretch.frames == 2);
        }
        for what in stretch.differences(frame.out.turn, pair) {
            self.differ(&what);
        }
    }

    fn differ(&mut self, what: &str) {
        let frame = self.frames;
        self.differences.push(format!("frame {frame}: {what}"));
    }

    /// Frames with a spare that meet the premise for a pair, and runs of two or more of them.
    pub fn met(&self) -> (u64, u64) {
        (self.met, self.runs)
    }

    pub fn differences(&self) -> &[String] {
        &self.differences
    }
}

#[cfg(test)]
mod tests {
    use super::*;
    use crate::random::Random;
    use crate::runs::{Added, Sending};
    use crate::sender::{hand_out, Sender, STORE_BYTES};

    fn settings(packets: u64, shares: [u64; 3], ceilings: [u64; 3]) -> Settings {
        Settings {
            p: 4,
            packets,
            shares,
            ceilings,
        }
    }

    /// Hands out by document 01's rule, frame by frame, by each frame's settings and waiting packets; the
    /// account is told.
    fn played(spares: &mut Spares, frames: &[(Settings, [u64; 3])]) -> Vec<HandOut> {
        let mut turn = 0;
        let mut list = Vec::new();
        for (settings, waiting) in frames {
            let out = hand_out(settings, *waiting, turn).unwrap();
            spares.frame(&Frame {
                settings,
                waiting: *waiting,
                turn,
                out: &out,
            });
            turn = out.turn;
            list.push(out);
        }
        list
    }

    /// Examples 11 and 12: of queues 0 and 1, spares 2 and 1, and 2 + ahead(1) = 1 + ahead(0).
    #[test]
    fn the_worked_frames() {
        let settings = settings(10, [3, 3, 2], [10, 6, 10]);
        let frames = [(settings, [20; 3]), (settings, [16, 16, 18])];
        let mut spares = Spares::new();
        let outs = played(&mut spares, &frames);
        assert_eq!(outs[0].ids, [0, 1]);
        assert_eq!(outs[1].ids, [2, 0]);
        assert_eq!(spares.differences(), [""; 0]);
        assert_eq!(spares.met(), (6, 3));
        let first = spares.stretches[0].as_ref().unwrap();
        assert_eq!(
            (first.spares, first.turn, spares.turn),
            ([2, 1], 0, Some(1))
        );
        assert_eq!((ahead(0, [0, 1]), ahead(1, [0, 1])), (1, 0));
    }

    #[test]
    fn who_is_ahead() {
        for pair in PAIRS {
            let [i, j] = pair;
            for turn in 0..9 {
                let order = [0, 1, 2].map(|step| (turn + step) % 3);
                let place = |id| order.iter().position(|of| *of == id);
                let expected = u64::from(place(i) < place(j));
                assert_eq!(ahead(turn as u64, pair), expected);
                assert_eq!(ahead(turn as u64, [j, i]), 1 - expected);
            }
        }
    }

    /// The premise at spares to one of the two alone.
    fn at_their_own(ids: &[usize], able: &[Able], [i, j]: [usize; 2]) -> bool {
        let mut both = ids.iter().zip(able);
        both.all(|(id, able)| (*id != i && *id != j) || (able[i] && able[j]))
    }

    /// The premise at the start of a frame alone.
    fn at_the_start(_ids: &[usize], able: &[Able], [i, j]: [usize; 2]) -> bool {
        able.first().is_none_or(|able| able[i] && able[j])
    }

    /// Queue 1 has its share of two packets in every frame and a second packet in every other one, in which
    /// the spare is queue 0's: 20 spares against 0.
    fn one_alone() -> Vec<(Settings, [u64; 3])> {
        let settings = settings(2, [0, 1, 0], [2; 3]);
        let frame = |place: u64| (settings, [100, 2 - place % 2, 100]);
        (0..40).map(frame).collect()
    }

    /// Queue 0 is at its ceiling after one spare: 1 and 6 in one frame.
    fn one_frame() -> Vec<(Settings, [u64; 3])> {
        vec![(settings(10, [1; 3], [2, 10, 1]), [30; 3])]
    }

    /// With less of a premise the claim is false of queues 0 and 1, and the account says so; with the whole
    /// premise it has nothing to say.
    #[test]
    fn the_premise_is_needed() {
        let weaker: [(Premise, _, [usize; 2]); 2] = [
            (at_their_own, one_alone(), [20, 0]),
            (at_the_start, one_frame(), [1, 6]),
        ];
        for (premise, frames, expected) in weaker {
            let mut spares = Spares::with(premise);
            let outs = played(&mut spares, &frames);
            let ids: Vec<usize> = outs.iter().flat_map(|out| out.ids.clone()).collect();
            let got = [0, 1].map(|id| ids.iter().filter(|got| **got == id).count());
            assert_eq!(got, expected);
            let holds = |premise: Premise| {
                let mut both = frames.iter().zip(&outs);
                both.all(|((settings, waiting), out)| {
                    let (waiting, turn) = (*waiting, 0);
                    let frame = Frame {
                        settings,
                        waiting,
                        turn,
                        out,
                    };
                    premise(&out.ids, &frame.able(), [0, 1])
                })
            };
            assert!(holds(premise) && !holds(both_able));
            assert!(spares.differences()[0].contains("queues 0 and 1"));
            let mut spares = Spares::new();
            played(&mut spares, &frames);
            assert_eq!(spares.differences(), [""; 0]);
        }
    }

    fn drawn(random: &mut Random) -> Settings {
        let packets = 1 + random.below(12);
        let mut free = random.below(packets + 1);
        let mut drawn = settings(packets, [0; 3], [packets; 3]);
        for id in 0..QUEUES {
            let share = random.below(free + 1);
            free -= share;
            let low = (share + random.below(packets)).clamp(1, packets);
            (drawn.shares[id], drawn.ceilings[id]) = (share, random.pick(&[packets, packets, low]));
        }
        drawn
    }

    /// A run of a sender from any turn: settings that change, and loads and refused calls between the frames.
    fn busy(random: &mut Random) -> Added {
        let sender = Sender {
            turn: random.below(3),
            ..Sender::default()
        };
        let mut run = Sending::new(sender, vec![0; STORE_BYTES]);
        let mut now = drawn(random);
        for _ in 0..80 {
            let length = random.pick(&[1, 4, 40, 400]);
            let _ = run.load(&now, random.below(4), &vec![7; length]);
            let mut output = vec![0; 7 * now.packets as usize];
            match random.below(8) {
                0 => now = drawn(random),
                1 => assert!(run.frame(&now, &mut output[1..]).is_err()),
                _ => assert!(run.frame(&now, &mut output).is_ok()),
            }
        }
        run.added()
    }

    /// Busy queues: the claim is held against many frames of each run, most of them one behind the other.
    #[test]
    fn busy_queues_are_fair() {
        let mut random = Random::new(1);
        let mut all = Added::default();
        for _ in 0..300 {
            all.add(&busy(&mut random));
        }
        assert_eq!(all.differences, [""; 0]);
        assert!(all.frames > 9_000 && all.stretches > 1_500, "{all:?}");
    }

    /// Another hand-out: which id is asked first for the next spare, by the turn and by whether it is the
    /// frame's first, and the turn that is left by the id that was asked first and the one that got it.
    type Rule = (fn(usize, bool) -> usize, fn(usize, usize) -> usize);

    const RIGHT: Rule = (|turn, _| turn, |_, got| (got + 1) % 3);

    const WRONG: [(&str, Rule); 5] = [
        (
            "each frame begins at turn 0",
            (|turn, first| if first { 0 } else { turn }, RIGHT.1),
        ),
        ("spares to the lowest id that is free", (|_, _| 0, RIGHT.1)),
        (
            "the turn left at the id that got the spare",
            (RIGHT.0, |_, got| got),
        ),
        (
            "the turn moved only by the id asked first",
            (RIGHT.0, |asked, got| match asked == got {
                true => (got + 1) % 3,
                false => asked,
            }),
        ),
        (
            "the turn moved by one at each spare",
            (RIGHT.0, |asked, _| (asked + 1) % 3),
        ),
    ];

    /// What a program with that rule would report.
    fn handed(rule: Rule, settings: &Settings, waiting: [u64; 3], turn: u64) -> HandOut {
        let mut packets = [0, 1, 2].map(|id| settings.shares[id].min(waiting[id]));
        let (mut turn, mut ids) = (turn as usize, Vec::new());
        while packets.iter().sum::<u64>() < settings.packets {
            let asked = rule.0(turn, ids.is_empty());
            let able = |id: &usize| packets[*id] < waiting[*id].min(settings.ceilings[*id]);
            let Some(got) = (0..3).map(|step| (asked + step) % 3).find(able) else {
                break;
            };
            packets[got] += 1;
            ids.push(got);
            turn = rule.1(asked, got);
        }
        HandOut {
            filler: settings.packets - packets.iter().sum::<u64>(),
            packets,
            spares: ids.len() as u64,
            turn: turn as u64,
            ids,
        }
    }

    /// Whether the account finds that rule wrong in 12 frames of queues with much to send.
    fn found(rule: Rule, seed: u64) -> bool {
        let mut random = Random::new(seed);
        let mut spares = Spares::new();
        let mut turn = random.below(3);
        for _ in 0..12 {
            let settings = drawn(&mut random);
            let waiting = [0, 1, 2].map(|_| random.pick(&[3, 100, 100, 100]));
            let out = handed(rule, &settings, waiting, turn);
            spares.frame(&Frame {
                settings: &settings,
                waiting,
                turn,
                out: &out,
            });
            turn = out.turn;
        }
        !spares.differences().is_empty()
    }

    #[test]
    fn wrong_rules_are_found() {
        assert!((0..100).all(|seed| !found(RIGHT, seed)));
        for (name, rule) in WRONG {
            let runs = (0..100).filter(|seed| found(rule, *seed)).count();
            assert!(runs > 50, "{name}: {runs}");
        }
    }

    /// What is reported beside the list of ids: each queue's packets, the number of spares, and the turn.
    #[test]
    fn wrong_reports_are_found() {
        type Change = fn(&mut HandOut);
        let changes: [(&str, Change); 4] = [
            ("spares reported", |out| out.spares += 1),
            ("queue 2: 1 spares", |out| out.packets[2] += 1),
            ("queue 0: 2 spares", |out| out.ids.push(0)),
            ("turn 0 before and 1 after", |out| out.turn = 1),
        ];
        for (words, change) in changes {
            let settings = settings(5, [1, 1, 0], [5; 3]);
            let mut out = hand_out(&settings, [9; 3], 0).unwrap();
            assert_eq!(out.ids, [0, 1, 2]);
            change(&mut out);
            let mut spares = Spares::new();
            spares.frame(&Frame {
                settings: &settings,
                waiting: [9; 3],
                turn: 0,
                out: &out,
            });
            let found = spares.differences();
            assert!(found.iter().any(|what| what.contains(words)), "{found:?}");
        }
    }

    /// A turn that is not handed on from frame to frame.
    #[test]
    fn a_lost_turn_is_found() {
        let settings = settings(2, [0; 3], [2; 3]);
        let mut spares = Spares::new();
        for turn in [0, 0] {
            let out = hand_out(&settings, [9; 3], turn).unwrap();
            spares.frame(&Frame {
                settings: &settings,
                waiting: [9; 3],
                turn,
                out: &out,
            });
        }
        assert!(spares.differences()[0].contains("another turn"));
    }
}
