//! Calls 33 and 34: settings checked, and a frame's packets handed out (document 01, "Packets, queues and
//! receiver").

use super::Call;
use crate::answer::Answer;
use crate::faults::{self, Fault};
use crate::fields::{bodies, lines, Arguments, Fields};
use crate::packet::{FRAMING, LARGEST_P};
use crate::random::Random;
use crate::reader::Reader;
use crate::runs::Added;
use crate::sender::{self, Settings, LONGEST_FRAME, QUEUES};
use crate::spares::{Frame, Spares};

pub const CHECK: Call = Call {
    code: 33,
    name: "settings check",
    fixed: fixed_checks,
    random: |random| faults::some(Check(good(random)), &faults(), random).body(),
    answer: check,
    arguments: lines::<Check>,
    values: &[],
    buffers: &[],
};

pub const HAND_OUT: Call = Call {
    code: 34,
    name: "hand-out",
    fixed: fixed_hand_outs,
    random: random_hand_out,
    answer: hand_out,
    arguments: lines::<Waiting>,
    values: &[
        "packets of queue 0",
        "packets of queue 1",
        "packets of queue 2",
        "spares",
        "filler",
        "turn after it",
    ],
    buffers: &[],
};

/// Arguments with settings.
pub trait Set {
    fn settings(&mut self) -> &mut Settings;
}

#[derive(Default, Clone)]
struct Check(Settings);

impl Arguments for Check {
    fn each(&mut self, fields: &mut impl Fields) -> Option<()> {
        fields.settings(&mut self.0)
    }
}

impl Set for Check {
    fn settings(&mut self) -> &mut Settings {
        &mut self.0
    }
}

fn check(body: &mut Reader) -> Option<Answer> {
    let Check(settings) = Check::read(body)?;
    Some(Answer::of(settings.check().map(|()| [])))
}

#[derive(Default, Clone)]
struct Waiting {
    settings: Settings,
    waiting: [u64; QUEUES],
    turn: u64,
}

impl Arguments for Waiting {
    fn each(&mut self, fields: &mut impl Fields) -> Option<()> {
        fields.settings(&mut self.settings)?;
        for (id, waiting) in self.waiting.iter_mut().enumerate() {
            fields.number(&format!("waiting in queue {id}"), waiting)?;
        }
        fields.number("turn", &mut self.turn)
    }
}

impl Set for Waiting {
    fn settings(&mut self) -> &mut Settings {
        &mut self.settings
    }
}

fn hand_out(body: &mut Reader) -> Option<Answer> {
    let Waiting {
        settings,
        waiting,
        turn,
    } = Waiting::read(body)?;
    let handed = sender::hand_out(&settings, waiting, turn);
    let mut spares = Spares::new();
    if let Ok(out) = &handed {
        let settings = &settings;
        spares.frame(&Frame {
            settings,
            waiting,
            turn,
            out,
        });
    }
    let mut answer = Answer::of(handed.map(|out| {
        let [first, second, third] = out.packets;
        [first, second, third, out.spares, out.filler, out.turn]
    }));
    answer.added = Added::of_spares(&spares);
    Some(answer)
}

/// The most packets that a frame can have.
fn most_packets(p: u64) -> u64 {
    LONGEST_FRAME / (p + FRAMING as u64)
}

pub fn of(p: u64, packets: u64, shares: [u64; 3], ceilings: [u64; 3]) -> Settings {
    Settings {
        p,
        packets,
        shares,
        ceilings,
    }
}

/// Those of examples 9 to 12.
pub fn example() -> Settings {
    of(4, 10, [3, 3, 2], [10, 6, 10])
}

/// Good ones at their limits; some frames are as long as they may be.
pub fn limits() -> Vec<Settings> {
    let mut list = vec![
        example(),
        of(1, 1, [0; 3], [1; 3]),
        of(1, 1, [0, 1, 0], [1; 3]),
        of(4, 3, [1; 3], [1; 3]),
        of(3, 6, [0, 0, 0], [1, 2, 6]),
        of(7, 6, [6, 0, 0], [6, 1, 1]),
        of(2, 6, [0, 6, 0], [1, 6, 1]),
        of(5, 6, [0, 0, 6], [1, 1, 6]),
        of(1, 6, [1, 2, 3], [1, 2, 3]),
    ];
    for p in [1, 2, 3, 4, 61, 254, LARGEST_P] {
        let most = most_packets(p);
        list.push(of(p, most, [most, 0, 0], [most; 3]));
        list.push(of(p, most, [most / 3; 3], [most, most / 3 + 1, most / 3]));
    }
    list
}

/// What can be wrong with settings, always 13.
pub fn faults<T: Set>() -> Vec<Fault<T>> {
    vec![
        |set, random| set.settings().p = random.pick(&[0, 256, 257, 260, (1 << 32) + 4, u64::MAX]),
        |set, _| set.settings().packets = 0,
        one_packet_too_many,
        |set, random| set.settings().packets = random.pick(&[1 << 62, 1 << 63, u64::MAX]),
        share_over_ceiling,
        |set, random| zero_ceiling(set.settings(), random.below(3) as usize),
        |set, random| ceiling_over_packets(set.settings(), random),
        shares_over_packets,
        |set, _| set.settings().shares = [1 << 63, 1 << 63, 0],
    ]
}

/// A frame that is longer than it may be, by as little as its packets allow.
fn one_packet_too_many<T: Set>(set: &mut T, _random: &mut Random) {
    let settings = set.settings();
    settings.packets = most_packets(settings.p.min(LARGEST_P)) + 1;
}

fn share_over_ceiling<T: Set>(set: &mut T, random: &mut Random) {
    let settings = set.settings();
    let id = random.below(3) as usize;
    settings.shares = [0; 3];
    settings.ceilings[id] = settings.packets.saturating_sub(1).max(1);
    settings.shares[id] = settings.ceilings[id].saturating_add(1);
}

fn zero_ceiling(settings: &mut Settings, id: usize) {
    settings.ceilings[id] = 0;
    settings.shares[id] = 0;
}

fn ceiling_over_packets(settings: &mut Settings, random: &mut Random) {
    let ceiling = &mut settings.ceilings[random.below(3) as usize];
    *ceiling = match random.below(3) {
        0 => u64::MAX,
        _ => settings.packets.saturating_add(1),
    };
}

/// Every share within its ceiling, the sum one too many.
fn shares_over_packets<T: Set>(set: &mut T, random: &mut Random) {
    let settings = set.settings();
    let packets = settings.packets;
    let first = random.below(packets.clamp(1, 1 << 62)) + 1;
    settings.ceilings = [packets; 3];
    settings.shares = [first.min(packets), 0, 0];
    settings.shares[1 + random.below(2) as usize] = packets - first.min(packets) + 1;
}

/// Random good ones, mostly of few packets with few bytes.
pub fn good(random: &mut Random) -> Settings {
    let p = match random.below(20) {
        0 => 1 + random.below(LARGEST_P),
        1 => random.pick(&[1, 2, 3, 254, LARGEST_P]),
        _ => 1 + random.below(12),
    };
    let packets = match random.below(40) {
        0 => most_packets(p),
        1 => 1 + random.below(most_packets(p)),
        2..=5 => 1,
        _ => 1 + random.below(most_packets(p).min(16)),
    };
    let mut settings = of(p, packets, [0; 3], [0; 3]);
    let mut free = packets;
    for id in 0..QUEUES {
        let ceiling = 1 + random.below(packets);
        let share = random.below(ceiling.min(free) + 1);
        let share = random.pick(&[0, share, share]);
        (settings.shares[id], settings.ceilings[id]) = (share, ceiling);
        free -= share;
    }
    let turned = random.below(3) as usize;
    settings.shares.rotate_left(turned);
    settings.ceilings.rotate_left(turned);
    settings
}

/// Good ones that leave spares and hardly any ceiling that stops a queue: where all have enough waiting, two or
/// three of them can take every spare (document 02, E11).
pub fn busy(random: &mut Random, p: u64) -> Settings {
    let packets = 1 + random.below(most_packets(p).min(16));
    let mut settings = of(p, packets, [0; 3], [packets; 3]);
    let mut free = random.below(packets);
    for share in &mut settings.shares {
        *share = random.below(free + 1);
        free -= *share;
    }
    let turned = random.below(3) as usize;
    settings.shares.rotate_left(turned);
    if random.one_in(3) {
        let id = random.below(3) as usize;
        let low = settings.shares[id] + random.below(3);
        settings.ceilings[id] = low.clamp(1, packets);
    }
    settings
}

/// The p of busy settings: small, so that a queue has packets for many frames.
pub fn busy_p(random: &mut Random) -> u64 {
    1 + random.below(12)
}

fn fixed_checks(random: &mut Random) -> Vec<Vec<u8>> {
    let mut list: Vec<Check> = limits().into_iter().map(Check).collect();
    for p in [1, 2, 3, 4, 61, 254, LARGEST_P] {
        for packets in [most_packets(p), most_packets(p) + 1] {
            list.push(Check(of(p, packets, [0; 3], [1; 3])));
            list.push(Check(of(p, packets, [0; 3], [packets; 3])));
        }
    }
    for settings in [example(), limits()[3], limits()[9]] {
        list.extend(faults::all(&Check(settings), &faults(), random));
    }
    for id in 0..QUEUES {
        let mut changed = example();
        zero_ceiling(&mut changed, id);
        list.push(Check(changed));
        for (share, ceiling) in [(0, 10), (1, 11), (2, 1), (10, 10), (u64::MAX, u64::MAX)] {
            let mut changed = of(4, 10, [0; 3], [10; 3]);
            (changed.shares[id], changed.ceilings[id]) = (share, ceiling);
            list.push(Check(changed));
        }
    }
    list.push(Check(Settings::default()));
    bodies(list)
}

/// Packets that wait: none, some, about as many as count, or a great many.
fn waiting(random: &mut Random, settings: &Settings, id: usize) -> u64 {
    match random.below(8) {
        0 => 0,
        1 => random.pick(&[1 << 32, 1 << 63, u64::MAX]),
        2 => settings.shares[id].saturating_sub(1) + random.below(3),
        3 => settings.ceilings[id].saturating_sub(1) + random.below(3),
        4 => settings.packets + random.below(3),
        _ => random.below(2 * settings.packets.max(1)),
    }
}

fn turn(random: &mut Random) -> u64 {
    match random.below(8) {
        0 => random.pick(&[3, 4, 5, 1 << 32, 1 << 63, u64::MAX - 1, u64::MAX]),
        _ => random.below(3),
    }
}

fn fixed_hand_outs(random: &mut Random) -> Vec<Vec<u8>> {
    let mut list = Vec::new();
    for (packets, turn) in [
        ([20, 1, 0], 0),
        ([0, 20, 0], 0),
        ([20, 20, 20], 0),
        ([16, 16, 18], 2),
    ] {
        list.push(Waiting {
            settings: example(),
            waiting: packets,
            turn,
        });
    }
    for settings in limits() {
        for turn in [0, 1, 2, 3, 4, 5, u64::MAX] {
            for some in [[0; 3], [u64::MAX; 3], settings.shares, settings.ceilings] {
                list.push(Waiting {
                    settings,
                    waiting: some,
                    turn,
                });
            }
        }
    }
    list.extend(faults::all(&list[0].clone(), &faults(), random));
    bodies(list)
}

fn random_hand_out(random: &mut Random) -> Vec<u8> {
    let settings = good(random);
    let handed = Waiting {
        settings,
        waiting: [0, 1, 2].map(|id| waiting(random, &settings, id)),
        turn: turn(random),
    };
    match random.below(8) {
        0 => faults::some(handed, &faults(), random).body(),
        _ => handed.body(),
    }
}

#[cfg(test)]
mod tests {
    use super::*;
    use crate::refusal::Refusal;

    #[test]
    fn good_ones_are_good() {
        let mut random = Random::new(1);
        for settings in limits() {
            assert_eq!(settings.check(), Ok(()));
        }
        for _ in 0..2_000 {
            assert_eq!(good(&mut random).check(), Ok(()));
            let p = busy_p(&mut random);
            let settings = busy(&mut random, p);
            let shares: u64 = settings.shares.iter().sum();
            assert!(settings.check().is_ok() && shares < settings.packets);
        }
    }

    #[test]
    fn every_fault_is_one() {
        let mut random = Random::new(2);
        for _ in 0..200 {
            for fault in faults() {
                let mut set = Check(good(&mut random));
                fault(&mut set, &mut random);
                assert_eq!(set.0.check(), Err(Refusal::number(13)), "{:?}", set.0);
            }
        }
    }
}
