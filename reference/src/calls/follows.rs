//! Call 45: whether one MDI packet follows another (document 01, "Clock and recordings"; document 02, E3).

use super::clock::{known_leaps, later, leaps, seconds_of, timestamp, LAST, OFFS};
use super::Call;
use crate::answer::Answer;
use crate::clock::{self, Moment, Timestamp};
use crate::fields::{bodies, lines, Arguments, Fields};
use crate::random::Random;
use crate::reader::Reader;

pub const FOLLOWS: Call = Call {
    code: 45,
    name: "mdi follows",
    fixed,
    random: random_pair,
    answer,
    arguments: lines::<Pair>,
    values: &["follows"],
    buffers: &[],
};

/// What of a packet matters, as it stands in a body.
#[derive(Default, Clone, Copy)]
struct Half {
    count: u32,
    given: u8,
    timestamp: Timestamp,
}

impl Half {
    fn moment(&self) -> Moment {
        Moment {
            count: self.count,
            timestamp: (self.given != 0).then_some(self.timestamp),
        }
    }
}

#[derive(Default, Clone)]
struct Pair {
    first: Half,
    second: Half,
}

impl Arguments for Pair {
    fn each(&mut self, fields: &mut impl Fields) -> Option<()> {
        for (name, half) in [("first", &mut self.first), ("second", &mut self.second)] {
            fields.word(&format!("{name} count"), &mut half.count)?;
            fields.byte(&format!("{name} timestamp given"), &mut half.given)?;
            fields.timestamp(&format!("{name} timestamp"), &mut half.timestamp)?;
        }
        Some(())
    }
}

fn answer(body: &mut Reader) -> Option<Answer> {
    let Pair { first, second } = Pair::read(body)?;
    let follows = clock::packet_follows(&first.moment(), &second.moment());
    Some(Answer::of(follows.map(|follows| [u64::from(follows)])))
}

const COUNTS: [u32; 7] = [0, 1, 255, 65_535, 0x7FFF_FFFF, 0xFFFF_FFFE, 0xFFFF_FFFF];

/// Fields that are all too large.
const TOO_LARGE: Timestamp = Timestamp {
    utco: 16_384,
    seconds: 1 << 40,
    milliseconds: 1_000,
};

/// Second counts that follow the first, or nearly do.
fn counts_of(first: u32) -> [u32; 6] {
    let next = first.wrapping_add(1);
    [
        next,
        first,
        next.wrapping_add(1),
        first.wrapping_sub(1),
        next ^ 1 << 16,
        next ^ 1 << 31,
    ]
}

/// Every limit of the counts, with timestamps that follow, given or absent; then the limits of the
/// timestamps, with counts that follow; then pairs of UTCOs, where both timestamps are given and where one is not.
fn fixed(_random: &mut Random) -> Vec<Vec<u8>> {
    let mut list = Vec::new();
    let pair = |counts: [u32; 2], given: [u8; 2], stamps: [Timestamp; 2]| {
        let half = |place: usize| Half {
            count: counts[place],
            given: given[place],
            timestamp: stamps[place],
        };
        Pair {
            first: half(0),
            second: half(1),
        }
    };
    let now = Timestamp {
        utco: 5,
        seconds: 1,
        milliseconds: 600,
    };
    for first in COUNTS {
        for second in counts_of(first) {
            for given in [[0, 0], [0, 1], [1, 0], [1, 1], [2, 255]] {
                list.push(pair([first, second], given, [now, later(now)]));
            }
        }
    }
    // What is absent is not looked at, and what is given is, on either side.
    for stamps in [[TOO_LARGE, now], [now, TOO_LARGE], [TOO_LARGE; 2]] {
        for given in [[0, 0], [0, 1], [1, 0], [1, 1]] {
            list.push(pair([7, 8], given, stamps));
            list.push(pair([7, 7], given, stamps));
        }
    }
    for utco in [0, 16_383, 16_384] {
        for seconds in [0, LAST - 1, LAST, LAST + 1] {
            for milliseconds in [0, 599, 600, 999, 1_000] {
                let first = Timestamp {
                    utco,
                    seconds,
                    milliseconds,
                };
                for second in seconds_of(first) {
                    list.push(pair([7, 8], [1, 1], [first, second]));
                }
                list.push(pair([7, 8], [1, 0], [first, later(first)]));
                list.push(pair([7, 8], [0, 1], [now, first]));
                list.push(pair([7, 9], [1, 1], [first, later(first)]));
            }
        }
    }
    for stamps in known_leaps().into_iter().chain(leaps(&OFFS)) {
        list.push(pair([7, 8], [1, 1], stamps));
    }
    // Where one is absent the UTCOs may be as far apart as they like; where the counts are wrong they do not help.
    for stamps in leaps(&OFFS[..1]) {
        list.push(pair([7, 8], [1, 0], stamps));
        list.push(pair([7, 8], [0, 1], stamps));
        list.push(pair([7, 9], [1, 1], stamps));
    }
    bodies(list)
}

/// Mostly good: of four drawn the first that is, else the last.
fn mostly_good(random: &mut Random) -> Timestamp {
    let mut drawn = timestamp(random);
    for _ in 0..random.pick(&[0, 3, 3]) {
        if drawn.check().is_err() {
            drawn = timestamp(random);
        }
    }
    drawn
}

fn random_pair(random: &mut Random) -> Vec<u8> {
    let drawn = random.draw() as u32;
    let count = random.pick(&[drawn, drawn, drawn & 0xFF, 0, u32::MAX, u32::MAX - 1]);
    let first = mostly_good(random);
    let second = match random.below(10) {
        0..=5 => later(first),
        6..=8 => random.pick(&seconds_of(first)),
        _ => mostly_good(random),
    };
    let other = match random.below(3) {
        0 => random.pick(&counts_of(count)),
        _ => count.wrapping_add(1),
    };
    let mut given = || random.pick(&[0, 1, 1, 1, 255]);
    let first = Half {
        count,
        given: given(),
        timestamp: first,
    };
    let second = Half {
        count: other,
        given: given(),
        timestamp: second,
    };
    let pair = match random.one_in(12) {
        true => Pair {
            first: second,
            second: first,
        },
        false => Pair { first, second },
    };
    pair.body()
}
