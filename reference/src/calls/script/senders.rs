//! Senders for the cases of call 35: states that are allowed, and what can be wrong in one (document 01, "Numbers
//! given back": 17; document 02, E1 and E9).

use crate::faults::Fault;
use crate::packet::LARGEST_P;
use crate::random::Random;
use crate::sender::{Queue, Sender, QUEUES, QUEUE_BYTES, UNITS};

/// A state that is allowed with that p, reached by any sender or by none.
pub fn state(random: &mut Random, p: u64) -> Sender {
    let mut sender = Sender {
        turn: random.below(3),
        ..Sender::default()
    };
    for index in &mut sender.indexes {
        *index = random.below(8) as u8;
    }
    for queue in &mut sender.queues {
        *queue = waiting(random, p);
        queue.start = start(random, p, queue.unsent() as u64);
    }
    count(&mut sender, p);
    sender
}

/// Nothing waits, and the starts are where other units left them.
pub fn emptied(random: &mut Random, p: u64) -> Sender {
    let mut sender = Sender::default();
    for queue in &mut sender.queues {
        queue.start = start(random, p, 0);
    }
    sender
}

/// Starts at the limits of a ring, and past it.
pub const LIMITS: [u16; 5] = [0, 1, 2_048, 4_090, 4_095];
pub const PAST: [u16; 2] = [4_096, 65_535];

/// A start in the ring, mostly so close to its end that the first packet, the unsent bytes or the next unit goes
/// over it.
fn start(random: &mut Random, p: u64, unsent: u64) -> u16 {
    let ring = QUEUE_BYTES as u64;
    let to_the_end = match random.below(8) {
        0 | 1 => return random.pick(&LIMITS),
        2 => 1 + random.below(ring),
        3 | 4 => 1 + random.below(p),
        5 => 1 + random.below(unsent + 1),
        _ => 1 + unsent + random.below(40),
    };
    (ring - to_the_end.min(ring)) as u16
}

/// A start past its ring, in any queue.
pub fn past(sender: &mut Sender, random: &mut Random) {
    let drawn = QUEUE_BYTES as u16 + random.below(61_440) as u16;
    any(sender, random).start = random.pick(&[PAST[0], PAST[0], PAST[1], 4_097, 8_192, drawn]);
}

/// Makes the counts right for that p, whatever else is wrong.
pub fn count(sender: &mut Sender, p: u64) {
    for queue in &mut sender.queues {
        queue.waiting = queue.summed(p) as u16;
    }
}

/// Without its count and start.
fn waiting(random: &mut Random, p: u64) -> Queue {
    let mut queue = Queue {
        units: random.below(1 + UNITS as u64),
        ..Queue::default()
    };
    let longest = random.pick(&[6, 6, 40, 40, QUEUE_BYTES / UNITS]) as u64;
    for (place, left) in queue.left.iter_mut().enumerate() {
        let there = (place as u64) < queue.units;
        let garbage = random.pick(&[0, 0, 1, 5, 4_097, 65_535]);
        *left = match there {
            true => 1 + random.below(longest) as u16,
            false => garbage,
        };
    }
    if queue.units > 0 {
        if random.one_in(4) {
            let room = QUEUE_BYTES - queue.unsent();
            queue.left[0] += random.pick(&[room, room / 2]) as u16;
        }
        let most = (QUEUE_BYTES as u64 - u64::from(queue.left[0])) / p;
        queue.sent = p * random.pick(&[0, 0, most.min(1), most.min(3), most]);
    }
    queue
}

/// What can be wrong in the state handed in whatever p is: every kind of 17 but two. The counts are left.
pub const BROKEN: [Fault<Sender>; 14] = [
    |sender, random| sender.turn = random.pick(&[3, 4, 256, 1 << 32, u64::MAX]),
    |sender, random| sender.indexes[random.below(3) as usize] = random.pick(&[8, 9, 16, 255]),
    |sender, _| sender.indexes[3] = 8,
    |sender, random| any(sender, random).units = random.pick(&[9, 10, 264, (1 << 32) + 1]),
    |sender, random| any(sender, random).units = u64::MAX,
    |sender, random| one_left(any(sender, random), 0, 0),
    |sender, random| {
        let place = random.below(UNITS as u64) as usize;
        one_left(any(sender, random), place, 0);
    },
    |sender, random| {
        let place = random.below(UNITS as u64) as usize;
        let length = random.pick(&[4_097, 5_000, 65_535]);
        one_left(any(sender, random), place, length);
    },
    |sender, random| *any(sender, random) = overfull(),
    |sender, random| *any(sender, random) = two_overfull(),
    |sender, random| sent_too_long(any(sender, random)),
    |sender, random| any(sender, random).sent = random.pick(&[1 << 16, 1 << 32, u64::MAX]),
    |sender, random| {
        let queue = any(sender, random);
        (queue.units, queue.sent) = (0, random.pick(&[1, 840, 4_096, 1 << 40]));
    },
    past,
];

pub fn any<'a>(sender: &'a mut Sender, random: &mut Random) -> &'a mut Queue {
    &mut sender.queues[random.below(QUEUES as u64) as usize]
}

/// A queue with so many bytes left of one of its units.
pub fn one_left(queue: &mut Queue, place: usize, left: u16) {
    queue.units = queue.units.max(place as u64 + 1);
    for left in &mut queue.left[..=place] {
        *left = (*left).clamp(1, 9);
    }
    queue.left[place] = left;
}

/// Eight units, one byte too many.
fn overfull() -> Queue {
    Queue {
        units: 8,
        left: [512, 512, 512, 512, 512, 512, 512, 513],
        ..Queue::default()
    }
}

/// Two units, one byte too many.
fn two_overfull() -> Queue {
    Queue {
        units: 2,
        left: [1, 4_096, 0, 0, 0, 0, 0, 0],
        ..Queue::default()
    }
}

/// A first unit of 4,096 bytes and its share of a packet more, whatever p is: 840 is a multiple of 1 to 8.
fn sent_too_long(queue: &mut Queue) {
    one_left(queue, 0, 4_096 - 839);
    queue.sent = 840;
}

/// A queue without room, for lack of bytes or of units. The counts and the start are left.
pub fn full(sender: &mut Sender, random: &mut Random, id: u64) {
    let (units, left) = match random.below(3) {
        0 => (8, [1; 8]),
        1 => (1, [4_096, 7, 7, 7, 7, 7, 7, 7]),
        _ => (8, [512; 8]),
    };
    let queue = &mut sender.queues[(id % QUEUES as u64) as usize];
    (queue.units, queue.sent, queue.left) = (units, 0, left);
}

/// What is stored in place of the sum for a p.
type Stored = fn(&Queue, u64, &mut Random) -> u64;

const STORED: [Stored; 13] = [
    |queue, p, _| queue.summed(p) + 1,
    |queue, p, _| queue.summed(p).wrapping_sub(1),
    |queue, p, _| (queue.unsent() as u64).div_ceil(p),
    |queue, _, _| queue.units,
    |queue, _, _| queue.unsent() as u64,
    |queue, p, random| queue.summed(another_p(random, p)),
    |_, _, _| 65_535,
    |_, _, _| 0,
    // Its low byte is right.
    |queue, p, random| queue.summed(p) + 256 * (1 + random.below(255)),
    // Each unit rounded down.
    |queue, p, _| {
        let there = queue.left.iter().take(queue.units as usize);
        there.map(|left| u64::from(*left) / p).sum()
    },
    // All eight places.
    |queue, p, _| Queue { units: 8, ..*queue }.summed(p),
    // The first unit as it was loaded.
    |queue, p, _| queue.summed(p).wrapping_add(queue.sent / p),
    |_, _, random| random.draw(),
];

/// The kinds of wrong counts: those of one queue, and the counts of two exchanged.
pub const MISCOUNTS: usize = STORED.len() + 1;

/// Another p, mostly close by.
pub fn another_p(random: &mut Random, p: u64) -> u64 {
    let other = match random.below(4) {
        0 => random.pick(&[p / 2, 2 * p]),
        1 => 1 + random.below(LARGEST_P),
        _ => (p + random.below(7)).saturating_sub(3),
    };
    match other {
        1..=LARGEST_P if other != p => other,
        _ => p % LARGEST_P + 1,
    }
}

/// Whether the counts are the sums.
fn is_right(sender: &Sender, p: u64) -> bool {
    let mut queues = sender.queues.iter();
    queues.all(|queue| u64::from(queue.waiting) == queue.summed(p))
}

/// Stores a count of that kind for queue `id`, or exchanges it with another's; whether the counts are now wrong.
fn store(sender: &mut Sender, random: &mut Random, p: u64, kind: usize, id: usize) -> bool {
    match STORED.get(kind) {
        Some(stored) => {
            let queue = &mut sender.queues[id];
            queue.waiting = stored(queue, p, random) as u16;
        }
        None => {
            let other = (id + 1 + random.below(2) as usize) % QUEUES;
            let counts = [id, other].map(|id| sender.queues[id].waiting);
            [sender.queues[other].waiting, sender.queues[id].waiting] = counts;
        }
    }
    !is_right(sender, p)
}

/// Makes the counts wrong for p in any way.
pub fn miscount(sender: &mut Sender, random: &mut Random, p: u64) {
    let (kind, id) = (random.below(MISCOUNTS as u64), random.below(QUEUES as u64));
    if !store(sender, random, p, kind as usize, id as usize) {
        store(sender, random, p, 0, id as usize);
    }
}

/// A state that is allowed but for a count of that kind; one more where that kind is hard to find, as most are
/// where p is 1.
pub fn miscounted(random: &mut Random, p: u64, kind: usize, id: usize) -> Sender {
    for _ in 0..40 {
        let mut sender = state(random, p);
        if store(&mut sender, random, p, kind, id) {
            return sender;
        }
    }
    let mut sender = state(random, p);
    store(&mut sender, random, p, 0, id);
    sender
}
