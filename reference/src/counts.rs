//! The stored counts of waiting packets over a run (document 02, E1): after a call that is accepted the count of
//! each queue is the sum over its units of the bytes left over p, each rounded up, for the p of that call; a
//! call that is refused leaves the state as it came; and where the run began fresh and every call had the same
//! p, none was refused by 17.
//!
//! The account goes by the units: it takes packets off them one by one until nothing is left.

use crate::refusal::Refusal;
use crate::sender::{Queue, Sender, QUEUES, UNITS};

/// Packets of p bytes that the units take; p is not 0.
fn packets(queue: &Queue, p: u64) -> u64 {
    let there = queue.units.min(UNITS as u64) as usize;
    let mut count = 0;
    for left in &queue.left[..there] {
        let mut left = u64::from(*left);
        while left > 0 {
            left = left.saturating_sub(p);
            count += 1;
        }
    }
    count
}

/// A call at a sender: a load or a frame.
pub struct Called<'a> {
    pub p: u64,
    pub before: &'a Sender,
    pub after: &'a Sender,
    pub refusal: Option<Refusal>,
}

/// The account of a run.
pub struct Counts {
    /// Whether the run began fresh and had no change of p so far.
    steady: bool,
    /// The p of the last call.
    p: Option<u64>,
    /// Calls so far, and those that were accepted.
    calls: u64,
    accepted: u64,
    /// All that is wrong after the first call after which something is.
    differences: Vec<String>,
}

impl Counts {
    pub fn new(sender: &Sender) -> Counts {
        Counts {
            steady: *sender == Sender::default(),
            p: None,
            calls: 0,
            accepted: 0,
            differences: Vec::new(),
        }
    }

    /// The run's next call.
    pub fn call(&mut self, called: &Called) {
        if !self.differences.is_empty() {
            return;
        }
        self.calls += 1;
        let last = self.p.replace(called.p);
        self.steady &= last.is_none_or(|p| p == called.p);
        match called.refusal {
            None => self.hold_counts(called),
            Some(refusal) => self.hold_refusal(called, refusal),
        }
    }

    fn hold_counts(&mut self, called: &Called) {
        self.accepted += 1;
        for id in 0..QUEUES {
            let queue = &called.after.queues[id];
            let (stored, sum) = (queue.waiting, packets(queue, called.p));
            if u64::from(stored) != sum {
                self.differ(&format!("queue {id}: {stored} stored, {sum} waiting"));
            }
        }
    }

    fn hold_refusal(&mut self, called: &Called, refusal: Refusal) {
        if called.before != called.after {
            self.differ("it is refused and changes the state");
        }
        if self.steady && refusal.number == 17 {
            self.differ("17 in a run from fresh with the same p");
        }
    }

    fn differ(&mut self, what: &str) {
        let call = self.calls;
        self.differences.push(format!("call {call}: {what}"));
    }

    /// Calls whose counts were held against the units.
    pub fn accepted(&self) -> u64 {
        self.accepted
    }

    pub fn differences(&self) -> &[String] {
        &self.differences
    }
}

#[cfg(test)]
mod tests {
    use super::*;
    use crate::random::Random;
    use crate::runs::Sending;
    use crate::sender::{Settings, STORE_BYTES};

    fn settings(p: u64) -> Settings {
        Settings {
            p,
            packets: 2,
            shares: [1, 0, 0],
            ceilings: [1, 2, 2],
        }
    }

    fn queue(sent: u64, waiting: u16, units: &[u16]) -> Queue {
        let mut queue = Queue {
            units: units.len() as u64,
            sent,
            waiting,
            ..Queue::default()
        };
        queue.left[..units.len()].copy_from_slice(units);
        queue
    }

    /// The numbers of a load on queue 1 and of a frame, each with this queue as queue `id`; what is refused
    /// leaves the wrong count.
    fn numbers(id: usize, queue: Queue, p: u64) -> [u8; 2] {
        let mut sender = Sender::default();
        sender.queues[id] = queue;
        [false, true].map(|frame| {
            let mut run = Sending::new(sender, vec![0; STORE_BYTES]);
            let refusal = match frame {
                false => run.load(&settings(p), 1, &[7]).err(),
                true => run.frame(&settings(p), &mut [0; 600]).err(),
            };
            assert_eq!(run.added().differences, [""; 0]);
            assert_eq!(refusal.is_some(), run.sender == sender);
            refusal.map_or(0, |refusal| refusal.number)
        })
    }

    /// 25 bytes of which 10 are sent, 10 and 1: two packets, one and one. The ceiling of the sum is 3.
    #[test]
    fn each_unit_is_rounded_up() {
        for id in 0..QUEUES {
            for (stored, number) in [(4, 0), (3, 17), (5, 17), (0, 17), (65_535, 17)] {
                let queue = queue(10, stored, &[15, 10, 1]);
                assert_eq!(packets(&queue, 10), 4);
                assert_eq!(numbers(id, queue, 10), [number; 2], "{stored} in {id}");
            }
            for (stored, number) in [(0, 0), (1, 17), (256, 17), (65_535, 17)] {
                assert_eq!(numbers(id, queue(0, stored, &[]), 10), [number; 2]);
            }
        }
    }

    /// One unit of 25 bytes, 3 stored.
    #[test]
    fn the_sum_is_for_the_p_of_the_call() {
        for (p, number) in [(10, 0), (9, 0), (12, 0), (5, 17), (8, 17), (13, 17)] {
            for id in 0..QUEUES {
                assert_eq!(numbers(id, queue(0, 3, &[25]), p), [number; 2], "p {p}");
            }
        }
    }

    #[test]
    fn a_worked_run() {
        let settings = settings(10);
        let mut run = Sending::fresh();
        for (id, length, counts) in [
            (0, 25, [3, 0, 0]),
            (0, 10, [4, 0, 0]),
            (0, 1, [5, 0, 0]),
            (2, 11, [5, 0, 2]),
        ] {
            assert_eq!(run.load(&settings, id, &vec![7; length]), Ok(()));
            assert_eq!(run.sender.waiting(), counts);
        }
        for counts in [[4, 0, 1], [3, 0, 0], [2, 0, 0], [1, 0, 0], [0; 3]] {
            assert!(run.frame(&settings, &mut [0; 26]).is_ok());
            assert_eq!(run.sender.waiting(), counts);
        }
        let added = run.added();
        assert_eq!((added.counts, added.differences), (9, vec![]));
    }

    /// 13 comes before a wrong count, and all else behind it.
    #[test]
    fn order_of_a_wrong_count() {
        let mut sender = Sender::default();
        sender.queues[2].waiting = 1;
        let mut run = Sending::new(sender, vec![0; STORE_BYTES - 1]);
        let long = vec![0; 65_529];
        for (p, number) in [(0, 13), (256, 13), (4, 17)] {
            let refused = Refusal::number(number);
            assert_eq!(run.load(&settings(p), 3, &long), Err(refused));
            assert_eq!(run.frame(&settings(p), &mut []), Err(refused));
            assert_eq!(run.sender, sender);
        }
    }

    /// From fresh, with settings that change but for p and with refused calls among them: no 17, and the counts
    /// are the sums after every call.
    #[test]
    fn the_counts_are_kept() {
        let mut random = Random::new(1);
        let mut held = 0;
        for _ in 0..300 {
            let p = random.pick(&[1, 2, 3, 7, 10, 100, 255]);
            let mut run = Sending::fresh();
            for _ in 0..60 {
                let most = random.below(6);
                let now = Settings {
                    packets: most,
                    shares: [random.below(3), 0, random.below(2)],
                    ceilings: [most, most, 1 + random.below(3)],
                    ..settings(p)
                };
                let length = random.pick(&[0, 1, p, p + 1, 3 * p, 800, 4_096, 4_097]) as usize;
                let done = match random.one_in(2) {
                    true => run.load(&now, random.below(4), &vec![7; length]),
                    false => {
                        let room = random.pick(&[1_300, 1_300, 1_300, 5]);
                        run.frame(&now, &mut vec![0; room]).map(drop)
                    }
                };
                assert_ne!(done, Err(Refusal::number(17)));
                for queue in &run.sender.queues {
                    assert_eq!(u64::from(queue.waiting), packets(queue, p));
                }
            }
            assert_eq!(run.added().differences, [""; 0]);
            held += run.added().counts;
        }
        assert!(held > 4_000, "{held}");
    }

    /// The account of one call, from this state to that one.
    fn account(p: u64, before: Sender, after: Sender, number: u8) -> Vec<String> {
        let mut counts = Counts::new(&Sender::default());
        counts.call(&Called {
            p,
            before: &before,
            after: &after,
            refusal: (number > 0).then(|| Refusal::number(number)),
        });
        counts.differences().to_vec()
    }

    #[test]
    fn what_is_wrong_is_found() {
        let fresh = Sender::default();
        let mut after = fresh;
        after.queues[2] = queue(0, 3, &[25]);
        assert_eq!(account(10, fresh, after, 0), [""; 0]);
        let wrong = account(13, fresh, after, 0);
        assert_eq!(wrong, ["call 1: queue 2: 3 stored, 2 waiting"]);
        let wrong = account(10, fresh, after, 15);
        assert_eq!(wrong, ["call 1: it is refused and changes the state"]);
        assert_eq!(account(10, after, after, 15), [""; 0]);
        let wrong = account(10, fresh, fresh, 17);
        assert_eq!(wrong, ["call 1: 17 in a run from fresh with the same p"]);
    }

    /// 17 is no difference where p changed, or where the run did not begin fresh.
    #[test]
    fn where_17_is_allowed() {
        let mut run = Sending::fresh();
        assert_eq!(run.load(&settings(10), 0, &[7; 25]), Ok(()));
        let refused = Refusal::number(17);
        assert_eq!(run.load(&settings(5), 0, &[7]), Err(refused));
        assert_eq!(run.frame(&settings(13), &mut [0; 32]), Err(refused));
        assert!(run.frame(&settings(10), &mut [0; 26]).is_ok());
        assert_eq!(run.added().differences, [""; 0]);
        assert_eq!(numbers(1, queue(0, 9, &[25]), 10), [17; 2]);
    }
}
