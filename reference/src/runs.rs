//! Runs at a sender and at a receiver: each call is handed what the last one left (document 01, "Packets, queues
//! and receiver"), and what E1, E9 and E11 of document 02 claim of such a run is added up beside it.

use crate::balance::Balance;
use crate::counts::{Called, Counts};
use crate::receiver::{Heard, Receiver, BUFFER_BYTES};
use crate::refusal::Refusal;
use crate::rings::{Change, Desk, Rings};
use crate::sender::{HandOut, Sender, Settings, STORE_BYTES};
use crate::spares::{Frame, Spares};

/// What was added up over a run.
#[derive(Debug, Clone, Default, PartialEq, Eq)]
pub struct Added {
    /// Packets whose bytes are in the balance.
    pub packets: u64,
    /// Calls at a sender after which its stored counts were held against its units.
    pub counts: u64,
    /// Calls at a sender that were played in both layouts of its store.
    pub layouts: u64,
    /// Frames with spares, each of which two queues could both take; counted for each two such queues.
    pub frames: u64,
    /// Runs of two or more of these frames.
    pub stretches: u64,
    /// Where the run is not as E1, E9 and E11 have it.
    pub differences: Vec<String>,
}

impl Added {
    pub fn of_spares(spares: &Spares) -> Added {
        let (frames, stretches) = spares.met();
        Added {
            frames,
            stretches,
            differences: spares.differences().to_vec(),
            ..Added::default()
        }
    }

    fn of_counts(counts: &Counts) -> Added {
        Added {
            counts: counts.accepted(),
            differences: counts.differences().to_vec(),
            ..Added::default()
        }
    }

    fn of_rings(rings: &Rings) -> Added {
        Added {
            layouts: rings.both(),
            differences: rings.differences().to_vec(),
            ..Added::default()
        }
    }

    fn of_balance(balance: &Balance) -> Added {
        Added {
            packets: balance.accepted(),
            differences: balance.differences().to_vec(),
            ..Added::default()
        }
    }

    pub fn add(&mut self, other: &Added) {
        self.packets += other.packets;
        self.counts += other.counts;
        self.layouts += other.layouts;
        self.frames += other.frames;
        self.stretches += other.stretches;
        self.differences.extend_from_slice(&other.differences);
    }
}

/// A sender with its store.
pub struct Sending {
    pub sender: Sender,
    pub store: Vec<u8>,
    spares: Spares,
    counts: Counts,
    rings: Rings,
}

impl Sending {
    pub fn new(sender: Sender, store: Vec<u8>) -> Sending {
        Sending {
            counts: Counts::new(&sender),
            rings: Rings::new(Desk::of(&sender, &store)),
            sender,
            store,
            spares: Spares::new(),
        }
    }

    pub fn fresh() -> Sending {
        Sending::new(Sender::default(), vec![0; STORE_BYTES])
    }

    pub fn load(&mut self, settings: &Settings, id: u64, unit: &[u8]) -> Result<(), Refusal> {
        let (before, store) = (self.sender, self.store.clone());
        let done = self.sender.load(settings, &mut self.store, id, unit);
        self.called(settings.p, &before, done.err());
        let change = Change {
            settings,
            before: Desk::of(&before, &store),
            after: Desk::of(&self.sender, &self.store),
        };
        self.rings.load(&change, id, unit, done);
        done
    }

    pub fn frame(&mut self, settings: &Settings, output: &mut [u8]) -> Result<HandOut, Refusal> {
        let (before, store, lent) = (self.sender, self.store.clone(), output.to_vec());
        let done = self.sender.frame(settings, &self.store, output);
        self.called(settings.p, &before, done.as_ref().err().copied());
        let change = Change {
            settings,
            before: Desk::of(&before, &store),
            after: Desk::of(&self.sender, &self.store),
        };
        self.rings.frame(&change, [&lent, output], &done);
        let out = done?;
        self.spares.frame(&Frame {
            settings,
            waiting: before.queues.map(|queue| queue.summed(settings.p)),
            turn: before.turn,
            out: &out,
        });
        Ok(out)
    }

    fn called(&mut self, p: u64, before: &Sender, refusal: Option<Refusal>) {
        let after = &self.sender;
        self.counts.call(&Called {
            p,
            before,
            after,
            refusal,
        });
    }

    pub fn added(&self) -> Added {
        let mut added = Added::of_spares(&self.spares);
        added.add(&Added::of_counts(&self.counts));
        added.add(&Added::of_rings(&self.rings));
        added
    }
}

/// A receiver with its buffer.
pub struct Hearing {
    pub receiver: Receiver,
    pub buffer: Vec<u8>,
    balance: Balance,
}

impl Hearing {
    pub fn new(receiver: Receiver, buffer: Vec<u8>) -> Hearing {
        let balance = Balance::new(&receiver, &buffer);
        Hearing {
            receiver,
            buffer,
            balance,
        }
    }

    pub fn fresh() -> Hearing {
        Hearing::new(Receiver::default(), vec![0; BUFFER_BYTES])
    }

    pub fn step(&mut self, p: u64, packet: &[u8]) -> Result<Heard, Refusal> {
        let done = self.receiver.step(p, &mut self.buffer, packet);
        self.balance
            .step((p, packet), &done, &self.receiver, &self.buffer);
        done
    }

    pub fn added(&self) -> Added {
        Added::of_balance(&self.balance)
    }
}
