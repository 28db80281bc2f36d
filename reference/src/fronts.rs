//! The layout of the store before E9 of document 02: after each frame the unsent bytes of a queue are moved to the
//! front of its bytes in the store. Every run at a sender is played in it as well (`rings`).

use crate::output;
use crate::refusal::Refusal;
use crate::sender::{hand_out, HandOut, Sender, Settings, QUEUES, QUEUE_BYTES};

/// A sender with its store. The starts of its state are 0 and stay it: this layout has none.
pub struct Fronts {
    pub sender: Sender,
    pub store: Vec<u8>,
}

impl Fronts {
    pub fn load(&mut self, settings: &Settings, id: u64, unit: &[u8]) -> Result<(), Refusal> {
        self.sender.check_load(settings, &self.store, id, unit)?;
        let queue = &mut self.sender.queues[id as usize];
        let place = QUEUE_BYTES * id as usize + queue.unsent();
        self.store[place..place + unit.len()].copy_from_slice(unit);
        queue.push(settings.p, unit.len());
        Ok(())
    }

    pub fn frame(&mut self, settings: &Settings, output: &mut [u8]) -> Result<HandOut, Refusal> {
        self.sender.check_frame(settings, &self.store)?;
        let handed = hand_out(settings, self.sender.waiting(), self.sender.turn)?;
        let mut next = self.sender;
        let mut frame = Vec::new();
        for id in 0..QUEUES {
            let mut place = QUEUE_BYTES * id;
            for _ in 0..handed.packets[id] {
                let (first, last, count) = next.queues[id].take_packet(settings.p);
                let useful = &self.store[place..place + count];
                frame.extend(next.packet(settings.p, first, last, id, useful)?);
                place += count;
            }
        }
        frame.extend(next.filler(settings.p, handed.filler)?);
        next.turn = handed.turn;
        output::write(&frame, output)?;
        for id in 0..QUEUES {
            let front = QUEUE_BYTES * id;
            let unsent = next.queues[id].unsent();
            let sent = self.sender.queues[id].unsent() - unsent;
            self.store
                .copy_within(front + sent..front + sent + unsent, front);
        }
        self.sender = next;
        Ok(handed)
    }
}

#[cfg(test)]
mod tests {
    use super::*;
    use crate::sender::{Queue, STORE_BYTES};

    /// Five bytes, two of them sent: the three others move to the front and no byte behind them changes.
    #[test]
    fn the_rest_moves_to_the_front() {
        let settings = Settings {
            p: 2,
            packets: 1,
            shares: [0; 3],
            ceilings: [1; 3],
        };
        let mut run = Fronts {
            sender: Sender::default(),
            store: vec![7; STORE_BYTES],
        };
        for unit in [&[1, 2, 3][..], &[4, 5]] {
            assert_eq!(run.load(&settings, 2, unit), Ok(()));
        }
        let mut output = [9; 5];
        let queue = |units, sent, waiting, left| Queue {
            units,
            sent,
            waiting,
            start: 0,
            left,
        };
        for (front, queue, header) in [
            (
                [3, 4, 5, 4, 5, 7],
                queue(2, 2, 2, [1, 2, 0, 0, 0, 0, 0, 0]),
                0xA0,
            ),
            (
                [4, 5, 5, 4, 5, 7],
                queue(1, 0, 1, [2, 0, 0, 0, 0, 0, 0, 0]),
                0x69,
            ),
            ([4, 5, 5, 4, 5, 7], Queue::default(), 0xE2),
        ] {
            assert!(run.frame(&settings, &mut output).is_ok());
            assert_eq!(run.store[8_192..8_198], front);
            assert_eq!(run.sender.queues[2], queue);
            assert_eq!(output[0], header);
        }
    }
}
