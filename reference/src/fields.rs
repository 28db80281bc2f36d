//! The fields of a body (docs/CASES.md). A call lists its fields once, in their order; the same list reads
//! them, writes them and prints them.

use crate::buffer::Buffer;
use crate::clock::Timestamp;
use crate::description::Description;
use crate::fac::{self, Fac};
use crate::reader::Reader;
use crate::receiver::Receiver;
use crate::sender::{Queue, Sender, Settings};
use crate::show;

/// What is done with each field. None where a body is malformed.
pub trait Fields {
    fn byte(&mut self, name: &str, field: &mut u8) -> Option<()>;
    fn short(&mut self, name: &str, field: &mut u16) -> Option<()>;
    fn word(&mut self, name: &str, field: &mut u32) -> Option<()>;
    fn number(&mut self, name: &str, field: &mut u64) -> Option<()>;
    fn buffer(&mut self, name: &str, field: &mut Buffer) -> Option<()>;

    fn description(&mut self, field: &mut Description) -> Option<()> {
        self.byte("level A", &mut field.level_a)?;
        self.byte("level B", &mut field.level_b)?;
        self.byte("streams", &mut field.count)?;
        for stream in &mut field.streams {
            self.short("part A", &mut stream.part_a)?;
            self.short("part B", &mut stream.part_b)?;
        }
        Some(())
    }

    fn timestamp(&mut self, _name: &str, field: &mut Timestamp) -> Option<()> {
        self.short("UTCO", &mut field.utco)?;
        self.number("seconds", &mut field.seconds)?;
        self.short("milliseconds", &mut field.milliseconds)
    }

    fn fac(&mut self, field: &mut Fac) -> Option<()> {
        let mut fields = field.fields();
        for (place, field) in fields.iter_mut().enumerate() {
            let name = fac::NAMES[place];
            if place == fac::SERVICE_ID {
                self.word(name, field)?;
            } else {
                let mut byte = *field as u8;
                self.byte(name, &mut byte)?;
                *field = u32::from(byte);
            }
        }
        *field = Fac::of(fields);
        Some(())
    }

    fn settings(&mut self, field: &mut Settings) -> Option<()> {
        self.number("p", &mut field.p)?;
        self.number("N", &mut field.packets)?;
        for share in &mut field.shares {
            self.number("share", share)?;
        }
        for ceiling in &mut field.ceilings {
            self.number("ceiling", ceiling)?;
        }
        Some(())
    }

    fn sender(&mut self, field: &mut Sender) -> Option<()> {
        for queue in &mut field.queues {
            self.number("units", &mut queue.units)?;
            self.number("sent", &mut queue.sent)?;
            self.short("waiting", &mut queue.waiting)?;
            self.short("start", &mut queue.start)?;
            for left in &mut queue.left {
                self.short("left", left)?;
            }
        }
        self.number("turn", &mut field.turn)?;
        for index in &mut field.indexes {
            self.byte("index", index)?;
        }
        Some(())
    }

    fn receiver(&mut self, field: &mut Receiver) -> Option<()> {
        for link in &mut field.links {
            self.byte("heard", &mut link.heard)?;
            self.byte("index", &mut link.index)?;
            self.byte("open", &mut link.open)?;
            self.short("length", &mut link.length)?;
        }
        Some(())
    }
}

/// What a call is handed.
pub trait Arguments: Default + Clone {
    /// Does the same with every field, in the order of docs/CASES.md.
    fn each(&mut self, fields: &mut impl Fields) -> Option<()>;

    fn read(body: &mut Reader) -> Option<Self> {
        let mut arguments = Self::default();
        arguments.each(body)?;
        Some(arguments)
    }

    fn body(&self) -> Vec<u8> {
        let mut body: Vec<u8> = Vec::new();
        // Writing has no end to run into.
        let _ = self.clone().each(&mut body);
        body
    }

    fn lines(&self) -> Vec<String> {
        let mut lines: Vec<String> = Vec::new();
        let _ = self.clone().each(&mut lines);
        lines
    }
}

/// The bodies of a list of arguments.
pub fn bodies<T: Arguments>(list: Vec<T>) -> Vec<Vec<u8>> {
    list.iter().map(T::body).collect()
}

/// The lines of the arguments in a body.
pub fn lines<T: Arguments>(body: &mut Reader) -> Option<Vec<String>> {
    Some(T::read(body)?.lines())
}

/// Reads.
impl Fields for Reader<'_> {
    fn byte(&mut self, _name: &str, field: &mut u8) -> Option<()> {
        *field = self.u8()?;
        Some(())
    }

    fn short(&mut self, _name: &str, field: &mut u16) -> Option<()> {
        *field = self.u16()?;
        Some(())
    }

    fn word(&mut self, _name: &str, field: &mut u32) -> Option<()> {
        *field = self.u32()?;
        Some(())
    }

    fn number(&mut self, _name: &str, field: &mut u64) -> Option<()> {
        *field = self.u64()?;
        Some(())
    }

    fn buffer(&mut self, _name: &str, field: &mut Buffer) -> Option<()> {
        *field = Buffer::read(self)?;
        Some(())
    }
}

/// Writes.
impl Fields for Vec<u8> {
    fn byte(&mut self, _name: &str, field: &mut u8) -> Option<()> {
        self.push(*field);
        Some(())
    }

    fn short(&mut self, _name: &str, field: &mut u16) -> Option<()> {
        self.extend(field.to_be_bytes());
        Some(())
    }

    fn word(&mut self, _name: &str, field: &mut u32) -> Option<()> {
        self.extend(field.to_be_bytes());
        Some(())
    }

    fn number(&mut self, _name: &str, field: &mut u64) -> Option<()> {
        self.extend(field.to_be_bytes());
        Some(())
    }

    fn buffer(&mut self, _name: &str, field: &mut Buffer) -> Option<()> {
        field.write(self);
        Some(())
    }
}

/// Prints, a line each.
impl Fields for Vec<String> {
    fn byte(&mut self, name: &str, field: &mut u8) -> Option<()> {
        self.number(name, &mut u64::from(*field))
    }

    fn short(&mut self, name: &str, field: &mut u16) -> Option<()> {
        self.number(name, &mut u64::from(*field))
    }

    fn word(&mut self, name: &str, field: &mut u32) -> Option<()> {
        self.number(name, &mut u64::from(*field))
    }

    fn number(&mut self, name: &str, field: &mut u64) -> Option<()> {
        self.push(format!("{name}: {}", show::number(*field)));
        Some(())
    }

    fn buffer(&mut self, name: &str, field: &mut Buffer) -> Option<()> {
        self.push(show::buffer(name, field));
        Some(())
    }

    fn description(&mut self, field: &mut Description) -> Option<()> {
        let parts = field
            .streams
            .map(|stream| format!("{} + {}", stream.part_a, stream.part_b));
        let (level_a, level_b, count) = (field.level_a, field.level_b, field.count);
        self.push(format!(
            "description: level A {level_a}, level B {level_b}, streams {count}, parts A and B {}",
            parts.join(", ")
        ));
        Some(())
    }

    fn timestamp(&mut self, name: &str, field: &mut Timestamp) -> Option<()> {
        let (utco, milliseconds) = (field.utco, field.milliseconds);
        let seconds = show::number(field.seconds);
        self.push(format!(
            "{name}: UTCO {utco}, seconds {seconds}, milliseconds {milliseconds}"
        ));
        Some(())
    }

    fn fac(&mut self, field: &mut Fac) -> Option<()> {
        let fields = fac::NAMES.iter().zip(field.fields());
        let parts: Vec<String> = fields
            .map(|(name, value)| format!("{name} {value}"))
            .collect();
        self.push(format!("FAC: {}", parts.join(", ")));
        Some(())
    }

    fn settings(&mut self, field: &mut Settings) -> Option<()> {
        let Settings {
            p,
            packets,
            shares,
            ceilings,
        } = field;
        self.push(format!(
            "settings: p {p}, N {packets}, shares {shares:?}, ceilings {ceilings:?}"
        ));
        Some(())
    }

    fn sender(&mut self, field: &mut Sender) -> Option<()> {
        for (id, queue) in field.queues.iter().enumerate() {
            let Queue {
                units,
                sent,
                waiting,
                start,
                left,
            } = queue;
            self.push(format!(
                "queue {id}: units {units}, sent {sent}, waiting {waiting}, start {start}, left {left:?}"
            ));
        }
        let (turn, indexes) = (field.turn, field.indexes);
        self.push(format!("turn {turn}, indexes {indexes:?}"));
        Some(())
    }

    fn receiver(&mut self, field: &mut Receiver) -> Option<()> {
        for (id, link) in field.links.iter().enumerate() {
            let (heard, index, open, length) = (link.heard, link.index, link.open, link.length);
            self.push(format!(
                "id {id}: heard {heard}, next index {index}, open {open}, length {length}"
            ));
        }
        Some(())
    }
}

#[cfg(test)]
mod tests {
    use super::*;
    use crate::description::Stream;

    #[derive(Default, Clone, Debug, PartialEq)]
    struct All {
        byte: u8,
        number: u64,
        description: Description,
        timestamp: Timestamp,
        buffer: Buffer,
    }

    impl Arguments for All {
        fn each(&mut self, fields: &mut impl Fields) -> Option<()> {
            fields.byte("byte", &mut self.byte)?;
            fields.number("number", &mut self.number)?;
            fields.description(&mut self.description)?;
            fields.timestamp("timestamp", &mut self.timestamp)?;
            fields.buffer("buffer", &mut self.buffer)
        }
    }

    fn example() -> All {
        let mut description = Description {
            level_a: 1,
            level_b: 2,
            count: 3,
            ..Description::default()
        };
        description.streams[3] = Stream {
            part_a: 4,
            part_b: 0x506,
        };
        let timestamp = Timestamp {
            utco: 7,
            seconds: 8,
            milliseconds: 9,
        };
        All {
            byte: 10,
            number: 11,
            description,
            timestamp,
            buffer: Buffer::Given(vec![12, 13]),
        }
    }

    const BODY: [u8; 47] = [
        10, // byte
        0, 0, 0, 0, 0, 0, 0, 11, // number
        1, 2, 3, 0, 0, 0, 0, 0, 0, 0, 0, 0, 0, 0, 0, 0, 4, 5, 6, // description
        0, 7, 0, 0, 0, 0, 0, 0, 0, 8, 0, 9, // timestamp
        0, 0, 0, 0, 2, 12, 13, // buffer
    ];

    #[test]
    fn written_and_read_back() {
        assert_eq!(example().body(), BODY);
        let mut body = Reader::new(&BODY);
        assert_eq!(All::read(&mut body), Some(example()));
        assert!(body.is_empty());
        for end in 0..BODY.len() {
            assert_eq!(All::read(&mut Reader::new(&BODY[..end])), None);
        }
    }

    #[test]
    fn printed() {
        let expected = [
            "byte: 10 (A hex)",
            "number: 11 (B hex)",
            "description: level A 1, level B 2, streams 3, parts A and B 0 + 0, 0 + 0, 0 + 0, 4 + 1286",
            "timestamp: UTCO 7, seconds 8, milliseconds 9",
            "buffer: 2 bytes: 0C 0D",
        ];
        assert_eq!(example().lines(), expected);
    }
}
