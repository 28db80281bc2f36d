//! Calls 16 and 17: a frame built from its streams and cut into them (document 01, "The description and
//! the frame it cuts").

use super::described::{self, Described, CAPACITIES, SERVED};
use super::{layout, Call};
use crate::answer::Answer;
use crate::buffer::Buffer;
use crate::description::{Description, SLOTS};
use crate::faults::{self, Fault};
use crate::fields::{bodies, lines, Arguments, Fields};
use crate::frames::{self, LARGEST_CAPACITY};
use crate::generate;
use crate::random::Random;
use crate::reader::Reader;
use crate::refusal::LONGEST_INPUT;

pub const BUILD: Call = Call {
    code: 16,
    name: "frame build",
    fixed: fixed::<Build>,
    random: one::<Build>,
    answer: build,
    arguments: lines::<Build>,
    values: &["bytes written"],
    buffers: &["output"],
};

pub const CUT: Call = Call {
    code: 17,
    name: "frame cut",
    fixed: fixed::<Cut>,
    random: one::<Cut>,
    answer: cut,
    arguments: lines::<Cut>,
    values: &[
        "length of stream 0",
        "length of stream 1",
        "length of stream 2",
        "length of stream 3",
    ],
    buffers: &["output 0", "output 1", "output 2", "output 3"],
};

/// What both calls begin with.
#[derive(Default, Clone, Copy)]
struct Frame {
    capacity: u64,
    description: Description,
    mode: u8,
}

impl Frame {
    fn each(&mut self, fields: &mut impl Fields) -> Option<()> {
        fields.number("capacity", &mut self.capacity)?;
        fields.description(&mut self.description)?;
        fields.byte("MSC mode", &mut self.mode)
    }

    fn lengths(&self) -> [usize; SLOTS] {
        self.description.streams.map(|stream| stream.length())
    }

    /// The length of a frame; where the capacity is none, that of annex C's.
    fn length(&self) -> usize {
        match self.capacity {
            0..=LARGEST_CAPACITY => self.capacity as usize,
            _ => 1_200,
        }
    }
}

/// How the cases of each of the two are made.
trait Framed: Arguments + Described {
    fn good(random: &mut Random, frame: Frame) -> Self;

    /// Good ones with outputs of all lengths that matter.
    fn outputs(random: &mut Random, frame: Frame) -> Vec<Self>;

    /// What can be wrong beside the description and the MSC mode.
    fn own_faults() -> Vec<Fault<Self>>;

    fn faults() -> Vec<Fault<Self>> {
        [Self::own_faults(), described::faults()].concat()
    }
}

#[derive(Default, Clone)]
struct Build {
    frame: Frame,
    streams: [Buffer; SLOTS],
    output: Buffer,
}

impl Arguments for Build {
    fn each(&mut self, fields: &mut impl Fields) -> Option<()> {
        self.frame.each(fields)?;
        for (slot, stream) in self.streams.iter_mut().enumerate() {
            fields.buffer(&format!("stream {slot}"), stream)?;
        }
        fields.buffer("output before", &mut self.output)
    }
}

impl Described for Build {
    fn description(&mut self) -> &mut Description {
        &mut self.frame.description
    }

    fn mode(&mut self) -> &mut u8 {
        &mut self.frame.mode
    }
}

fn build(body: &mut Reader) -> Option<Answer> {
    let Build {
        frame,
        streams,
        output,
    } = Build::read(body)?;
    let streams = streams.map(|stream| stream.bytes());
    let slices = [&streams[0][..], &streams[1], &streams[2], &streams[3]];
    let mut output = output.bytes();
    let (capacity, description) = (frame.capacity, &frame.description);
    let written = frames::build(capacity, description, frame.mode, slices, &mut output);
    Some(Answer::written(written, &output))
}

impl Framed for Build {
    fn good(random: &mut Random, frame: Frame) -> Build {
        let length = generate::room(random, frame.length());
        Build {
            frame,
            streams: frame
                .lengths()
                .map(|length| generate::compact(random, length)),
            output: generate::compact(random, length),
        }
    }

    fn outputs(random: &mut Random, frame: Frame) -> Vec<Build> {
        let mut list = Vec::new();
        for length in generate::output_lengths(frame.length()) {
            let mut handed = Build::good(random, frame);
            handed.output = generate::compact(random, length);
            list.push(handed);
        }
        list
    }

    fn own_faults() -> Vec<Fault<Build>> {
        vec![
            Build::output_too_short,   // late 1
            Build::capacity_too_small, // 12
            Build::one_length_off,     // 11
            Build::last_length_off,    // 11
            |handed, random| handed.frame.capacity = layout::out_of_range(random), // 1
            Build::one_too_long,       // 1
        ]
    }
}

impl Build {
    fn output_too_short(&mut self, random: &mut Random) {
        self.output = generate::too_short(random, self.frame.length());
    }

    fn capacity_too_small(&mut self, random: &mut Random) {
        self.frame.capacity = layout::too_small(random, &self.frame.description);
    }

    /// Of the last slot, which is mostly not in use.
    fn last_length_off(&mut self, random: &mut Random) {
        self.streams[SLOTS - 1] = other(random, &self.streams[SLOTS - 1]);
    }

    fn one_length_off(&mut self, random: &mut Random) {
        let stream = &mut self.streams[random.below(SLOTS as u64) as usize];
        *stream = other(random, stream);
    }

    fn one_too_long(&mut self, random: &mut Random) {
        let length = LONGEST_INPUT + 1 + random.below(5) as usize;
        self.streams[random.below(SLOTS as u64) as usize] = generate::compact(random, length);
    }
}

/// A buffer of another length: one more or one less mostly, the longest input seldom.
fn other(random: &mut Random, buffer: &Buffer) -> Buffer {
    let length = match random.below(8) {
        0 => LONGEST_INPUT,
        1..=3 if buffer.length() > 0 => buffer.length() - 1,
        _ => buffer.length() + 1,
    };
    generate::compact(random, length)
}

#[derive(Default, Clone)]
struct Cut {
    frame: Frame,
    bytes: Buffer,
    outputs: [Buffer; SLOTS],
}

impl Arguments for Cut {
    fn each(&mut self, fields: &mut impl Fields) -> Option<()> {
        self.frame.each(fields)?;
        fields.buffer("frame", &mut self.bytes)?;
        for (slot, output) in self.outputs.iter_mut().enumerate() {
            fields.buffer(&format!("output {slot} before"), output)?;
        }
        Some(())
    }
}

impl Described for Cut {
    fn description(&mut self) -> &mut Description {
        &mut self.frame.description
    }

    fn mode(&mut self) -> &mut u8 {
        &mut self.frame.mode
    }
}

fn cut(body: &mut Reader) -> Option<Answer> {
    let Cut {
        frame,
        bytes,
        outputs,
    } = Cut::read(body)?;
    let mut outputs = outputs.map(|output| output.bytes());
    let (capacity, description) = (frame.capacity, &frame.description);
    let bytes = bytes.bytes();
    let lengths = frames::cut(capacity, description, frame.mode, &bytes, &mut outputs);
    let mut answer = Answer::of(lengths.map(|lengths| lengths.map(|length| length as u64)));
    for output in &outputs {
        answer = answer.buffer(output);
    }
    Some(answer)
}

impl Framed for Cut {
    fn good(random: &mut Random, frame: Frame) -> Cut {
        Cut {
            frame,
            bytes: generate::compact(random, frame.length()),
            outputs: frame.lengths().map(|length| {
                let length = generate::room(random, length);
                generate::compact(random, length)
            }),
        }
    }

    fn outputs(random: &mut Random, frame: Frame) -> Vec<Cut> {
        let mut list = Vec::new();
        for (slot, length) in frame.lengths().into_iter().enumerate() {
            for length in generate::output_lengths(length) {
                let mut handed = Cut::good(random, frame);
                handed.outputs[slot] = generate::compact(random, length);
                list.push(handed);
            }
        }
        list
    }

    fn own_faults() -> Vec<Fault<Cut>> {
        vec![
            Cut::one_output_too_short,                                    // late 1
            Cut::frame_too_small,                                         // 12
            |handed, random| handed.bytes = other(random, &handed.bytes), // 1
            |handed, random| handed.frame.capacity = layout::out_of_range(random), // 1
            Cut::both_out_of_range,                                       // 1
        ]
    }
}

impl Cut {
    /// One of the streams in use.
    fn one_output_too_short(&mut self, random: &mut Random) {
        let used = u64::from(self.frame.description.count.clamp(1, SLOTS as u8));
        let slot = random.below(used) as usize;
        self.outputs[slot] = generate::too_short(random, self.frame.lengths()[slot]);
    }

    /// A capacity that is too small, and a frame of that length.
    fn frame_too_small(&mut self, random: &mut Random) {
        self.frame.capacity = layout::too_small(random, &self.frame.description);
        self.bytes = generate::compact(random, self.frame.length());
    }

    /// A frame as long as its capacity, which is none.
    fn both_out_of_range(&mut self, random: &mut Random) {
        let length = random.pick(&[0, LARGEST_CAPACITY + 1, 65_536]);
        self.frame.capacity = length;
        self.bytes = generate::compact(random, length as usize);
    }
}

fn fixed<T: Framed>(random: &mut Random) -> Vec<Vec<u8>> {
    let mut annex_c = Frame {
        capacity: 1_200,
        description: described::annex_c(),
        mode: 0,
    };
    let good = T::good(random, annex_c);
    let mut list = faults::all(&good, &T::faults(), random);
    list.extend(T::outputs(random, annex_c));
    for capacity in CAPACITIES {
        for mode in SERVED {
            (annex_c.capacity, annex_c.mode) = (capacity, mode);
            list.push(T::good(random, annex_c));
        }
    }
    for description in described::limits() {
        let sum = description.length() as u64;
        for capacity in [sum, sum + 1, sum - 1] {
            let frame = Frame {
                capacity,
                description,
                mode: random.pick(&SERVED),
            };
            list.push(T::good(random, frame));
        }
    }
    bodies(list)
}

/// One case more: mostly small streams, spoiled or not.
fn one<T: Framed>(random: &mut Random) -> Vec<u8> {
    let mode = random.pick(&SERVED);
    let longest = described::longest_part(random);
    let description = described::well_formed(random, mode, longest);
    let frame = Frame {
        capacity: layout::capacity(random, &description),
        description,
        mode,
    };
    let handed = T::good(random, frame);
    let faults = match random.below(2) {
        0 => T::own_faults(),
        _ => T::faults(),
    };
    faults::some(handed, &faults, random).body()
}
