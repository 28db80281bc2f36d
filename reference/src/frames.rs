//! The multiplex frame: its layout, building and cutting it (document 01, "The description and the frame
//! it cuts"; ES 201 980, clause 6.2.3).

use crate::description::{Description, SLOTS};
use crate::output;
use crate::reader::Reader;
use crate::refusal::{refuse, Refusal, LONGEST_INPUT};

/// The largest capacity in bytes; the smallest is 1.
pub const LARGEST_CAPACITY: u64 = 32_760;

/// A run of bytes within the frame.
#[derive(Debug, Clone, Copy, Default, PartialEq, Eq)]
pub struct Run {
    pub offset: usize,
    pub length: usize,
}

/// Where everything stands; a run of length 0 has the offset at which it would begin.
#[derive(Debug, Default, PartialEq, Eq)]
pub struct Layout {
    pub parts_a: [Run; SLOTS],
    pub parts_b: [Run; SLOTS],
    pub padding: Run,
}

pub fn check_capacity(capacity: u64) -> Result<(), Refusal> {
    refuse(1, !(1..=LARGEST_CAPACITY).contains(&capacity))
}

fn check_room(capacity: u64, description: &Description) -> Result<(), Refusal> {
    refuse(12, description.length() as u64 > capacity)
}

pub fn layout(capacity: u64, description: &Description, mode: u8) -> Result<Layout, Refusal> {
    check_capacity(capacity)?;
    description.check(mode)?;
    check_room(capacity, description)?;
    let mut offset = 0;
    let mut run = |length: usize| {
        let run = Run { offset, length };
        offset += length;
        run
    };
    let streams = description.streams;
    let parts_a = streams.map(|stream| run(usize::from(stream.part_a)));
    let parts_b = streams.map(|stream| run(usize::from(stream.part_b)));
    let padding = run(capacity as usize - description.length());
    Ok(Layout {
        parts_a,
        parts_b,
        padding,
    })
}

/// Writes the frame to the front of `output` and tells its length.
pub fn build(
    capacity: u64,
    description: &Description,
    mode: u8,
    streams: [&[u8]; SLOTS],
    output: &mut [u8],
) -> Result<usize, Refusal> {
    check_capacity(capacity)?;
    refuse(1, streams.iter().any(|bytes| bytes.len() > LONGEST_INPUT))?;
    description.check(mode)?;
    let lengths = description.streams.map(|stream| stream.length());
    refuse(11, streams.map(<[u8]>::len) != lengths)?;
    check_room(capacity, description)?;
    let mut frame = Vec::new();
    for (stream, bytes) in description.streams.iter().zip(streams) {
        frame.extend(&bytes[..usize::from(stream.part_a)]);
    }
    for (stream, bytes) in description.streams.iter().zip(streams) {
        frame.extend(&bytes[usize::from(stream.part_a)..]);
    }
    frame.resize(capacity as usize, 0);
    output::write(&frame, output)
}

/// Writes each stream to the front of its output and tells the lengths.
pub fn cut(
    capacity: u64,
    description: &Description,
    mode: u8,
    frame: &[u8],
    outputs: &mut [Vec<u8>; SLOTS],
) -> Result<[usize; SLOTS], Refusal> {
    check_capacity(capacity)?;
    refuse(1, frame.len() as u64 != capacity)?;
    description.check(mode)?;
    check_room(capacity, description)?;
    let lengths = description.streams.map(|stream| stream.length());
    let too_short = outputs
        .iter()
        .zip(lengths)
        .any(|(output, length)| output.len() < length);
    refuse(1, too_short)?;
    for (bytes, output) in streams_of(frame, description).iter().zip(outputs) {
        output::write(bytes, output)?;
    }
    Ok(lengths)
}

/// The streams of a frame that is long enough: each one's part A, then its part B.
fn streams_of(frame: &[u8], description: &Description) -> [Vec<u8>; SLOTS] {
    let mut frame = Reader::new(frame);
    let mut streams: [Vec<u8>; SLOTS] = Default::default();
    for (bytes, stream) in streams.iter_mut().zip(description.streams) {
        bytes.extend(frame.bytes(usize::from(stream.part_a)).unwrap_or(&[]));
    }
    for (bytes, stream) in streams.iter_mut().zip(description.streams) {
        bytes.extend(frame.bytes(usize::from(stream.part_b)).unwrap_or(&[]));
    }
    streams
}

#[cfg(test)]
mod tests {
    use super::*;
    use crate::description::{read_value, Stream, QAM_16, QAM_64};
    use crate::random::Random;

    fn annex_c() -> Description {
        let value = [0x01, 0x00, 0x04, 0x51, 0x03, 0xB0, 0x00, 0x01, 0x30, 0x00];
        read_value(QAM_64, &value).unwrap()
    }

    fn refused<T>(number: u8) -> Result<T, Refusal> {
        Err(Refusal::number(number))
    }

    fn run(offset: usize, length: usize) -> Run {
        Run { offset, length }
    }

    #[test]
    fn layout_of_annex_c() {
        for mode in [QAM_64, QAM_16] {
            let layout = layout(1_200, &annex_c(), mode).unwrap();
            let parts_a = [run(0, 0), run(0, 59), run(59, 19), run(78, 0)];
            let parts_b = [run(78, 1_105), run(1_183, 0), run(1_183, 0), run(1_183, 0)];
            assert_eq!((layout.parts_a, layout.parts_b), (parts_a, parts_b));
            assert_eq!(layout.padding, run(1_183, 17));
        }
    }

    #[test]
    fn capacities() {
        assert_eq!(layout(1_183, &annex_c(), 0).unwrap().padding, run(1_183, 0));
        for (capacity, number) in [(1_182, 12), (1, 12), (0, 1), (32_761, 1), (1 << 63, 1)] {
            assert_eq!(layout(capacity, &annex_c(), 0), refused(number));
        }
        assert_eq!(layout((1 << 32) + 1_200, &annex_c(), 0), refused(1));
        let mut full = annex_c();
        (full.count, full.streams) = (
            4,
            [Stream {
                part_a: 4_095,
                part_b: 4_095,
            }; SLOTS],
        );
        assert_eq!(layout(32_760, &full, 0).unwrap().padding, run(32_760, 0));
        assert_eq!(layout(32_759, &full, 0), refused(12));
    }

    /// Two streams of two parts each: parts A before parts B, not stream by stream.
    #[test]
    fn a_small_frame() {
        let mut description = Description {
            count: 2,
            ..Description::default()
        };
        description.streams[0] = Stream {
            part_a: 1,
            part_b: 2,
        };
        description.streams[1] = Stream {
            part_a: 2,
            part_b: 1,
        };
        let streams: [&[u8]; SLOTS] = [&[0xA0, 0xB0, 0xB1], &[0xA2, 0xA3, 0xB2], &[], &[]];
        let frame = [0xA0, 0xA2, 0xA3, 0xB0, 0xB1, 0xB2, 0x00, 0x00];
        let mut output = [0x55; 9];
        assert_eq!(build(8, &description, 0, streams, &mut output), Ok(8));
        assert_eq!(output[..8], frame);
        assert_eq!(output[8], 0x55);
        let mut outputs = [vec![9; 3], vec![9; 4], vec![], vec![9]];
        assert_eq!(
            cut(8, &description, 0, &frame, &mut outputs),
            Ok([3, 3, 0, 0])
        );
        assert_eq!(
            outputs,
            [
                streams[0].to_vec(),
                vec![0xA2, 0xA3, 0xB2, 9],
                vec![],
                vec![9]
            ]
        );
    }

    #[test]
    fn padding_content_is_ignored() {
        let mut frame = Random::new(1).bytes(1_200);
        let mut first = [vec![0; 1_105], vec![0; 59], vec![0; 19], vec![]];
        let mut second = first.clone();
        cut(1_200, &annex_c(), 0, &frame, &mut first).unwrap();
        frame[1_183..].fill(0xFF);
        cut(1_200, &annex_c(), 0, &frame, &mut second).unwrap();
        assert_eq!(first, second);
    }

    /// What the layout says is where building puts the parts and cutting finds them.
    #[test]
    fn layout_building_and_cutting_agree() {
        let mut random = Random::new(2);
        for _ in 0..500 {
            let mut description = Description {
                count: 1 + random.below(4) as u8,
                ..Description::default()
            };
            for stream in &mut description.streams[..usize::from(description.count)] {
                stream.part_a = random.below(30) as u16;
                stream.part_b = 1 + random.below(30) as u16;
            }
            let capacity = description.length() as u64 + random.below(9);
            let bytes = description
                .streams
                .map(|stream| random.bytes(stream.length()));
            let streams = [&bytes[0][..], &bytes[1], &bytes[2], &bytes[3]];
            let mut frame = vec![7; capacity as usize];
            build(capacity, &description, 0, streams, &mut frame).unwrap();
            let layout = layout(capacity, &description, 0).unwrap();
            let at = |run: Run| &frame[run.offset..run.offset + run.length];
            for (slot, stream) in bytes.iter().enumerate() {
                let parts = [at(layout.parts_a[slot]), at(layout.parts_b[slot])];
                assert_eq!(parts.concat(), *stream);
            }
            assert!(at(layout.padding).iter().all(|byte| *byte == 0));
            let mut outputs = description.streams.map(|stream| vec![9; stream.length()]);
            cut(capacity, &description, 0, &frame, &mut outputs).unwrap();
            assert_eq!(outputs, bytes);
        }
    }

    #[test]
    fn order_of_building() {
        let bytes = vec![1; 70_000];
        let right = [&bytes[..1_105], &bytes[..59], &bytes[..19], &[]];
        let short = [&bytes[..1_104], &bytes[..59], &bytes[..19], &[]];
        let unused = [&bytes[..1_105], &bytes[..59], &bytes[..19], &bytes[..1]];
        let long = [
            &bytes[..1_105],
            &bytes[..59],
            &bytes[..19],
            &bytes[..65_529],
        ];
        let good = annex_c();
        let mut bad = good;
        bad.count = 0;
        let mut output = vec![9; 1_199];
        let mut tried = |capacity, description: &Description, mode, streams| {
            build(capacity, description, mode, streams, &mut output)
        };
        assert_eq!(tried(0, &bad, 4, short), refused(1));
        assert_eq!(tried(1_200, &bad, 4, long), refused(1));
        assert_eq!(tried(1_182, &bad, 4, short), refused(6));
        assert_eq!(tried(1_182, &bad, 2, short), refused(9));
        assert_eq!(tried(1_182, &bad, 3, short), refused(10));
        assert_eq!(tried(1_182, &good, 3, short), refused(11));
        assert_eq!(tried(1_182, &good, 3, unused), refused(11));
        assert_eq!(tried(1_182, &good, 3, right), refused(12));
        assert_eq!(tried(1_200, &good, 3, right), refused(1));
        assert_eq!(tried(1_199, &good, 3, right), Ok(1_199));
    }

    #[test]
    fn order_of_cutting() {
        let frame = vec![1; 1_200];
        let mut outputs = [vec![9; 1_105], vec![9; 59], vec![9; 18], vec![9; 2]];
        let before = outputs.clone();
        let good = annex_c();
        let mut bad = good;
        bad.count = 0;
        let mut tried = |capacity, description: &Description, mode, length: usize| {
            cut(capacity, description, mode, &frame[..length], &mut outputs)
        };
        assert_eq!(tried(0, &bad, 4, 0), refused(1));
        assert_eq!(tried(1_182, &bad, 4, 1_181), refused(1));
        assert_eq!(tried(1_182, &bad, 4, 1_183), refused(1));
        assert_eq!(tried(1_182, &bad, 4, 1_182), refused(6));
        assert_eq!(tried(1_182, &bad, 1, 1_182), refused(9));
        assert_eq!(tried(1_182, &bad, 0, 1_182), refused(10));
        assert_eq!(tried(1_182, &good, 0, 1_182), refused(12));
        assert_eq!(tried(1_183, &good, 0, 1_183), refused(1));
        assert_eq!(outputs, before);
    }
}
