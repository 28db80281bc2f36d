//! What the program that prints a layout prints (document 01, "The description and the frame it cuts").

use crate::description::{read_value, QAM_64};
use crate::frames::{check_capacity, layout, Layout, Run};
use crate::output;
use crate::refusal::{refuse, Refusal, LONGEST_INPUT};

/// Bytes of the capacity.
const CAPACITY_BYTES: usize = 2;

/// The text for an input: the layout, or `refused` and the number.
pub fn text(input: &[u8]) -> String {
    match described(input) {
        Ok((capacity, layout)) => lines(capacity, &layout),
        Err(refusal) => format!("refused {}\n", refusal.number),
    }
}

/// Writes the text to the front of `output` and tells its length.
pub fn write(input: &[u8], output: &mut [u8]) -> Result<usize, Refusal> {
    output::write(text(input).as_bytes(), output)
}

fn described(input: &[u8]) -> Result<(u64, Layout), Refusal> {
    refuse(1, input.len() < CAPACITY_BYTES)?;
    refuse(1, input.len() > LONGEST_INPUT)?;
    let capacity = 256 * u64::from(input[0]) + u64::from(input[1]);
    check_capacity(capacity)?;
    let description = read_value(QAM_64, &input[CAPACITY_BYTES..])?;
    Ok((capacity, layout(capacity, &description, QAM_64)?))
}

fn lines(capacity: u64, layout: &Layout) -> String {
    let mut text = format!("capacity {capacity}\n");
    for (stream, run) in layout.parts_a.iter().enumerate() {
        text += &line(&format!("part A stream {stream}"), run);
    }
    for (stream, run) in layout.parts_b.iter().enumerate() {
        text += &line(&format!("part B stream {stream}"), run);
    }
    text + &line("padding", &layout.padding)
}

/// The line of a run; none where its length is 0.
fn line(name: &str, run: &Run) -> String {
    match run.length {
        0 => String::new(),
        length => format!("{name} at {} length {length}\n", run.offset),
    }
}

#[cfg(test)]
mod tests {
    use super::*;

    const ANNEX_C: [u8; 10] = [0x01, 0x00, 0x04, 0x51, 0x03, 0xB0, 0x00, 0x01, 0x30, 0x00];

    fn text_of(capacity: u16, value: &[u8]) -> String {
        text(&[&capacity.to_be_bytes(), value].concat())
    }

    #[test]
    fn the_text_of_document_01() {
        let expected = "capacity 1200\n\
                        part A stream 1 at 0 length 59\n\
                        part A stream 2 at 59 length 19\n\
                        part B stream 0 at 78 length 1105\n\
                        padding at 1183 length 17\n";
        assert_eq!(text_of(0x04B0, &ANNEX_C), expected);
        let no_padding = expected.replace("1200", "1183");
        let no_padding = no_padding.strip_suffix("padding at 1183 length 17\n");
        assert_eq!(Some(&text_of(1_183, &ANNEX_C)[..]), no_padding);
    }

    #[test]
    fn refusals() {
        assert_eq!(text(&[]), "refused 1\n");
        assert_eq!(text(&[4]), "refused 1\n");
        assert_eq!(text(&[4, 0xB0]), "refused 5\n");
        for capacity in [0, 32_761, 65_535] {
            assert_eq!(text_of(capacity, &ANNEX_C), "refused 1\n");
            assert_eq!(text_of(capacity, &[]), "refused 1\n");
        }
        assert_eq!(text_of(1_182, &ANNEX_C), "refused 12\n");
        assert_eq!(text_of(1_200, &[4, 0, 0, 2]), "refused 10\n");
        assert_eq!(text_of(1, &[4, 0, 0, 2]), "refused 10\n");
        assert_eq!(text_of(1, &[4, 0, 0]), "refused 5\n");
    }

    #[test]
    fn longest_input() {
        let mut input = vec![4; LONGEST_INPUT];
        assert_eq!(text(&input), "refused 5\n");
        input.push(4);
        assert_eq!(text(&input), "refused 1\n");
    }

    #[test]
    fn the_text_needs_room() {
        let mut output = [9; 11];
        assert_eq!(write(&[], &mut output), Ok(10));
        assert_eq!(&output, b"refused 1\n\x09");
        let mut output = [9; 9];
        assert_eq!(write(&[], &mut output), Err(Refusal::number(1)));
        assert_eq!(output, [9; 9]);
    }
}
