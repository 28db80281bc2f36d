//! Call 15: what the program that prints a layout prints (document 01, "The description and the frame it
//! cuts"). Refusals stand in the text; only a lack of room for the text is a refusal of the call.

use super::coded::{self, Coded};
use super::described::{self, SERVED};
use super::{layout, Call};
use crate::answer::Answer;
use crate::buffer::Buffer;
use crate::description::{Description, QAM_64};
use crate::faults::{self, Fault};
use crate::fields::{bodies, Arguments, Fields};
use crate::generate;
use crate::layout_text::{text, write};
use crate::random::Random;
use crate::reader::Reader;

pub const LAYOUT_TEXT: Call = Call {
    code: 15,
    name: "layout text",
    fixed,
    random,
    answer,
    arguments,
    values: &["bytes of the text"],
    buffers: &["output"],
};

#[derive(Default, Clone)]
struct Handed {
    input: Buffer,
    output: Buffer,
}

impl Arguments for Handed {
    fn each(&mut self, fields: &mut impl Fields) -> Option<()> {
        fields.buffer("input", &mut self.input)?;
        fields.buffer("output before", &mut self.output)
    }
}

fn answer(body: &mut Reader) -> Option<Answer> {
    let handed = Handed::read(body)?;
    let mut output = handed.output.bytes();
    let written = write(&handed.input.bytes(), &mut output);
    Some(Answer::written(written, &output))
}

/// The text too, of which an answer mostly gives no more than sums.
fn arguments(body: &mut Reader) -> Option<Vec<String>> {
    let handed = Handed::read(body)?;
    let mut lines = handed.lines();
    let text = text(&handed.input.bytes());
    lines.push(format!("text: {}", text.trim_end().replace('\n', "; ")));
    Some(lines)
}

/// A capacity, of which two bytes are taken, and a value behind it.
fn input(capacity: u64, description: &Description) -> Vec<u8> {
    let capacity = (capacity as u16).to_be_bytes();
    [&capacity, &description.value()[..]].concat()
}

/// What can be wrong with the capacity, and with the value behind it. The MSC mode is no part of the input.
fn faults() -> Vec<Fault<Coded>> {
    let own: [Fault<Coded>; 2] = [
        |coded, random| put_capacity(coded, random.pick(&[0, 1, 2, 7])), // mostly 12
        |coded, random| put_capacity(coded, random.pick(&[0, 32_761, 32_768, 65_535])), // 1
    ];
    [&own, coded::FAULTS].concat()
}

fn put_capacity(coded: &mut Coded, capacity: u16) {
    if let Buffer::Given(bytes) = &mut coded.bytes {
        bytes[..2].copy_from_slice(&capacity.to_be_bytes());
    }
}

/// Where the levels stand in an input.
const LEVELS: usize = 2;

fn fixed(random: &mut Random) -> Vec<Vec<u8>> {
    let mut inputs = vec![Buffer::Given(vec![0x04, 0xB0, 0x04, 0x00, 0x00, 0x02])];
    for capacity in described::CAPACITIES {
        inputs.push(Buffer::Given(input(capacity, &described::annex_c())));
    }
    for description in described::limits() {
        let sum = description.length() as u64;
        for capacity in [sum, sum + 1, sum - 1] {
            inputs.push(Buffer::Given(input(capacity, &description)));
        }
    }
    for handed in coded::lengths(random, LEVELS) {
        inputs.push(handed.bytes);
    }
    // Seed 0 begins with 3C 47: a capacity that is allowed.
    for length in [2, 65_527, 65_528, 65_529, 131_072] {
        inputs.push(Buffer::Seeded { length, seed: 0 });
    }
    let good = Coded::new(QAM_64, input(1_200, &described::annex_c()), LEVELS);
    for spoiled in faults::all(&good, &faults(), random) {
        inputs.push(spoiled.bytes);
    }
    let mut list = Vec::new();
    for input in inputs {
        let output = output(random, &input);
        list.push(Handed { input, output });
    }
    list.extend(all_lengths(random));
    bodies(list)
}

/// A layout and a refusal, with outputs of all kinds.
fn all_lengths(random: &mut Random) -> Vec<Handed> {
    let mut list = Vec::new();
    for capacity in [1_200, 1_182] {
        let input = input(capacity, &described::annex_c());
        for length in generate::output_lengths(text(&input).len()) {
            list.push(Handed {
                input: Buffer::Given(input.clone()),
                output: generate::compact(random, length),
            });
        }
    }
    list
}

/// An output that mostly has room for the text.
fn output(random: &mut Random, input: &Buffer) -> Buffer {
    let length = text(&input.bytes()).len();
    if random.one_in(8) {
        return generate::too_short(random, length);
    }
    let length = generate::room(random, length);
    generate::compact(random, length)
}

fn random(random: &mut Random) -> Vec<u8> {
    let mode = random.pick(&SERVED);
    let longest = described::longest_part(random);
    let description = described::well_formed(random, mode, longest);
    let capacity = layout::capacity(random, &description);
    let good = Coded::new(QAM_64, input(capacity, &description), LEVELS);
    let input = faults::some(good, &faults(), random).bytes;
    let output = output(random, &input);
    Handed { input, output }.body()
}

#[cfg(test)]
mod tests {
    use super::*;

    /// Layouts and every refusal, among the fixed cases as well as among random ones.
    #[test]
    fn every_text_occurs() {
        let mut random = Random::new(1);
        let fixed = fixed(&mut random);
        let drawn: Vec<_> = (0..1_000).map(|_| super::random(&mut random)).collect();
        for bodies in [fixed, drawn] {
            let mut firsts = Vec::new();
            for body in bodies {
                let handed = Handed::read(&mut Reader::new(&body)).unwrap();
                let text = text(&handed.input.bytes());
                let first = match text.strip_prefix("capacity ") {
                    Some(_) => "capacity".to_string(),
                    None => text,
                };
                firsts.push(first);
            }
            firsts.sort();
            firsts.dedup();
            let refusals = ["refused 1\n", "refused 10\n", "refused 12\n", "refused 5\n"];
            assert_eq!(firsts[0], "capacity");
            assert_eq!(firsts[1..], refusals);
        }
    }
}
