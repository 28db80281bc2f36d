//! Call 3: dispersal from an input to an output buffer (document 01, "Dispersal").

use super::Call;
use crate::answer::Answer;
use crate::buffer::Buffer;
use crate::dispersal::disperse;
use crate::generate;
use crate::random::Random;
use crate::reader::Reader;
use crate::show;

pub const DISPERSE: Call = Call {
    code: 3,
    name: "disperse",
    fixed,
    random,
    answer,
    arguments,
    values: &[],
    buffers: &["output"],
};

/// Around the period of the sequence, twice the period, and the longest input.
const LENGTHS: [usize; 13] = [
    0, 1, 2, 510, 511, 512, 1_021, 1_022, 1_023, 65_527, 65_528, 65_529, 70_000,
];

fn answer(body: &mut Reader) -> Option<Answer> {
    let input = Buffer::read(body)?.bytes();
    let mut output = Buffer::read(body)?.bytes();
    let answer = match disperse(&input, &mut output) {
        Ok(()) => Answer::done(),
        Err(refusal) => Answer::refused(refusal),
    };
    Some(answer.buffer(&output))
}

fn arguments(body: &mut Reader) -> Option<Vec<String>> {
    Some(vec![
        show::buffer("input", &Buffer::read(body)?),
        show::buffer("output before", &Buffer::read(body)?),
    ])
}

fn body(input: &Buffer, output: &Buffer) -> Vec<u8> {
    let mut body = Vec::new();
    input.write(&mut body);
    output.write(&mut body);
    body
}

fn fixed(random: &mut Random) -> Vec<Vec<u8>> {
    let mut bodies = Vec::new();
    for length in LENGTHS {
        for output_length in generate::output_lengths(length) {
            let input = generate::buffer(random, length);
            bodies.push(body(&input, &generate::buffer(random, output_length)));
        }
    }
    // Two zero bytes give 07 BE, a longer run of them the sequence itself, twice and one byte more; ones
    // give its complement.
    let runs = [vec![0; 2], vec![0; 1_023], vec![0xFF; 1_023], vec![0xAA; 4]];
    for content in runs {
        for output_length in generate::output_lengths(content.len()) {
            let input = Buffer::Given(content.clone());
            bodies.push(body(&input, &generate::buffer(random, output_length)));
        }
    }
    bodies
}

fn random(random: &mut Random) -> Vec<u8> {
    let length = generate::length(random);
    let output_length = match random.below(100) {
        0..=39 => length,
        40..=74 => length + random.below(20) as usize,
        75..=84 => length.saturating_sub(1),
        85..=94 => random.below(length as u64 + 1) as usize,
        _ => generate::length(random),
    };
    let input = generate::buffer(random, length);
    body(&input, &generate::buffer(random, output_length))
}
