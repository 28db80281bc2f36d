//! Cases and answers for readers: hexadecimal bytes, numbers and words.

use crate::answer::{self, Answer, Given, Lent};
use crate::buffer::Buffer;
use crate::calls::{self, Call};
use crate::case::{Entries, Entry};
use crate::refusal;
use std::io::{self, Write};

/// Bytes printed of a buffer.
const PRINTED: usize = 64;

pub fn show_all(cases: &[u8], out: &mut impl Write) -> io::Result<()> {
    for (place, entry) in Entries::new(cases).enumerate() {
        let expected = calls::answer(&entry);
        writeln!(out, "{}", case(place + 1, &entry, &expected))?;
    }
    Ok(())
}

/// The paragraph of a case and its expected answer. Cases count from 1.
pub fn case(number: usize, entry: &Entry, expected: &Option<Answer>) -> String {
    let call = calls::call_of(entry);
    let mut text = match (entry, call) {
        (_, Some(call)) => format!("case {number}: {}\n", call.name),
        (Entry::Case { call, .. }, None) => format!("case {number}: unknown call {call}\n"),
        (Entry::Broken(_), None) => format!("case {number}: no case, to the end of the file\n"),
    };
    let lines = calls::arguments(entry).unwrap_or_else(|| vec![raw(entry)]);
    for line in lines {
        text += &format!("  {line}\n");
    }
    let said = match expected {
        Some(expected) => answer(call, expected),
        None => "size 0, for a malformed case".to_string(),
    };
    text += &format!("  expected: {said}\n");
    for difference in answer::differences(expected) {
        text += &format!("  does not add up: {difference}\n");
    }
    text
}

/// What cannot be told apart into arguments.
fn raw(entry: &Entry) -> String {
    match entry {
        Entry::Case { body, .. } => format!("malformed body: {}", bytes(body)),
        Entry::Broken(rest) => format!("rest: {}", bytes(rest)),
    }
}

/// The line of an answer from a file.
pub fn given(entry: &Entry, given: &Given) -> String {
    let text = match given {
        Given::Whole([]) => "size 0".to_string(),
        Given::Whole(content) => match Answer::read(content) {
            Some(found) => answer(calls::call_of(entry), &found),
            None => format!("no well-formed answer: {}", bytes(content)),
        },
        Given::Cut(rest) => format!("cut off by the end of the file: {}", bytes(rest)),
        Given::Missing => "no answer, the file has ended".to_string(),
    };
    format!("  given:    {text}\n")
}

fn answer(call: Option<&Call>, answer: &Answer) -> String {
    let (values, buffers) = call.map_or((&[][..], &[][..]), |call| (call.values, call.buffers));
    let meaning = refusal::words(answer.number);
    let mut text = format!(
        "number {} ({meaning}), place {}",
        answer.number, answer.place
    );
    if answer.values.is_empty() {
        text += "; no values";
    }
    for (place, value) in answer.values.iter().enumerate() {
        text += &format!("; {}: {}", name(values, place, "value"), number(*value));
    }
    if answer.buffers.is_empty() {
        text += "; no buffers";
    }
    for (place, buffer) in answer.buffers.iter().enumerate() {
        text += &format!(
            "; {} after: {}",
            name(buffers, place, "buffer"),
            lent(buffer)
        );
    }
    text
}

/// A name from the call's list; where that is too short, what it is and which, from 0.
fn name(names: &[&str], place: usize, what: &str) -> String {
    match names.get(place) {
        Some(name) => name.to_string(),
        None => format!("{what} {place}"),
    }
}

fn lent(buffer: &Lent) -> String {
    match buffer {
        Lent::Short(content) => bytes(content),
        Lent::Long {
            length,
            check_word,
            sum,
        } => {
            format!("{length} bytes with CRC-16 {check_word:04X} and sum {sum}")
        }
    }
}

/// The line of a buffer that a call is handed.
pub fn buffer(name: &str, buffer: &Buffer) -> String {
    match buffer {
        Buffer::Given(content) => format!("{name}: {}", bytes(content)),
        Buffer::Seeded { seed, .. } => {
            format!(
                "{name}: seed {seed} ({seed:08X} hex), {}",
                bytes(&buffer.bytes())
            )
        }
    }
}

/// A number in decimal, and in hexadecimal where that differs.
pub fn number(number: u64) -> String {
    match number {
        0..=9 => format!("{number}"),
        _ => format!("{number} ({number:X} hex)"),
    }
}

/// The length, and the bytes as far as they are printed.
fn bytes(content: &[u8]) -> String {
    let mut text = match content.len() {
        0 => "0 bytes".to_string(),
        1 => "1 byte:".to_string(),
        length => format!("{length} bytes:"),
    };
    for byte in content.iter().take(PRINTED) {
        text += &format!(" {byte:02X}");
    }
    if content.len() > PRINTED {
        text += " ..";
    }
    text
}

#[cfg(test)]
mod tests {
    use super::*;
    use crate::case::framed;

    fn shown(call: u8, body: &[u8]) -> String {
        let mut text = Vec::new();
        show_all(&framed(call, body), &mut text).unwrap();
        String::from_utf8(text).unwrap()
    }

    #[test]
    fn a_check_word() {
        let text = "case 1: crc8\n  data: 1 byte: 00\n  \
                    expected: number 0 (done), place 0; check word: 59 (3B hex); no buffers\n\n";
        assert_eq!(shown(1, &[0, 0, 0, 0, 1, 0]), text);
    }

    #[test]
    fn a_dispersal() {
        let text = "case 1: disperse\n  input: 2 bytes: 00 00\n  output before: 3 bytes: 01 02 03\n  \
                    expected: number 0 (done), place 0; no values; output after: 3 bytes: 07 BE 03\n\n";
        let body = [0, 0, 0, 0, 2, 0, 0, 0, 0, 0, 0, 3, 1, 2, 3];
        assert_eq!(shown(3, &body), text);
    }

    #[test]
    fn a_malformed_case() {
        let text = "case 1: crc16\n  malformed body: 1 byte: 00\n  \
                    expected: size 0, for a malformed case\n\n";
        assert_eq!(shown(2, &[0]), text);
    }

    #[test]
    fn long_buffers_are_cut_short() {
        assert!(bytes(&[0; 64]).ends_with(" 00"));
        assert!(bytes(&[0; 65]).ends_with(" 00 .."));
        assert_eq!(bytes(&[0; 65]).len(), bytes(&[0; 64]).len() + 3);
    }
}
