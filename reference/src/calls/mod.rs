//! The calls (docs/CASES.md, "The calls"), one file each or one for those that differ little. Two files hold
//! no call but descriptions for the cases of several: `described` as records, `coded` in bytes.
//!
//! A new call is a new file here, its `mod` line, and one line in `CALLS`.

mod clock;
mod coded;
mod crc;
mod date;
mod described;
mod description;
mod disperse;
mod fac;
mod follows;
mod frame;
mod layout;
mod layout_text;
mod mdi;
pub mod mdi_drafts;
mod number;
mod packet;
mod receiver;
mod recording;
mod script;
mod settings;
mod through;

use crate::answer::Answer;
use crate::case::Entry;
use crate::random::Random;
use crate::reader::Reader;

/// All that the commands have to know about a call.
pub struct Call {
    /// The first byte of its cases.
    pub code: u8,
    pub name: &'static str,
    /// The bodies of the cases that are always made: the limits.
    pub fixed: fn(&mut Random) -> Vec<Vec<u8>>,
    /// The body of one case more.
    pub random: fn(&mut Random) -> Vec<u8>,
    /// The answer to a body; none where it is malformed. Bytes left over are found by the caller.
    pub answer: fn(&mut Reader) -> Option<Answer>,
    /// The arguments in a body for readers, a line each; none where it is malformed.
    pub arguments: fn(&mut Reader) -> Option<Vec<String>>,
    /// What the values of the answer are, in order.
    pub values: &'static [&'static str],
    /// What the buffers of the answer are, in order.
    pub buffers: &'static [&'static str],
}

pub const CALLS: &[Call] = &[
    crc::CRC8,
    crc::CRC16,
    disperse::DISPERSE,
    number::READ,
    number::WRITE,
    description::READ,
    description::WRITE,
    description::ENTITY_READ,
    description::ENTITY_WRITE,
    layout::LAYOUT,
    layout_text::LAYOUT_TEXT,
    frame::BUILD,
    frame::CUT,
    clock::WRITE,
    clock::READ,
    clock::NEXT,
    clock::FOLLOWS,
    recording::OPEN,
    recording::NEXT,
    recording::START,
    recording::APPEND,
    date::DATE,
    packet::CHECK,
    packet::READ,
    packet::WRITE,
    settings::CHECK,
    settings::HAND_OUT,
    script::SCRIPT,
    mdi::READ,
    mdi::STREAM,
    mdi::WRITE,
    fac::READ,
    fac::WRITE,
    follows::FOLLOWS,
    receiver::SCRIPT,
    through::SCRIPT,
];

/// The call of an entry; none where the file or the code is broken.
pub fn call_of(entry: &Entry) -> Option<&'static Call> {
    match entry {
        Entry::Case { call, .. } => CALLS.iter().find(|known| known.code == *call),
        Entry::Broken(_) => None,
    }
}

/// The answer to an entry; none where it is malformed.
pub fn answer(entry: &Entry) -> Option<Answer> {
    whole_body(entry, call_of(entry)?.answer)
}

/// The arguments of an entry, a line each; none where it is malformed.
pub fn arguments(entry: &Entry) -> Option<Vec<String>> {
    whole_body(entry, call_of(entry)?.arguments)
}

/// What `read` makes of the body, unless it leaves bytes over.
fn whole_body<T>(entry: &Entry, read: fn(&mut Reader) -> Option<T>) -> Option<T> {
    match entry {
        Entry::Case { body, .. } => {
            let mut body = Reader::new(body);
            let found = read(&mut body)?;
            body.is_empty().then_some(found)
        }
        Entry::Broken(_) => None,
    }
}

#[cfg(test)]
mod tests {
    use super::*;
    use crate::case::{framed, Entries};
    use crate::runs::Added;
    use crate::show;

    fn answer_of(call: u8, body: &[u8]) -> Option<Answer> {
        answer(&Entry::Case { call, body })
    }

    #[test]
    fn codes_and_names_stand_once() {
        for (place, call) in CALLS.iter().enumerate() {
            for earlier in &CALLS[..place] {
                assert!(earlier.code != call.code && earlier.name != call.name);
            }
        }
    }

    /// The numbers that can stand in an answer of each call.
    const NUMBERS: [(u8, &[u8]); 36] = [
        (1, &[0]),
        (2, &[0]),
        (3, &[0, 1]),
        (4, &[0]),
        (5, &[0]),
        (10, &[0, 1, 5, 6, 9, 10]),
        (11, &[0, 1, 6, 9, 10]),
        (12, &[0, 1, 5, 6, 9, 10]),
        (13, &[0, 1, 6, 9, 10]),
        (14, &[0, 1, 6, 9, 10, 12]),
        (15, &[0, 1]),
        (16, &[0, 1, 6, 9, 10, 11, 12]),
        (17, &[0, 1, 6, 9, 10, 12]),
        (20, &[0, 1, 6]),
        (21, &[0, 1, 5, 6]),
        (22, &[0, 6, 18]),
        (23, &[0, 6]),
        (24, &[0, 2, 6]),
        (25, &[0, 1, 2]),
        (26, &[0, 1]),
        (27, &[0, 1]),
        (28, &[0]),
        (30, &[0, 1, 13, 16]),
        (31, &[0, 1, 13, 16]),
        (32, &[0, 1, 6, 13]),
        (33, &[0, 13]),
        (34, &[0, 13]),
        (35, &[0, 1, 13, 14, 15, 17]),
        (40, &[0, 1, 2, 3, 4, 5, 6, 7, 8, 9, 10, 11]),
        (41, &[0]),
        (42, &[0, 1, 5, 6, 9, 10, 11]),
        (43, &[0, 1, 5, 7, 9]),
        (44, &[0, 1, 6, 9]),
        (45, &[0, 6]),
        (36, &[0, 1, 13, 16, 17]),
        (37, &[0, 1, 13, 14, 15]),
    ];

    /// Those and no others, among the fixed cases as well as among random ones.
    #[test]
    fn every_number_occurs() {
        let codes: Vec<u8> = CALLS.iter().map(|call| call.code).collect();
        assert_eq!(NUMBERS.map(|(code, _)| code)[..], codes);
        for (call, (_, numbers)) in CALLS.iter().zip(NUMBERS) {
            let mut random = Random::new(7);
            let fixed = (call.fixed)(&mut random);
            let drawn: Vec<_> = (0..2_000).map(|_| (call.random)(&mut random)).collect();
            for bodies in [fixed, drawn] {
                let mut found: Vec<u8> = bodies
                    .iter()
                    .filter_map(|body| answer_of(call.code, body))
                    .map(|answer| answer.number)
                    .collect();
                found.sort();
                found.dedup();
                assert_eq!(found, numbers, "call {}", call.code);
            }
        }
    }

    /// Every run adds up (document 02, E1, E9 and E11), and 1,000 random cases of a call have at least so many packets
    /// in the balance, accepted calls at a sender, calls in both layouts of its store, frames that two queues share
    /// their spares in, and runs of two such frames or more.
    #[test]
    fn every_run_adds_up() {
        for (code, least) in [
            (34, [0, 0, 0, 300, 0]),
            (35, [0, 6_000, 8_000, 5_000, 800]),
            (36, [8_000, 0, 0, 0, 0]),
            (37, [80_000, 10_000, 12_000, 4_000, 400]),
        ] {
            let call = CALLS.iter().find(|call| call.code == code).unwrap();
            let mut random = Random::new(9);
            let fixed = (call.fixed)(&mut random);
            let drawn: Vec<_> = (0..1_000).map(|_| (call.random)(&mut random)).collect();
            let mut added = [Added::default(), Added::default()];
            for (added, bodies) in added.iter_mut().zip([fixed, drawn]) {
                for answer in bodies.iter().filter_map(|body| answer_of(code, body)) {
                    added.add(&answer.added);
                }
                assert_eq!(added.differences, [""; 0], "call {code}");
            }
            let Added {
                packets,
                counts,
                layouts,
                frames,
                stretches,
                ..
            } = added[1];
            let found = [packets, counts, layouts, frames, stretches];
            let mut both = found.iter().zip(&least);
            assert!(both.all(|(found, least)| found >= least), "{found:?}");
        }
    }

    /// Every body that begins or prolongs a good one, and an unknown call.
    #[test]
    fn malformed_cases_have_no_answer() {
        for call in CALLS {
            let mut random = Random::new(3);
            let body = (call.random)(&mut random);
            assert!(answer_of(call.code, &body).is_some());
            for end in 0..body.len() {
                assert_eq!(answer_of(call.code, &body[..end]), None);
            }
            assert_eq!(answer_of(call.code, &[&body[..], &[0]].concat()), None);
        }
        assert_eq!(answer_of(0, &[]), None);
        assert_eq!(answer_of(255, &[0, 0, 0, 0, 0]), None);
        assert_eq!(answer(&Entry::Broken(&[1, 0, 0])), None);
    }

    #[test]
    fn every_good_case_has_lines_and_named_parts() {
        for call in CALLS {
            let mut random = Random::new(4);
            for body in (call.fixed)(&mut random) {
                let entry = Entry::Case {
                    call: call.code,
                    body: &body,
                };
                assert!(arguments(&entry).is_some());
                if let Some(answer) = answer(&entry) {
                    // The values of a script are as many as its steps ask for, and have no names.
                    let scripts = [script::SCRIPT, receiver::SCRIPT, through::SCRIPT];
                    if scripts.iter().all(|script| script.code != call.code) {
                        assert_eq!(answer.values.len(), call.values.len());
                    }
                    assert_eq!(answer.buffers.len(), call.buffers.len());
                }
            }
        }
    }

    /// Whatever stands in a file: it is answered and shown, without a panic.
    #[test]
    fn garbled_cases_do_no_harm() {
        let mut random = Random::new(5);
        for round in 0..20_000 {
            let call = &CALLS[round % CALLS.len()];
            let mut file = framed(call.code, &(call.random)(&mut random));
            if file.len() > 2_000 {
                continue;
            }
            for _ in 0..1 + random.below(3) {
                let place = random.below(file.len() as u64) as usize;
                file[place] = random.draw() as u8;
            }
            file.truncate(random.below(2 * file.len() as u64) as usize);
            for (place, entry) in Entries::new(&file).enumerate() {
                let expected = answer(&entry);
                assert!(expected.is_none() || arguments(&entry).is_some());
                assert!(!show::case(place + 1, &entry, &expected).is_empty());
            }
        }
    }

    /// Small bytes, so that some buffers have a kind and a length.
    #[test]
    fn noise_in_a_body_does_no_harm() {
        let mut random = Random::new(8);
        for round in 0..20_000 {
            let call = CALLS[round % CALLS.len()].code;
            let length = random.below(60) as usize;
            let mut body = random.bytes(length);
            body.iter_mut().for_each(|byte| *byte %= 3);
            let entry = Entry::Case { call, body: &body };
            let expected = answer(&entry);
            assert!(!show::case(1, &entry, &expected).is_empty());
        }
    }

    #[test]
    fn noise_does_no_harm() {
        let mut random = Random::new(6);
        for _ in 0..20_000 {
            let length = random.below(40) as usize;
            let mut file = random.bytes(length);
            file.iter_mut().for_each(|byte| *byte %= 10);
            for (place, entry) in Entries::new(&file).enumerate() {
                let expected = answer(&entry);
                assert!(!show::case(place + 1, &entry, &expected).is_empty());
            }
        }
    }
}
