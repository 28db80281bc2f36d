//! Compares the answers of another program with those of this one (docs/CASES.md), byte for byte. A case whose
//! run does not add up (document 02, E1 and E11) fails as well, also where both answers are the same.

use crate::answer::{self, Answer, Given};
use crate::calls;
use crate::case::{Entries, Entry};
use crate::reader::Reader;
use crate::runs::Added;
use crate::show;
use std::collections::BTreeMap;
use std::io::{self, Write};

/// Differing cases that are printed.
const PRINTED: u64 = 10;

/// Prints the differences and the counts, and tells whether there were cases and no differences.
/// Bytes behind the last answer are a failure of their own.
pub fn compare(cases: &[u8], answers: &[u8], out: &mut impl Write) -> io::Result<bool> {
    compare_with(calls::answer, cases, answers, out)
}

/// What answers an entry.
type Answering = fn(&Entry) -> Option<Answer>;

fn compare_with(
    answering: Answering,
    cases: &[u8],
    answers: &[u8],
    out: &mut impl Write,
) -> io::Result<bool> {
    let mut answers = Reader::new(answers);
    let mut counts = Counts::default();
    let (mut passed, mut failed) = (0, 0);
    for (place, entry) in Entries::new(cases).enumerate() {
        let expected = answering(&entry);
        let given = Given::next(&mut answers);
        counts.add(&entry, &expected);
        if agrees(&expected, &given) {
            passed += 1;
            continue;
        }
        failed += 1;
        if failed <= PRINTED {
            let case = show::case(place + 1, &entry, &expected);
            writeln!(out, "{case}{}", show::given(&entry, &given))?;
        }
    }
    if failed > PRINTED {
        writeln!(out, "no more than {PRINTED} differing cases are printed\n")?;
    }
    if !answers.is_empty() {
        failed += 1;
        let left = answers.all().len();
        writeln!(out, "bytes left over behind the last answer: {left}\n")?;
    }
    if passed + failed == 0 {
        writeln!(out, "there are no cases to compare\n")?;
    }
    writeln!(out, "{}", counts.line())?;
    if let Some(line) = counts.added_line() {
        writeln!(out, "{line}")?;
    }
    writeln!(out, "{passed} passed, {failed} failed")?;
    Ok(failed == 0 && passed > 0)
}

/// Whether the answer given is the one expected, and that one adds up.
fn agrees(expected: &Option<Answer>, given: &Given) -> bool {
    let adds_up = answer::differences(expected).is_empty();
    adds_up && *given == Given::Whole(&answer::content(expected))
}

/// How often each call, and each number among the expected answers, occurred, and what was added up.
#[derive(Default)]
struct Counts {
    calls: BTreeMap<Option<u8>, u64>,
    numbers: BTreeMap<Option<u8>, u64>,
    added: Added,
}

impl Counts {
    fn add(&mut self, entry: &Entry, expected: &Option<Answer>) {
        let call = calls::call_of(entry).map(|call| call.code);
        *self.calls.entry(call).or_default() += 1;
        let number = expected.as_ref().map(|answer| answer.number);
        *self.numbers.entry(number).or_default() += 1;
        if let Some(answer) = expected {
            self.added.add(&answer.added);
        }
    }

    fn line(&self) -> String {
        let mut parts: Vec<String> = Vec::new();
        for call in calls::CALLS {
            let count = self.calls.get(&Some(call.code)).unwrap_or(&0);
            parts.push(format!("{} {count}", call.name));
        }
        if let Some(count) = self.calls.get(&None) {
            parts.push(format!("of no call {count}"));
        }
        let mut line = format!("cases: {}; numbers: ", parts.join(", "));
        parts.clear();
        for (number, count) in &self.numbers {
            parts.push(match number {
                Some(number) => format!("{count} times {number}"),
                None => format!("{count} times none (malformed)"),
            });
        }
        line += &parts.join(", ");
        line
    }

    /// What E1, E9 and E11 were held against; none where there was no run.
    fn added_line(&self) -> Option<String> {
        let Added {
            packets,
            counts,
            layouts,
            frames,
            stretches,
            ..
        } = self.added;
        (packets + counts + frames > 0).then(|| {
            format!(
                "added up: the bytes of {packets} packets; the packets waiting after {counts} calls at a sender; \
                 {layouts} of its calls in both layouts of the store; for each two queues that could both take every spare, {frames} frames, {stretches} times two or \
                 more in a row"
            )
        })
    }
}

#[cfg(test)]
mod tests {
    use super::*;
    use crate::case::framed;
    use crate::generate::generate;
    use crate::random::Random;

    /// The fixed cases of all calls.
    fn cases() -> Vec<u8> {
        let mut cases = Vec::new();
        generate(1, 0, &(u8::MIN..=u8::MAX), &mut cases).unwrap();
        cases
    }

    /// One with a value, one with a long buffer, one refused with a short buffer, one malformed.
    fn few_cases() -> Vec<u8> {
        [
            framed(1, &[0, 0, 0, 0, 1, 7]),
            framed(3, &[0, 0, 0, 0, 1, 7, 1, 0, 0, 0, 70, 0, 0, 0, 1]),
            framed(3, &[0, 0, 0, 0, 2, 7, 8, 0, 0, 0, 0, 1, 9]),
            framed(9, &[]),
        ]
        .concat()
    }

    fn answers(cases: &[u8]) -> Vec<u8> {
        let answer = |entry| answer::framed(&calls::answer(&entry));
        Entries::new(cases).flat_map(answer).collect()
    }

    /// Whether all is well, and the printed lines.
    fn compared(cases: &[u8], answers: &[u8]) -> (bool, Vec<String>) {
        let mut out = Vec::new();
        let well = compare(cases, answers, &mut out).unwrap();
        let text = String::from_utf8(out).unwrap();
        (well, text.lines().map(String::from).collect())
    }

    #[test]
    fn its_own_answers_pass() {
        let cases = cases();
        let (well, lines) = compared(&cases, &answers(&cases));
        let count = Entries::new(&cases).count();
        assert!(well && lines.len() == 3);
        assert!(lines[0].starts_with("cases: crc8 "));
        assert!(lines[1].starts_with("added up: the bytes of "));
        assert_eq!(lines[2], format!("{count} passed, 0 failed"));
    }

    /// As the call has it, but the runs of call 36 whose last packet is accepted do not add up.
    fn unbalanced(entry: &Entry) -> Option<Answer> {
        let mut answer = calls::answer(entry)?;
        if matches!(entry, Entry::Case { call: 36, .. }) && answer.number == 0 {
            let what = "packet 1: id 0: no balance".to_string();
            answer.added.differences.push(what);
        }
        Some(answer)
    }

    /// A run that does not add up is a failed case, also where both programs answer the same.
    #[test]
    fn what_does_not_add_up_fails() {
        let mut cases = Vec::new();
        generate(1, 0, &(36..=37), &mut cases).unwrap();
        let wrong = Entries::new(&cases)
            .filter(|entry| !answer::differences(&unbalanced(entry)).is_empty())
            .count();
        let mut out = Vec::new();
        let well = compare_with(unbalanced, &cases, &answers(&cases), &mut out).unwrap();
        let text = String::from_utf8(out).unwrap();
        let all = Entries::new(&cases).count();
        let last = format!("\n{} passed, {wrong} failed\n", all - wrong);
        assert!(wrong > 100 && !well && text.ends_with(&last));
        let shown = "  does not add up: packet 1: id 0: no balance\n";
        assert_eq!(text.matches(shown).count(), PRINTED as usize);
    }

    #[test]
    fn a_flipped_bit_is_found_wherever_it_is() {
        let cases = few_cases();
        let right = answers(&cases);
        for bit in 0..8 * right.len() {
            let mut wrong = right.clone();
            wrong[bit / 8] ^= 1 << (bit % 8);
            let (well, lines) = compared(&cases, &wrong);
            assert!(!well && !lines.last().unwrap().ends_with(" 0 failed"));
        }
    }

    #[test]
    fn a_flipped_byte_of_content_fails_one_case_and_shows_it() {
        let cases = cases();
        let mut wrong = answers(&cases);
        wrong[4] ^= 0xFF;
        let (well, lines) = compared(&cases, &wrong);
        let count = Entries::new(&cases).count();
        assert!(!well && lines[0] == "case 1: crc8");
        assert!(lines[2].starts_with("  expected: number 0 (done)"));
        assert!(lines[3].starts_with("  given:    number 255"));
        let last = format!("{} passed, 1 failed", count - 1);
        assert_eq!(lines.last(), Some(&last));
    }

    #[test]
    fn short_and_long_files_fail() {
        let cases = cases();
        let right = answers(&cases);
        let count = Entries::new(&cases).count();
        for (file, failed) in [
            (Vec::new(), count),
            (right[..right.len() - 1].to_vec(), 1),
            ([&right[..], &[0]].concat(), 1),
            ([&right[..], &right[..]].concat(), 1),
        ] {
            let (well, lines) = compared(&cases, &file);
            let end = format!(" passed, {failed} failed");
            assert!(!well && lines.last().unwrap().ends_with(&end));
        }
    }

    #[test]
    fn no_more_than_ten_are_printed() {
        let cases = cases();
        let (_, lines) = compared(&cases, &[]);
        let printed = lines.iter().filter(|line| line.starts_with("case "));
        assert_eq!(printed.count(), 10);
    }

    #[test]
    fn no_cases_are_no_success() {
        let (well, lines) = compared(&[], &[]);
        assert!(!well && lines.last().unwrap() == "0 passed, 0 failed");
    }

    #[test]
    fn garbled_answers_do_no_harm() {
        let mut random = Random::new(8);
        let cases = few_cases();
        let right = answers(&cases);
        for _ in 0..20_000 {
            let mut wrong = right.clone();
            for _ in 0..1 + random.below(4) {
                let place = random.below(wrong.len() as u64) as usize;
                wrong[place] ^= 1 + random.below(255) as u8;
            }
            wrong.truncate(random.below(2 * right.len() as u64) as usize);
            let (well, _) = compared(&cases, &wrong);
            assert!(!well || wrong == right);
        }
    }
}
