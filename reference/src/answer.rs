//! The framing of answers (docs/CASES.md, "An answer").

use crate::crc::crc16;
use crate::reader::Reader;
use crate::refusal::Refusal;
use crate::runs::Added;

/// The longest buffer whose bytes stand in an answer.
const LONGEST_SHOWN: usize = 64;

#[derive(Debug, PartialEq, Eq)]
pub struct Answer {
    /// 0, or the number of the refusal.
    pub number: u8,
    pub place: u64,
    pub values: Vec<u64>,
    pub buffers: Vec<Lent>,
    /// What was added up over the run that the case plays; it is not written into the answer.
    pub added: Added,
}

/// A lent buffer as it is after the call.
#[derive(Debug, PartialEq, Eq)]
pub enum Lent {
    Short(Vec<u8>),
    Long {
        length: u32,
        check_word: u16,
        sum: u32,
    },
}

impl Answer {
    pub fn done() -> Answer {
        Answer::refused(Refusal::number(0))
    }

    pub fn refused(refusal: Refusal) -> Answer {
        Answer {
            number: refusal.number,
            place: refusal.place,
            values: Vec::new(),
            buffers: Vec::new(),
            added: Added::default(),
        }
    }

    /// The values of a call, or as many zeros where it is refused.
    pub fn of<const COUNT: usize>(result: Result<[u64; COUNT], Refusal>) -> Answer {
        let (refusal, values) = match result {
            Ok(values) => (Refusal::number(0), values),
            Err(refusal) => (refusal, [0; COUNT]),
        };
        let mut answer = Answer::refused(refusal);
        answer.values.extend(values);
        answer
    }

    /// What a writer gives back: how many bytes it wrote, and its output.
    pub fn written(result: Result<usize, Refusal>, output: &[u8]) -> Answer {
        Answer::of(result.map(|bytes| [bytes as u64])).buffer(output)
    }

    /// The answer with one more value.
    pub fn value(mut self, value: impl Into<u64>) -> Answer {
        self.values.push(value.into());
        self
    }

    /// The answer with one more lent buffer.
    pub fn buffer(mut self, bytes: &[u8]) -> Answer {
        self.buffers.push(Lent::of(bytes));
        self
    }

    /// All that follows the size.
    pub fn content(&self) -> Vec<u8> {
        let mut content = vec![self.number];
        content.extend(self.place.to_be_bytes());
        content.push(count(self.values.len()));
        for value in &self.values {
            content.extend(value.to_be_bytes());
        }
        content.push(count(self.buffers.len()));
        for buffer in &self.buffers {
            buffer.write(&mut content);
        }
        content
    }

    /// None where the content is none of an answer.
    pub fn read(content: &[u8]) -> Option<Answer> {
        let mut content = Reader::new(content);
        let number = content.u8()?;
        let place = content.u64()?;
        let mut answer = Answer::refused(Refusal { number, place });
        for _ in 0..content.u8()? {
            answer.values.push(content.u64()?);
        }
        for _ in 0..content.u8()? {
            answer.buffers.push(Lent::read(&mut content)?);
        }
        content.is_empty().then_some(answer)
    }
}

impl Lent {
    fn of(bytes: &[u8]) -> Lent {
        if bytes.len() <= LONGEST_SHOWN {
            return Lent::Short(bytes.to_vec());
        }
        Lent::Long {
            length: bytes.len() as u32,
            check_word: crc16(bytes),
            sum: bytes.iter().map(|byte| u32::from(*byte)).sum(),
        }
    }

    fn write(&self, content: &mut Vec<u8>) {
        match self {
            Lent::Short(bytes) => {
                content.extend((bytes.len() as u32).to_be_bytes());
                content.extend(bytes);
            }
            Lent::Long {
                length,
                check_word,
                sum,
            } => {
                content.extend(length.to_be_bytes());
                content.extend(check_word.to_be_bytes());
                content.extend(sum.to_be_bytes());
            }
        }
    }

    fn read(content: &mut Reader) -> Option<Lent> {
        let length = content.u32()?;
        if length as usize <= LONGEST_SHOWN {
            return Some(Lent::Short(content.bytes(length as usize)?.to_vec()));
        }
        Some(Lent::Long {
            length,
            check_word: content.u16()?,
            sum: content.u32()?,
        })
    }
}

/// How many values or buffers; no call has as many as 256.
fn count(parts: usize) -> u8 {
    debug_assert!(parts < 256);
    parts as u8
}

/// The content of the answer to a case; a malformed case has none.
pub fn content(answer: &Option<Answer>) -> Vec<u8> {
    answer.as_ref().map_or_else(Vec::new, Answer::content)
}

/// What does not add up over the run of a case: such a case fails, whatever is answered to it.
pub fn differences(answer: &Option<Answer>) -> &[String] {
    let added = answer.as_ref().map(|answer| &answer.added);
    added.map_or(&[], |added| &added.differences)
}

/// The content with its size in front.
pub fn framed(answer: &Option<Answer>) -> Vec<u8> {
    let content = content(answer);
    let mut framed = (content.len() as u32).to_be_bytes().to_vec();
    framed.extend(content);
    framed
}

/// What stands next in a file of answers.
#[derive(Debug, PartialEq, Eq)]
pub enum Given<'a> {
    /// The content of an answer, whatever it may be.
    Whole(&'a [u8]),
    /// The rest of a file that ends before the answer does.
    Cut(&'a [u8]),
    /// The file has ended.
    Missing,
}

impl<'a> Given<'a> {
    pub fn next(file: &mut Reader<'a>) -> Given<'a> {
        let rest = file.all();
        if rest.is_empty() {
            return Given::Missing;
        }
        let mut tried = Reader::new(rest);
        match tried.u32().and_then(|size| tried.bytes(size as usize)) {
            Some(content) => {
                *file = tried;
                Given::Whole(content)
            }
            None => Given::Cut(rest),
        }
    }
}

#[cfg(test)]
mod tests {
    use super::*;

    fn examples() -> Vec<Answer> {
        vec![
            Answer::done(),
            Answer::refused(Refusal {
                number: 2,
                place: 112,
            }),
            Answer::done().value(u64::MAX).value(0x4Bu8),
            Answer::done().buffer(&[]).buffer(&[5; 64]).buffer(&[5; 65]),
            Answer::refused(Refusal::number(1))
                .value(7u8)
                .buffer(&[255; 131_072]),
        ]
    }

    #[test]
    fn written_and_read_back() {
        for answer in examples() {
            let content = answer.content();
            assert_eq!(Answer::read(&content), Some(answer));
            assert_eq!(Answer::read(&content[..content.len() - 1]), None);
            assert_eq!(Answer::read(&[&content[..], &[0]].concat()), None);
        }
    }

    #[test]
    fn a_refused_call_gives_zeros() {
        assert_eq!(Answer::of(Ok([7, 8])), Answer::done().value(7u8).value(8u8));
        let refusal = Refusal {
            number: 2,
            place: 9,
        };
        assert_eq!(
            Answer::of::<2>(Err(refusal)),
            Answer::refused(refusal).value(0u8).value(0u8)
        );
    }

    #[test]
    fn bytes_of_an_answer() {
        let answer = Answer::refused(Refusal {
            number: 2,
            place: 3,
        })
        .value(4u8)
        .buffer(&[5, 6]);
        let expected = [
            0, 0, 0, 25, // size
            2, 0, 0, 0, 0, 0, 0, 0, 3, // number, place
            1, 0, 0, 0, 0, 0, 0, 0, 4, // values
            1, 0, 0, 0, 2, 5, 6, // buffers
        ];
        assert_eq!(framed(&Some(answer)), expected);
        assert_eq!(framed(&None), [0, 0, 0, 0]);
    }

    #[test]
    fn a_long_buffer_is_summed_up() {
        let lent = Lent::of(&[0xFF; 65]);
        let check_word = crc16(&[0xFF; 65]);
        assert_eq!(
            lent,
            Lent::Long {
                length: 65,
                check_word,
                sum: 65 * 255
            }
        );
    }

    #[test]
    fn a_file_of_answers_is_taken_apart() {
        let answers: Vec<Option<Answer>> = examples().into_iter().map(Some).chain([None]).collect();
        let file: Vec<u8> = answers.iter().flat_map(framed).collect();
        let mut reader = Reader::new(&file);
        for answer in &answers {
            assert_eq!(Given::next(&mut reader), Given::Whole(&content(answer)));
        }
        assert_eq!(Given::next(&mut reader), Given::Missing);
        let mut cut = Reader::new(&file[..7]);
        assert_eq!(Given::next(&mut cut), Given::Cut(&file[..7]));
        assert_eq!(Given::next(&mut cut), Given::Missing);
    }
}
