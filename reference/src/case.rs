//! The framing of cases (docs/CASES.md, "A case").

use crate::reader::Reader;

/// The longest body.
pub const LONGEST_BODY: usize = 524_288;

/// What stands next in a file of cases.
#[derive(Debug, Clone, Copy, PartialEq, Eq)]
pub enum Entry<'a> {
    Case {
        call: u8,
        body: &'a [u8],
    },
    /// The rest of a file that is no case: it ends too early or states too long a body, so that nobody
    /// can tell where the next case begins. It counts as one case.
    Broken(&'a [u8]),
}

/// The entries of a file, up to its end or its first broken one.
pub struct Entries<'a> {
    rest: &'a [u8],
}

impl<'a> Entries<'a> {
    pub fn new(file: &'a [u8]) -> Entries<'a> {
        Entries { rest: file }
    }
}

impl<'a> Iterator for Entries<'a> {
    type Item = Entry<'a>;

    fn next(&mut self) -> Option<Entry<'a>> {
        let rest = std::mem::take(&mut self.rest);
        if rest.is_empty() {
            return None;
        }
        let mut file = Reader::new(rest);
        let Some(case) = read(&mut file) else {
            return Some(Entry::Broken(rest));
        };
        self.rest = file.all();
        Some(case)
    }
}

fn read<'a>(file: &mut Reader<'a>) -> Option<Entry<'a>> {
    let call = file.u8()?;
    let size = file.u32()? as usize;
    if size > LONGEST_BODY {
        return None;
    }
    let body = file.bytes(size)?;
    Some(Entry::Case { call, body })
}

/// A case with its size in front of the body.
pub fn framed(call: u8, body: &[u8]) -> Vec<u8> {
    let mut case = vec![call];
    case.extend((body.len() as u32).to_be_bytes());
    case.extend(body);
    case
}

#[cfg(test)]
mod tests {
    use super::*;

    fn entries(file: &[u8]) -> Vec<Entry<'_>> {
        Entries::new(file).collect()
    }

    #[test]
    fn written_and_read_back() {
        let longest = vec![5; LONGEST_BODY];
        let cases: [(u8, &[u8]); 4] = [(1, &[]), (2, &[1, 2, 3]), (255, &longest), (0, &[9])];
        let mut file = Vec::new();
        for (call, body) in cases {
            file.extend(framed(call, body));
        }
        assert_eq!(
            entries(&file),
            cases.map(|(call, body)| Entry::Case { call, body })
        );
    }

    #[test]
    fn an_empty_file_holds_no_case() {
        assert_eq!(entries(&[]), []);
    }

    #[test]
    fn a_cut_case_is_one_broken_entry() {
        let file = [framed(1, &[7]), framed(2, &[8, 9])].concat();
        let first = Entry::Case {
            call: 1,
            body: &[7],
        };
        for end in 7..file.len() {
            let broken = Entry::Broken(&file[6..end]);
            assert_eq!(entries(&file[..end]), [first, broken]);
        }
    }

    #[test]
    fn too_long_a_body_is_broken() {
        let file = framed(1, &vec![0; LONGEST_BODY + 1]);
        assert_eq!(entries(&file), [Entry::Broken(&file)]);
    }
}
