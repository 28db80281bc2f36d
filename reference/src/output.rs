//! What all writers do last (document 01, end of "Numbers given back"): they try the length of their
//! output, and on success leave the bytes behind what they wrote as they were.

use crate::refusal::{refuse, Refusal};

/// Writes the bytes to the front of `output` and tells how many they are.
pub fn write(bytes: &[u8], output: &mut [u8]) -> Result<usize, Refusal> {
    refuse(1, output.len() < bytes.len())?;
    output[..bytes.len()].copy_from_slice(bytes);
    Ok(bytes.len())
}

#[cfg(test)]
mod tests {
    use super::*;

    #[test]
    fn bytes_behind_stay() {
        let mut output = [7, 8, 9];
        assert_eq!(write(&[1, 2], &mut output), Ok(2));
        assert_eq!(output, [1, 2, 9]);
        assert_eq!(write(&[], &mut []), Ok(0));
    }

    #[test]
    fn too_short_an_output_stays_as_it_was() {
        let mut output = [7, 8, 9];
        assert_eq!(write(&[1, 2, 3, 4], &mut output), Err(Refusal::number(1)));
        assert_eq!(output, [7, 8, 9]);
    }
}
