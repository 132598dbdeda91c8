//! A plan as the file of 02's CR 2, written from the words of the Rust's own answer.
//!
//! The file is words of 64 bits, little-endian: the used words of the first six outputs, then
//! the eight scalar fields, then a trailer of sixteen words that has start and count of each of
//! these seven sections, in words, the file's length in bytes, and the version.

use crate::expected::Expected;

/// The outputs that are stored; the groups, which are the last, are not.
const STORED_OUTPUTS: usize = 6;
/// The words of a whole result that are the scalar fields.
const SCALARS: std::ops::Range<usize> = 1..9;
const TRAILER_WORDS: u64 = 16;
const VERSION: u64 = 1;
const WORD_BYTES: u64 = 8;

/// The sections in the file's order.
fn sections(expected: &Expected) -> Vec<&[u64]> {
    let outputs = expected.outputs[..STORED_OUTPUTS].iter().map(Vec::as_slice);
    outputs.chain([&expected.result[SCALARS]]).collect()
}

/// The words that point back at the sections.
fn trailer(sections: &[&[u64]]) -> Vec<u64> {
    let mut words = Vec::new();
    let mut start = 0;
    for section in sections {
        let count = section.len() as u64;
        words.extend([start, count]);
        start += count;
    }
    words.extend([WORD_BYTES * (start + TRAILER_WORDS), VERSION]);
    words
}

/// The bytes of a plan's file; a refusal has none.
pub fn of(expected: &Expected) -> Option<Vec<u8>> {
    if expected.number != 0 {
        return None;
    }
    let sections = sections(expected);
    let words = [sections.concat(), trailer(&sections)].concat();
    Some(words.iter().flat_map(|word| word.to_le_bytes()).collect())
}

/// A checksum of some bytes, FNV-1a of 64 bits.
pub fn checksum(bytes: &[u8]) -> u64 {
    bytes.iter().fold(0xcbf2_9ce4_8422_2325, |sum, &byte| {
        (sum ^ u64::from(byte)).wrapping_mul(0x0100_0000_01b3)
    })
}

#[cfg(test)]
mod tests {
    use super::{checksum, of};
    use crate::expected::Expected;

    /// A plan whose sections have one word to six, each word a number of its own.
    fn plan() -> Expected {
        let mut result = [0; 14];
        (1..14).for_each(|place| result[place] = 900 + place as u64);
        let output = |place: usize| {
            (0..=place)
                .map(|word| (100 * place + word) as u64)
                .collect()
        };
        Expected {
            number: 0,
            result,
            outputs: [0, 1, 2, 3, 4, 5, 6].map(output),
        }
    }

    #[test]
    fn sections_touch_and_the_trailer_points_at_them() {
        let bytes = of(&plan()).expect("a plan has a file");
        let words: Vec<u64> = bytes
            .chunks_exact(8)
            .map(|word| u64::from_le_bytes(word.try_into().expect("eight bytes")))
            .collect();
        assert_eq!(words[..6], [0, 100, 101, 200, 201, 202]);
        assert_eq!(
            words[21..29],
            [901, 902, 903, 904, 905, 906, 907, 908],
            "no whole works and no groups"
        );
        let pointers = [0, 1, 1, 2, 3, 3, 6, 4, 10, 5, 15, 6, 21, 8];
        assert_eq!(words[29..43], pointers);
        assert_eq!(words[43..], [360, 1]);
    }

    #[test]
    fn a_refusal_has_no_file() {
        let refused = Expected {
            number: 16,
            ..plan()
        };
        assert_eq!(of(&refused), None);
    }

    #[test]
    fn every_byte_counts_in_the_checksum() {
        assert_eq!(checksum(&[]), 0xcbf2_9ce4_8422_2325);
        let bytes = of(&plan()).expect("a plan has a file");
        for place in 0..bytes.len() {
            let mut other = bytes.clone();
            other[place] ^= 1;
            assert_ne!(checksum(&other), checksum(&bytes), "byte {place}");
        }
    }
}
