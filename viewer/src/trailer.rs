//! Why a file is refused as a stored plan, told from its trailer. It is found again here only to be
//! said in words; the library's number decides.

use midvokt::{FILE_VERSION, MEASUREMENT_WORDS, ROTATION_WORDS, SCALAR_WORDS, TRAILER_WORDS};

use crate::figures::whole;

/// The sections in their order.
const SECTIONS: [&str; 7] = [
    "steps",
    "merges",
    "sizes",
    "rotations",
    "promotions",
    "measurements",
    "scalar fields",
];

/// The words of a file.
fn words(bytes: &[u8]) -> Vec<u64> {
    let word = |eight: &[u8]| {
        eight
            .iter()
            .rev()
            .fold(0, |word, &byte| word << 8 | u64::from(byte))
    };
    bytes.chunks_exact(8).map(word).collect()
}

/// What is wrong with a file's length, or with its length or version word.
fn of_file(bytes: &[u8], trailer: Option<&[u64]>) -> Option<String> {
    let length = bytes.len() as u64;
    let Some(&[.., said, version]) = trailer else {
        let least = whole(8 * TRAILER_WORDS as u64);
        return Some(format!(
            "it has {} bytes, and a trailer alone has {least}",
            whole(length)
        ));
    };
    match () {
        () if !length.is_multiple_of(8) => Some(format!(
            "it has {} bytes, which is no multiple of 8",
            whole(length)
        )),
        () if said != length => Some(format!(
            "its length word says {} bytes, and it has {}",
            whole(said),
            whole(length)
        )),
        () if version != FILE_VERSION => Some(format!(
            "its version word is {}, and {FILE_VERSION} is the one that can be read",
            whole(version)
        )),
        () => None,
    }
}

/// What is wrong with the places of the sections, in front of a trailer that starts at a word.
fn of_places(trailer: &[u64], end: u64) -> Option<String> {
    let mut next = 0;
    for (name, place) in SECTIONS.iter().zip(trailer.chunks_exact(2)) {
        let (start, count, left) = (place[0], place[1], end - next);
        if start != next {
            let (start, next) = (whole(start), whole(next));
            return Some(format!(
                "its {name} start at word {start}, and word {next} comes next"
            ));
        }
        if count > left {
            let (count, left) = (whole(count), whole(left));
            return Some(format!(
                "its {name} have {count} words, and {left} are left for them"
            ));
        }
        next += count;
    }
    (next != end).then(|| {
        let (next, end) = (whole(next), whole(end));
        format!("its sections stop at word {next}, and its trailer starts at word {end}")
    })
}

/// What is wrong with the counts of sections that are in place.
fn of_counts(words: &[u64], trailer: &[u64]) -> Option<String> {
    let counts: Vec<_> = trailer.iter().skip(1).step_by(2).copied().collect();
    for (section, part) in [(0, 2), (3, ROTATION_WORDS), (5, MEASUREMENT_WORDS)] {
        let (name, count) = (SECTIONS[section], counts[section]);
        if !count.is_multiple_of(part as u64) {
            let count = whole(count);
            return Some(format!(
                "its {name} have {count} words, which is no multiple of {part}"
            ));
        }
    }
    if counts[6] != SCALAR_WORDS as u64 {
        let count = whole(counts[6]);
        return Some(format!(
            "its scalar fields have {count} words, and there are {SCALAR_WORDS}"
        ));
    }
    let said = words.get(trailer[12] as usize + 2).copied()?;
    (said != counts[2]).then(|| {
        let (said, count) = (whole(said), whole(counts[2]));
        format!("its component_count is {said}, and its sizes have {count} words")
    })
}

/// The number that a file is refused with, and why; none where nothing is wrong with it.
pub fn why(bytes: &[u8]) -> Option<(u64, String)> {
    let words = words(bytes);
    let end = words.len().checked_sub(TRAILER_WORDS);
    let trailer = end.map(|end| &words[end..]);
    if let Some(what) = of_file(bytes, trailer) {
        return Some((21, what));
    }
    let (end, trailer) = end.zip(trailer)?;
    if let Some(what) = of_places(trailer, end as u64) {
        return Some((22, what));
    }
    of_counts(&words, trailer).map(|what| (23, what))
}

#[cfg(test)]
mod tests {
    use super::*;
    use midvokt::{load, store, Head, Record, LARGEST_CEILING};

    /// A file with rows of every kind, as words.
    fn file() -> Vec<u64> {
        let head = Head {
            initial_k: 3,
            max_k: 8,
            nexpvals: 0,
            ceiling: LARGEST_CEILING,
        };
        let records = [
            Record::rotation(3, 5, 0, 0, 0.5),
            Record::Promotion,
            Record::measurement(4, 0, 6, 0, 2),
        ];
        words(&store(&head, &records).unwrap())
    }

    /// What is said of the file with some words of its trailer set; the library has to agree.
    fn said(changes: &[(usize, u64)]) -> String {
        let mut words = file();
        let trailer = words.len() - TRAILER_WORDS;
        for &(place, word) in changes {
            words[trailer + place] = word;
        }
        let bytes: Vec<_> = words.iter().flat_map(|word| word.to_le_bytes()).collect();
        let (number, what) = why(&bytes).unwrap();
        assert_eq!(load(&bytes).unwrap_err().number(), number);
        format!("{number}: {what}")
    }

    #[test]
    fn a_good_file_has_nothing_wrong() {
        let bytes: Vec<_> = file().iter().flat_map(|word| word.to_le_bytes()).collect();
        assert_eq!(why(&bytes), None);
        let cut = |length: usize| why(&bytes[..length]).unwrap().1;
        assert_eq!(cut(0), "it has 0 bytes, and a trailer alone has 128");
        assert_eq!(cut(127), "it has 127 bytes, and a trailer alone has 128");
        assert_eq!(cut(129), "it has 129 bytes, which is no multiple of 8");
        let found = cut(bytes.len() - 8);
        assert!(found.starts_with("its length word says "), "{found}");
    }

    #[test]
    fn wrong_words_and_places_are_told() {
        assert_eq!(
            said(&[(15, 2)]),
            "21: its version word is 2, and 1 is the one that can be read"
        );
        assert_eq!(
            said(&[(0, 1)]),
            "22: its steps start at word 1, and word 0 comes next"
        );
        assert_eq!(
            said(&[(3, u64::MAX)]),
            "22: its merges have 18,446,744,073,709,551,615 words, and 57 are left for them"
        );
        assert_eq!(
            said(&[(13, 7)]),
            "22: its sections stop at word 62, and its trailer starts at word 63"
        );
    }

    #[test]
    fn wrong_counts_are_told() {
        let words = file();
        let trailer = &words[words.len() - TRAILER_WORDS..];
        let counts: Vec<_> = trailer.iter().skip(1).step_by(2).take(7).copied().collect();
        assert_eq!(counts, [6, 4, 4, 21, 1, 19, 8]);
        assert_eq!(
            said(&[(1, 7), (2, 7), (3, 3)]),
            "23: its steps have 7 words, which is no multiple of 2"
        );
        assert_eq!(
            said(&[(3, 5), (4, 11), (5, 3)]),
            "23: its component_count is 4, and its sizes have 3 words"
        );
        assert_eq!(
            said(&[(7, 20), (8, 34), (9, 2)]),
            "23: its rotations have 20 words, which is no multiple of 21"
        );
        assert_eq!(
            said(&[(9, 0), (10, 35), (11, 20)]),
            "23: its measurements have 20 words, which is no multiple of 19"
        );
        assert_eq!(
            said(&[(9, 2), (10, 37), (12, 56), (13, 7)]),
            "23: its scalar fields have 7 words, and there are 8"
        );
    }

    #[test]
    fn any_trailer_is_explained_as_the_library_refuses_it() {
        let good = file();
        let trailer = good.len() - TRAILER_WORDS;
        for place in trailer..good.len() {
            for word in [0, 1, 7, 8, 21, 62, 63, 1 << 63, u64::MAX] {
                let mut words = good.clone();
                words[place] = word;
                let bytes: Vec<_> = words.iter().flat_map(|word| word.to_le_bytes()).collect();
                let refused = load(&bytes).err().map(|refusal| refusal.number());
                assert_eq!(why(&bytes).map(|found| found.0), refused);
            }
        }
    }
}
