//! A second reading of a stored plan, written from 02's CR 2 for this test alone: what loading a
//! file into outputs of some lengths has to return and to leave behind.

/// The outputs that a file has, in its order.
pub const OUTPUTS: [&str; 6] = [
    "steps",
    "merges",
    "sizes",
    "rotations",
    "promotions",
    "measurements",
];
/// Words of a whole result of loading: a zero, eight scalar fields, six counts.
pub const RESULT_WORDS: usize = 15;
/// The least length of a file in bytes.
const LEAST_BYTES: usize = 128;

/// The number, and the used words of the result and of the outputs; all behind them is zero.
#[derive(Default)]
pub struct Reading {
    pub number: u64,
    pub result: Vec<u64>,
    pub outputs: [Vec<u64>; 6],
}

/// Some words of the file: from where on, and how many.
type Pointer = (u128, u128);

/// The file's words, unless its length or the trailer's last two words are wrong.
fn words_of(file: &[u8]) -> Option<Vec<u64>> {
    if file.len() < LEAST_BYTES || !file.len().is_multiple_of(8) {
        return None;
    }
    let mut words = Vec::new();
    for bytes in file.chunks(8) {
        let digits = bytes.iter().rev();
        words.push(digits.fold(0, |word, &byte| word * 256 + u64::from(byte)));
    }
    let is_right = words.ends_with(&[file.len() as u64, 1]);
    is_right.then_some(words)
}

/// The seven pointers and the words that they are about.
fn split(words: &[u64]) -> (&[u64], Vec<Pointer>) {
    let (body, trailer) = words.split_at(words.len() - 16);
    let pairs = trailer[..14].chunks(2);
    let pointer = |pair: &[u64]| (u128::from(pair[0]), u128::from(pair[1]));
    (body, pairs.map(pointer).collect())
}

/// Whether the sections touch, in order, from word 0 to the trailer.
fn is_in_place(body: &[u64], pointers: &[Pointer]) -> bool {
    let ends = pointers.iter().map(|(start, count)| start + count);
    let starts = pointers.iter().map(|(start, _)| *start);
    let wanted = std::iter::once(0).chain(ends);
    wanted.eq(starts.chain([body.len() as u128]))
}

/// Whether the counts are those of rows, of component_count and of the outputs' lengths.
fn fits(sections: &[&[u64]], lengths: [usize; 6]) -> bool {
    let counts: Vec<usize> = sections.iter().map(|section| section.len()).collect();
    let scalars = sections[6];
    let is_whole = [(0, 2), (3, 21), (5, 19)]
        .iter()
        .all(|&(place, row)| counts[place] % row == 0);
    is_whole
        && scalars.len() == 8
        && scalars[2] == counts[2] as u64
        && lengths
            .iter()
            .zip(&counts)
            .all(|(length, count)| length >= count)
}

/// What a refusal leaves: its number and zeros.
fn refused(number: u64) -> Reading {
    Reading {
        number,
        ..Reading::default()
    }
}

/// Reads a file into outputs of these lengths.
pub fn read(file: &[u8], lengths: [usize; 6]) -> Reading {
    let Some(words) = words_of(file) else {
        return refused(21);
    };
    let (body, pointers) = split(&words);
    if !is_in_place(body, &pointers) {
        return refused(22);
    }
    let section = |&(start, count): &Pointer| &body[start as usize..(start + count) as usize];
    let sections: Vec<&[u64]> = pointers.iter().map(section).collect();
    if !fits(&sections, lengths) {
        return refused(23);
    }
    let mut result = vec![0];
    result.extend(sections[6]);
    result.extend(sections[..6].iter().map(|section| section.len() as u64));
    Reading {
        number: 0,
        result,
        outputs: std::array::from_fn(|place| sections[place].to_vec()),
    }
}
