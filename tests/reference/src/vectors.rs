//! The fixed vectors: programs with the answers of the published Rust, as one list of words
//! that a later program replays. Those at the ceiling 62 come first, then those under others, with
//! the oracle's reading of them.
//!
//! The list begins with the number of vectors. Each vector is:
//!
//!     initial_k, max_k, nexpvals, ceiling
//!     the number of record words
//!     the seven buffer lengths, in words
//!     the record words
//!     the answer's number, 0 for a plan
//!     the fourteen words of the result
//!     seven times: the number of used words, then these; the buffer's other words are zero
//!
//! The list of their files has a line for each vector, which the comment on top of it describes.

use crate::answer::answer;
use crate::expected::Expected;
use crate::generator::{self, Draw};
use crate::input::{Program, RECORD_WORDS};
use crate::refusals::least_lengths;
use crate::stored;
use crate::stored_file::{self, checksum};

/// The most records of a random program that is taken.
const MOST_RECORDS: usize = 24;
/// The most words of the outputs of a random program that is taken.
const MOST_USED: usize = 600;
/// How many random programs of each refusal are taken.
const OF_EACH_REFUSAL: usize = 9;
/// How many random programs are taken with a plan of each sort, which `place` tells apart.
const OF_EACH_PLAN: [usize; 6] = [
    18, // too wide for whole works, not selected
    18, // the same, selected
    7,  // no quotient, and no dense work
    9,  // no quotient, some dense work
    44, // a quotient, not selected
    44, // the same, selected
];
/// 01's refusals, 1 to 20, and 02's 25.
const REFUSALS: usize = 21;
/// How many random programs under ceilings are taken that are refused 14.
const TOO_LARGE_UNDER_CEILINGS: usize = 3;
/// How many are taken with a plan of each sort.
const PLANS_UNDER_CEILINGS: [usize; 6] = [1, 1, 0, 0, 1, 1];
const SEED: u64 = 1;
/// The longest file that stands whole in the list of files, in bytes.
const MOST_SHOWN: usize = 400;
/// The comment on top of the list of files.
const LIST_HEAD: &str = "\
# The files of the fixed vectors in crates/replay/stdin, which hold the published Rust's answers,
# under ceilings below 62 the oracle's reading of them; tests/vectors/make writes this list. A line
# for each vector, in their order: 'refused' and planning's number, or 'plan', the file's length in
# bytes and its checksum (FNV-1a, 64 bits), and of a short file all bytes, in words of eight.
";

/// A program with everything that a call has to leave behind.
type Vector = (Program, Expected);

/// One vector's words.
fn words_of(program: &Program, expected: &Expected) -> Vec<u64> {
    let least = least_lengths((program.words.len() / RECORD_WORDS) as u64);
    let mut words = vec![program.initial_k, program.max_k, program.nexpvals];
    words.extend([program.ceiling, program.words.len() as u64]);
    words.extend(program.lengths.unwrap_or(least));
    words.extend(&program.words);
    words.push(expected.number);
    words.extend(expected.result);
    for output in &expected.outputs {
        words.push(output.len() as u64);
        words.extend(output);
    }
    words
}

/// Whether a random program is short enough.
fn is_short(program: &Program, expected: &Expected) -> bool {
    program.words.len() <= MOST_RECORDS * RECORD_WORDS
        && expected.outputs.iter().map(Vec::len).sum::<usize>() <= MOST_USED
}

/// What is to be taken at the ceiling 62: refusals in the order of their numbers, then plans by
/// sort.
fn wanted_at_62() -> Vec<usize> {
    [&[OF_EACH_REFUSAL; REFUSALS][..], &OF_EACH_PLAN].concat()
}

/// What is to be taken under ceilings, in the same order.
fn wanted_under_ceilings() -> Vec<usize> {
    let mut wanted = [&[0; REFUSALS][..], &PLANS_UNDER_CEILINGS].concat();
    wanted[14 - 1] = TOO_LARGE_UNDER_CEILINGS;
    wanted
}

/// The place of an answer among what is wanted: 25 stands behind 20, and refusal 24 has none.
fn place(expected: &Expected) -> Option<usize> {
    let [_, selected, .., mark, dense, _, _, _] = expected.result;
    match (expected.number as usize, mark) {
        (0, 0) => Some(REFUSALS + selected as usize),
        (0, 1) => Some(REFUSALS + 2 + usize::from(dense > 0)),
        (0, _) => Some(REFUSALS + 4 + selected as usize),
        (number @ 1..=20, _) => Some(number - 1),
        (25, _) => Some(REFUSALS - 1),
        _ => None,
    }
}

/// The vector of a program.
fn vector(program: Program) -> Result<Vector, String> {
    match Expected::of(&answer(&program)?)? {
        Some(expected) => Ok((program, expected)),
        None => Err(format!("a vector is incomparable: {}", program.text())),
    }
}

/// Random programs with their answers, until all that is wanted is there.
fn random_vectors(draw: Draw, mut wanted: Vec<usize>) -> Result<Vec<Vector>, String> {
    let mut vectors = Vec::new();
    for index in 0.. {
        if wanted.iter().all(|&count| count == 0) {
            break;
        }
        let (program, expected) = vector(draw(SEED, index)?)?;
        if let Some(place) = place(&expected)
            && is_short(&program, &expected)
            && wanted[place] > 0
        {
            wanted[place] -= 1;
            vectors.push((program, expected));
        }
    }
    Ok(vectors)
}

/// The vectors of stored programs.
fn stored_vectors(programs: Vec<Program>) -> Result<Vec<Vector>, String> {
    programs.into_iter().map(vector).collect()
}

/// All vectors: 01's circuits and the further ones, then random programs; then the stored
/// programs under ceilings, and random ones.
fn all() -> Result<Vec<Vector>, String> {
    let parts = [
        stored_vectors(stored::circuits()?)?,
        random_vectors(generator::AT_62, wanted_at_62())?,
        stored_vectors(stored::under_ceilings()?)?,
        random_vectors(generator::UNDER_CEILINGS, wanted_under_ceilings())?,
    ];
    Ok(parts.into_iter().flatten().collect())
}

/// The whole list of words.
pub fn words() -> Result<Vec<u64>, String> {
    let vectors = all()?;
    let words = vectors
        .iter()
        .flat_map(|(program, expected)| words_of(program, expected));
    Ok(std::iter::once(vectors.len() as u64).chain(words).collect())
}

/// The line of a vector in the list of files.
fn file_line(expected: &Expected) -> String {
    let Some(bytes) = stored_file::of(expected) else {
        return format!("refused {}\n", expected.number);
    };
    let mut line = format!("plan {} {:016x}", bytes.len(), checksum(&bytes));
    if bytes.len() <= MOST_SHOWN {
        for word in bytes.chunks(8) {
            line.push(' ');
            line.extend(word.iter().map(|byte| format!("{byte:02x}")));
        }
    }
    line + "\n"
}

/// The list of the vectors' files.
pub fn files() -> Result<String, String> {
    let vectors = all()?;
    let lines = vectors.iter().map(|(_, expected)| file_line(expected));
    Ok(LIST_HEAD.to_owned() + &lines.collect::<String>())
}
