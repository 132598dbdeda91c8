//! The refusals that are the documents' own and not the Rust's: 02's 24, for a ceiling that is
//! none, then 01's 1 to 10, in 01's order, with 02's 25 behind 8.

use crate::input::{LARGEST_CEILING, Program, RECORD_WORDS, Record};

/// The number for why planning stops, and the record (0 for head and buffers).
#[derive(Clone, Copy)]
pub struct Refusal {
    pub number: u64,
    pub index: usize,
}

pub const MOST_RECORD_WORDS: usize = 8192;
pub const MOST_COORDINATES: u64 = 512;
pub const MOST_WIDTH: u64 = 62;

/// A refusal of the head or the buffers.
fn without_record(number: u64) -> Option<Refusal> {
    Some(Refusal { number, index: 0 })
}

/// Refusals 24 and 1.
pub fn of_head(program: &Program) -> Option<Refusal> {
    if !(1..=LARGEST_CEILING).contains(&program.ceiling) {
        without_record(24)
    } else if program.max_k >= program.ceiling {
        without_record(1)
    } else {
        None
    }
}

/// Whether planning accepts right after refusal 1, everything else unjudged.
pub fn is_left_unread(program: &Program) -> bool {
    program.max_k < 8 || program.nexpvals != 0
}

/// Refusals 2 to 10 and 25. The record pass goes over all records before the walk begins.
pub fn before_the_walk(program: &Program) -> Option<Refusal> {
    if !program.words.len().is_multiple_of(RECORD_WORDS) || program.words.len() > MOST_RECORD_WORDS
    {
        return without_record(2);
    }
    if has_short_buffer(program) {
        return without_record(3);
    }
    if program.initial_k > MOST_COORDINATES {
        return without_record(4);
    }
    of_record_pass(program.initial_k, &program.records())
}

/// The least lengths of the seven buffers, for n records.
pub fn least_lengths(n: u64) -> [u64; 7] {
    [2 * n, n + 512, 512, 21 * n, n, 19 * n, 1024]
}

/// Whether refusal 3 applies.
fn has_short_buffer(program: &Program) -> bool {
    let least = least_lengths((program.words.len() / RECORD_WORDS) as u64);
    let lengths = program.lengths.unwrap_or(least);
    lengths
        .iter()
        .zip(least)
        .any(|(&length, least)| length < least)
}

/// The first record that the pass refuses.
fn of_record_pass(initial_k: u64, records: &[Record]) -> Option<Refusal> {
    let mut coordinates = initial_k;
    for (index, record) in records.iter().enumerate() {
        if let Some(number) = of_record(record, coordinates) {
            return Some(Refusal { number, index });
        }
        coordinates += u64::from(record.is_promotion());
    }
    None
}

/// Refusals 5 to 10 and 25 for one record that meets this many coordinates.
fn of_record(record: &Record, coordinates: u64) -> Option<u64> {
    match record.kind {
        0 => of_action(record)
            .or_else(|| of_floats(record))
            .or_else(|| of_squares(record)),
        1 if coordinates >= MOST_COORDINATES => Some(10),
        4 => of_measurement(record),
        1 | 2 | 3 | 5 => None,
        _ => Some(5),
    }
}

/// The flag comes before the width; flag 1 leaves the rest unread.
fn of_measurement(record: &Record) -> Option<u64> {
    match record.flag() {
        0 => of_action(record),
        1 => None,
        _ => Some(9),
    }
}

/// Refusals 6 and 7.
fn of_action(record: &Record) -> Option<u64> {
    if record.width > MOST_WIDTH {
        Some(6)
    } else if record.phase > 3 {
        Some(7)
    } else {
        None
    }
}

/// Refusal 8.
fn of_floats(record: &Record) -> Option<u64> {
    let is_in_range = |word: u64| (-1.0..=1.0).contains(&f64::from_bits(word));
    let [_, sine, cosine] = record.last;
    if record.angle().is_finite() && is_in_range(sine) && is_in_range(cosine) {
        None
    } else {
        Some(8)
    }
}

/// Whether a sine and a cosine can be those of one angle, by their squares: 02, CR 5.
pub fn sums_to_one(sine: f64, cosine: f64) -> bool {
    let slack = 2f64.powi(-50);
    (1.0 - slack..=1.0 + slack).contains(&(sine * sine + cosine * cosine))
}

/// Refusal 25.
fn of_squares(record: &Record) -> Option<u64> {
    let [_, sine, cosine] = record.last.map(f64::from_bits);
    (!sums_to_one(sine, cosine)).then_some(25)
}
