//! Puts random finite angles of every size through the library with Rust's own sine and cosine:
//! none of them may be refused. Prints how many there were, and the smallest and the largest sum
//! of the two squares.
//!
//!     angles [SEED [COUNT]]
//!
//! Exit status: 0 all pass, 1 a pair is refused, 2 a malformed option.

use std::f64::consts::FRAC_PI_4;
use std::process::ExitCode;
use std::sync::atomic::{AtomicU64, Ordering};

use midvokt::{Buffers, Head, LARGEST_CEILING, Lengths, MOST_RECORDS, plan_into};
use midvokt_reference::generator::{Numbers, rotation_words};
use midvokt_reference::machine::on_all_processors;

/// All records are of one coordinate.
const HEAD: Head = Head {
    initial_k: 1,
    max_k: 8,
    nexpvals: 0,
    ceiling: LARGEST_CEILING,
};

/// The smallest and the largest sum.
type Range = (f64, f64);

/// A finite angle: any float, an ordinary one, one of some size, or one beside a multiple of
/// pi / 4.
fn angle(random: &mut Numbers) -> f64 {
    match random.below(10) {
        0..=4 => f64::from_bits(random.word()),
        5 | 6 => random.float(-7.0, 7.0),
        7 => random.float(-1.0, 1.0) * 2f64.powi(random.below(128) as i32 - 64),
        _ => {
            let limit = 1 << random.below(40);
            let beside = (random.below(limit) as f64 * FRAC_PI_4).to_bits();
            f64::from_bits(beside.wrapping_add(random.below(9)).wrapping_sub(4))
        }
    }
}

/// A finite angle, as many as are drawn for it.
fn finite_angle(random: &mut Numbers) -> f64 {
    loop {
        let drawn = angle(random);
        if drawn.is_finite() {
            return drawn;
        }
    }
}

/// The range of no sums.
const NONE: Range = (f64::INFINITY, f64::NEG_INFINITY);

/// The range of the sums of both.
fn both(one: Range, other: Range) -> Range {
    (one.0.min(other.0), one.1.max(other.1))
}

/// The buffers for a whole program of rotations.
fn memory() -> [Vec<u64>; 7] {
    Lengths::for_records(MOST_RECORDS)
        .in_order()
        .map(|length| vec![0; length])
}

/// The sums of one program of rotations, number `index` of a seed, if the library accepts it.
fn program(seed: u64, index: u64, words: &mut [Vec<u64>; 7]) -> Result<Range, String> {
    let mut random = Numbers::new(seed, index);
    let mut records = Vec::with_capacity(8 * MOST_RECORDS);
    let mut range = NONE;
    for _ in 0..MOST_RECORDS {
        let record = rotation_words(finite_angle(&mut random));
        let [sine, cosine] = [record[6], record[7]].map(f64::from_bits);
        let sum = sine * sine + cosine * cosine;
        range = both(range, (sum, sum));
        records.extend(record);
    }
    let mut buffers = Buffers::from(words.each_mut().map(Vec::as_mut_slice));
    match plan_into(&HEAD, &records, &mut buffers) {
        Ok(_) => Ok(range),
        Err(refusal) => Err(format!(
            "{refusal}: {:x?}",
            &records[8 * refusal.index..8 * refusal.index + 8]
        )),
    }
}

/// Programs until none is left.
fn work(seed: u64, programs: u64, next: &AtomicU64) -> Result<Range, String> {
    let mut words = memory();
    let mut range = NONE;
    loop {
        let index = next.fetch_add(1, Ordering::Relaxed);
        if index >= programs {
            return Ok(range);
        }
        range = both(range, program(seed, index, &mut words)?);
    }
}

/// All programs, on as many threads as the machine has processors.
fn all(seed: u64, programs: u64) -> Result<Range, String> {
    let next = AtomicU64::new(0);
    let found = on_all_processors(|| work(seed, programs, &next))?;
    Ok(found.into_iter().fold(NONE, both))
}

/// A float with how far it is from 1, in floats, and its bits.
fn told(sum: f64) -> String {
    let steps = sum.to_bits() as i64 - 1f64.to_bits() as i64;
    format!(
        "{sum:?}, {steps:+} floats from 1, bits {:#018x}",
        sum.to_bits()
    )
}

fn main() -> ExitCode {
    let options: Result<Vec<u64>, _> = std::env::args().skip(1).map(|word| word.parse()).collect();
    let (seed, count) = match options.as_deref() {
        Ok([]) => (1, 5_000_000),
        Ok([seed]) => (*seed, 5_000_000),
        Ok([seed, count]) => (*seed, *count),
        _ => {
            eprintln!("angles: the options are SEED and COUNT");
            return ExitCode::from(2);
        }
    };
    let programs = count.div_ceil(MOST_RECORDS as u64);
    match all(seed, programs) {
        Ok((smallest, largest)) => {
            println!("angles {}, all pass", programs * MOST_RECORDS as u64);
            println!("smallest sum {}", told(smallest));
            println!("largest sum {}", told(largest));
            ExitCode::SUCCESS
        }
        Err(refused) => {
            println!("{refused}");
            ExitCode::from(1)
        }
    }
}
