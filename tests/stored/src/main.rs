//! Tests storing and loading of plans through the C functions of the static library: the files of
//! the fixed vectors, hostile files, and files damaged at random.
//!
//!     midvokt-stored VECTORS FILES [SEED [COUNT]]
//!
//! Every call is compared word for word and byte for byte with what it has to leave: storing with
//! the published Rust's answers, loading with a second reading of the file. Files lie before and
//! behind pages that cannot be read, outputs among words that must stay.
//!
//! Exit status: 0, or 1 at the first difference, or 2 for a malformed option or list.

mod damage;
mod draft;
mod hostile;
mod library;
mod memory;
mod note;
mod random;
mod reading;
mod trial;
mod vectors;

use std::process::ExitCode;

use hostile::Base;
use trial::Trial;
use vectors::{Listed, Vector};

/// Whether a plan with so many words of each of six outputs is wanted.
type Wanted = fn([usize; 6]) -> bool;

/// The plans whose files are made hostile and damaged: what they are, and how the first vector
/// of the kind is known. Counts stand in the order steps, merges, sizes, rotations, promotions,
/// measurements.
const BASES: [(&str, Wanted); 10] = [
    ("a plan without a row", |counts| counts == [0; 6]),
    ("a plan of steps alone", |[steps, others @ ..]| {
        steps > 0 && others == [0; 5]
    }),
    ("a plan without records", |[steps, _, sizes, ..]| {
        steps == 0 && sizes > 0
    }),
    ("a rotation", |[.., r, p, m]| [r, p, m] == [21, 0, 0]),
    ("two rotations", |[.., r, p, m]| [r, p, m] == [42, 0, 0]),
    ("a measurement", |[.., r, p, m]| [r, p, m] == [0, 0, 19]),
    ("a rotation and a measurement", |[.., r, p, m]| {
        [r, p, m] == [21, 0, 19]
    }),
    ("a promotion", |[.., r, p, m]| [r, p, m] == [0, 1, 0]),
    ("a plan with all sections", |counts| {
        counts.iter().all(|&count| count > 0) && counts[0] <= 20
    }),
    ("a plan with many promotions", |[.., r, p, m]| {
        r >= 42 && (10..20).contains(&p) && m >= 38
    }),
];

/// What the run is given.
struct Options {
    vectors: Vec<Vector>,
    files: Vec<Listed>,
    seed: u64,
    count: u64,
}

/// A number among the options.
fn number(text: &str) -> Result<u64, String> {
    text.parse()
        .map_err(|error| format!("{text:?} is not a number: {error}"))
}

/// The options, where they are well formed.
fn options() -> Result<Options, String> {
    let words: Vec<String> = std::env::args().skip(1).collect();
    let (vectors, files, rest) = match &words[..] {
        [vectors, files, rest @ ..] if rest.len() <= 2 => (vectors, files, rest),
        _ => return Err("usage: midvokt-stored VECTORS FILES [SEED [COUNT]]".to_owned()),
    };
    let at = |path: &str, error: std::io::Error| format!("{path}: {error}");
    let bytes = std::fs::read(vectors).map_err(|error| at(vectors, error))?;
    let text = std::fs::read_to_string(files).map_err(|error| at(files, error))?;
    Ok(Options {
        vectors: vectors::parse(&bytes)?,
        files: vectors::parse_files(&text)?,
        seed: rest.first().map_or(Ok(1), |word| number(word))?,
        count: rest.get(1).map_or(Ok(damage::COUNT), |word| number(word))?,
    })
}

/// The first plan of a kind.
fn base(vectors: &[Vector], (what, is_wanted): &(&str, Wanted)) -> Result<Base, String> {
    let mut plans = vectors.iter().enumerate();
    let found = plans.find(|(_, vector)| vector.number == 0 && is_wanted(vector.counts()));
    match found {
        Some((place, vector)) => Ok(Base {
            name: format!("{what} (vector {place})"),
            sections: vector.sections(),
        }),
        None => Err(format!("no vector is {what}")),
    }
}

/// All tests, one after the other.
fn run(options: &Options) -> Result<(), String> {
    let mut trial = Trial::new()?;
    let bases = BASES.iter().map(|kind| base(&options.vectors, kind));
    let bases = bases.collect::<Result<Vec<Base>, String>>()?;
    println!(
        "{}",
        vectors::check(&mut trial, &options.vectors, &options.files)?
    );
    println!("{}", hostile::check(&mut trial, &bases)?);
    println!(
        "{}",
        damage::check(&mut trial, &bases, options.seed, options.count)?
    );
    println!(
        "stores compared {}, loads compared {}",
        trial.stores, trial.loads
    );
    Ok(())
}

fn main() -> ExitCode {
    note::watch();
    let options = match options() {
        Ok(options) => options,
        Err(message) => {
            eprintln!("stored: {message}");
            return ExitCode::from(2);
        }
    };
    match run(&options) {
        Ok(()) => ExitCode::SUCCESS,
        Err(message) => {
            eprintln!("stored: {message}");
            ExitCode::FAILURE
        }
    }
}
