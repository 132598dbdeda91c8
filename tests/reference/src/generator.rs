//! Programs for the oracle and for the comparison: random ones, the same for the same seed,
//! and complete lists over small alphabets; at the ceiling 62, and under others.
//!
//! The random ones reach every refusal of docs/01-scope.md, 1 to 20, and 02's 25, and plans with
//! all six kinds of record, selected and not, of each mark of the whole works. Rotations carry
//! Rust's own sines and cosines, but for those that are refused for theirs, and those at a bound of
//! 25, which stand in front of a record that the record pass refuses.

mod around;
mod ceilings;
mod damage;
mod draft;
mod edits;
mod faults;
mod pairs;
mod probes;
mod random;
mod shapes;
mod small;

use draft::Draft;
use faults::{HEADS, RECORDS};
use random::Random;

use crate::input::Program;

pub use around::around_ceilings;
pub use probes::probes;
pub use random::Random as Numbers;
pub use shapes::{check_circuit, steady};
pub use small::small_programs;

/// A rotation about X where one coordinate is active, with Rust's own sine and cosine.
pub fn rotation_words(angle: f64) -> [u64; 8] {
    let [angle, sine, cosine] = draft::floats(angle);
    [draft::ROTATION, 1, 1, 0, 0, angle, sine, cosine]
}

/// Makes the random program of a seed and a number.
pub type Draw = fn(u64, u64) -> Result<Program, String>;

/// At the ceiling 62.
pub const AT_62: Draw = |seed, index| Ok(program(seed, index));

/// Under a ceiling below 62, or one outside 1 to 62.
pub const UNDER_CEILINGS: Draw = ceilings::program;

/// A way to make a random program.
type Sort = fn(Random) -> Program;

/// How often each sort of program is made.
const SORTS: [(u64, Sort); 8] = [
    (46, shapes::plan),
    (26, spoiled),
    (4, unread),
    (6, spoiled_head),
    (4, spoiled_size),
    (8, edited),
    (14, damage::damaged),
    (1, damage::damaged_long),
];

/// Program number `index` of a seed, whichever others are made.
pub fn program(seed: u64, index: u64) -> Program {
    let mut random = Random::new(seed, index);
    let weights = SORTS.map(|(weight, _)| weight);
    let (_, sort) = SORTS[random.weighted(&weights)];
    sort(random)
}

/// Accepted with everything after max_k and nexpvals unjudged.
fn unread(random: Random) -> Program {
    let mut draft = Draft::within(random, 0, 9);
    draft.some(0, 5);
    match draft.random.below(5) {
        0 => {}
        1 => faults::kind(&mut draft),
        place => HEADS[place as usize - 1](&mut draft),
    }
    let max_k = draft.random.below(62);
    let nexpvals = if max_k >= 8 {
        draft.above(0)
    } else {
        let wild = draft.wild();
        draft.random.pick(&[0, wild])
    };
    (draft.max_k, draft.nexpvals) = (Some(max_k), nexpvals);
    draft.finish()
}

/// Records that fit, one or two that do not, and more that would have fitted.
fn spoiled(mut random: Random) -> Program {
    let some = random.between(0, 40);
    let initial_k = random.pick(&[0, 1, 2, 3, 5, some]);
    let mut draft = Draft::new(random, initial_k);
    draft.some(0, 12);
    draft.random.pick(&RECORDS)(&mut draft);
    if draft.random.chance(30) {
        draft.some(0, 4);
        draft.random.pick(&RECORDS)(&mut draft);
    }
    draft.some(0, 6);
    draft.finish()
}

/// A head or buffers that do not fit, in one way or two.
fn spoiled_head(random: Random) -> Program {
    let mut draft = Draft::within(random, 0, 9);
    draft.some(0, 3);
    draft.random.pick(&HEADS)(&mut draft);
    if draft.random.chance(30) {
        draft.random.pick(&HEADS)(&mut draft);
    }
    draft.finish()
}

/// What only large programs can do wrong.
fn spoiled_size(mut random: Random) -> Program {
    if random.chance(50) {
        let mut draft = Draft::within(random, 480, 512);
        faults::promotion(&mut draft);
        return draft.finish();
    }
    let mut draft = Draft::within(random, 50, 62);
    for _ in 0..draft.random.between(0, 6) {
        draft.record([3, 0, 1, 1]);
    }
    faults::join(&mut draft);
    draft.some(0, 4);
    draft.finish()
}

/// Records that fit and one that is wrong in two ways at once.
fn edited(random: Random) -> Program {
    let mut draft = Draft::within(random, 0, 6);
    draft.some(0, 8);
    let is_measurement = draft.random.chance(70);
    let edits = edits::for_kind(is_measurement);
    let chosen = [draft.random.pick(edits), draft.random.pick(edits)];
    let record = edits::edited(is_measurement, &chosen, draft.width);
    draft.words.extend(record);
    draft.some(0, 3);
    draft.finish()
}
