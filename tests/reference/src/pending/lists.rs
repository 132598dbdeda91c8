//! Calls to try the optimizer with: known small lists, complete lists over small alphabets, one of every size, one
//! for each thing that can be wrong with the form, several faults at once, and random ones, the
//! same for the same seed and number.

mod circuits;
mod damage;
mod draft;
mod faults;
pub mod long;
mod prefixes;
mod shape;
mod small;

use super::Call;
use super::form::MOST_OPERATIONS;
use crate::generator::Numbers;
use shape::Shape;

pub use draft::{Words, classical, hermitian, measurement, rotation, sign};

/// Seeds of the listed calls, which no random call has to share.
const LISTED: u64 = 0x6c69_7374;

/// So many calls of a name, made by number.
pub struct Part {
    pub name: &'static str,
    pub count: u64,
    pub make: fn(u64) -> Call,
}

/// The calls that every run makes.
pub fn parts() -> Vec<Part> {
    let part = |name, count, make| Part { name, count, make };
    vec![
        part("circuits", circuits::count(), circuits::listed),
        part("one fault", damage::listed_count(), damage::listed),
        part("several faults", faults::LISTED_COUNT, faults::listed),
        part("short lists", small::short_count(), small::short_call),
        part(
            "longer lists of fewer operations",
            small::long_count(),
            small::long_call,
        ),
        part("every size", MOST_OPERATIONS as u64 + 1, of_size),
        part("long lists", long::count(), long::listed),
    ]
}

/// A list of just so many operations.
fn of_size(size: u64) -> Call {
    let mut random = Numbers::new(LISTED, size);
    let shape = Shape::new(&mut random);
    plain(&shape, &mut random, size)
}

/// The known small lists.
pub fn circuits() -> impl Iterator<Item = Call> {
    (0..circuits::count()).map(circuits::listed)
}

/// The listed calls with one fault.
pub fn of_one_fault() -> impl Iterator<Item = Call> {
    (0..damage::listed_count()).map(damage::listed)
}

/// A way to make a random call.
type Sort = fn(&mut Numbers) -> Call;

/// How often each sort of call is made.
const SORTS: [(u64, Sort); 6] = [
    (76, accepted),
    (4, with_expectation),
    (8, damage::anywhere),
    (6, damage::one_fault),
    (4, faults::several),
    (2, large),
];

/// Call number `index` of a seed, whichever others are made.
pub fn call(seed: u64, index: u64) -> Call {
    let mut random = Numbers::new(seed, index);
    let weights = SORTS.map(|(weight, _)| weight);
    let (_, sort) = SORTS[random.weighted(&weights)];
    sort(&mut random)
}

/// How many operations a list has: often few, never very many.
fn size(random: &mut Numbers) -> u64 {
    let most = random.pick(&[3, 6, 12, 12, 24, 60, 160]);
    random.between(0, most)
}

/// A call with so many operations of a shape, and any prefixes of them.
fn plain(shape: &Shape, random: &mut Numbers, size: u64) -> Call {
    Call {
        width: shape.width,
        words: shape.list(random, size).concat(),
        prefixes: prefixes::of(random, size),
        lengths: None,
    }
}

/// A call that is optimized.
fn accepted(random: &mut Numbers) -> Call {
    let shape = Shape::new(random);
    let size = size(random);
    plain(&shape, random, size)
}

/// The same, of any size.
fn large(random: &mut Numbers) -> Call {
    let shape = Shape::new(random);
    let size = random.between(0, MOST_OPERATIONS as u64);
    plain(&shape, random, size)
}

/// A call with one expectation value or more.
fn with_expectation(random: &mut Numbers) -> Call {
    let mut call = accepted(random);
    for _ in 0..random.between(1, 3) {
        faults::insert_expectation(&mut call, random);
    }
    call
}

/// Puts an operation at any place of a call's list.
fn insert(call: &mut Call, random: &mut Numbers, operation: &Words) {
    let place = random.between(0, call.count() as u64) as usize * operation.len();
    call.words.splice(place..place, operation.iter().copied());
}
