//! Fixed vectors: small calls with the published Rust's answers, as one list of words that a later
//! program replays.
//!
//! The list begins with the number of vectors. Each vector is:
//!
//!     the width
//!     the number of list words, then of prefixes
//!     the lengths of list and map, in words
//!     the list words, then the prefixes
//!     the answer's number, 0 for an optimized list
//!     the six words of the result: index, input, output, fused, cancelled, left swaps
//!     twice, list and map: the number of used words, then these; the other words are zero

use super::answer::{Answer, NOT_HERMITIAN, answer};
use super::form::{Wrong, faults};
use super::{Call, lists};

/// The most operations of a list that is taken.
const MOST_OPERATIONS: usize = 8;
const SEED: u64 = 1;
/// How many random lists are taken of each sort, which `place` tells apart.
const OF_EACH: [usize; 5] = [
    3, // refused 27
    3, // refused 28
    3, // given back, or nothing done
    6, // something moved, nothing fused
    9, // something fused
];

/// A call with everything that it has to leave behind.
type Vector = (Call, Answer);

/// One vector's words.
fn words_of((call, answer): &Vector) -> Vec<u64> {
    let [list, map] = call.lent().map(|length| length as u64);
    let counts = [call.words.len() as u64, call.prefixes.len() as u64];
    let mut words = vec![call.width, counts[0], counts[1], list, map];
    words.extend(&call.words);
    words.extend(&call.prefixes);
    words.push(answer.number);
    words.extend(answer.result);
    for used in [&answer.list, &answer.map] {
        words.push(used.len() as u64);
        words.extend(used);
    }
    words
}

/// The vector of a call.
fn vector(call: Call) -> Result<Vector, String> {
    let answer = answer(&call)?;
    Ok((call, answer))
}

/// The first small call with each thing that can be wrong, but for too long a list.
fn of_each_wrong() -> impl Iterator<Item = Call> {
    let mut seen: Vec<Wrong> = Vec::new();
    let small = lists::of_one_fault().filter(|call| call.count() <= MOST_OPERATIONS);
    small.filter(move |call| {
        let wrong = faults(call)[0].wrong;
        let is_new = !seen.contains(&wrong);
        seen.push(wrong);
        is_new
    })
}

/// The place of an answer among what is wanted; 26 has none.
fn place(answer: &Answer) -> Option<usize> {
    let [_, _, _, fused, _, swaps] = answer.result;
    match answer.number {
        0 if fused > 0 => Some(4),
        0 => Some(2 + usize::from(swaps > 0)),
        27 | NOT_HERMITIAN => Some(answer.number as usize - 27),
        _ => None,
    }
}

/// Random lists with their answers, until all that is wanted is there.
fn random_vectors() -> Result<Vec<Vector>, String> {
    let mut wanted = OF_EACH;
    let mut vectors = Vec::new();
    for index in 0.. {
        if wanted == [0; OF_EACH.len()] {
            break;
        }
        let call = lists::call(SEED, index);
        if !(2..=MOST_OPERATIONS).contains(&call.count()) {
            continue;
        }
        let (call, answer) = vector(call)?;
        if let Some(place) = place(&answer)
            && wanted[place] > 0
        {
            wanted[place] -= 1;
            vectors.push((call, answer));
        }
    }
    Ok(vectors)
}

/// The words of these vectors.
fn words_of_all(vectors: &[Vector]) -> Vec<u64> {
    let words = vectors.iter().flat_map(words_of);
    std::iter::once(vectors.len() as u64).chain(words).collect()
}

/// The fixed vectors: the known small lists, one list for each thing that can be wrong, and random
/// ones.
pub fn words() -> Result<Vec<u64>, String> {
    let listed = lists::circuits().chain(of_each_wrong()).map(vector);
    let mut vectors = listed.collect::<Result<Vec<Vector>, String>>()?;
    vectors.extend(random_vectors()?);
    Ok(words_of_all(&vectors))
}

/// So many random calls of a seed in the same form.
pub fn random_words(seed: u64, count: u64) -> Result<Vec<u64>, String> {
    let random = (0..count).map(|index| vector(lists::call(seed, index)));
    Ok(words_of_all(
        &random.collect::<Result<Vec<Vector>, String>>()?,
    ))
}
