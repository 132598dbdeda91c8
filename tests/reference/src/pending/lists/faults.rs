//! Calls with several faults at once, which show the order of 26, the shortcut for expectation
//! values, 27 and 28.

use super::{LISTED, Words, accepted, damage, draft, insert};
use crate::generator::Numbers;
use crate::pending::Call;
use crate::pending::form::{MOST_ANGLE, MOST_NUMBER, MOST_PREFIXES, MOST_WIDTH};

/// How many calls of this sort are listed: so many of each choice of faults.
pub const LISTED_COUNT: u64 = 16 * 200;

/// Some bits that the width has, where it is one.
fn mask(call: &Call, random: &mut Numbers) -> u64 {
    random.word() >> (MOST_WIDTH - call.width.clamp(1, MOST_WIDTH))
}

/// A measurement with an expectation value, 0 too, at any place.
pub fn insert_expectation(call: &mut Call, random: &mut Numbers) {
    let string = [mask(call, random), mask(call, random), random.below(4)];
    let any = random.below(100);
    let value = random.pick(&[0, 0, any, MOST_NUMBER]);
    let sign = draft::sign(random.below(2), &[]);
    let options = [draft::NONE, draft::NONE, [1, value]];
    insert(call, random, &draft::measurement(string, &sign, options));
}

/// A rotation whose string is not Hermitian.
fn not_hermitian(call: &Call, random: &mut Numbers) -> Words {
    let [x, z] = [mask(call, random), mask(call, random)];
    let phase = (draft::hermitian(x, z, random.chance(50)) + 1) % 4;
    let angle = random.pick(&[0.0, 0.5, -MOST_ANGLE]);
    draft::rotation(angle, [x, z, phase], &draft::sign(random.below(2), &[3]))
}

/// One such rotation or more, at any places; twice the same one half of the time.
fn insert_not_hermitian(call: &mut Call, random: &mut Numbers) {
    let operation = not_hermitian(call, random);
    insert(call, random, &operation);
    if random.chance(50) {
        insert(call, random, &operation);
    }
    if random.chance(20) {
        let other = not_hermitian(call, random);
        insert(call, random, &other);
    }
}

/// A prefix beyond the list, at any place among the others.
fn insert_prefix(call: &mut Call, random: &mut Numbers) {
    let size = call.count() as u64;
    let any = random.between(size + 1, u64::MAX);
    let inside = random.between(0, size);
    let values = [size + 1, size + 1, 1 << 32 | inside, 1 << 63, u64::MAX, any];
    if call.prefixes.len() == MOST_PREFIXES {
        call.prefixes.pop();
    }
    let place = random.between(0, call.prefixes.len() as u64) as usize;
    call.prefixes.insert(place, random.pick(&values));
}

/// A call with a fault for each bit of a number: 28, 27, an expectation value, 26.
fn with_faults(random: &mut Numbers, bits: u64) -> Call {
    let [is_odd, is_far, is_probe, has_no_form] = [1, 2, 4, 8].map(|bit| bits & bit != 0);
    let mut call = match has_no_form {
        false => accepted(random),
        true => damage::one_fault(random),
    };
    if is_odd {
        insert_not_hermitian(&mut call, random);
    }
    if is_probe {
        insert_expectation(&mut call, random);
    }
    if is_far {
        insert_prefix(&mut call, random);
    }
    call
}

/// A call of the list, by number.
pub fn listed(number: u64) -> Call {
    let mut random = Numbers::new(LISTED + 1, number);
    with_faults(&mut random, number % 16)
}

/// A random one.
pub fn several(random: &mut Numbers) -> Call {
    let bits = random.below(16);
    with_faults(random, bits)
}
