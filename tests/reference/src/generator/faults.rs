//! Ways of going wrong, in the order of 01's refusals.

use super::draft::{Draft, MEASUREMENT, ROTATION, floats, low_bits};
use super::pairs;
use crate::refusals::{MOST_RECORD_WORDS, MOST_WIDTH, least_lengths};

/// Something that makes a draft refused, as it is likely but not sure to do.
pub type Fault = fn(&mut Draft);

/// What goes wrong in the head and the buffers.
pub const HEADS: [Fault; 4] = [max_k, words, lengths, initial_k];

/// What goes wrong in one record.
pub const RECORDS: [Fault; 17] = [
    kind,
    width_bound,
    phase,
    angle,
    sine_or_cosine,
    squares,
    squares_within,
    flag,
    rotation_width,
    measurement_width,
    empty,
    pivot,
    pivot_component,
    pivot_x,
    pivot_z,
    eigenvalues,
    identity,
];

/// Refusal 1.
fn max_k(draft: &mut Draft) {
    draft.some(0, 3);
    draft.max_k = Some(draft.above(61));
    draft.nexpvals = draft.random.below(2);
}

/// Refusal 2: words left over, or too many.
fn words(draft: &mut Draft) {
    draft.some(0, 5);
    if draft.random.chance(5) {
        while draft.words.len() <= MOST_RECORD_WORDS {
            draft.classical();
        }
        return;
    }
    for _ in 0..draft.random.between(1, 7) {
        let word = draft.wild();
        draft.words.push(word);
    }
}

/// Refusal 3: one buffer a word short, or of no length.
fn lengths(draft: &mut Draft) {
    draft.some(0, 5);
    let mut lengths = draft.long_lengths();
    let least = least_lengths(draft.count() as u64);
    let places: Vec<usize> = (0..7).filter(|&place| least[place] > 0).collect();
    let place = draft.random.pick(&places);
    lengths[place] = draft.random.pick(&[least[place] - 1, 0]);
    draft.lengths = Some(lengths);
}

/// Refusal 4.
fn initial_k(draft: &mut Draft) {
    draft.some(0, 5);
    draft.initial_k = draft.above(512);
}

/// Refusal 5.
pub fn kind(draft: &mut Draft) {
    let kind = draft.above(5);
    draft.add_unread(kind);
}

/// A rotation or a measurement with these words, flag 0.
fn either(draft: &mut Draft, width: u64, phase: u64) {
    let kind = draft.random.pick(&[ROTATION, MEASUREMENT]);
    let (x, z) = (draft.wild(), draft.wild());
    let last = match kind {
        ROTATION => floats(draft.angle()),
        _ => [draft.wild(), 0, draft.wild()],
    };
    draft.add([kind, width, x, z, phase], last);
}

/// Refusal 6, perhaps with 7.
fn width_bound(draft: &mut Draft) {
    let (fitting, wild) = (draft.phase(), draft.wild());
    let phase = draft.random.pick(&[fitting, wild]);
    let width = draft.above(62);
    either(draft, width, phase);
}

/// Refusal 7.
fn phase(draft: &mut Draft) {
    let phase = draft.above(3);
    either(draft, draft.width.min(MOST_WIDTH), phase);
}

/// A rotation with these last words.
fn turned(draft: &mut Draft, last: [u64; 3]) {
    let (x, phase) = (draft.mask(), draft.phase());
    draft.add([ROTATION, draft.width.min(MOST_WIDTH), x, 0, phase], last);
}

/// Refusal 8 for the angle.
fn angle(draft: &mut Draft) {
    let angle = draft
        .random
        .pick(&[f64::INFINITY, -f64::INFINITY, f64::NAN, -f64::NAN]);
    turned(draft, [angle, 0.0, 1.0].map(f64::to_bits));
}

/// Refusal 8 for the sine or the cosine.
fn sine_or_cosine(draft: &mut Draft) {
    let mut last = floats(draft.angle());
    let step_past_one = 1.0f64.next_up();
    let value = draft
        .random
        .pick(&[step_past_one, -step_past_one, 2.0, f64::NAN, -f64::INFINITY]);
    last[draft.random.between(1, 2) as usize] = value.to_bits();
    turned(draft, last);
}

/// Refusal 25: no pair of any angle, or one that is just none.
fn squares(draft: &mut Draft) {
    let own = floats(draft.angle());
    let outward = draft.random.chance(50);
    let [_, beyond] = pairs::at_a_bound(draft.angle(), outward);
    let one = 1.0f64.to_bits();
    let any = [(); 2].map(|()| draft.random.float(-1.0, 1.0).to_bits());
    let choices = [
        [own[0], 0, 0],
        [own[0], one, one],
        [own[0], any[0], any[1]],
        beyond,
        beyond,
    ];
    let last = draft.random.pick(&choices);
    turned(draft, last);
}

/// A pair at a bound of 25, which passes, and then a record that does not.
fn squares_within(draft: &mut Draft) {
    let outward = draft.random.chance(50);
    let [within, _] = pairs::at_a_bound(draft.angle(), outward);
    turned(draft, within);
    draft.some(0, 2);
    draft.random.pick(&[kind, flag, squares])(draft);
}

/// Refusal 9.
fn flag(draft: &mut Draft) {
    draft.add_unread(MEASUREMENT);
    let place = draft.words.len() - 2;
    draft.words[place] = draft.above(1);
}

/// More promotions than there are coordinates left, among other records.
pub fn promotion(draft: &mut Draft) {
    while draft.made < 512 {
        draft.record([0, 6, 0, 1]);
    }
    draft.promotion();
}

/// A width that is not the active one, mostly one beside it.
fn other_width(draft: &mut Draft) -> u64 {
    let any = (draft.width + draft.random.between(1, MOST_WIDTH)) % (MOST_WIDTH + 1);
    let near = if draft.random.chance(50) {
        draft.width.wrapping_sub(1)
    } else {
        draft.width + 1
    };
    match draft.random.chance(30) {
        false if near <= MOST_WIDTH => near,
        _ if any != draft.width => any,
        _ => MOST_WIDTH,
    }
}

/// Refusal 11.
fn rotation_width(draft: &mut Draft) {
    let width = other_width(draft);
    let (x, z, phase) = (draft.mask(), draft.mask(), draft.phase());
    let angle = draft.angle();
    draft.add([ROTATION, width, x, z, phase], floats(angle));
}

/// Refusal 12.
fn measurement_width(draft: &mut Draft) {
    let width = other_width(draft);
    let (x, z, phase) = (draft.mask(), draft.mask(), draft.phase());
    let unread = draft.wild();
    draft.add([MEASUREMENT, width, x, z, phase], [0, 0, unread]);
}

/// Measures all out, and then once more.
fn empty(draft: &mut Draft) {
    while draft.width > 0 && draft.width <= MOST_WIDTH {
        draft.measurement();
    }
    let (x, z, phase, pivot) = (draft.wild(), draft.wild(), draft.phase(), draft.wild());
    draft.add([MEASUREMENT, 0, x, z, phase], [pivot, 0, 0]);
}

/// Joins all of 62, at once or on top of earlier joins.
pub fn join(draft: &mut Draft) {
    draft.room(62);
    let joined = low_bits(62);
    let some = joined & draft.random.word();
    let x = draft.random.pick(&[joined, some, 0]);
    let z = joined & !x;
    if draft.random.chance(50) {
        draft.rotate(x, z);
        return;
    }
    let (phase, wild) = (draft.phase(), draft.wild());
    let pivot = draft.random.pick(&[0, 61, wild]);
    draft.measure(x, z, phase, pivot);
}

/// Refusal 15.
fn pivot(draft: &mut Draft) {
    draft.room(1);
    let pivot = draft.above(draft.width - 1);
    let (x, z, phase) = (draft.mask(), draft.mask(), draft.phase());
    draft.measure(x, z, phase, pivot);
}

/// A support without the coordinate at the pivot, which is new and alone.
fn pivot_component(draft: &mut Draft) {
    draft.room(1);
    let (x, z) = (draft.mask(), draft.mask());
    draft.promotion();
    let phase = draft.phase();
    draft.measure(x, z, phase, draft.width - 1);
}

/// Two different active positions, as bits.
fn two_positions(draft: &mut Draft) -> (u64, u64) {
    draft.room(2);
    let all = low_bits(draft.width.min(MOST_WIDTH));
    let pivot = draft.random.bit_of(all);
    (pivot, draft.random.bit_of(all & !pivot))
}

/// Refusal 17: an x bit, but none at the pivot.
fn pivot_x(draft: &mut Draft) {
    let (pivot, other) = two_positions(draft);
    let x = (draft.mask() | other) & !pivot;
    let (z, phase) = (draft.mask() | pivot, draft.phase());
    draft.measure(x, z, phase, u64::from(pivot.trailing_zeros()));
}

/// The pivot's coordinate is joined to the support's but not in it.
fn pivot_z(draft: &mut Draft) {
    let (pivot, other) = two_positions(draft);
    let z = draft.mask();
    draft.rotate(pivot | other, z);
    let z = (draft.mask() | other) & !pivot;
    let phase = draft.phase();
    draft.measure(0, z, phase, u64::from(pivot.trailing_zeros()));
}

/// Refusal 19.
fn eigenvalues(draft: &mut Draft) {
    draft.room(1);
    let pivot = draft.random.below(draft.width.min(MOST_WIDTH));
    let (x, z) = (draft.stray(), draft.mask() | 1 << pivot);
    let phase = draft.random.pick(&[1, 3]);
    draft.measure(x, z, phase, pivot);
}

/// Refusal 20.
fn identity(draft: &mut Draft) {
    draft.room(1);
    let (x, z, phase) = (draft.stray(), draft.stray(), draft.phase());
    draft.measure(x, z, phase, 0);
}
