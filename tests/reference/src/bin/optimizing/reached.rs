//! What a call can come to, so that a run can show that each occurred.

use midvokt_reference::pending::Call;
use midvokt_reference::pending::answer::{Answer, NO_FORM, NO_PREFIX, NOT_HERMITIAN};
use midvokt_reference::pending::form::{MOST_ANGLE, MOST_OPERATIONS, MOST_PREFIXES, MOST_WIDTH};
use midvokt_reference::pending::operations::ROTATION;

/// A call with its answer, and what the counts below ask of it.
pub struct Seen<'a> {
    pub call: &'a Call,
    pub answer: &'a Answer,
    has_expectation: bool,
    has_far_prefix: bool,
    has_odd_rotation: bool,
}

/// Whether an operation is a rotation whose phase less the number of Y is odd.
fn is_odd_rotation(operation: &[u64]) -> bool {
    let y_count = u64::from((operation[2] & operation[3]).count_ones());
    operation[0] == ROTATION && (operation[4].wrapping_sub(y_count)) & 1 == 1
}

/// The angles of the rotations among these words.
fn angles(words: &[u64]) -> impl Iterator<Item = f64> {
    let operations = words.chunks_exact(32);
    let rotations = operations.filter(|operation| operation[0] == ROTATION);
    rotations.map(|operation| f64::from_bits(operation[1]))
}

impl<'a> Seen<'a> {
    /// What is to be seen of a call with its answer.
    pub fn new(call: &'a Call, answer: &'a Answer) -> Self {
        let size = call.count() as u64;
        Self {
            call,
            answer,
            has_expectation: call.has_expectation(),
            has_far_prefix: call.prefixes.iter().any(|&prefix| prefix > size),
            has_odd_rotation: call.operations().any(is_odd_rotation),
        }
    }

    /// Whether a call is refused with this number.
    fn is_refused(&self, number: u64) -> bool {
        self.answer.number == number
    }

    /// Whether the shortcut gives the list back.
    fn is_shortcut(&self) -> bool {
        self.is_refused(0) && self.has_expectation
    }

    /// Whether the list is optimized.
    pub fn is_optimized(&self) -> bool {
        self.is_refused(0) && !self.has_expectation
    }

    /// Fused, cancelled and left swaps; zeros for what is not optimized.
    fn done(&self) -> [u64; 3] {
        let [_, _, _, fused, cancelled, swaps] = self.answer.result;
        [fused, cancelled, swaps]
    }

    /// Whether a preserved prefix inside the list stands at another place afterwards.
    fn has_moved_prefix(&self) -> bool {
        let size = self.call.count() as u64;
        let mut inside = self.call.prefixes.iter().filter(|&&prefix| prefix < size);
        self.is_optimized() && inside.any(|&prefix| self.answer.map[prefix as usize] < prefix)
    }

    /// Whether an angle of the answer's list is such.
    fn leaves(&self, is_such: impl Fn(f64) -> bool) -> bool {
        self.is_optimized() && angles(&self.answer.list).any(is_such)
    }

    /// Whether a zero of a sign is among the rotations and all of them cancel or fuse.
    fn cancels_negative_zeros(&self) -> bool {
        let is_negative_zero = |angle: f64| angle == 0.0 && angle.is_sign_negative();
        let [_, cancelled, _] = self.done();
        cancelled > 0 && angles(&self.call.words).all(is_negative_zero)
    }

    /// Whether a prefix is wrong in its upper half alone.
    fn has_prefix_wrong_above_32_bits(&self) -> bool {
        let size = self.call.count() as u64;
        let mut prefixes = self.call.prefixes.iter();
        prefixes.all(|&prefix| prefix & u64::from(u32::MAX) <= size)
    }
}

/// A name and whether a call comes to it.
type Reached = (&'static str, fn(&Seen) -> bool);

/// What calls come to.
pub const REACHED: [Reached; 29] = [
    ("optimized", |seen| seen.is_optimized()),
    ("given back for an expectation value", |seen| {
        seen.is_shortcut()
    }),
    ("refused 26", |seen| seen.is_refused(NO_FORM)),
    ("refused 27", |seen| seen.is_refused(NO_PREFIX)),
    ("refused 28", |seen| seen.is_refused(NOT_HERMITIAN)),
    ("refused 28 behind the first operation", |seen| {
        seen.is_refused(NOT_HERMITIAN) && seen.answer.result[0] > 0
    }),
    ("refused 26 with an expectation value", |seen| {
        seen.is_refused(NO_FORM) && seen.has_expectation
    }),
    ("refused 26 with 27 and 28", |seen| {
        seen.is_refused(NO_FORM) && seen.has_far_prefix && seen.has_odd_rotation
    }),
    ("given back with 27", |seen| {
        seen.is_shortcut() && seen.has_far_prefix
    }),
    ("given back with 28", |seen| {
        seen.is_shortcut() && seen.has_odd_rotation
    }),
    ("refused 27 with 28", |seen| {
        seen.is_refused(NO_PREFIX) && seen.has_odd_rotation
    }),
    ("refused 27 for the upper half of a word", |seen| {
        seen.is_refused(NO_PREFIX) && seen.has_prefix_wrong_above_32_bits()
    }),
    ("with rotations fused", |seen| seen.done()[0] > 0),
    ("with all fused rotations cancelled", |seen| {
        seen.done()[0] > 0 && seen.done()[0] == seen.done()[1]
    }),
    ("with some fused rotations cancelled", |seen| {
        seen.done()[1] > 0 && seen.done()[0] > seen.done()[1]
    }),
    ("with negative zeros alone that cancel", |seen| {
        seen.cancels_negative_zeros()
    }),
    ("with a chain fused to one operation", |seen| {
        seen.done()[0] > 2 && seen.answer.result[2] == 1
    }),
    ("with measurements moved, nothing fused", |seen| {
        seen.done()[2] > 0 && seen.done()[0] == 0
    }),
    ("with measurements moved, something fused", |seen| {
        seen.done()[2] > 0 && seen.done()[0] > 0
    }),
    ("with 70,000 places moved", |seen| seen.done()[2] >= 70_000),
    ("with nothing fused and nothing moved", |seen| {
        seen.is_optimized() && seen.call.count() > 1 && seen.done() == [0, 0, 0]
    }),
    ("with a preserved prefix at another place", |seen| {
        seen.has_moved_prefix()
    }),
    ("with 1,024 operations", |seen| {
        seen.is_optimized() && seen.call.count() == MOST_OPERATIONS
    }),
    ("with 1,024 prefixes", |seen| {
        seen.is_optimized() && seen.call.prefixes.len() == MOST_PREFIXES
    }),
    ("with a width of 1", |seen| {
        seen.is_optimized() && seen.call.width == 1
    }),
    ("with a width of 64", |seen| {
        seen.is_optimized() && seen.call.width == MOST_WIDTH
    }),
    ("with an angle beyond 2^20 left", |seen| {
        seen.leaves(|angle| angle.abs() > MOST_ANGLE)
    }),
    ("with a subnormal angle left", |seen| {
        seen.leaves(f64::is_subnormal)
    }),
    ("with an angle of 0 left", |seen| {
        seen.leaves(|angle| angle == 0.0)
    }),
];
