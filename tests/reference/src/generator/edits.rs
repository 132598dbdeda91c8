//! Single faults as edits of one record, so that several can be made in the same record.

use super::draft::{MEASUREMENT, ROTATION, floats};
use super::pairs;

/// The eight words of a record.
pub type Words = [u64; 8];

/// A change to a record that meets so many active coordinates.
pub type Edit = fn(&mut Words, u64);

const KIND: Edit = |record, _| record[0] = 6;
const WIDTH_BOUND: Edit = |record, _| record[1] = 63;
const PHASE: Edit = |record, _| record[4] = 4;
const OTHER_WIDTH: Edit = |record, k| record[1] = if k < 62 { k + 1 } else { 61 };
const ANGLE: Edit = |record, _| record[5] = f64::INFINITY.to_bits();
const SINE: Edit = |record, _| record[6] = 1.0f64.next_up().to_bits();
const COSINE: Edit = |record, _| record[7] = (-1.0f64).next_down().to_bits();
const NO_SQUARES: Edit = |record, _| (record[6], record[7]) = (0, 0);
const SQUARES_PAST: Edit = |record, _| {
    let [_, [_, sine, cosine]] = pairs::at_a_bound(0.5, true);
    (record[6], record[7]) = (sine, cosine);
};
const FLAG: Edit = |record, _| record[6] = 2;
const EXPECTATION: Edit = |record, _| record[6] = 1;
const PIVOT_PAST: Edit = |record, k| record[5] = k;
const PIVOT_LAST: Edit = |record, k| record[5] = k.saturating_sub(1);
const NO_X_AT_PIVOT: Edit = |record, _| record[2] = 2;
const NO_Z_AT_PIVOT: Edit = |record, _| (record[2], record[3]) = (0, 2);
const IMAGINARY: Edit = |record, _| (record[2], record[3], record[4]) = (0, record[3] | 1, 1);
const NO_MASKS: Edit = |record, _| (record[2], record[3]) = (0, 0);

/// What can be wrong in a rotation.
const ROTATION_EDITS: [Edit; 9] = [
    OTHER_WIDTH,
    NO_SQUARES,
    SQUARES_PAST,
    SINE,
    COSINE,
    ANGLE,
    PHASE,
    WIDTH_BOUND,
    KIND,
];

/// What can be wrong in a measurement.
const MEASUREMENT_EDITS: [Edit; 12] = [
    NO_MASKS,
    NO_X_AT_PIVOT,
    NO_Z_AT_PIVOT,
    IMAGINARY,
    PIVOT_LAST,
    PIVOT_PAST,
    OTHER_WIDTH,
    PHASE,
    WIDTH_BOUND,
    EXPECTATION,
    FLAG,
    KIND,
];

/// The edits of a measurement, or those of a rotation.
pub fn for_kind(is_measurement: bool) -> &'static [Edit] {
    match is_measurement {
        true => &MEASUREMENT_EDITS,
        false => &ROTATION_EDITS,
    }
}

/// A measurement, or a rotation, that fits where a coordinate is active.
pub fn fitting(is_measurement: bool, k: u64) -> Words {
    let [angle, sine, cosine] = floats(0.5);
    match is_measurement {
        true => [MEASUREMENT, k, 1, 0, 0, 0, 0, 0],
        false => [ROTATION, k, 1, 0, 0, angle, sine, cosine],
    }
}

/// A record that fits, changed by these edits.
pub fn edited(is_measurement: bool, edits: &[Edit], k: u64) -> Words {
    let mut record = fitting(is_measurement, k);
    edits.iter().for_each(|edit| edit(&mut record, k));
    record
}
