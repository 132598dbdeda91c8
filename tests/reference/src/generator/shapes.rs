//! Whole programs that fit: short ones, widths around 38, long lives with large components, and
//! those that are timed.

use super::draft::{Draft, MOST_RECORDS, Weights, low_bits};
use super::random::Random;
use crate::input::Program;

/// What fills a draft, and the least and the most initial_k that it starts from.
type Shape = (u64, fn(&mut Draft), u64, u64);

/// How often each shape is made.
const SHAPES: [Shape; 12] = [
    (300, plain, 0, 12),
    (300, wide, 8, 50),
    (50, far, 0, 62),
    (30, widest_join, 0, 61),
    (2, saturated, 0, 61),
    (80, large, 40, 62),
    (40, at_the_limit, 50, 62),
    (25, up_and_down, 0, 62),
    (40, long, 0, 62),
    (60, scattered, 8, 62),
    (160, around_38, 33, 40),
    (40, ignored, 0, 0),
];

/// The shapes whose programs have many records.
const LONG_SHAPES: [Shape; 3] = [
    (3, up_and_down, 0, 62),
    (5, long, 0, 62),
    (2, saturated, 0, 61),
];

/// A program of one of these shapes.
fn shaped(mut random: Random, shapes: &[Shape]) -> Program {
    let weights: Vec<u64> = shapes.iter().map(|shape| shape.0).collect();
    let (_, fill, least, most) = shapes[random.weighted(&weights)];
    let mut draft = Draft::within(random, least, most);
    fill(&mut draft);
    draft.finish()
}

/// A program that fits.
pub fn plan(random: Random) -> Program {
    shaped(random, &SHAPES)
}

/// A long program that fits.
pub fn long_plan(random: Random) -> Program {
    shaped(random, &LONG_SHAPES)
}

/// Few coordinates and any mixture of records.
fn plain(draft: &mut Draft) {
    draft.some(0, 40);
}

/// Few joins among many coordinates, where the choice falls on components.
fn wide(draft: &mut Draft) {
    for _ in 0..draft.random.between(4, 30) {
        let weights = match draft.random.chance(90) {
            true => [6, 0, 1, 1],
            false => [0, 1, 0, 0],
        };
        draft.record(weights);
    }
}

/// The same with blocks that are never joined, so that many components stay.
fn scattered(draft: &mut Draft) {
    let blocks = draft.random.between(2, 20);
    draft.divide(blocks);
    for _ in 0..draft.random.between(4, 60) {
        draft.record([6, 1, 1, 1]);
    }
}

/// Promotions past the width that a mask can reach.
fn far(draft: &mut Draft) {
    draft.some(0, 10);
    for _ in 0..draft.random.between(1, 150) {
        draft.record([0, 10, 0, 1]);
    }
}

/// A component of 61, the most that passes, and its measurements.
fn widest_join(draft: &mut Draft) {
    draft.room(61);
    let joined = low_bits(61);
    let (x, z) = draft
        .random
        .pick(&[(joined, 0), (0, joined), (joined, joined)]);
    draft.rotate(x, z);
    draft.some(0, 12);
}

/// Again and again a wide component that is measured out: allocated may reach 2^64 - 1.
fn saturated(draft: &mut Draft) {
    let size = draft.random.pick(&[61, 61, 60, 56]);
    for _ in 0..512 / size {
        draft.room(size);
        let all = low_bits(draft.width);
        draft.rotate(all, 0);
        while draft.width > 0 {
            draft.measure(1, 0, 0, 0);
        }
    }
}

/// Joins each block, at once or along a chain of two at a time.
fn join_blocks(draft: &mut Draft, blocks: u64) {
    for block in 0..blocks {
        let mut left = draft.positions(block);
        let mut before = 0;
        let step = draft.random.pick(&[1, 2, 7, 64]);
        while left != 0 {
            let next = draft.random.bits_of(left, step);
            draft.rotate(before | next, 0);
            left &= !next;
            before = draft.random.bit_of(next);
        }
    }
}

/// Two or three large components that live side by side, rotated, measured and refilled.
fn large(draft: &mut Draft) {
    draft.room(62);
    let blocks = draft.random.between(2, 3);
    draft.divide(blocks);
    join_blocks(draft, blocks);
    for _ in 0..draft.random.between(0, 60) {
        draft.record([4, 1, 1, 1]);
    }
}

/// A component of 61 beside one coordinate; then a join of all 62, or one after a removal.
fn at_the_limit(draft: &mut Draft) {
    draft.room(62);
    let all = low_bits(62);
    let alone = draft.random.bit_of(all);
    draft.divide_by(alone);
    draft.rotate(all & !alone, 0);
    for _ in 0..draft.random.between(0, 3) {
        draft.record([4, 0, 0, 1]);
    }
    match draft.random.below(3) {
        0 => {}
        1 => draft.rotate(0, all),
        _ => {
            let pivot = draft.random.bit_of(all & !alone);
            draft.measure(pivot, 0, 0, u64::from(pivot.trailing_zeros()));
            draft.rotate(0, low_bits(61));
        }
    }
    draft.some(0, 6);
}

/// Coordinates come and go: up to many, joined in blocks, measured down to few or none.
fn up_and_down(draft: &mut Draft) {
    let last = draft.random.between(50, MOST_RECORDS as u64) as usize;
    let blocks = draft.random.between(1, 8);
    draft.divide(blocks);
    while draft.count() < last && (draft.made < 512 || draft.width > 0) {
        let high = draft.random.between(1, 62);
        while draft.width < high && draft.made < 512 && draft.count() < last {
            draft.record([2, 6, 0, 1]);
        }
        let low = draft.random.pick(&[0, 0, high / 2]);
        while draft.width > low && draft.width <= 62 && draft.count() < last {
            draft.record([2, 0, 5, 1]);
        }
        draft.record([1, 0, 0, 1]);
    }
}

/// Any number of records up to the most there may be, over blocks that stay apart.
fn long(draft: &mut Draft) {
    let any = draft.random.between(41, MOST_RECORDS as u64) as usize;
    let last = draft.random.pick(&[any, any, any, any, MOST_RECORDS]);
    let blocks = draft.random.pick(&[1, 2, 3, 5, 8, 13, 21]);
    draft.divide(blocks);
    let weights = draft
        .random
        .pick(&[[8, 1, 1, 1], [5, 2, 2, 1], [20, 1, 1, 0], [3, 1, 2, 2]]);
    while draft.count() < last {
        let wide = draft.width >= 62;
        draft.record(if wide { [4, 0, 4, 1] } else { weights });
    }
}

/// Widths around 38, the greatest that has whole works: up by promotions to 37, 38, 39 or 40, down
/// by measurements, and so again. Half of the programs keep blocks apart.
fn around_38(draft: &mut Draft) {
    let blocks = draft.random.pick(&[1, 1, 4, 12]);
    draft.divide(blocks);
    for _ in 0..draft.random.between(1, 3) {
        let high = draft.random.pick(&[37, 38, 38, 38, 39, 39, 40]);
        while draft.width < high {
            draft.record([2, 3, 0, 1]);
        }
        let low = draft.random.between(34, 40);
        while draft.width > low {
            draft.record([2, 0, 3, 1]);
        }
    }
    for _ in 0..draft.random.between(0, 3) {
        draft.record([1, 0, 0, 1]);
    }
}

/// Rotations of no coordinate, which cost the dense register alone, and records without effect.
fn ignored(draft: &mut Draft) {
    for _ in 0..draft.random.between(1, 20) {
        draft.record([3, 0, 0, 1]);
    }
}

/// A program of just so many records that keeps about so many coordinates active in blocks
/// that stay apart. Blocks that start joined make few components, others many.
pub fn steady(random: Random, records: usize, width: u64, blocks: u64, joined: bool) -> Program {
    let mut draft = Draft::new(random, width);
    draft.plain_angles = true;
    draft.divide(blocks);
    for block in 0..if joined { blocks } else { 0 } {
        let all = draft.positions(block);
        draft.rotate(all, 0);
    }
    while draft.count() < records {
        let weights = match draft.width {
            now if now > width + 1 => [6, 0, 2, 1],
            now if now + 1 < width => [6, 2, 0, 1],
            _ => [6, 1, 1, 1],
        };
        draft.record(weights);
    }
    draft.finish()
}

/// Rotations, promotions, measurements and classical records in eight of a check circuit.
const EIGHT: Weights = [2, 1, 1, 4];

/// A program as check circuits have it, of just so many records: among every eight are four
/// that planning passes over, two rotations, a promotion and a measurement, in any order. So
/// the width stays within one of what is given.
///
/// In such circuits an error turns one coordinate or two; a check couples neighbours with an
/// ancilla, which is promoted behind all others and measured soon, or measures the neighbours
/// themselves; and each outcome is recorded and goes into detectors. So every rotation and
/// measurement has one to three positions: near ones, as where data lie along a line, or any,
/// as where the order of the register says nothing about the checks.
pub fn check_circuit(random: Random, records: usize, width: u64, near: bool) -> Program {
    let mut draft = Draft::new(random, width);
    draft.plain_angles = true;
    let mut left = EIGHT;
    while draft.count() < records {
        if left == [0; 4] {
            left = EIGHT;
        }
        let support = draft.few_positions(near);
        let kind = draft.random.weighted(&left);
        left[kind] -= 1;
        match kind {
            0 => draft.rotate_on(support),
            1 => draft.promotion(),
            2 => draft.measure_on(support),
            _ => draft.classical(),
        }
    }
    draft.finish()
}
