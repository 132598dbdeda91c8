//! All programs of up to two records over small widths and masks.

use super::draft::{MEASUREMENT, PROMOTION, ROTATION, floats};
use super::edits::Words;
use crate::input::{LARGEST_CEILING, Program, Record};

/// How far masks, phases and pivots go.
struct Limits {
    masks: u64,
    phases: u64,
    pivots: u64,
}

/// For programs of one record.
const ALONE: Limits = Limits {
    masks: 8,
    phases: 4,
    pivots: 5,
};

/// For each of two records.
const PAIRED: Limits = Limits {
    masks: 4,
    phases: 2,
    pivots: 3,
};

/// The greatest initial_k.
const MOST_INITIAL: u64 = 3;

/// A rotation.
fn rotation(width: u64, x: u64, z: u64, phase: u64) -> Words {
    let [angle, sine, cosine] = floats(0.5);
    [ROTATION, width, x, z, phase, angle, sine, cosine]
}

/// All records of the limits that meet k active coordinates.
fn alphabet(k: u64, limits: &Limits) -> Vec<Words> {
    let mut records = vec![
        [PROMOTION, 0, 0, 0, 0, 0, 0, 0],
        [2, 0, 0, 0, 0, 0, 0, 0],
        [MEASUREMENT, 9, 9, 9, 9, 9, 1, 9],
        rotation(k + 1, 1, 0, 0),
        [MEASUREMENT, k + 1, 1, 0, 0, 0, 0, 0],
    ];
    for code in 0..limits.masks * limits.masks * limits.phases {
        let (x, rest) = (code % limits.masks, code / limits.masks);
        let (z, phase) = (rest % limits.masks, rest / limits.masks);
        records.push(rotation(k, x, z, phase));
        let measured = |pivot| [MEASUREMENT, k, x, z, phase, pivot, 0, 0];
        records.extend((0..limits.pivots).map(measured));
    }
    records
}

/// A program of these records, with buffers that are just long enough.
pub(super) fn program(initial_k: u64, records: &[Words]) -> Program {
    Program {
        initial_k,
        max_k: 8,
        nexpvals: 0,
        ceiling: LARGEST_CEILING,
        lengths: None,
        words: records.concat(),
    }
}

/// All programs with none, one or two records.
pub fn small_programs() -> Vec<Program> {
    let mut programs = Vec::new();
    for initial_k in 0..=MOST_INITIAL {
        programs.push(program(initial_k, &[]));
        for record in alphabet(initial_k, &ALONE) {
            programs.push(program(initial_k, &[record]));
        }
        for first in alphabet(initial_k, &PAIRED) {
            let width = Record::from_words(&first).width_after(initial_k);
            for second in alphabet(width, &PAIRED) {
                programs.push(program(initial_k, &[first, second]));
            }
        }
    }
    programs
}
