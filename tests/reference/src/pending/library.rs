//! The library's calls for lists of pending operations, as the Rust crate (bindings/rust) has them:
//! over words; and typed, with the Rust's own operations carried over field by field, which have to
//! have the call's words, and what comes back held to the Rust's answer, every field and every bit of
//! an angle.

use super::answer::{Answer, operations, prefixes};
use super::operations::{OPERATION_WORDS, operation};
use super::{Call, form};
use crate::factored::PendingOperation;
use crate::frames::SymbolicPauliString;
use crate::symbolic::SymbolicBool;

/// The library's call on these words, into these outputs, and the number that it returns.
#[inline]
pub fn optimize(call: &Call, optimized: &mut [u64], map: &mut [u64], result: &mut [u64]) -> u64 {
    midvokt::optimize_words(
        call.width,
        &call.words,
        &call.prefixes,
        optimized,
        map,
        result,
    )
}

/// The crate's sign of the Rust's.
fn carried_sign(sign: &SymbolicBool) -> midvokt::SymbolicBool {
    midvokt::SymbolicBool {
        constant: sign.constant,
        conditions: sign.conditions.clone(),
    }
}

/// The crate's string of the Rust's.
fn carried_string(string: &SymbolicPauliString) -> midvokt::SymbolicPauliString {
    let mut pauli = midvokt::PauliString::new(string.pauli.nqubits);
    pauli.x.clone_from(&string.pauli.x);
    pauli.z.clone_from(&string.pauli.z);
    pauli.set_phase(string.pauli.phase_exponent());
    midvokt::SymbolicPauliString {
        pauli,
        sign: carried_sign(&string.sign),
    }
}

/// The crate's operation of the Rust's.
fn carried(operation: &PendingOperation) -> midvokt::PendingOperation {
    match operation {
        PendingOperation::PauliRotation(rotation) => {
            midvokt::PendingOperation::PauliRotation(midvokt::PendingPauliRotation {
                kernel_angle: rotation.kernel_angle,
                pauli: carried_string(&rotation.pauli),
            })
        }
        PendingOperation::PauliMeasurement(measurement) => {
            midvokt::PendingOperation::PauliMeasurement(midvokt::PendingPauliMeasurement {
                pauli: carried_string(&measurement.pauli),
                record: measurement.record,
                record_condition: measurement.record_condition,
                exp_val: measurement.exp_val,
            })
        }
        PendingOperation::ClassicalRecord(record) => {
            midvokt::PendingOperation::ClassicalRecord(midvokt::PendingClassicalRecord {
                outcome: carried_sign(&record.outcome),
                record: record.record,
                record_condition: record.record_condition,
            })
        }
    }
}

/// The typed list of a call: the Rust's operations, or, where 26 comes, what the crate reads its words
/// as. There is none where no typed list says the call.
fn typed(call: &Call) -> Result<Option<Vec<midvokt::PendingOperation>>, String> {
    if form::faults(call).is_empty() {
        return Ok(Some(operations(call)?.iter().map(carried).collect()));
    }
    if call.lengths.is_some() || !call.words.len().is_multiple_of(OPERATION_WORDS) {
        return Ok(None);
    }
    let read = |words: &[u64]| {
        midvokt::PendingOperation::from_words(call.width as usize, words.try_into().ok()?)
    };
    Ok(call.operations().map(read).collect())
}

/// The typed answer of an optimized list, through the Rust's own types.
fn expected(call: &Call, answer: &Answer) -> Result<midvokt::Optimized, String> {
    let left = answer.list.chunks(OPERATION_WORDS);
    let left = left.map(|words| Ok(carried(&operation(call.width, words)?)));
    let [_, input, output, fused, cancelled, swaps] = answer.result.map(|word| word as usize);
    Ok(midvokt::Optimized {
        operations: left.collect::<Result<_, String>>()?,
        stats: midvokt::PendingOptimizationStats {
            input_operations: input,
            output_operations: output,
            fused_rotations: fused,
            cancelled_rotations: cancelled,
            measurement_left_swaps: swaps,
            prefix_remap: answer.map.iter().map(|&word| word as i64 as i32).collect(),
        },
    })
}

/// The bits of all angles, which floats that are compared do not tell.
fn angles(operations: &[midvokt::PendingOperation]) -> impl Iterator<Item = Option<u64>> {
    operations.iter().map(|operation| match operation {
        midvokt::PendingOperation::PauliRotation(rotation) => Some(rotation.kernel_angle.to_bits()),
        _ => None,
    })
}

/// What differs after the typed call, where a typed list says the call.
pub fn typed_difference(call: &Call, wanted: &Answer) -> Result<Option<Option<String>>, String> {
    let Some(list) = typed(call)? else {
        return Ok(None);
    };
    let width = call.width as usize;
    if midvokt::encode_operations(width, &list).as_ref() != Some(&call.words) {
        return Ok(Some(Some(
            "typed: the operations have other words".to_owned(),
        )));
    }
    let said = midvokt::optimize(width, &list, &prefixes(call));
    let is_same = match (&said, wanted.number) {
        (Err(refusal), number) => {
            (refusal.number(), refusal.index as u64) == (number, wanted.result[0])
        }
        (Ok(found), 0) => {
            let expected = expected(call, wanted)?;
            *found == expected && angles(&found.operations).eq(angles(&expected.operations))
        }
        (Ok(_), _) => false,
    };
    let told = || format!("typed: {said:?}, where {wanted:?} is expected");
    Ok(Some((!is_same).then(told)))
}
