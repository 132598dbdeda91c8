//! From record words to the Rust's own instructions. Only what planning reads is set.

use crate::active::{
    ActivePauliAction, PrecomputedActivePauliMeasurementKernel,
    PrecomputedActivePauliRotationKernel, phase_factor,
};
use crate::bits::is_odd_popcount;
use crate::factored::{
    ApplyPrecomputedActivePauliRotation, FactoredInstruction, FactoredInstructionProgram,
    IntroduceDormantMeasurementBranch, MeasurePrecomputedActivePauli, PromoteDormantRotation,
    RecordDetector, RecordMeasurement,
};
use crate::input::{Program, Record};

/// The masks go in as given, with the bits above the width.
fn action(record: &Record) -> ActivePauliAction {
    let even_phase = phase_factor(record.phase as i32);
    ActivePauliAction {
        nqubits: record.width as usize,
        xmask: record.x,
        zmask: record.z,
        even_phase,
        odd_phase: -even_phase,
        xz_overlap_odd: is_odd_popcount(record.x & record.z),
    }
}

/// The Rust's rotation.
fn rotation(record: &Record) -> ApplyPrecomputedActivePauliRotation {
    ApplyPrecomputedActivePauliRotation {
        rotation_kernel: PrecomputedActivePauliRotationKernel {
            action: action(record),
            kernel_angle: record.angle(),
            ..Default::default()
        },
        ..Default::default()
    }
}

/// Flag 1 makes an expectation, of which nothing else is read.
fn measurement(record: &Record) -> MeasurePrecomputedActivePauli {
    if record.flag() == 1 {
        return MeasurePrecomputedActivePauli {
            exp_val: Some(0),
            ..Default::default()
        };
    }
    MeasurePrecomputedActivePauli {
        kernel: PrecomputedActivePauliMeasurementKernel {
            action: action(record),
            pivot: record.last[0] as usize,
            ..Default::default()
        },
        ..Default::default()
    }
}

/// The Rust's instruction of the record's kind.
fn instruction(record: &Record) -> Result<FactoredInstruction, String> {
    use FactoredInstruction as Rust;
    match record.kind {
        0 => Ok(Rust::ApplyPrecomputedActivePauliRotation(rotation(record))),
        1 => Ok(Rust::PromoteDormantRotation(
            PromoteDormantRotation::default(),
        )),
        2 => Ok(Rust::RecordMeasurement(RecordMeasurement::default())),
        3 => Ok(Rust::RecordDetector(RecordDetector::default())),
        4 => Ok(Rust::MeasurePrecomputedActivePauli(measurement(record))),
        5 => Ok(Rust::IntroduceDormantMeasurementBranch(
            IntroduceDormantMeasurementBranch::default(),
        )),
        kind => Err(format!("a record of kind {kind} got past the record pass")),
    }
}

/// The Rust's program for this head and these records.
pub fn rust_program(
    program: &Program,
    records: &[Record],
) -> Result<FactoredInstructionProgram, String> {
    Ok(FactoredInstructionProgram {
        initial_k: program.initial_k as usize,
        max_k: program.max_k as usize,
        nexpvals: program.nexpvals as usize,
        instructions: records
            .iter()
            .map(instruction)
            .collect::<Result<_, String>>()?,
        ..Default::default()
    })
}
