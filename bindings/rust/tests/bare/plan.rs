//! A program with neither std nor an allocator that plans two records in buffers of its own, stores
//! the plan and loads it again, optimizes two pending operations, and ends with status 0 where all is
//! right. `check` builds it with
//! rustc alone: it would not link if the crate brought in either.

#![no_std]
#![no_main]

use core::panic::PanicInfo;

use midvokt::{
    file_bytes, load_into, optimize_into, plan_into, store_into, ActiveComponentStepKind,
    ActivePauli, Buffers, Head, Lengths, PauliError, Record, Sections, OPERATION_WORDS,
    RECORD_WORDS,
};

const RECORDS: usize = 2;
const LENGTHS: Lengths = Lengths::for_records(RECORDS);
const HEAD: Head = Head::new(3);

#[link(name = "c")]
extern "C" {
    fn abort() -> !;
}

/// Ends the program.
#[panic_handler]
fn panic(_: &PanicInfo<'_>) -> ! {
    // SAFETY: the C library's abort takes nothing and does not return.
    unsafe { abort() }
}

/// Named by core's compiled code, and never called where a panic ends the program.
#[no_mangle]
extern "C" fn rust_eh_personality() {}

/// The records of a rotation about X0 X2 and of a measurement of Z1 Z2.
fn records() -> Result<[Record; RECORDS], PauliError> {
    Ok([
        ActivePauli::from_text(3, "X_X")?.rotation_with(0.0, 0.0, 1.0),
        ActivePauli::from_text(3, "Z1*Z2")?.measurement(2),
    ])
}

/// Their words; zeros, which do not give the plan, where a text is not read.
fn words() -> [u64; RECORDS * RECORD_WORDS] {
    let mut words = [0; RECORDS * RECORD_WORDS];
    let records = records();
    let records = records.iter().flatten();
    for (eight, record) in words.chunks_exact_mut(RECORD_WORDS).zip(records) {
        eight.copy_from_slice(&record.encode());
    }
    words
}

/// Whether the plan of the two records is the expected one.
fn is_planned() -> bool {
    let mut buffers = Buffers {
        sections: Sections {
            steps: &mut [0; LENGTHS.steps],
            merges: &mut [0; LENGTHS.merges],
            sizes: &mut [0; LENGTHS.sizes],
            rotations: &mut [0; LENGTHS.rotations],
            promotions: &mut [0; LENGTHS.promotions],
            measurements: &mut [0; LENGTHS.measurements],
        },
        groups: &mut [0; LENGTHS.groups],
    };
    let planned = plan_into(&HEAD, &words(), &mut buffers);
    let kinds = [0, 1].map(|record| buffers.step(record).map(|step| step.kind));
    planned.is_ok_and(|summary| summary.component_peak_live_dimension == 8)
        && kinds.contains(&Some(ActiveComponentStepKind::Measurement))
        && buffers
            .measurement(0)
            .is_some_and(|row| row.kernel.pivot == 1)
        && buffers.groups().eq([[0, 1]])
        && is_stored(&mut buffers)
}

/// Whether the plan is stored and its last row loaded again.
fn is_stored(buffers: &mut Buffers<'_>) -> bool {
    let mut file = [0; file_bytes(RECORDS)];
    let Ok(length) = store_into(&HEAD, &words(), buffers, &mut file) else {
        return false;
    };
    let mut sections = Sections {
        steps: &mut [0; LENGTHS.steps],
        merges: &mut [0; LENGTHS.merges],
        sizes: &mut [0; LENGTHS.sizes],
        rotations: &mut [0; LENGTHS.rotations],
        promotions: &mut [0; LENGTHS.promotions],
        measurements: &mut [0; LENGTHS.measurements],
    };
    let loaded = load_into(&file[..length], &mut sections);
    loaded.is_ok_and(|loaded| loaded.scalars.component_peak_live_dimension == 8)
        && sections.measurement(0).is_some()
        && sections.measurement(0) == buffers.measurement(0)
        && load_into(&file, &mut sections).is_err()
}

/// Whether two rotations about X0, by 0.5 and by 0.25, become one by 0.75.
fn is_optimized() -> bool {
    let turn = |angle: f64| {
        let mut words = [0; OPERATION_WORDS];
        [words[1], words[2]] = [angle.to_bits(), 1];
        words
    };
    let mut operations = [0; 2 * OPERATION_WORDS];
    operations[..OPERATION_WORDS].copy_from_slice(&turn(0.5));
    operations[OPERATION_WORDS..].copy_from_slice(&turn(0.25));
    let (mut optimized, mut map) = ([1; 2 * OPERATION_WORDS], [1; 3]);
    let counts = optimize_into(1, &operations, &[], &mut optimized, &mut map);
    counts.is_ok_and(|counts| counts.fused_rotations == 1)
        && optimized[..OPERATION_WORDS] == turn(0.75)
        && optimized[OPERATION_WORDS..] == [0; OPERATION_WORDS]
        && map == [0, u64::MAX, 1]
}

/// Where the C library begins the program.
#[no_mangle]
pub extern "C" fn main() -> i32 {
    i32::from(!(is_planned() && is_optimized()))
}
