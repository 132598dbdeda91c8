//! The two C functions under test, as include/midvokt.h declares them, over slices.

/// What planning is given: the head and the record words.
pub struct Program {
    pub initial_k: u64,
    pub max_k: u64,
    pub nexpvals: u64,
    pub ceiling: u64,
    pub records: Vec<u64>,
}

extern "C" {
    /// Plans and writes the plan's file.
    fn midvokt_store(
        initial_k: u64,
        max_k: u64,
        nexpvals: u64,
        ceiling: u64,
        records: *const u64,
        records_len: usize,
        steps: *mut u64,
        steps_len: usize,
        merges: *mut u64,
        merges_len: usize,
        sizes: *mut u64,
        sizes_len: usize,
        rotations: *mut u64,
        rotations_len: usize,
        promotions: *mut u64,
        promotions_len: usize,
        measurements: *mut u64,
        measurements_len: usize,
        groups: *mut u64,
        groups_len: usize,
        file: *mut u8,
        file_len: usize,
        result: *mut u64,
        result_len: usize,
    ) -> u64;

    /// Reads a file back.
    fn midvokt_load(
        file: *const u8,
        file_len: usize,
        steps: *mut u64,
        steps_len: usize,
        merges: *mut u64,
        merges_len: usize,
        sizes: *mut u64,
        sizes_len: usize,
        rotations: *mut u64,
        rotations_len: usize,
        promotions: *mut u64,
        promotions_len: usize,
        measurements: *mut u64,
        measurements_len: usize,
        result: *mut u64,
        result_len: usize,
    ) -> u64;
}

/// Plans and stores: seven outputs, then the result.
pub fn store(program: &Program, file: &mut [u8], parts: [&mut [u64]; 8]) -> u64 {
    let [steps, merges, sizes, rotations, promotions, measurements, groups, result] = parts;
    // SAFETY: slices are aligned and never null, and exclusive ones overlap nothing.
    unsafe {
        midvokt_store(
            program.initial_k,
            program.max_k,
            program.nexpvals,
            program.ceiling,
            program.records.as_ptr(),
            program.records.len(),
            steps.as_mut_ptr(),
            steps.len(),
            merges.as_mut_ptr(),
            merges.len(),
            sizes.as_mut_ptr(),
            sizes.len(),
            rotations.as_mut_ptr(),
            rotations.len(),
            promotions.as_mut_ptr(),
            promotions.len(),
            measurements.as_mut_ptr(),
            measurements.len(),
            groups.as_mut_ptr(),
            groups.len(),
            file.as_mut_ptr(),
            file.len(),
            result.as_mut_ptr(),
            result.len(),
        )
    }
}

/// Loads: six outputs, then the result.
pub fn load(file: &[u8], parts: [&mut [u64]; 7]) -> u64 {
    let [steps, merges, sizes, rotations, promotions, measurements, result] = parts;
    // SAFETY: as above.
    unsafe {
        midvokt_load(
            file.as_ptr(),
            file.len(),
            steps.as_mut_ptr(),
            steps.len(),
            merges.as_mut_ptr(),
            merges.len(),
            sizes.as_mut_ptr(),
            sizes.len(),
            rotations.as_mut_ptr(),
            rotations.len(),
            promotions.as_mut_ptr(),
            promotions.len(),
            measurements.as_mut_ptr(),
            measurements.len(),
            result.as_mut_ptr(),
            result.len(),
        )
    }
}
