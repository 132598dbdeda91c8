//! From an operation's words (02, CR 6) to the Rust's own type and back, and the state that the
//! Rust takes a list in.

use crate::factored::{
    PendingClassicalRecord, PendingFactoredState, PendingOperation, PendingPauliMeasurement,
    PendingPauliRotation,
};
use crate::frames::{CliffordFrame, DormantState, SymbolicPauliString};
use crate::pauli::PauliString;
use crate::symbolic::{SymbolicBool, SymbolicContext};

/// Words in an operation.
pub const OPERATION_WORDS: usize = 32;
/// The conditions that a sign has room for, behind its constant and its count.
pub const SIGN_CONDITIONS: usize = 8;

pub const ROTATION: u64 = 0;
pub const MEASUREMENT: u64 = 1;
pub const CLASSICAL: u64 = 2;

/// Where the exp_val of a measurement stands.
pub const EXPECTATION: usize = 18;

/// At which word the fields of a kind begin, and where the last one ends. An outcome is a sign.
pub struct Layout {
    pub angle: Option<usize>,
    pub string: Option<usize>,
    pub sign: usize,
    pub options: &'static [usize],
    pub end: usize,
}

/// The layouts of the three kinds.
pub const LAYOUTS: [Layout; 3] = [
    Layout {
        angle: Some(1),
        string: Some(2),
        sign: 5,
        options: &[],
        end: 15,
    },
    Layout {
        angle: None,
        string: Some(1),
        sign: 4,
        options: &[14, 16, EXPECTATION],
        end: 20,
    },
    Layout {
        angle: None,
        string: None,
        sign: 1,
        options: &[11, 13],
        end: 15,
    },
];

/// A number of the Rust's, which has 32 bits.
fn number(word: u64) -> Result<i32, String> {
    i32::try_from(word).map_err(|_| format!("{word:#x} got past the form of a list"))
}

/// The Rust's string of these three words.
fn string(width: u64, words: &[u64]) -> Result<PauliString, String> {
    let mut string = PauliString::new(width as usize);
    string.x[0] = words[0];
    string.z[0] = words[1];
    string.set_phase(number(words[2])?);
    Ok(string)
}

/// The Rust's sign of these ten words.
fn sign(words: &[u64]) -> Result<SymbolicBool, String> {
    let used = &words[2..2 + words[1] as usize];
    Ok(SymbolicBool {
        constant: words[0] == 1,
        conditions: used
            .iter()
            .map(|&word| number(word))
            .collect::<Result<_, String>>()?,
    })
}

/// The Rust's string with its sign: three words, then ten.
fn signed_string(width: u64, words: &[u64]) -> Result<SymbolicPauliString, String> {
    let string = string(width, words)?;
    Ok(SymbolicPauliString::with_sign(string, sign(&words[3..])?))
}

/// The Rust's Option of these two words.
fn option(words: &[u64]) -> Result<Option<i32>, String> {
    match words[0] {
        0 => Ok(None),
        _ => number(words[1]).map(Some),
    }
}

/// The Rust's operation of these words, which have to be of the form that 26 asks for.
pub fn operation(width: u64, words: &[u64]) -> Result<PendingOperation, String> {
    match words[0] {
        ROTATION => Ok(PendingOperation::PauliRotation(PendingPauliRotation {
            kernel_angle: f64::from_bits(words[1]),
            pauli: signed_string(width, &words[2..])?,
        })),
        MEASUREMENT => Ok(PendingOperation::PauliMeasurement(
            PendingPauliMeasurement {
                pauli: signed_string(width, &words[1..])?,
                record: option(&words[14..])?,
                record_condition: option(&words[16..])?,
                exp_val: option(&words[EXPECTATION..])?,
            },
        )),
        CLASSICAL => Ok(PendingOperation::ClassicalRecord(PendingClassicalRecord {
            outcome: sign(&words[1..])?,
            record: option(&words[11..])?,
            record_condition: option(&words[13..])?,
        })),
        kind => Err(format!("kind {kind} got past the form of a list")),
    }
}

/// A state whose list has these operations, and nothing else that the optimizer reads. The Rust's
/// own ways to make one count a list's numbers on, which the largest do not allow.
pub fn state(width: u64, operations: Vec<PendingOperation>) -> PendingFactoredState {
    PendingFactoredState {
        n: width as usize,
        initial_k: 0,
        k: 0,
        max_k: 0,
        dormant: DormantState::new(0),
        context: SymbolicContext::new(),
        pending_frame: CliffordFrame::new(0),
        pending_frame_active: false,
        pending_operations: operations,
        pending_operation_cursor: 0,
        pending_x_operation_blocks: Vec::new(),
        pending_z_operation_blocks: Vec::new(),
        pending_operation_blocks_valid: false,
        pending_relations: Vec::new(),
        pending_relation_words: Vec::new(),
        pending_relation_index: Default::default(),
        pending_substitutions: Default::default(),
        instructions: Vec::new(),
        pending_prefix_instruction_indices: Vec::new(),
        pending_operations_optimized: false,
        has_expectation: false,
        next_record: 1,
    }
}

/// A number of the Rust's as a word; none of a list is negative.
fn word(number: i32) -> Result<u64, String> {
    u64::try_from(number).map_err(|_| format!("the Rust left {number} in a list"))
}

/// Adds a sign's ten words.
fn add_sign(words: &mut Vec<u64>, sign: &SymbolicBool) -> Result<(), String> {
    let unused = SIGN_CONDITIONS
        .checked_sub(sign.conditions.len())
        .ok_or("the Rust left a sign of more than eight conditions")?;
    words.extend([u64::from(sign.constant), sign.conditions.len() as u64]);
    for &condition in &sign.conditions {
        words.push(word(condition)?);
    }
    words.extend(std::iter::repeat_n(0, unused));
    Ok(())
}

/// Adds the words of a string and its sign.
fn add_string(words: &mut Vec<u64>, signed: &SymbolicPauliString) -> Result<(), String> {
    let string = &signed.pauli;
    words.extend([string.x[0], string.z[0], word(string.phase_exponent())?]);
    add_sign(words, &signed.sign)
}

/// Adds an Option's two words.
fn add_option(words: &mut Vec<u64>, option: Option<i32>) -> Result<(), String> {
    match option {
        None => words.extend([0, 0]),
        Some(value) => words.extend([1, word(value)?]),
    }
    Ok(())
}

/// The words of the Rust's operation.
fn words_of_one(operation: &PendingOperation) -> Result<Vec<u64>, String> {
    let mut words = Vec::with_capacity(OPERATION_WORDS);
    match operation {
        PendingOperation::PauliRotation(rotation) => {
            words.extend([ROTATION, rotation.kernel_angle.to_bits()]);
            add_string(&mut words, &rotation.pauli)?;
        }
        PendingOperation::PauliMeasurement(measurement) => {
            words.push(MEASUREMENT);
            add_string(&mut words, &measurement.pauli)?;
            add_option(&mut words, measurement.record)?;
            add_option(&mut words, measurement.record_condition)?;
            add_option(&mut words, measurement.exp_val)?;
        }
        PendingOperation::ClassicalRecord(record) => {
            words.push(CLASSICAL);
            add_sign(&mut words, &record.outcome)?;
            add_option(&mut words, record.record)?;
            add_option(&mut words, record.record_condition)?;
        }
    }
    words.resize(OPERATION_WORDS, 0);
    Ok(words)
}

/// The words of the Rust's list.
pub fn words_of(operations: &[PendingOperation]) -> Result<Vec<u64>, String> {
    let words: Result<Vec<Vec<u64>>, String> = operations.iter().map(words_of_one).collect();
    Ok(words?.concat())
}
