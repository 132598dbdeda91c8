//! Pending operations as typed values, with the names of the Rust simulator, and the call that
//! optimizes a list of them.

use alloc::vec;
use alloc::vec::Vec;

use crate::optimize::{
    optimize_into, OptimizationCounts, MOST_OPERATIONS, MOST_PREFIXES, MOST_QUBITS, NO_BOUNDARY,
    OPERATION_WORDS, SIGN_CONDITIONS,
};
use crate::refusal::{Reason, Refusal};
use crate::words::{Room, Words};

/// An exclusive or of symbols, which stand for bits that are not known yet, and a constant.
#[derive(Clone, Debug, Default, PartialEq, Eq)]
pub struct SymbolicBool {
    /// The constant.
    pub constant: bool,
    /// The symbols' numbers, from 1, strictly ascending; a list's signs have at most eight.
    pub conditions: Vec<i32>,
}

impl From<bool> for SymbolicBool {
    /// The constant alone.
    fn from(constant: bool) -> Self {
        Self {
            constant,
            conditions: Vec::new(),
        }
    }
}

/// The Pauli string i^phase X^x Z^z, X in front of Z at each qubit, so that each Y needs 1 more in
/// the phase. A list's strings have 1 to 64 qubits, so that a mask is one word. Records are made
/// of one by [`ActivePauli::try_from`](crate::ActivePauli).
#[derive(Clone, Debug, Default, PartialEq, Eq)]
pub struct PauliString {
    /// How many qubits it has: the list's width.
    pub nqubits: usize,
    /// The qubits with an X or a Y, the lowest bit first, 64 in a word.
    pub x: Vec<u64>,
    /// The qubits with a Z or a Y, likewise.
    pub z: Vec<u64>,
    phase: u8,
}

impl PauliString {
    /// The identity on so many qubits.
    pub fn new(nqubits: usize) -> Self {
        let words = nqubits.div_ceil(64);
        Self {
            nqubits,
            x: vec![0; words],
            z: vec![0; words],
            phase: 0,
        }
    }

    /// A string of at most 64 qubits by its two masks and its phase, which counts modulo 4.
    pub fn from_masks(nqubits: usize, x: u64, z: u64, phase_exponent: i32) -> Self {
        let mut string = Self {
            nqubits,
            x: vec![x],
            z: vec![z],
            phase: 0,
        };
        string.set_phase(phase_exponent);
        string
    }

    /// The phase exponent, 0 to 3.
    pub fn phase_exponent(&self) -> i32 {
        i32::from(self.phase)
    }

    /// Changes the phase exponent, which counts modulo 4.
    pub fn set_phase(&mut self, phase_exponent: i32) {
        self.phase = phase_exponent.rem_euclid(4) as u8;
    }

    /// Both masks, where each is one word and the list may have the width.
    fn masks(&self) -> Option<[u64; 2]> {
        let is_sayable = (1..=MOST_QUBITS).contains(&self.nqubits);
        match (&self.x[..], &self.z[..]) {
            (&[x], &[z]) if is_sayable => Some([x, z]),
            _ => None,
        }
    }
}

/// A Pauli string with a sign that depends on symbols.
#[derive(Clone, Debug, Default, PartialEq, Eq)]
pub struct SymbolicPauliString {
    /// The string.
    pub pauli: PauliString,
    /// Minus where this is true.
    pub sign: SymbolicBool,
}

impl SymbolicPauliString {
    /// A string with a sign.
    pub fn with_sign(pauli: PauliString, sign: SymbolicBool) -> Self {
        Self { pauli, sign }
    }
}

/// The rotation exp(-i angle P), P being the string with its sign. Angles are compared as floats.
#[derive(Clone, Debug, Default, PartialEq)]
pub struct PendingPauliRotation {
    /// The angle of exp(-i angle P), from -2^20 to 2^20 in a list that is given.
    pub kernel_angle: f64,
    /// The string that it is about.
    pub pauli: SymbolicPauliString,
}

/// A measurement of a Pauli string.
#[derive(Clone, Debug, Default, PartialEq, Eq)]
pub struct PendingPauliMeasurement {
    /// The string that is measured.
    pub pauli: SymbolicPauliString,
    /// The record that the outcome is written to.
    pub record: Option<i32>,
    /// The symbol that later operations know the outcome by.
    pub record_condition: Option<i32>,
    /// Where there is one, the expectation value that is taken in place of an outcome. With any
    /// in a list nothing is optimized.
    pub exp_val: Option<i32>,
}

/// A record that is written without measuring.
#[derive(Clone, Debug, Default, PartialEq, Eq)]
pub struct PendingClassicalRecord {
    /// What is written.
    pub outcome: SymbolicBool,
    /// The record that it is written to.
    pub record: Option<i32>,
    /// The symbol that later operations know it by.
    pub record_condition: Option<i32>,
}

/// One operation of a list.
#[derive(Clone, Debug, PartialEq)]
pub enum PendingOperation {
    /// Kind 0.
    PauliRotation(PendingPauliRotation),
    /// Kind 1.
    PauliMeasurement(PendingPauliMeasurement),
    /// Kind 2.
    ClassicalRecord(PendingClassicalRecord),
}

impl From<PendingPauliRotation> for PendingOperation {
    /// The rotation as an operation.
    fn from(rotation: PendingPauliRotation) -> Self {
        Self::PauliRotation(rotation)
    }
}

impl From<PendingPauliMeasurement> for PendingOperation {
    /// The measurement as an operation.
    fn from(measurement: PendingPauliMeasurement) -> Self {
        Self::PauliMeasurement(measurement)
    }
}

impl From<PendingClassicalRecord> for PendingOperation {
    /// The classical record as an operation.
    fn from(record: PendingClassicalRecord) -> Self {
        Self::ClassicalRecord(record)
    }
}

/// Writes a number, which no word says where it is negative.
fn put_number(room: &mut Room<'_>, number: i32) -> Option<()> {
    room.word(u64::try_from(number).ok()?);
    Some(())
}

/// Writes a sign: constant, count and eight conditions.
fn put_sign(room: &mut Room<'_>, sign: &SymbolicBool) -> Option<()> {
    let unused = SIGN_CONDITIONS.checked_sub(sign.conditions.len())?;
    room.flag(sign.constant);
    room.size(sign.conditions.len());
    for &condition in &sign.conditions {
        put_number(room, condition)?;
    }
    (0..unused).for_each(|_| room.word(0));
    Some(())
}

/// Writes a string and its sign.
fn put_string(room: &mut Room<'_>, string: &SymbolicPauliString) -> Option<()> {
    for mask in string.pauli.masks()? {
        room.word(mask);
    }
    room.word(u64::from(string.pauli.phase));
    put_sign(room, &string.sign)
}

/// Writes an Option: 0, 0 or 1, value.
fn put_option(room: &mut Room<'_>, option: Option<i32>) -> Option<()> {
    room.flag(option.is_some());
    put_number(room, option.unwrap_or(0))
}

/// Reads a number as far as its field holds it.
fn take_number(words: &mut Words<'_>) -> i32 {
    words.word() as i32
}

/// Reads a sign, with as many conditions as there is room for at most.
fn take_sign(words: &mut Words<'_>) -> SymbolicBool {
    let constant = words.flag();
    let used = words.size();
    let room: [i32; SIGN_CONDITIONS] = core::array::from_fn(|_| take_number(words));
    SymbolicBool {
        constant,
        conditions: room[..used.min(SIGN_CONDITIONS)].to_vec(),
    }
}

/// Reads a string of so many qubits, and its sign.
fn take_string(words: &mut Words<'_>, width: usize) -> SymbolicPauliString {
    let [x, z] = [words.word(), words.word()];
    let phase = (words.word() % 4) as i32;
    let pauli = PauliString::from_masks(width, x, z, phase);
    SymbolicPauliString::with_sign(pauli, take_sign(words))
}

/// Reads an Option: none where its flag is 0.
fn take_option(words: &mut Words<'_>) -> Option<i32> {
    let is_there = words.flag();
    let value = take_number(words);
    is_there.then_some(value)
}

impl PendingOperation {
    /// The string that it is about, or that it measures; a classical record has none.
    pub fn pauli(&self) -> Option<&SymbolicPauliString> {
        match self {
            Self::PauliRotation(rotation) => Some(&rotation.pauli),
            Self::PauliMeasurement(measurement) => Some(&measurement.pauli),
            Self::ClassicalRecord(_) => None,
        }
    }

    /// Writes the fields behind the kind.
    fn put(&self, room: &mut Room<'_>) -> Option<()> {
        match self {
            Self::PauliRotation(rotation) => {
                room.word(0);
                room.float(rotation.kernel_angle);
                put_string(room, &rotation.pauli)
            }
            Self::PauliMeasurement(measurement) => {
                room.word(1);
                put_string(room, &measurement.pauli)?;
                put_option(room, measurement.record)?;
                put_option(room, measurement.record_condition)?;
                put_option(room, measurement.exp_val)
            }
            Self::ClassicalRecord(record) => {
                room.word(2);
                put_sign(room, &record.outcome)?;
                put_option(room, record.record)?;
                put_option(room, record.record_condition)
            }
        }
    }

    /// Its 32 words. There are none where no words say it: a string of no or of more than 64
    /// qubits, or with masks of another length; a sign of more than eight conditions; a negative
    /// number. A list with such an operation is outside the form that [`Reason::Form`] asks for.
    /// The words do not say how many qubits a string has: that is the list's width.
    pub fn to_words(&self) -> Option<[u64; OPERATION_WORDS]> {
        let mut words = [0; OPERATION_WORDS];
        self.put(&mut Room::new(&mut words))?;
        Some(words)
    }

    /// The operation of these words, as far as its fields hold them.
    fn read(width: usize, words: &[u64; OPERATION_WORDS]) -> Option<Self> {
        let mut words = Words::new(words);
        match words.word() {
            0 => Some(Self::PauliRotation(PendingPauliRotation {
                kernel_angle: words.float(),
                pauli: take_string(&mut words, width),
            })),
            1 => Some(Self::PauliMeasurement(PendingPauliMeasurement {
                pauli: take_string(&mut words, width),
                record: take_option(&mut words),
                record_condition: take_option(&mut words),
                exp_val: take_option(&mut words),
            })),
            2 => Some(Self::ClassicalRecord(PendingClassicalRecord {
                outcome: take_sign(&mut words),
                record: take_option(&mut words),
                record_condition: take_option(&mut words),
            })),
            _ => None,
        }
    }

    /// The operation of these words in a list of this width, and none where no operation has just
    /// these. Neither the masks and the angle nor the order of conditions is judged.
    pub fn from_words(width: usize, words: &[u64; OPERATION_WORDS]) -> Option<Self> {
        Self::read(width, words).filter(|operation| operation.to_words() == Some(*words))
    }

    /// Whether it may stand in a list of this width, as far as its string tells.
    fn has_width(&self, width: usize) -> bool {
        self.pauli()
            .map_or(true, |string| string.pauli.nqubits == width)
    }
}

/// What optimizing a list came to, and where its boundaries went.
#[derive(Clone, Debug, Default, PartialEq, Eq)]
pub struct PendingOptimizationStats {
    /// The operations that were given.
    pub input_operations: usize,
    /// The operations that are left.
    pub output_operations: usize,
    /// How often two rotations were fused, cancelled ones counted too.
    pub fused_rotations: usize,
    /// How often two rotations cancelled, so that none of the two is left.
    pub cancelled_rotations: usize,
    /// How many pairs there are of a measurement and a rotation that it passed: a rotation counts
    /// once for each measurement that moved in front of it.
    pub measurement_left_swaps: usize,
    /// Entry p is how many of the operations that are left stand before the boundary that had p
    /// before it. It is there for 0, for the list's end and for each preserved prefix; all others
    /// are -1.
    pub prefix_remap: Vec<i32>,
}

/// An optimized list.
#[derive(Clone, Debug, Default, PartialEq)]
pub struct Optimized {
    /// The operations that are left, in order.
    pub operations: Vec<PendingOperation>,
    /// What was done.
    pub stats: PendingOptimizationStats,
}

/// A word of the map as an entry of `prefix_remap`.
fn boundary(word: u64) -> i32 {
    match word {
        NO_BOUNDARY => -1,
        place => place as i32,
    }
}

/// The stats of these counts and this map.
fn stats(counts: OptimizationCounts, map: &[u64]) -> PendingOptimizationStats {
    PendingOptimizationStats {
        input_operations: counts.input_operations,
        output_operations: counts.output_operations,
        fused_rotations: counts.fused_rotations,
        cancelled_rotations: counts.cancelled_rotations,
        measurement_left_swaps: counts.measurement_left_swaps,
        prefix_remap: map.iter().map(|&word| boundary(word)).collect(),
    }
}

/// The operations of these words in a list of this width.
fn operations(width: usize, words: &[u64]) -> Vec<PendingOperation> {
    let each = words.chunks_exact(OPERATION_WORDS);
    let each = each.filter_map(|words| words.try_into().ok());
    each.filter_map(|words| PendingOperation::read(width, words))
        .collect()
}

/// Optimizes operations given as words, 32 an operation, in buffers of its own.
pub fn optimize_encoded(
    width: usize,
    words: &[u64],
    preserved_prefixes: &[u64],
) -> Result<Optimized, Refusal> {
    // More operations are refused, whatever the buffers.
    let whole = (words.len() / OPERATION_WORDS).min(MOST_OPERATIONS);
    let mut optimized = vec![0; whole * OPERATION_WORDS];
    let mut map = vec![0; whole + 1];
    let counts = optimize_into(
        width as u64,
        words,
        preserved_prefixes,
        &mut optimized,
        &mut map,
    )?;
    let used = counts.output_operations * OPERATION_WORDS;
    Ok(Optimized {
        operations: operations(width, &optimized[..used]),
        stats: stats(counts, &map),
    })
}

/// The words of all operations of a list of this width, one operation after the other; none where
/// no words say one of them, or where a string has another number of qubits.
pub fn encode_operations(width: usize, operations: &[PendingOperation]) -> Option<Vec<u64>> {
    let mut words = Vec::with_capacity(operations.len() * OPERATION_WORDS);
    for operation in operations {
        let fitting = Some(operation).filter(|operation| operation.has_width(width));
        words.extend(fitting?.to_words()?);
    }
    Some(words)
}

/// Optimizes a list of operations whose strings have this width, 1 to 64: rotations about one
/// string are fused, opposite ones cancel, and measurements move in front of rotations, nothing of
/// it across a preserved prefix. A prefix is a number of operations; they may come in any order,
/// and repeated.
///
/// A fused rotation stands where the later one did. Its angle is the later one's plus the earlier
/// one's, or less it where their signs are opposite, a minus in the phase counted too.
///
/// A list has at most 1,024 operations and at most 1,024 prefixes, angles are from -2^20 to 2^20,
/// and a sign has at most 8 conditions, strictly ascending, from 1 on.
///
/// An operation that no words say, or whose string has another width, is refused with
/// [`Reason::Form`], as the library refuses, before all else, a list that is not of its form.
pub fn optimize(
    width: usize,
    operations: &[PendingOperation],
    preserved_prefixes: &[usize],
) -> Result<Optimized, Refusal> {
    // A longer list, or one of more prefixes, is refused as this much of it is.
    let some = &operations[..operations.len().min(MOST_OPERATIONS + 1)];
    let words = encode_operations(width, some).ok_or(Refusal {
        reason: Reason::Form,
        index: 0,
    })?;
    let prefixes = preserved_prefixes.iter().take(MOST_PREFIXES + 1);
    let prefixes: Vec<u64> = prefixes.map(|&prefix| prefix as u64).collect();
    optimize_encoded(width, &words, &prefixes)
}
