//! A list of pending operations with what the library makes of it and what became of each operation;
//! or why it is refused. Nothing in here optimizes.

use midvokt::{
    optimize, Optimized, PendingOperation, Reason, Refusal, MOST_OPERATIONS, MOST_PREFIXES,
    MOST_QUBITS,
};

use crate::figures;
use crate::list::{pauli_of_string, Kept, List, Queued};
use crate::notes;
use crate::pauli;
use crate::places::{coefficient, is_expectation, Replay};

/// The angles that a list may have lie from minus this to this: 2^20.
const MOST_ANGLE: f64 = 1_048_576.0;
/// The most characters of a Pauli that a reason shows.
const MOST_OF_PAULI: usize = 24;

/// A list and what became of it.
pub struct Optimization<'a> {
    /// The name that was given.
    pub name: &'a str,
    /// The list as the file has it.
    pub list: &'a List,
    /// The library's answer.
    pub optimized: Optimized,
    /// What became of each operation; none where that does not come to the library's answer.
    pub replay: Option<Replay>,
}

/// The operations of a list.
fn operations(list: &List) -> Vec<PendingOperation> {
    let queued = list.operations.iter();
    queued.map(|queued| queued.operation.clone()).collect()
}

/// The preserved prefixes of a list, as the file has them.
fn prefixes(list: &List) -> Vec<usize> {
    list.kept.iter().map(|kept| kept.prefix as usize).collect()
}

impl<'a> Optimization<'a> {
    /// A list as the library leaves it, with the replay that comes to that.
    pub fn of(name: &'a str, list: &'a List) -> Result<Self, Refusal> {
        let operations = operations(list);
        let prefixes = prefixes(list);
        let optimized = optimize(list.width as usize, &operations, &prefixes)?;
        let replay = Replay::of(operations, &prefixes);
        let replay = Some(replay).filter(|replay| replay.agrees(&optimized));
        Ok(Self {
            name,
            list,
            optimized,
            replay,
        })
    }

    /// The line of the first operation that takes an expectation value, if one does.
    pub fn expectation_line(&self) -> Option<usize> {
        let mut all = self.list.operations.iter();
        let found = all.find(|queued| is_expectation(&queued.operation));
        found.map(|queued| queued.line)
    }
}

/// Why a list is refused: the line, if it is about one, and what is wrong.
pub struct Why {
    /// The line, from 1.
    pub line: Option<usize>,
    /// What is wrong there.
    pub words: String,
}

/// What is wrong with the masks of a Pauli, if anything is.
fn wide_masks(list: &List, operation: &PendingOperation) -> Option<String> {
    let string = &operation.pauli()?.pauli;
    let mask = string.x[0] | string.z[0];
    let is_wide = list.width < u64::from(u64::BITS) && mask >> list.width != 0;
    is_wide.then(|| format!("a mask has bits at or above the width, {}", list.width))
}

/// What is wrong with an angle, if anything is.
fn far_angle(operation: &PendingOperation) -> Option<String> {
    let PendingOperation::PauliRotation(rotation) = operation else {
        return None;
    };
    let is_near = rotation.kernel_angle.abs() <= MOST_ANGLE;
    let angle = rotation.kernel_angle;
    (!is_near).then(|| format!("the angle is {angle:e}, and has to be -2^20 to 2^20"))
}

/// What is wrong with the numbers of operations and boundaries, if anything is.
fn too_many(list: &List) -> Option<String> {
    let told = |found: usize, most: usize, noun: &str| {
        let (found, most) = (figures::whole(found as u64), figures::whole(most as u64));
        format!("there are {found} {noun}, and {most} is the most")
    };
    let (operations, kept) = (list.operations.len(), list.kept.len());
    if operations > MOST_OPERATIONS {
        return Some(told(operations, MOST_OPERATIONS, "operations"));
    }
    (kept > MOST_PREFIXES).then(|| told(kept, MOST_PREFIXES, "lines 'keep'"))
}

/// The first thing that is outside of the form, as the file has it.
fn outside(list: &List) -> Option<Why> {
    if !(1..=MOST_QUBITS as u64).contains(&list.width) {
        let width = figures::whole(list.width);
        return Some(Why {
            line: Some(list.width_line),
            words: format!("the width is {width}, and has to be 1 to {MOST_QUBITS}"),
        });
    }
    if let Some(words) = too_many(list) {
        return Some(Why { line: None, words });
    }
    list.operations.iter().find_map(|queued| {
        let operation = &queued.operation;
        let words = far_angle(operation).or_else(|| wide_masks(list, operation))?;
        let line = Some(queued.line);
        Some(Why { line, words })
    })
}

/// That a boundary is kept behind the list's end, if it is.
fn beyond(list: &List, kept: &Kept) -> Option<Why> {
    let count = list.operations.len() as u64;
    let prefix = figures::whole(kept.prefix);
    let words = || {
        let count = figures::count(count, "operation", "operations");
        format!("the boundary is behind {prefix}, and the list has {count}")
    };
    (kept.prefix > count).then(|| Why {
        line: Some(kept.line),
        words: words(),
    })
}

/// That an operation's Pauli is not Hermitian, if it is not.
fn imaginary(operation: &PendingOperation) -> Option<String> {
    let noun = match operation {
        PendingOperation::PauliRotation(_) => "rotation",
        _ => "measurement",
    };
    let string = &operation.pauli()?.pauli;
    let phase = string.phase_exponent();
    let product = figures::cut(&pauli::product(pauli_of_string(string)), MOST_OF_PAULI);
    let is_found = coefficient(string) % 2 == 1;
    is_found.then(|| {
        format!("the {noun}'s Pauli {product} is not Hermitian (phase {phase}; each Y counts 1)")
    })
}

/// Why the rotation at a place is refused.
fn generator(list: &List, place: usize) -> Option<Why> {
    let queued = list.operations.get(place)?;
    Some(Why {
        line: Some(queued.line),
        words: imaginary(&queued.operation)?,
    })
}

/// That a rotation's angle is past 2 pi, if it is.
fn past_two_pi(operation: &PendingOperation) -> Option<String> {
    match operation {
        PendingOperation::PauliRotation(rotation) => notes::past_two_pi(rotation.kernel_angle),
        _ => None,
    }
}

/// The notes on the operation at a place.
fn of_operation(place: usize, queued: &Queued) -> impl Iterator<Item = String> {
    let operation = &queued.operation;
    let found = [imaginary(operation), past_two_pi(operation)];
    let first = format!("operation {place}, line {}", queued.line);
    let found = found.into_iter().flatten();
    found.map(move |words| format!("{first}: {words}"))
}

/// What may be meant otherwise in a list that is not refused: a Pauli that is not Hermitian, and a
/// boundary behind the list's end, which are not judged in a measurement and beside an expectation
/// value; and an angle past 2 pi.
pub fn notes(list: &List) -> Vec<String> {
    let queued = list.operations.iter().enumerate();
    let of_operations = queued.flat_map(|(place, queued)| of_operation(place, queued));
    let mut notes: Vec<_> = of_operations.collect();
    let beyond = list.kept.iter().filter_map(|kept| beyond(list, kept));
    notes.extend(beyond.map(|why| format!("line {}: {}", why.line.unwrap_or(0), why.words)));
    notes
}

/// Why a list is refused, in the words of its file; the number's own sentence where nothing more is
/// found.
pub fn why(list: &List, refusal: &Refusal) -> Why {
    let found = match refusal.reason {
        Reason::Form => outside(list),
        Reason::Prefix => list.kept.iter().find_map(|kept| beyond(list, kept)),
        Reason::Generator => generator(list, refusal.index),
        _ => None,
    };
    found.unwrap_or_else(|| Why {
        line: None,
        words: refusal.sentence().to_owned(),
    })
}
