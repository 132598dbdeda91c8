//! The answer that a call has to give (02, CR 6): 26 by its form, everything else by what the
//! unchanged Rust does with its list. The Rust looks for expectation values first, then at all
//! prefixes, then at rotations, so the order of the shortcut, 27 and 28 is its own. Its errors have
//! a message and no operation: the message gives the number. For 28 each operation is put to the
//! Rust as a list by itself, and the first that it refuses gives the index.

use std::panic::{AssertUnwindSafe, catch_unwind};

use super::operations::{operation, state, words_of};
use super::{Call, form};
use crate::factored::{PendingOperation, PendingOptimizationStats};
use crate::pending_optimizer::optimize_pending_operations;

pub const NO_FORM: u64 = 26;
pub const NO_PREFIX: u64 = 27;
pub const NOT_HERMITIAN: u64 = 28;

/// Words of a whole result: the refusal's index, then the five counts.
pub const RESULT_WORDS: usize = 6;

const NUMBERS: [(&str, u64); 2] = [
    (
        "preserved pending-operation prefix is out of range",
        NO_PREFIX,
    ),
    (
        "pending Pauli rotation must have a Hermitian generator",
        NOT_HERMITIAN,
    ),
];

/// What a call returns and writes. Words behind the used ones are zero.
#[derive(Clone, Debug, PartialEq, Eq)]
pub struct Answer {
    pub number: u64,
    /// The index, then the counts: input, output, fused, cancelled, left swaps.
    pub result: [u64; RESULT_WORDS],
    pub list: Vec<u64>,
    pub map: Vec<u64>,
}

/// The Rust's numbers and the list that it leaves, or its message.
type Optimized = Result<(PendingOptimizationStats, Vec<PendingOperation>), String>;

/// The answer of a refusal: nothing used but its index.
fn refused(number: u64, index: usize) -> Answer {
    Answer {
        number,
        result: [index as u64, 0, 0, 0, 0, 0],
        list: Vec::new(),
        map: Vec::new(),
    }
}

/// What the Rust says of these operations and prefixes. A panic is nobody's answer.
fn optimized(
    width: u64,
    operations: Vec<PendingOperation>,
    prefixes: &[usize],
) -> Result<Optimized, String> {
    let mut state = state(width, operations);
    let said = catch_unwind(AssertUnwindSafe(|| {
        optimize_pending_operations(&mut state, prefixes)
    }));
    let said = said.map_err(|_| "the Rust panicked, as told above".to_owned())?;
    Ok(match said {
        Ok(stats) => Ok((stats, state.pending_operations)),
        Err(error) => Err(error.message().to_owned()),
    })
}

/// The index of the first operation that the Rust refuses with this message where it is alone.
/// The Rust has to accept what is in front of it.
fn refused_operation(
    width: u64,
    operations: &[PendingOperation],
    message: &str,
) -> Result<usize, String> {
    for (index, operation) in operations.iter().enumerate() {
        match optimized(width, vec![operation.clone()], &[])? {
            Ok(_) => {}
            Err(found) if found == message => {
                let before = optimized(width, operations[..index].to_vec(), &[])?;
                return before.map(|_| index);
            }
            Err(found) => return Err(format!("the Rust's error changes: {found}, {message}")),
        }
    }
    Err(format!("the Rust refuses no operation alone: {message}"))
}

/// The refusal of the Rust's message.
fn refusal(width: u64, operations: &[PendingOperation], message: &str) -> Result<Answer, String> {
    match NUMBERS.iter().find(|(text, _)| *text == message) {
        Some(&(_, NOT_HERMITIAN)) => {
            let index = refused_operation(width, operations, message)?;
            Ok(refused(NOT_HERMITIAN, index))
        }
        Some(&(_, number)) => Ok(refused(number, 0)),
        None => Err(format!("the Rust's error has no number: {message}")),
    }
}

/// A boundary of the Rust's as a word: its -1 is 2^64 - 1.
fn boundary(place: i32) -> u64 {
    i64::from(place) as u64
}

/// The answer of what the Rust has done.
fn done(
    stats: &PendingOptimizationStats,
    operations: &[PendingOperation],
) -> Result<Answer, String> {
    let counts = [
        0,
        stats.input_operations,
        stats.output_operations,
        stats.fused_rotations,
        stats.cancelled_rotations,
        stats.measurement_left_swaps,
    ];
    Ok(Answer {
        number: 0,
        result: counts.map(|count| count as u64),
        list: words_of(operations)?,
        map: stats
            .prefix_remap
            .iter()
            .map(|&place| boundary(place))
            .collect(),
    })
}

/// The Rust's operations of a call of the right form.
pub fn operations(call: &Call) -> Result<Vec<PendingOperation>, String> {
    let operations = call.operations();
    operations
        .map(|words| operation(call.width, words))
        .collect()
}

/// The prefixes as the Rust counts.
pub fn prefixes(call: &Call) -> Vec<usize> {
    call.prefixes
        .iter()
        .map(|&prefix| prefix as usize)
        .collect()
}

/// The answer for a call.
pub fn answer(call: &Call) -> Result<Answer, String> {
    if !form::faults(call).is_empty() {
        return Ok(refused(NO_FORM, 0));
    }
    match optimized(call.width, operations(call)?, &prefixes(call))? {
        Ok((stats, left)) => done(&stats, &left),
        Err(message) => refusal(call.width, &operations(call)?, &message),
    }
}

#[cfg(test)]
mod tests {
    use super::{Answer, answer, operations};
    use crate::pending::lists::{Words, classical, measurement, rotation, sign};
    use crate::pending::operations::words_of;
    use crate::pending::{Call, form, lists};

    const X: [u64; 3] = [1, 0, 0];
    const Y: [u64; 3] = [1, 1, 1];
    const Z: [u64; 3] = [0, 1, 0];
    const NONE: u64 = u64::MAX;

    /// A rotation without a sign.
    fn turn(angle: f64, string: [u64; 3]) -> Words {
        rotation(angle, string, &sign(0, &[]))
    }

    /// A measurement that writes nothing.
    fn measure(string: [u64; 3]) -> Words {
        measurement(string, &sign(0, &[]), [[0, 0]; 3])
    }

    /// The answer for these operations of width 1 and prefixes.
    fn answered(list: &[Words], prefixes: &[u64]) -> Answer {
        let call = Call {
            width: 1,
            words: list.concat(),
            prefixes: prefixes.to_vec(),
            lengths: None,
        };
        answer(&call).expect("an answer")
    }

    /// The answer with this list, this map and these counts behind those of operations.
    fn optimized(before: &[Words], left: &[Words], map: &[u64], counts: [u64; 3]) -> Answer {
        let [fused, cancelled, swaps] = counts;
        let [before, after] = [before, left].map(|list| list.len() as u64);
        Answer {
            number: 0,
            result: [0, before, after, fused, cancelled, swaps],
            list: left.concat(),
            map: map.to_vec(),
        }
    }

    #[test]
    fn one_pass_of_each_sort() {
        let list = [turn(0.5, X), turn(0.25, Z), turn(-0.25, Z), turn(0.5, X)];
        let left = [list[0], list[3]];
        let map = [0, NONE, NONE, NONE, 2];
        assert_eq!(
            answered(&list, &[]),
            optimized(&list, &left, &map, [1, 1, 0])
        );
    }

    #[test]
    fn a_fused_pair_has_the_later_place_and_sign() {
        // The earlier string is minus X, and the later sign is 1: the directions are equal.
        let list = [
            turn(0.5, [1, 0, 2]),
            classical(&sign(0, &[1]), [[1, 3], [0, 0]]),
            rotation(0.25, X, &sign(1, &[])),
        ];
        let left = [list[1], rotation(0.75, X, &sign(1, &[]))];
        let map = [0, NONE, NONE, 2];
        assert_eq!(
            answered(&list, &[]),
            optimized(&list, &left, &map, [1, 0, 0])
        );
    }

    #[test]
    fn a_measurement_moves_by_the_slack_of_its_segment() {
        let list = [
            turn(0.5, X),
            turn(0.5, X),
            rotation(0.5, X, &sign(0, &[4])),
            rotation(0.5, X, &sign(0, &[5])),
            measure(X),
        ];
        let cut = [turn(1.0, X), list[2], list[4], list[3]];
        let map = [0, NONE, 1, NONE, NONE, 4];
        assert_eq!(
            answered(&list, &[2]),
            optimized(&list, &cut, &map, [1, 0, 1])
        );
        let whole = [list[4], turn(1.0, X), list[2], list[3]];
        let map = [0, NONE, NONE, NONE, NONE, 4];
        assert_eq!(
            answered(&list, &[]),
            optimized(&list, &whole, &map, [1, 0, 3])
        );
    }

    #[test]
    fn refusals_in_their_order() {
        let number = |answer: Answer| (answer.number, answer.result[0]);
        let odd = turn(0.5, [1, 1, 0]);
        let list = [turn(0.5, Y), measure([1, 1, 0]), odd, odd];
        assert_eq!(number(answered(&list, &[4])), (28, 2));
        assert_eq!(number(answered(&list, &[5])), (27, 0));
        let probe = measurement(Z, &sign(0, &[]), [[0, 0], [0, 0], [1, 0]]);
        let probed = [&list[..], &[probe]].concat();
        let map = [0, 1, 2, 3, 4, 5];
        assert_eq!(
            answered(&probed, &[6]),
            optimized(&probed, &probed, &map, [0, 0, 0])
        );
        let wide = [&probed[..], &[turn(0.5, [2, 0, 0])]].concat();
        assert_eq!(number(answered(&wide, &[7])), (26, 0));
    }

    #[test]
    fn words_become_operations_and_come_back() {
        let fitting = (0..2000).map(|index| lists::call(3, index));
        for call in fitting.filter(|call| form::faults(call).is_empty()) {
            let operations = operations(&call).expect("operations");
            assert_eq!(words_of(&operations).expect("words"), call.words);
        }
    }

    #[test]
    fn each_listed_fault_is_alone() {
        let mut found: Vec<_> = lists::of_one_fault()
            .map(|call| match form::faults(&call)[..] {
                [fault] => fault,
                ref faults => panic!("{faults:?}: {}", call.text()),
            })
            .collect();
        found.dedup();
        assert_eq!(found, form::all_faults());
    }
}
