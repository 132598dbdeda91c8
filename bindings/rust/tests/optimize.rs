//! Lists of pending operations through the typed call and over words: what is done, each refusal,
//! and what no words say.

#![cfg(feature = "alloc")]

use midvokt::{
    encode_operations, optimize, optimize_encoded, optimize_into, optimize_words,
    OptimizationCounts, Optimized, PauliString, PendingClassicalRecord, PendingOperation,
    PendingPauliMeasurement, PendingPauliRotation, Reason, Refusal, SymbolicBool,
    SymbolicPauliString, MOST_OPERATIONS, MOST_PREFIXES, NO_BOUNDARY, OPERATION_WORDS,
    OPTIMIZE_RESULT_WORDS,
};

const WIDTH: usize = 2;
const X0: [u64; 3] = [1, 0, 0];
const Y0: [u64; 3] = [1, 1, 1];
const Z0: [u64; 3] = [0, 1, 0];
const Z1: [u64; 3] = [0, 2, 0];

/// A sign of these conditions.
fn sign(constant: bool, conditions: &[i32]) -> SymbolicBool {
    SymbolicBool {
        constant,
        conditions: conditions.to_vec(),
    }
}

/// A string by x, z and phase, with a sign.
fn signed([x, z, phase]: [u64; 3], sign: SymbolicBool) -> SymbolicPauliString {
    SymbolicPauliString::with_sign(PauliString::from_masks(WIDTH, x, z, phase as i32), sign)
}

/// A rotation about a string with a sign.
fn turn_by(kernel_angle: f64, string: [u64; 3], sign: SymbolicBool) -> PendingOperation {
    PendingOperation::from(PendingPauliRotation {
        kernel_angle,
        pauli: signed(string, sign),
    })
}

/// A rotation about a string without a sign.
fn turn(kernel_angle: f64, string: [u64; 3]) -> PendingOperation {
    turn_by(kernel_angle, string, SymbolicBool::default())
}

/// A measurement with record, symbol and expectation value.
fn measure_as(string: [u64; 3], options: [Option<i32>; 3]) -> PendingOperation {
    let [record, record_condition, exp_val] = options;
    PendingOperation::from(PendingPauliMeasurement {
        pauli: signed(string, SymbolicBool::default()),
        record,
        record_condition,
        exp_val,
    })
}

/// A measurement that writes record 1.
fn measure(string: [u64; 3]) -> PendingOperation {
    measure_as(string, [Some(1), None, None])
}

/// A classical record.
fn written(outcome: SymbolicBool, record: Option<i32>) -> PendingOperation {
    PendingOperation::from(PendingClassicalRecord {
        outcome,
        record,
        record_condition: None,
    })
}

/// The list that is left, and its counts: fused, cancelled, left swaps.
fn left(list: &[PendingOperation], prefixes: &[usize]) -> (Vec<PendingOperation>, [usize; 3]) {
    let Optimized { operations, stats } = optimize(WIDTH, list, prefixes).unwrap();
    assert_eq!(stats.input_operations, list.len());
    assert_eq!(stats.output_operations, operations.len());
    let counts = [
        stats.fused_rotations,
        stats.cancelled_rotations,
        stats.measurement_left_swaps,
    ];
    (operations, counts)
}

/// The number and index of a refused list.
fn refused(list: &[PendingOperation], prefixes: &[usize]) -> (Reason, usize) {
    let Refusal { reason, index } = optimize(WIDTH, list, prefixes).unwrap_err();
    (reason, index)
}

/// The bits of a rotation's angle.
fn angle_bits(operation: &PendingOperation) -> u64 {
    match operation {
        PendingOperation::PauliRotation(rotation) => rotation.kernel_angle.to_bits(),
        other => panic!("{other:?} has no angle"),
    }
}

/// One operation of each kind, with all that each can have.
fn one_of_each() -> Vec<PendingOperation> {
    let full = sign(true, &[1, 2, 3, 5, 8, 13, 21, i32::MAX]);
    let string = signed(Y0, full.clone());
    vec![
        turn_by(-0.0, [3, 2, 3], full.clone()),
        PendingOperation::from(PendingPauliMeasurement {
            pauli: string,
            record: Some(i32::MAX),
            record_condition: Some(7),
            exp_val: Some(0),
        }),
        PendingOperation::from(PendingClassicalRecord {
            outcome: full,
            record: Some(0),
            record_condition: Some(9),
        }),
    ]
}

#[test]
fn rotations_fuse_and_cancel() {
    let list = [turn(0.5, X0), turn(0.5, Z1), turn(0.25, X0)];
    assert_eq!(
        left(&list, &[]),
        (vec![list[1].clone(), turn(0.75, X0)], [1, 0, 0])
    );
    let opposite = [turn(0.5, X0), turn(0.5, [1, 0, 2])];
    assert_eq!(left(&opposite, &[]), (vec![], [1, 1, 0]));
    let stopped = [turn(0.5, X0), turn(0.5, Z0), turn(0.25, X0)];
    assert_eq!(left(&stopped, &[]), (stopped.to_vec(), [0, 0, 0]));
}

#[test]
fn signs_with_other_conditions_do_not_fuse() {
    let by = |conditions: &[i32]| turn_by(0.5, X0, sign(false, conditions));
    let list = [by(&[1, 2]), by(&[1, 3]), by(&[1, 2])];
    let fused = turn_by(1.0, X0, sign(false, &[1, 2]));
    assert_eq!(
        left(&list, &[]),
        (vec![list[1].clone(), fused.clone()], [1, 0, 0])
    );
}

#[test]
fn measurements_move_over_what_commutes() {
    let list = [turn(0.5, Z0), turn(0.5, Z1), measure(Z0)];
    let moved = [2, 0, 1].map(|place| list[place].clone());
    assert_eq!(left(&list, &[]), (moved.to_vec(), [0, 0, 2]));
    assert_eq!(left(&list, &[2]), (list.to_vec(), [0, 0, 0]));
}

#[test]
fn swaps_are_pairs_of_a_measurement_and_a_rotation() {
    let list = [turn(0.5, Z1), measure(Z1), measure(Z1)];
    let (operations, [_, _, swaps]) = left(&list, &[]);
    assert_eq!(operations[2], list[0]);
    assert_eq!(swaps, 2);
}

#[test]
fn the_map_has_what_was_asked_for() {
    let list = [
        turn(0.5, X0),
        turn(0.5, X0),
        written(sign(true, &[]), Some(3)),
        measure(Z0),
    ];
    let remap = |prefixes: &[usize]| {
        let optimized = optimize(WIDTH, &list, prefixes).unwrap();
        optimized.stats.prefix_remap
    };
    assert_eq!(remap(&[]), [0, -1, -1, -1, 3]);
    assert_eq!(remap(&[2, 3, 2]), [0, -1, 1, 2, 3]);
    assert_eq!(remap(&[1]), [0, 1, -1, -1, 4]);
}

#[test]
fn an_expectation_leaves_all_as_it_is() {
    let mut list = one_of_each();
    list.push(turn(0.5, [1, 1, 0]));
    let Optimized { operations, stats } = optimize(WIDTH, &list, &[99]).unwrap();
    assert_eq!(operations, list);
    assert_eq!(angle_bits(&operations[0]), (-0.0f64).to_bits());
    assert_eq!(stats.prefix_remap, [0, 1, 2, 3, 4]);
    assert_eq!((stats.fused_rotations, stats.output_operations), (0, 4));
}

#[test]
fn an_angle_is_kept_bit_for_bit() {
    for angle in [0.0, -0.0, 5e-324, -1_048_576.0, 1_048_576.0, 0.1] {
        let (operations, counts) = left(&[turn(angle, X0)], &[]);
        assert_eq!(counts, [0; 3]);
        assert_eq!(angle_bits(&operations[0]), angle.to_bits());
    }
    let (operations, _) = left(&[turn(1_048_576.0, X0), turn(1_048_576.0, X0)], &[]);
    assert_eq!(angle_bits(&operations[0]), 2_097_152.0f64.to_bits());
}

#[test]
fn operations_become_words_and_come_back() {
    for operation in one_of_each() {
        let words = operation.to_words().unwrap();
        let back = PendingOperation::from_words(WIDTH, &words).unwrap();
        assert_eq!(back, operation);
        assert_eq!(back.to_words(), Some(words));
    }
    let words = one_of_each()[1].to_words().unwrap();
    assert_eq!(
        words[..14],
        [1, 1, 1, 1, 1, 8, 1, 2, 3, 5, 8, 13, 21, 0x7fff_ffff]
    );
    assert_eq!(words[14..20], [1, 0x7fff_ffff, 1, 7, 1, 0]);
    assert!(words[20..].iter().all(|&word| word == 0));
}

#[test]
fn words_that_no_operation_has_are_none() {
    for operation in one_of_each() {
        let words = operation.to_words().unwrap();
        for place in 0..OPERATION_WORDS {
            let mut changed = words;
            changed[place] = 1 << 40;
            let back = PendingOperation::from_words(WIDTH, &changed);
            let is_free = back.as_ref().and_then(PendingOperation::to_words) == Some(changed);
            assert_eq!(back.is_some(), is_free, "{place}");
        }
        assert_eq!(
            PendingOperation::from_words(WIDTH, &[3; OPERATION_WORDS]),
            None
        );
    }
}

#[test]
fn each_refusal_is_reached() {
    let odd = turn(0.5, [1, 1, 0]);
    let list = [turn(0.5, Y0), measure([1, 1, 0]), odd.clone(), odd.clone()];
    assert_eq!(refused(&list, &[4]), (Reason::Generator, 2));
    assert_eq!(refused(&list, &[5]), (Reason::Prefix, 0));
    let wide = [&list[..], &[turn(0.5, [4, 0, 0])]].concat();
    assert_eq!(refused(&wide, &[9]), (Reason::Form, 0));
    assert_eq!(optimize(0, &[], &[]).unwrap_err().number(), 26);
    assert_eq!(optimize(65, &[], &[]).unwrap_err().number(), 26);
    let many = vec![turn(0.5, X0); MOST_OPERATIONS + 1];
    assert_eq!(refused(&many, &[]), (Reason::Form, 0));
    assert_eq!(
        left(&many[1..], &[]).1,
        [MOST_OPERATIONS - 1, 0, 0],
        "the most operations"
    );
    let more = [&many[..], &many[..]].concat();
    assert_eq!(refused(&more, &[]), (Reason::Form, 0));
    let words = encode_operations(WIDTH, &more).unwrap();
    let refusal = optimize_encoded(WIDTH, &words, &[]).unwrap_err();
    assert_eq!((refusal.reason, refusal.index), (Reason::Form, 0));
    let cut = optimize_encoded(WIDTH, &words[..OPERATION_WORDS + 1], &[]);
    assert_eq!(cut.unwrap_err().reason, Reason::Form);
    assert_eq!(refused(&[], &[0; MOST_PREFIXES + 1]), (Reason::Form, 0));
    assert_eq!(refused(&[], &[0; 3 * MOST_PREFIXES]), (Reason::Form, 0));
    assert_eq!(left(&[], &[0; MOST_PREFIXES]), (vec![], [0; 3]));
}

#[test]
fn the_form_is_the_librarys() {
    for angle in [
        f64::from_bits(1_048_576.0f64.to_bits() + 1),
        -1_048_577.0,
        f64::NAN,
        f64::INFINITY,
        f64::NEG_INFINITY,
    ] {
        assert_eq!(refused(&[turn(angle, X0)], &[]), (Reason::Form, 0));
    }
    for conditions in [&[0][..], &[2, 1], &[1, 1]] {
        let list = [turn_by(0.5, X0, sign(false, conditions))];
        assert!(list[0].to_words().is_some());
        assert_eq!(refused(&list, &[]), (Reason::Form, 0));
    }
}

#[test]
fn what_no_words_say_is_of_no_form() {
    let string = |pauli| {
        PendingOperation::from(PendingPauliMeasurement {
            pauli: SymbolicPauliString::with_sign(pauli, SymbolicBool::default()),
            ..Default::default()
        })
    };
    let mut long = PauliString::new(WIDTH);
    long.x.push(0);
    let no_words = [
        turn_by(0.5, X0, sign(false, &[1, 2, 3, 4, 5, 6, 7, 8, 9])),
        turn_by(0.5, X0, sign(false, &[-1])),
        written(sign(false, &[]), Some(-1)),
        measure_as(Z0, [None, Some(i32::MIN), None]),
        measure_as(Z0, [None, None, Some(-1)]),
        string(PauliString::new(0)),
        string(PauliString::new(65)),
        string(PauliString::default()),
        string(long),
    ];
    for operation in no_words {
        assert_eq!(operation.to_words(), None, "{operation:?}");
        assert_eq!(refused(&[operation], &[]), (Reason::Form, 0));
    }
    let narrow = string(PauliString::new(WIDTH - 1));
    assert!(narrow.to_words().is_some());
    assert_eq!(
        encode_operations(WIDTH, core::slice::from_ref(&narrow)),
        None
    );
    assert_eq!(refused(&[narrow], &[]), (Reason::Form, 0));
}

/// A list in which something is fused, cancelled and moved, with a boundary.
fn mixture() -> (Vec<PendingOperation>, Vec<usize>) {
    let list = vec![
        turn(0.5, X0),
        written(sign(false, &[4]), Some(2)),
        turn_by(0.25, X0, sign(true, &[])),
        turn(0.5, Z1),
        turn(-0.5, Z1),
        turn(0.5, Z0),
        measure(Z1),
        turn(0.5, Y0),
        turn(0.5, Y0),
    ];
    (list, vec![7])
}

#[test]
fn owned_equals_lent() {
    let (list, prefixes) = mixture();
    let owned = optimize(WIDTH, &list, &prefixes).unwrap();
    let words = encode_operations(WIDTH, &list).unwrap();
    let prefixes: Vec<u64> = prefixes.iter().map(|&prefix| prefix as u64).collect();
    assert_eq!(
        optimize_encoded(WIDTH, &words, &prefixes),
        Ok(owned.clone())
    );
    let mut optimized = vec![7; words.len() + 5];
    let mut map = vec![7; list.len() + 4];
    let counts = optimize_into(2, &words, &prefixes, &mut optimized, &mut map).unwrap();
    let expected = OptimizationCounts {
        input_operations: 9,
        output_operations: 5,
        fused_rotations: 3,
        cancelled_rotations: 1,
        measurement_left_swaps: 2,
    };
    assert_eq!(counts, expected);
    let left = encode_operations(WIDTH, &owned.operations).unwrap();
    assert_eq!(optimized[..left.len()], left);
    assert!(optimized[left.len()..].iter().all(|&word| word == 0));
    let map_words = owned.stats.prefix_remap.iter().map(|&at| at as i64 as u64);
    assert!(map_words.eq(map[..=list.len()].iter().copied()));
    assert_eq!((map[1], map[7]), (NO_BOUNDARY, 4));
    assert!(map[list.len() + 1..].iter().all(|&word| word == 0));
}

#[test]
fn a_refused_call_leaves_zeros() {
    let words = turn(0.5, [1, 1, 0]).to_words().unwrap();
    let (mut optimized, mut map) = ([7; OPERATION_WORDS], [7; 2]);
    let refusal = optimize_into(2, &words, &[], &mut optimized, &mut map).unwrap_err();
    assert_eq!(refusal.number(), 28);
    assert_eq!((optimized, map), ([0; OPERATION_WORDS], [0; 2]));
    let short = optimize_into(2, &words, &[], &mut optimized, &mut map[..1]).unwrap_err();
    assert_eq!(short.reason, Reason::Form);
    let short = optimize_into(2, &words, &[], &mut optimized[..31], &mut map).unwrap_err();
    assert_eq!(short.reason, Reason::Form);
}

#[test]
fn a_result_of_any_length_gets_its_first_words() {
    let words = encode_operations(WIDTH, &[turn(0.5, X0), turn(-0.5, X0)]).unwrap();
    for length in 0..=OPTIMIZE_RESULT_WORDS + 2 {
        let mut result = vec![7; length];
        let (mut optimized, mut map) = (vec![7; words.len()], [7; 3]);
        let number = optimize_words(2, &words, &[], &mut optimized, &mut map, &mut result);
        assert_eq!(number, 0);
        let whole = [0, 2, 0, 1, 1, 0, 0, 0];
        assert_eq!(result, whole[..length]);
        assert_eq!(map, [0, NO_BOUNDARY, 0]);
    }
}
