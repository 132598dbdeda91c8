//! An optimized list, or its refusal, as JSON for programs; docs/JSON.md describes every field.

use midvokt::{PendingOperation, Refusal, SymbolicBool, SymbolicPauliString};

use crate::json::{
    float, list, object, optional, string, tall_list, tall_object, wide, Fields, FORMAT,
};
use crate::list::List;
use crate::list_text::left;
use crate::optimizing::{self, Optimization};
use crate::places::Replay;

/// The fields that an optimized list and a refusal begin with.
fn opening(name: &str, list: &List, refusal: String) -> Fields {
    vec![
        ("format", FORMAT.to_string()),
        ("list", string(name)),
        ("width", wide(list.width)),
        ("refusal", refusal),
    ]
}

/// A sign's fields.
fn sign(sign: &SymbolicBool) -> Fields {
    vec![
        ("constant", sign.constant.to_string()),
        ("conditions", list(&sign.conditions)),
    ]
}

/// The fields of a string and its sign.
fn signed(signed: &SymbolicPauliString) -> Fields {
    let string = &signed.pauli;
    let mut fields = vec![
        ("x", wide(string.x[0])),
        ("z", wide(string.z[0])),
        ("phase", string.phase_exponent().to_string()),
    ];
    fields.extend(sign(&signed.sign));
    fields
}

/// The name of an operation's kind, and its fields.
fn operation(operation: &PendingOperation) -> Fields {
    match operation {
        PendingOperation::PauliRotation(rotation) => {
            let mut fields = vec![
                ("kind", string("rotation")),
                ("kernel_angle", float(rotation.kernel_angle)),
            ];
            fields.extend(signed(&rotation.pauli));
            fields
        }
        PendingOperation::PauliMeasurement(measurement) => {
            let mut fields = vec![("kind", string("measurement"))];
            fields.extend(signed(&measurement.pauli));
            fields.extend([
                ("record", optional(measurement.record)),
                ("record_condition", optional(measurement.record_condition)),
                ("exp_val", optional(measurement.exp_val)),
            ]);
            fields
        }
        PendingOperation::ClassicalRecord(record) => {
            let mut fields = vec![("kind", string("classical_record"))];
            fields.extend(sign(&record.outcome));
            fields.extend([
                ("record", optional(record.record)),
                ("record_condition", optional(record.record_condition)),
            ]);
            fields
        }
    }
}

/// What became of the operation at a place.
fn outcome(replay: &Replay, place: usize) -> Fields {
    let mut pairs = replay.pairs.iter();
    let pair = pairs.find(|pair| pair.earlier == place || (pair.cancelled && pair.later == place));
    let (word, other) = match pair {
        None => ("left", None),
        Some(pair) if !pair.cancelled => ("fused", Some(pair.later)),
        Some(pair) if pair.earlier == place => ("cancelled", Some(pair.later)),
        Some(pair) => ("cancelled", Some(pair.earlier)),
    };
    let now = replay.order.iter().position(|&left| left == place);
    let mut moves = replay.moves.iter();
    let passed = moves.find(|moved| moved.measurement == place);
    vec![
        ("outcome", string(word)),
        ("with", optional(other)),
        ("now", optional(now)),
        (
            "passed",
            list(passed.map_or(&[], |moved| &moved.passed[..])),
        ),
    ]
}

/// The operations that were given.
fn given(view: &Optimization<'_>) -> String {
    let queued = view.list.operations.iter().enumerate();
    let queued = queued.map(|(place, queued)| {
        let mut fields = vec![
            ("operation", place.to_string()),
            ("line", queued.line.to_string()),
            ("text", string(&queued.text)),
        ];
        let outcome = view.replay.as_ref().map(|replay| outcome(replay, place));
        fields.extend(outcome.into_iter().flatten());
        object(&fields)
    });
    tall_list(&queued.collect::<Vec<_>>())
}

/// The operations that are left.
fn optimized_list(view: &Optimization<'_>) -> String {
    let all = view.optimized.operations.iter().enumerate();
    let all = all.map(|(number, found)| {
        let mut fields = vec![
            ("operation", number.to_string()),
            ("text", string(&left(view, number))),
        ];
        if let Some(replay) = &view.replay {
            let place = replay.order[number];
            fields.push(("from", place.to_string()));
            fields.push(("fused", list(&replay.fused_into(place))));
        }
        fields.extend(operation(found));
        object(&fields)
    });
    tall_list(&all.collect::<Vec<_>>())
}

/// An optimized list.
pub fn optimized(view: &Optimization<'_>) -> String {
    let stats = &view.optimized.stats;
    let notes = optimizing::notes(view.list);
    let notes: Vec<_> = notes.iter().map(|note| string(note)).collect();
    let mut fields = opening(view.name, view.list, "null".to_owned());
    fields.extend([
        ("notes", tall_list(&notes)),
        ("input_operations", stats.input_operations.to_string()),
        ("output_operations", stats.output_operations.to_string()),
        ("fused_rotations", stats.fused_rotations.to_string()),
        ("cancelled_rotations", stats.cancelled_rotations.to_string()),
        (
            "measurement_left_swaps",
            stats.measurement_left_swaps.to_string(),
        ),
        ("prefix_remap", list(&stats.prefix_remap)),
        ("replayed", view.replay.is_some().to_string()),
        ("given", given(view)),
        ("optimized", optimized_list(view)),
    ]);
    tall_object(&fields) + "\n"
}

/// A refused list.
pub fn refusal(name: &str, list: &List, refusal: &Refusal) -> String {
    let why = optimizing::why(list, refusal);
    let index = refusal.is_of_operation().then_some(refusal.index);
    let about = object(&vec![
        ("number", refusal.number().to_string()),
        ("reason", string(&why.words)),
        ("operation", optional(index)),
        ("line", optional(why.line)),
    ]);
    tall_object(&opening(name, list, about)) + "\n"
}
